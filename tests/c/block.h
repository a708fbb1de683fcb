/*
 * Memory as the tests lend it: each buffer is a heap block of its own of exactly its length, so that valgrind sees every
 * byte that the archive reads or writes outside it. (AddressSanitizer sees the C side alone.)
 */
#ifndef BLOCK_H
#define BLOCK_H

#include <stdbool.h>
#include <stdint.h>
#include <stdio.h>
#include <stdlib.h>
#include <string.h>

/* What stands in a block behind the bytes that are looked at, where the length is far too large, and before them. */
enum { REST = 0xa5 };

/* The buffer ends with its block and begins so many bytes behind its beginning, for an address that is odd, say. */
static inline void *lend_behind(size_t skew, const void *bytes, size_t known, size_t size)
{
    uint8_t *block = malloc(skew + size);

    if (block == NULL && skew + size > 0) {
        printf("no memory for a test\n");
        exit(2);
    }
    if (skew + size > 0)
        memset(block, REST, skew + size);
    if (size > 0)
        memcpy(block + skew, bytes, known < size ? known : size);
    return block + skew;
}

/* Gives back the bytes that are looked at, frees the block, and says whether the rest of it is as it was. */
static inline bool take_back_behind(size_t skew, void *buffer, void *bytes, size_t known, size_t size)
{
    uint8_t *block = (uint8_t *)buffer - skew;
    bool same = true;

    if (size > 0)
        memcpy(bytes, buffer, known < size ? known : size);
    for (size_t i = 0; i < skew; i++)
        same = same && block[i] == REST;
    for (size_t i = skew + known; i < skew + size; i++)
        same = same && block[i] == REST;
    free(block);
    return same;
}

static inline void *lend(const void *bytes, size_t known, size_t size)
{
    return lend_behind(0, bytes, known, size);
}

static inline bool take_back(void *block, void *bytes, size_t known, size_t size)
{
    return take_back_behind(0, block, bytes, known, size);
}

#endif
