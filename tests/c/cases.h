/*
 * What fields.c and calls.c share: values in and out of each range, random numbers, lengths right and wrong.
 */
#ifndef CASES_H
#define CASES_H

#include <stddef.h>
#include <stdint.h>

#include "mileage.h"

#define BLANK MILEAGE_BLANK
#define SPLIT MILEAGE_SPLIT

/* An array's length; and some values as two arguments or members, the array and its length. */
#define COUNT(array) (sizeof(array) / sizeof(array)[0])
#define VALUES(...) (const uint32_t[]){__VA_ARGS__}, COUNT(((const uint32_t[]){__VA_ARGS__}))

struct values {
    const uint32_t *values;
    size_t count;
};

/* Values in and out of each range, its ends first. A sum is in range only if cut to one or two bytes. The last mileages are
 * those at the end that the range had in versions before 4, and the last of three bytes and the first of four. */
#define NO_KIND 0, 'B', 'Z', 'f', 'c', 's', 'k', 255, 'F' + 65536, 'C' + 65536, 'S' + 65536, 'K' + 65536
#define NO_ENGINE 0, 'A', 'C', 'Q', 'S', 'b', 'r', 255, 'B' + 65536, 'R' + 65536
#define NO_N 2, 17, 0, 255, 3 + 256, 16 + 65536, BLANK
#define NOT_BELOW_3 3, 254, 255, 2 + 256, 0 + 65536, BLANK
#define NOT_BELOW_16 16, 254, 255, 15 + 256, 0 + 65536, BLANK
#define ENTRIES 1, 9999, 255, 256
#define NO_ENTRY 0, 10000, 65535, 1 + 65536, 9999 + 65536, BLANK
#define ROUNDS 0, 9999, 255, 256
#define NO_ROUND 10000, 65535, 0 + 65536, 9999 + 65536, BLANK
#define MILEAGES 0, 99999999, 65535, 65536, 9999999, 10000000, 16777215, 16777216
#define NO_MILEAGE 100000000, 2147483648, 4294967293
#define NOT_412077 412076, 412078, 412077 + 65536, 412077 + 16777216, MILEAGES, NO_MILEAGE, SPLIT, BLANK

/* Random numbers: xorshift with a fixed seed, so every run makes the same cases. */
static inline uint32_t below(uint32_t bound)
{
    static uint64_t state = UINT64_C(0x9e3779b97f4a7c15);

    state ^= state << 13;
    state ^= state >> 7;
    state ^= state << 17;
    return (uint32_t)(state >> 32) % bound;
}

static inline uint32_t one_of(const uint32_t *values, size_t count)
{
    return values[below((uint32_t)count)];
}

/* The right length, then wrong ones; the last two are right only if cut to one or two bytes. */
enum { LENGTHS = 6, LONGEST = 65536 };
static inline size_t length(size_t right, unsigned choice)
{
    return (const size_t[LENGTHS]){right, 0, right - 1, right + 1, right + 256, right + LONGEST}[choice];
}

#endif
