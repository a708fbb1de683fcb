/*
 * Lengths that are right only if cut to 32 bits: a buffer of four gigabytes and a few bytes is refused with 1, and so is a
 * card of four thousand million rows and one. The memory is mapped and never touched. Exit 0: each was refused.
 */
#define _GNU_SOURCE
#include <stdio.h>
#include <stdlib.h>
#include <sys/mman.h>

#include "mileage.h"

enum { LOG, IMAGE, MESSAGE, OUT, BUFFERS };
static const size_t more = (size_t)1 << 32;

static void *mapped(size_t size)
{
    void *memory = mmap(NULL, size, PROT_READ | PROT_WRITE, MAP_PRIVATE | MAP_ANONYMOUS | MAP_NORESERVE, -1, 0);

    if (memory == MAP_FAILED) {
        printf("long lengths: no address space for the test\n");
        exit(2);
    }
    return memory;
}

static void must_refuse(uint32_t number, const char *what, int which)
{
    if (number != MILEAGE_WRONG_LENGTH) {
        printf("long lengths: FAILED, %s %d\n", what, which);
        exit(1);
    }
}

static void check_buffers(uint8_t *memory)
{
    static const size_t right[BUFFERS] = {20, 152, 18, 18};
    uint8_t log[20], image[152], first[18], out[18];
    uint32_t decision;

    mileage_start('B', 3, 0, 7, log, 20, image, 152);
    mileage_propose(log, 20, image, 152, 5, first, 18);
    for (int longer = 0; longer < BUFFERS; longer++) {
        uint8_t *at[BUFFERS] = {log, image, first, out};
        size_t length[BUFFERS];

        for (int i = 0; i < BUFFERS; i++) {
            length[i] = right[i] + (i == longer ? more : 0);
            for (size_t k = 0; i == longer && k < right[i]; k++)
                memory[k] = at[i][k];
        }
        at[longer] = memory;
        must_refuse(mileage_deliver(at[LOG], length[LOG], at[IMAGE], length[IMAGE], at[MESSAGE], length[MESSAGE], at[OUT], length[OUT],
                                    &decision), "buffer", longer);
    }
}

/* Each call of a card with too many rows, and with one row and a buffer that is too long. */
static void check_card(mileage_row *rows, uint8_t *memory)
{
    mileage_row row;
    uint8_t first[18], out[18];
    uint32_t decision;

    mileage_card_start('B', 3, 0, &row, 1, 1);
    mileage_card_propose('B', 3, 0, &row, 1, 1, 5, first, 18);
    rows[0] = row;
    must_refuse(mileage_card_start('B', 3, 0, rows, more + 1, 1), "rows, call", 0);
    must_refuse(mileage_card_key_on('B', 3, 0, rows, more + 1, 1), "rows, call", 1);
    must_refuse(mileage_card_propose('B', 3, 0, rows, more + 1, 1, 5, out, 18), "rows, call", 2);
    must_refuse(mileage_card_deliver('B', 3, 0, rows, more + 1, first, 18, out, 18, &decision), "rows, call", 3);
    must_refuse(mileage_card_propose('B', 3, 0, &row, 1, 1, 5, memory, more + 18), "output buffer of a card, call", 2);
    must_refuse(mileage_card_deliver('B', 3, 0, &row, 1, first, 18, memory, more + 18, &decision), "output buffer of a card, call", 3);
    for (size_t k = 0; k < 18; k++)
        memory[k] = first[k];
    must_refuse(mileage_card_deliver('B', 3, 0, &row, 1, memory, more + 18, out, 18, &decision), "message of a card, call", 3);
}

int main(void)
{
    uint8_t *memory = mapped(more + 4096);

    check_buffers(memory);
    check_card(mapped((more + 1) * sizeof(mileage_row)), memory);
    return 0;
}
