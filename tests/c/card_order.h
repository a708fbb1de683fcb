/*
 * The order of refusals on a card: good calls with faults, of which the first in the order must be named; counts of rows
 * and row numbers at their limits.
 */
#ifndef CARD_ORDER_H
#define CARD_ORDER_H

#include "cards.h"

/* Accepted: every other row stays, the row's log is one that can be written, and what goes out is a message or none. */
static inline void card_must_accept(const char *title, const struct card_call *before)
{
    struct card_call given = card_after(*before), wanted = given;
    uint32_t log[MILEAGE_LOG_FIELDS];
    uint8_t bytes[MILEAGE_LOG_LENGTH];

    wanted.number = MILEAGE_ACCEPTED;
    memcpy(wanted.message, before->message, MESSAGE_ROOM);
    for (size_t i = 0; i < ROWS; i++)
        if (i + 1 != before->row)
            wanted.rows[i] = before->rows[i];
    must_be(title, before, &wanted, &given);
    memcpy(log, &given.rows[before->row - 1].log, sizeof log);
    if (mileage_write_log(log, MILEAGE_LOG_FIELDS, bytes, sizeof bytes) != MILEAGE_ACCEPTED || log[3] != before->row)
        fail(title, "the row's log is none of its entry");
    if ((before->which == PROPOSE || before->which == DELIVER) && !is_message(given.out))
        fail(title, "a message that does not read");
}

/* Faults, in the card's order: what is wrong, where, with what, and the calls that look there. */
enum what { ROW_COUNT, MESSAGE_LENGTH, OUT_LENGTH, MESSAGE_BYTE, ROW_NUMBER, BESIDE_ENGINE, BESIDE_N, BESIDE_UNIT, IN_ROW, GIVEN_MILEAGE };
enum { S = 1 << START, K = 1 << KEY_ON, P = 1 << PROPOSE, D = 1 << DELIVER };
static const struct card_fault {
    uint32_t number;
    enum what what;
    size_t at;
    uint32_t value;
    int calls;
} card_faults[] = {
    {1, ROW_COUNT, 0, 0, S | K | P | D}, {1, ROW_COUNT, 0, 65, S | K | P | D}, {1, MESSAGE_LENGTH, 0, 17, D}, {1, MESSAGE_LENGTH, 0, 19, D},
    {1, OUT_LENGTH, 0, 17, P | D}, {1, OUT_LENGTH, 0, 19, P | D},
    {4, MESSAGE_BYTE, 0, 'Z', D}, {4, MESSAGE_BYTE, 5, 1, D}, {4, MESSAGE_BYTE, 6, 255, D}, {4, MESSAGE_BYTE, 10, 6, D},
    {12, ROW_NUMBER, 0, 0, S | K | P}, {12, ROW_NUMBER, 0, 9, S | K | P}, {12, ROW_NUMBER, 0, UINT32_MAX, S | K | P}, {12, MESSAGE_BYTE, 7, 9, D},
    {2, BESIDE_ENGINE, 0, 'Q', S | K | P | D}, {2, BESIDE_N, 0, 2, S | K | P | D}, {2, BESIDE_N, 0, 259, S | K | P | D},
    {2, BESIDE_UNIT, 0, 3, S | K | P | D}, {2, IN_ROW, 0, 0, K | P | D}, {2, IN_ROW, 4, 10000, K | P | D},
    {2, IN_ROW, 5, 100000000, K | P | D}, {2, IN_ROW, 6, 100000000, K | P | D}, {2, IN_ROW, 7, 100000000, K | P | D},
    {3, IN_ROW, 1, 4, K | P | D}, {3, IN_ROW, 2, 2, K | P | D}, {3, IN_ROW, 3, 8, K | P | D}, {3, IN_ROW, 8, 0, P | D}, {3, IN_ROW, 12, 9998, P | D},
    {3, IN_ROW, 14, 5, P | D}, {3, IN_ROW, 16, 65536, P | D}, {3, IN_ROW, 33, 65540, P | D}, {3, IN_ROW, 34, 0, P | D}, {3, IN_ROW, 49, 0, P | D},
    {3, IN_ROW, 13, 100000000, P | D}, {3, IN_ROW, 36, 100000000, P | D},
    {5, MESSAGE_BYTE, 1, 'R', D}, {5, MESSAGE_BYTE, 2, 4, D},
    {6, GIVEN_MILEAGE, 0, 100000000, P},
};

static inline void put_fault(struct card_call *call, const struct card_fault *fault)
{
    switch (fault->what) {
    case ROW_COUNT:
        call->count = fault->value;
        break;
    case MESSAGE_LENGTH:
        call->message_len = fault->value;
        break;
    case OUT_LENGTH:
        call->out_len = fault->value;
        break;
    case MESSAGE_BYTE:
        call->message[fault->at] = (uint8_t)fault->value;
        break;
    case ROW_NUMBER:
        call->row = fault->value;
        break;
    case BESIDE_ENGINE:
        call->engine = fault->value;
        break;
    case BESIDE_N:
        call->n = fault->value;
        break;
    case BESIDE_UNIT:
        call->unit = fault->value;
        break;
    case IN_ROW:
        set_number(&call->rows[6], fault->at, fault->value);
        break;
    case GIVEN_MILEAGE:
        call->mileage = fault->value;
        break;
    }
}

/* Unit 1 of three in round 9,999, in row 7 of 8, one SECOND marked: the message is the one that would close it, which is 7. */
static inline struct card_call last_round_call(enum which which)
{
    struct call unit = new_call(which);

    unit.given[MILEAGE] = 5;
    log_words("B 3 1 7 9999 9 8 6", unit.bytes[LOG]);
    image_words("B 3 1 7 9999 9 8 6 S2=5", unit.bytes[IMAGE]);
    message_words("S B 3 0 * 7 9999 5 5", unit.bytes[MESSAGE]);
    return card_call_of(&unit, 8, 7);
}

/* Puts a set of faults into the call: the first of those that it looks at must be its answer. */
static inline void check_faults(enum which which, uint64_t set)
{
    struct card_call before = last_round_call(which);
    uint32_t number = which == DELIVER ? MILEAGE_LAST_ROUND : MILEAGE_ACCEPTED;

    for (size_t i = COUNT(card_faults); i-- > 0;)
        if (set >> i & 1) {
            put_fault(&before, &card_faults[i]);
            number = card_faults[i].calls >> which & 1 ? card_faults[i].number : number;
        }
    if (number == MILEAGE_ACCEPTED)
        card_must_accept("faults that the call does not look at", &before);
    else
        card_must_refuse("the first fault in the order", &before, number);
}

/* A fault with every one after it; then by itself, and with each other one. */
static inline void check_fault(enum which which, size_t i)
{
    check_faults(which, ~UINT64_C(0) << i);
    for (size_t j = 0; j < COUNT(card_faults); j++)
        check_faults(which, UINT64_C(1) << i | UINT64_C(1) << j);
}

/* Any faults, a quarter of all. */
static inline uint64_t some_faults(void)
{
    uint64_t high = below(UINT32_MAX) & below(UINT32_MAX);

    return high << 32 | (below(UINT32_MAX) & below(UINT32_MAX));
}

static inline void check_card_order(uint32_t random)
{
    for (enum which which = START; which < CALLS; which++) {
        check_faults(which, 0);
        for (size_t i = 0; i < COUNT(card_faults); i++)
            check_fault(which, i);
        for (uint32_t i = 0; i < random; i++)
            check_faults(which, some_faults());
    }
}

/* A count that no card has, with all else right, and wrong. */
static inline void check_wrong_count(enum which which, size_t count)
{
    struct card_call before = last_round_call(which);

    before.count = count;
    card_must_refuse("a count that no card has", &before, MILEAGE_WRONG_LENGTH);
    before.row = before.engine = 0;
    before.message[0] = 'Z';
    card_must_refuse("a count that no card has, and more", &before, MILEAGE_WRONG_LENGTH);
}

/* Row 7 of a card with so many rows. */
static inline void check_right_count(enum which which, size_t count)
{
    struct card_call before = last_round_call(which);

    before.count = count;
    if (count < 7)
        card_must_refuse("row 7 of fewer", &before, MILEAGE_NO_ROW);
    else if (which == DELIVER)
        card_must_refuse("row 7 of so many", &before, MILEAGE_LAST_ROUND);
    else
        card_must_accept("row 7 of so many", &before);
}

static inline void check_counts(void)
{
    static const size_t wrong[] = {0, 65, 66, 64 + 64, 256 + 1, 256 + 64, 65536 + 1, 65536 + 64};

    for (enum which which = START; which < CALLS; which++) {
        for (size_t i = 0; i < COUNT(wrong); i++)
            check_wrong_count(which, wrong[i]);
        for (size_t count = 1; count <= 64; count++)
            check_right_count(which, count);
    }
}

/* A row number, or a message's entry, that names no row, with all that comes after in the order wrong too. A number that
 * an entry's two bytes do not hold is no delivery's. */
static inline void check_no_row(enum which which, size_t count, uint32_t row)
{
    struct card_call before = new_card_call(which, count, row);
    bool entry = row >= MILEAGE_MIN_ENTRY && row <= MILEAGE_MAX_ENTRY;

    if (which == DELIVER && row > UINT16_MAX)
        return;
    message_words("S R 16 15 * 1 9999 5 5", before.message);
    put(before.message + 6, 2, row);
    before.engine = 'Q';
    before.mileage = 100000000;
    if (which != DELIVER || entry)
        card_must_refuse("no row", &before, MILEAGE_NO_ROW);
    else
        card_must_refuse("no entry", &before, MILEAGE_MALFORMED_MESSAGE);
}

static inline void check_row_numbers(void)
{
    static const size_t counts[] = {1, 2, 63, 64};
    static const uint32_t beyond[] = {0, 65, 66, 128, 256, 257, 9999, 10000, 65535, 65536, 65537, UINT32_C(2147483649), UINT32_MAX};

    for (enum which which = START; which < CALLS; which++)
        for (size_t c = 0; c < COUNT(counts); c++) {
            check_no_row(which, counts[c], (uint32_t)counts[c] + 1);
            for (size_t i = 0; i < COUNT(beyond); i++)
                check_no_row(which, counts[c], beyond[i]);
        }
}

#endif
