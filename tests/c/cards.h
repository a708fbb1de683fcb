/*
 * One call on a card as data: what is given and lent before it, and all that is there after it. Rows are made of a unit's
 * bytes, so that calls by hand of a unit serve for a row too.
 */
#ifndef CARDS_H
#define CARDS_H

#include "lend.h"
#include "words.h"

/* Rows that are looked at, one more than a card may have. A row that no call is about holds one byte over and over. */
enum { ROWS = MILEAGE_MAX_ROWS + 1, MESSAGE_ROOM = MILEAGE_MESSAGE_LENGTH + 1 };
struct card_call {
    enum which which;
    bool rest; /* is what stands around the bytes looked at as it was? */
    uint32_t number, engine, n, unit, row, mileage, decision;
    size_t count, message_len, out_len;
    uint8_t message[MESSAGE_ROOM], out[MESSAGE_ROOM];
    mileage_row rows[ROWS];
};

/* The numbers of a row, by place: log 0 to 7, image 8 to 15, CHECK marks 16 and estimates, SECOND marks 33 and estimates. */
enum { IMAGE_PLACE = 8, CHECKS_PLACE = 16, SECONDS_PLACE = 33 };
static inline void set_number(mileage_row *row, size_t place, uint32_t number)
{
    memcpy((uint8_t *)row + place * sizeof number, &number, sizeof number);
}

static inline uint32_t number_of(const mileage_row *row, size_t place)
{
    uint32_t number;

    memcpy(&number, (const uint8_t *)row + place * sizeof number, sizeof number);
    return number;
}

/* Bytes, highest first, as a number. */
static inline uint32_t get(const uint8_t *bytes, size_t width)
{
    uint32_t number = 0;

    for (size_t i = 0; i < width; i++)
        number = number << 8 | bytes[i];
    return number;
}

/* The numbers that stand in a unit's bytes, well-formed or not. Byte 3, a zero, has no place in a row. */
static inline mileage_contents contents_of(const uint8_t *log)
{
    return (mileage_contents){log[0], log[1], log[2], get(log + 4, 2), get(log + 6, 2),
                              get(log + 8, 4), get(log + 12, 4), get(log + 16, 4)};
}

static inline mileage_marks marks_of(const uint8_t *tally)
{
    mileage_marks marks = {.marks = get(tally, 2)};

    for (size_t i = 0; i < COUNT(marks.estimates); i++)
        marks.estimates[i] = get(tally + 2 + 4 * i, 4);
    return marks;
}

static inline mileage_row row_of(const uint8_t *log, const uint8_t *image)
{
    return (mileage_row){contents_of(log), contents_of(image), marks_of(image + 20), marks_of(image + 86)};
}

/* A call on a card where no row is anything yet. */
static inline struct card_call new_card_call(enum which which, size_t count, uint32_t row)
{
    struct card_call call = {.which = which, .rest = true, .engine = 'B', .n = 3, .unit = 1, .row = row,
                             .mileage = 99999999, .decision = below(UINT32_MAX), .count = count,
                             .message_len = MILEAGE_MESSAGE_LENGTH, .out_len = MILEAGE_MESSAGE_LENGTH};

    memset(call.message, (int)below(256), sizeof call.message);
    memset(call.out, (int)below(256), sizeof call.out);
    for (size_t i = 0; i < ROWS; i++)
        memset(&call.rows[i], (int)below(256), sizeof call.rows[i]);
    return call;
}

/* The same call as a unit's, whose entry is the row's number, with the image's settings beside the card. */
static inline struct card_call card_call_of(const struct call *unit, size_t count, uint32_t row)
{
    struct card_call call = new_card_call(unit->which, count, row);

    call.rows[row - 1] = row_of(unit->bytes[LOG], unit->bytes[IMAGE]);
    call.engine = call.rows[row - 1].image.engine;
    call.n = call.rows[row - 1].image.n;
    call.unit = call.rows[row - 1].image.unit;
    call.mileage = unit->given[MILEAGE];
    memcpy(call.message, unit->bytes[MESSAGE], sizeof call.message);
    return call;
}

/* The call itself, on this memory. */
static inline uint32_t card_answer(const struct card_call *call, mileage_row *rows, const uint8_t *message, uint8_t *out,
                                   uint32_t *decision)
{
    switch (call->which) {
    case START:
        return mileage_card_start(call->engine, call->n, call->unit, rows, call->count, call->row);
    case KEY_ON:
        return mileage_card_key_on(call->engine, call->n, call->unit, rows, call->count, call->row);
    case PROPOSE:
        return mileage_card_propose(call->engine, call->n, call->unit, rows, call->count, call->row, call->mileage, out, call->out_len);
    default:
        return mileage_card_deliver(call->engine, call->n, call->unit, rows, call->count, message, call->message_len,
                                    out, call->out_len, decision);
    }
}

/* What is there after the call. Rows and decision stand at any multiple of 4, message and output buffer at any address. */
static inline struct card_call card_after(struct card_call call)
{
    const size_t skew = below(4), rows_size = call.count * sizeof call.rows[0];
    mileage_row *rows = lend_behind(4 * skew, call.rows, sizeof call.rows, rows_size);
    uint8_t *message = lend_behind(skew, call.message, MESSAGE_ROOM, call.message_len);
    uint8_t *out = lend_behind(3 - skew, call.out, MESSAGE_ROOM, call.out_len);
    uint32_t *decision = lend_behind(4 * skew, &call.decision, sizeof call.decision, sizeof call.decision);
    bool rest = true;

    call.number = card_answer(&call, rows, message, out, decision);
    rest = take_back_behind(4 * skew, rows, call.rows, sizeof call.rows, rows_size) && rest;
    rest = take_back_behind(skew, message, call.message, MESSAGE_ROOM, call.message_len) && rest;
    rest = take_back_behind(3 - skew, out, call.out, MESSAGE_ROOM, call.out_len) && rest;
    rest = take_back_behind(4 * skew, decision, &call.decision, sizeof call.decision, sizeof call.decision) && rest;
    call.rest = call.rest && rest;
    return call;
}

static inline void show_numbers(const mileage_row *row)
{
    for (size_t place = 0; place < MILEAGE_ROW_NUMBERS; place++)
        printf("%s%lx", place == IMAGE_PLACE || place == CHECKS_PLACE || place == SECONDS_PLACE ? " | " : " ",
               (unsigned long)number_of(row, place));
}

/* In hex: what is given, message and output buffer, and each row that is not the one in the other call, or is the call's. */
static inline void show_card(const char *what, const struct card_call *call, const struct card_call *other)
{
    printf("  %s: number %lu, decision %lx, engine %lx, n %lu, unit %lu, row %lu of %lu, mileage %lu%s\n    message, %lu bytes:", what,
           (unsigned long)call->number, (unsigned long)call->decision, (unsigned long)call->engine, (unsigned long)call->n,
           (unsigned long)call->unit, (unsigned long)call->row, (unsigned long)call->count, (unsigned long)call->mileage,
           call->rest ? "" : ", and bytes around these changed", (unsigned long)call->message_len);
    for (size_t i = 0; i < MESSAGE_ROOM; i++)
        printf(" %02x", (unsigned)call->message[i]);
    printf("\n    out, %lu bytes:", (unsigned long)call->out_len);
    for (size_t i = 0; i < MESSAGE_ROOM; i++)
        printf(" %02x", (unsigned)call->out[i]);
    for (size_t i = 0; i < ROWS; i++)
        if (i + 1 == call->row || memcmp(&call->rows[i], &other->rows[i], sizeof call->rows[i]) != 0) {
            printf("\n    row %lu:", (unsigned long)i + 1);
            show_numbers(&call->rows[i]);
        }
    printf("\n");
}

static unsigned long card_calls;

static inline void must_be(const char *title, const struct card_call *before, const struct card_call *wanted, const struct card_call *given)
{
    card_calls++;
    if (given->number == wanted->number && given->decision == wanted->decision && given->rest
        && memcmp(given->message, wanted->message, MESSAGE_ROOM) == 0 && memcmp(given->out, wanted->out, MESSAGE_ROOM) == 0
        && memcmp(given->rows, wanted->rows, sizeof given->rows) == 0)
        return;
    show_card("before", before, before);
    show_card("wanted", wanted, given);
    show_card("given", given, wanted);
    fail(title, call_names[before->which]);
}

/* The call must give this number, this decision, these bytes and this in every row. */
static inline void card_must_give(const char *title, const struct card_call *before, const struct card_call *wanted)
{
    struct card_call given = card_after(*before);

    must_be(title, before, wanted, &given);
}

/* All rows stay, but an output buffer of 18 bytes is zeros and there is no decision: so after every refusal. */
static inline struct card_call card_unchanged(const struct card_call *before, uint32_t number)
{
    struct card_call wanted = *before;
    bool sends = before->which == PROPOSE || before->which == DELIVER;

    wanted.number = number;
    if (sends && before->out_len == MILEAGE_MESSAGE_LENGTH)
        memset(wanted.out, 0, MILEAGE_MESSAGE_LENGTH);
    if (before->which == DELIVER)
        wanted.decision = BLANK;
    return wanted;
}

static inline void card_must_refuse(const char *title, const struct card_call *before, uint32_t number)
{
    struct card_call wanted = card_unchanged(before, number);

    card_must_give(title, before, &wanted);
}

/* Refused with this number; or, if it is 0, accepted with this row, and the output and decision of a unit's call. */
static inline struct card_call card_wanted(const struct card_call *before, uint32_t number, const struct call *unit)
{
    struct card_call wanted = card_unchanged(before, number);

    if (number != MILEAGE_ACCEPTED)
        return wanted;
    wanted.rows[before->row - 1] = row_of(unit->bytes[LOG], unit->bytes[IMAGE]);
    if (before->which == PROPOSE || before->which == DELIVER)
        memcpy(wanted.out, unit->bytes[OUT], MILEAGE_MESSAGE_LENGTH);
    if (before->which == DELIVER)
        wanted.decision = unit->decision;
    return wanted;
}

/* The number of a delivery on a card, where the row of `entry` alone is a unit's and its own number would be this one. */
static inline uint32_t delivered_number(const uint8_t *message, size_t count, uint32_t entry, uint32_t number)
{
    uint32_t fields[MILEAGE_MESSAGE_FIELDS];

    if (mileage_read_message(message, MILEAGE_MESSAGE_LENGTH, fields, MILEAGE_MESSAGE_FIELDS) != MILEAGE_ACCEPTED)
        return MILEAGE_MALFORMED_MESSAGE;
    if (fields[5] > count)
        return MILEAGE_NO_ROW;
    return fields[5] == entry ? number : MILEAGE_MALFORMED_LOG;
}

#endif
