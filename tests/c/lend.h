/*
 * One call of a unit as data: what is given and lent before it, and all that is there after it.
 */
#ifndef LEND_H
#define LEND_H

#include "block.h"
#include "cases.h"

enum which { START, KEY_ON, PROPOSE, DELIVER, CALLS };
static const char *const call_names[CALLS] = {"start", "key_on", "propose", "deliver"};

/* The buffers that calls are lent. */
enum { LOG, IMAGE, MESSAGE, OUT, BUFFERS, ROOM = MILEAGE_IMAGE_LENGTH + 1 };
static const char *const buffer_names[BUFFERS] = {"log", "image", "message", "out"};
static const size_t right_length[BUFFERS] = {
    MILEAGE_LOG_LENGTH, MILEAGE_IMAGE_LENGTH, MILEAGE_MESSAGE_LENGTH, MILEAGE_MESSAGE_LENGTH
};

/* The numbers that a call may refuse with, the buffers that it is lent, and those of them that it only reads; as sets. */
static const struct { uint32_t numbers, lent, read; } rights[CALLS] = {
    [START] = {1 << 1 | 1 << 2, 1 << LOG | 1 << IMAGE, 0},
    [KEY_ON] = {1 << 1 | 1 << 2, 1 << LOG | 1 << IMAGE, 1 << LOG},
    [PROPOSE] = {1 << 1 | 1 << 2 | 1 << 3 | 1 << 6, 1 << LOG | 1 << IMAGE | 1 << OUT, 1 << LOG},
    [DELIVER] = {1 << 1 | 1 << 2 | 1 << 3 | 1 << 4 | 1 << 5 | 1 << 7, 1 << LOG | 1 << IMAGE | 1 << MESSAGE | 1 << OUT, 1 << MESSAGE},
};

/* The four numbers that start is given; propose is given the first of them, as its mileage. */
enum { ENGINE, N, UNIT, ENTRY, MILEAGE = 0, GIVEN = 4 };
struct call {
    enum which which;
    bool rest; /* is what stands behind the bytes looked at as it was? */
    uint32_t number, given[GIVEN], decision;
    size_t length[BUFFERS];
    uint8_t bytes[BUFFERS][ROOM];
};

/* A call with right lengths and a random byte everywhere. */
static inline struct call new_call(enum which which)
{
    struct call call = {.which = which, .rest = true};

    for (int buffer = 0; buffer < BUFFERS; buffer++) {
        call.length[buffer] = right_length[buffer];
        memset(call.bytes[buffer], (int)below(256), ROOM);
    }
    call.decision = below(UINT32_MAX);
    return call;
}

/* Each right length and each wrong one, for each buffer: choices is a number of four digits to the base LENGTHS. */
static inline void set_lengths(struct call *call, unsigned choices)
{
    for (int buffer = 0; buffer < BUFFERS; buffer++, choices /= LENGTHS)
        call->length[buffer] = length(right_length[buffer], choices % LENGTHS);
}

/* The call itself, on this memory. */
static inline uint32_t answer(const struct call *call, uint8_t *const at[BUFFERS], uint32_t *decision)
{
    const uint32_t *given = call->given;
    const size_t *len = call->length;

    switch (call->which) {
    case START:
        return mileage_start(given[ENGINE], given[N], given[UNIT], given[ENTRY], at[LOG], len[LOG], at[IMAGE], len[IMAGE]);
    case KEY_ON:
        return mileage_key_on(at[LOG], len[LOG], at[IMAGE], len[IMAGE]);
    case PROPOSE:
        return mileage_propose(at[LOG], len[LOG], at[IMAGE], len[IMAGE], given[MILEAGE], at[OUT], len[OUT]);
    default:
        return mileage_deliver(at[LOG], len[LOG], at[IMAGE], len[IMAGE], at[MESSAGE], len[MESSAGE], at[OUT], len[OUT], decision);
    }
}

/* What is there after the call. */
static inline struct call after(struct call call)
{
    uint8_t *at[BUFFERS];
    uint32_t *decision = lend(&call.decision, sizeof call.decision, sizeof call.decision);

    for (int buffer = 0; buffer < BUFFERS; buffer++)
        at[buffer] = lend(call.bytes[buffer], ROOM, call.length[buffer]);
    call.number = answer(&call, at, decision);
    for (int buffer = 0; buffer < BUFFERS; buffer++)
        call.rest = take_back(at[buffer], call.bytes[buffer], ROOM, call.length[buffer]) && call.rest;
    take_back(decision, &call.decision, sizeof call.decision, sizeof call.decision);
    return call;
}

/* In hex, with a bar where the buffer ends. */
static inline void show(const char *what, const struct call *call)
{
    printf("  %s: number %lu, decision %lx, given", what, (unsigned long)call->number, (unsigned long)call->decision);
    for (int i = 0; i < GIVEN; i++)
        printf(" %lu", (unsigned long)call->given[i]);
    for (int buffer = 0; buffer < BUFFERS; buffer++) {
        printf("\n    %s, %lu bytes:", buffer_names[buffer], (unsigned long)call->length[buffer]);
        for (size_t i = 0; i < 1 + right_length[buffer]; i++)
            printf("%s %02x", i == call->length[buffer] ? " |" : "", (unsigned)call->bytes[buffer][i]);
    }
    printf(call->rest ? "\n" : "\n    and bytes behind these changed\n");
}

static inline void fail(const char *title, const char *what)
{
    printf("FAILED, %s: %s\n", title, what);
    exit(1);
}

static unsigned long by_hand;

/* The call must give this number, this decision and these bytes in every buffer. */
static inline void must_give(const char *title, const struct call *before, const struct call *wanted)
{
    struct call given = after(*before);

    by_hand++;
    if (given.number == wanted->number && given.decision == wanted->decision && given.rest
        && memcmp(given.bytes, wanted->bytes, sizeof given.bytes) == 0)
        return;
    show("before", before);
    show("wanted", wanted);
    show("given", &given);
    fail(title, call_names[before->which]);
}

/* All stays, but an output buffer of 18 bytes is zeros and there is no decision: so after every refusal. */
static inline struct call unchanged(const struct call *before, uint32_t number)
{
    struct call wanted = *before;
    bool sends = before->which == PROPOSE || before->which == DELIVER;

    wanted.number = number;
    if (sends && before->length[OUT] == MILEAGE_MESSAGE_LENGTH)
        memset(wanted.bytes[OUT], 0, MILEAGE_MESSAGE_LENGTH);
    if (before->which == DELIVER)
        wanted.decision = BLANK;
    return wanted;
}

/* Is it the empty message, or one that reads? */
static inline bool is_message(const uint8_t *message)
{
    static const uint8_t empty[MILEAGE_MESSAGE_LENGTH];
    uint32_t fields[MILEAGE_MESSAGE_FIELDS];

    return memcmp(message, empty, sizeof empty) == 0
        || mileage_read_message(message, sizeof empty, fields, MILEAGE_MESSAGE_FIELDS) == MILEAGE_ACCEPTED;
}

/* What holds after every accepted call: what is only read is as it was, and what is written reads. */
static inline void must_hold(const char *title, const struct call *before, const struct call *given)
{
    uint32_t fields[MILEAGE_LOG_FIELDS];
    bool sends = given->which == PROPOSE || given->which == DELIVER;

    for (int buffer = 0; buffer < BUFFERS; buffer++)
        if (rights[before->which].read >> buffer & 1 && memcmp(before->bytes[buffer], given->bytes[buffer], ROOM) != 0)
            fail(title, "a buffer that is only read was written");
    if (mileage_read_log(given->bytes[LOG], MILEAGE_LOG_LENGTH, fields, MILEAGE_LOG_FIELDS) != MILEAGE_ACCEPTED)
        fail(title, "a log that does not read");
    if (mileage_read_log(given->bytes[IMAGE], MILEAGE_LOG_LENGTH, fields, MILEAGE_LOG_FIELDS) != MILEAGE_ACCEPTED)
        fail(title, "an image whose first 20 bytes do not read");
    if (sends && !is_message(given->bytes[OUT]))
        fail(title, "a message that does not read");
    if (given->which == DELIVER && given->decision != BLANK && given->decision > 99999999)
        fail(title, "a decision that is no mileage");
}

/* The call is refused with this number and changes nothing, or is accepted. */
static inline void must_answer(const char *title, const struct call *before, uint32_t number)
{
    struct call wanted = unchanged(before, number);

    if (number == MILEAGE_ACCEPTED) {
        wanted = after(*before);
        must_hold(title, before, &wanted);
        wanted.number = number;
    }
    must_give(title, before, &wanted);
}

#endif
