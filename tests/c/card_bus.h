/*
 * Whole entries on cards, step by step beside the unit calls: each unit of a bike has a card, and for each entry a log and
 * an image. Every call is made on both, and both must give the same number, message and decision, and hold the same numbers.
 */
#ifndef CARD_BUS_H
#define CARD_BUS_H

#include "cards.h"

/* A bike, its entries' messages in the order sent, and who has decided what in each entry. */
enum { MOST_UNITS = MILEAGE_MAX_UNITS, MOST_ROWS = MILEAGE_MAX_ROWS, PLACES = 400 };
static struct bike {
    uint32_t engine, n;
    size_t count;
    struct card_call cards[MOST_UNITS]; /* of each only the rows */
    uint8_t logs[MOST_UNITS][MOST_ROWS][MILEAGE_LOG_LENGTH], images[MOST_UNITS][MOST_ROWS][MILEAGE_IMAGE_LENGTH];
    uint8_t sent[PLACES][MILEAGE_MESSAGE_LENGTH];
    size_t sent_count;
    uint32_t decided[MOST_ROWS][MOST_UNITS];
} bike;
static unsigned long decisions, votes_again;

/* A row's log and a unit's are each other's, by the calls of fields: so the row's may be kept as 20 bytes. */
static inline void must_be_the_log(const uint8_t *log, const mileage_contents *contents)
{
    uint32_t read[MILEAGE_LOG_FIELDS], given[MILEAGE_LOG_FIELDS];
    uint8_t written[MILEAGE_LOG_LENGTH];

    memcpy(given, contents, sizeof given);
    if (mileage_read_log(log, MILEAGE_LOG_LENGTH, read, MILEAGE_LOG_FIELDS) != MILEAGE_ACCEPTED || memcmp(read, given, sizeof read) != 0)
        fail("a card beside the unit calls", "read_log does not give the row's eight numbers");
    if (mileage_write_log(given, MILEAGE_LOG_FIELDS, written, sizeof written) != MILEAGE_ACCEPTED || memcmp(written, log, sizeof written) != 0)
        fail("a card beside the unit calls", "write_log does not make the log of the row's eight numbers");
}

/* A vote that goes out and leaves log and image as they were was sent again: it is the one in the log. */
static inline void check_vote_again(const struct call *before, const struct call *done)
{
    const uint8_t *log = done->bytes[LOG], *out = done->bytes[OUT];
    size_t estimate = out[0] == 'S' && log[0] == 'B' ? 16 : 12;

    if (done->which != DELIVER || (out[0] != 'C' && out[0] != 'S') || memcmp(log, before->bytes[LOG], MILEAGE_LOG_LENGTH) != 0
        || memcmp(done->bytes[IMAGE], before->bytes[IMAGE], MILEAGE_IMAGE_LENGTH) != 0)
        return;
    if (memcmp(out + 8, log + 6, 2) != 0 || memcmp(out + 10, log + estimate, 4) != 0)
        fail("a vote sent again", "not the one in the log");
    votes_again++;
}

/* A call of a unit on one entry, and the same on its card. Gives what is there after the unit's. */
static inline struct call both(enum which which, uint32_t u, uint32_t k, uint32_t mileage, const uint8_t *message)
{
    struct call unit = new_call(which), done;
    struct card_call before = bike.cards[u], wanted;

    memcpy(unit.given, (const uint32_t[]){bike.engine, bike.n, u, k}, sizeof unit.given);
    if (which == PROPOSE)
        unit.given[MILEAGE] = mileage;
    memcpy(unit.bytes[LOG], bike.logs[u][k - 1], MILEAGE_LOG_LENGTH);
    memcpy(unit.bytes[IMAGE], bike.images[u][k - 1], MILEAGE_IMAGE_LENGTH);
    if (message != NULL)
        memcpy(unit.bytes[MESSAGE], message, MILEAGE_MESSAGE_LENGTH);
    before.which = which;
    before.row = k;
    before.mileage = mileage;
    memcpy(before.message, unit.bytes[MESSAGE], MESSAGE_ROOM);
    done = after(unit);
    wanted = card_wanted(&before, done.number, &done);
    card_must_give("a card beside the unit calls", &before, &wanted);
    memcpy(bike.cards[u].rows, wanted.rows, sizeof wanted.rows);
    memcpy(bike.logs[u][k - 1], done.bytes[LOG], MILEAGE_LOG_LENGTH);
    memcpy(bike.images[u][k - 1], done.bytes[IMAGE], MILEAGE_IMAGE_LENGTH);
    must_be_the_log(done.bytes[LOG], &wanted.rows[k - 1].log);
    check_vote_again(&unit, &done);
    return done;
}

static inline void send_on(const uint8_t *message)
{
    if (message[0] != 0 && bike.sent_count < PLACES)
        memcpy(bike.sent[bike.sent_count++], message, MILEAGE_MESSAGE_LENGTH);
}

/* A card's memory before the first start holds anything; then each entry is started. */
static inline void start_bike(uint32_t engine, uint32_t n, size_t count, const uint32_t *entries, size_t entry_count)
{
    bike.engine = engine;
    bike.n = n;
    bike.count = count;
    bike.sent_count = 0;
    memset(bike.decided, 255, sizeof bike.decided);
    for (uint32_t u = 0; u < n; u++) {
        bike.cards[u] = new_card_call(START, count, 1);
        bike.cards[u].engine = engine;
        bike.cards[u].n = n;
        bike.cards[u].unit = u;
        for (size_t i = 0; i < entry_count; i++)
            if (both(START, u, entries[i], 0, NULL).number != MILEAGE_ACCEPTED)
                fail("a card beside the unit calls", "start");
    }
}

static inline void propose_on(uint32_t u, uint32_t k, uint32_t mileage)
{
    struct call done = both(PROPOSE, u, k, mileage, NULL);

    if (done.number != MILEAGE_ACCEPTED)
        fail("a card beside the unit calls", "propose");
    send_on(done.bytes[OUT]);
}

/* The key goes off: images, marks and estimates are lost; then key-on of the log. */
static inline void key_on_again(uint32_t u, uint32_t k)
{
    mileage_row *row = &bike.cards[u].rows[k - 1];
    mileage_contents log = row->log;

    memset(row, (int)below(256), sizeof *row);
    row->log = log;
    memset(bike.images[u][k - 1], (int)below(256), MILEAGE_IMAGE_LENGTH);
    if (both(KEY_ON, u, k, 0, NULL).number != MILEAGE_ACCEPTED)
        fail("a card beside the unit calls", "key-on");
}

/* All decisions of one entry are one mileage. */
static inline void keep_decision(uint32_t u, uint32_t k, uint32_t decision)
{
    if (decision == BLANK)
        return;
    for (uint32_t other = 0; other < bike.n; other++)
        if (bike.decided[k - 1][other] != BLANK && bike.decided[k - 1][other] != decision)
            fail("a card beside the unit calls", "two decisions of one entry");
    bike.decided[k - 1][u] = decision;
    decisions++;
}

/* Delivers a message; cut: the key goes off before what it sends leaves. A SKIP of another unit is refused with 5. */
static inline void deliver_on(uint32_t u, const uint8_t *message, bool cut)
{
    uint32_t k = get(message + 6, 2);
    struct call done = both(DELIVER, u, k, 0, message);

    if (done.number != MILEAGE_ACCEPTED && (done.number != MILEAGE_NOT_FOR_UNIT || message[0] != 'K'))
        fail("a card beside the unit calls", "deliver");
    if (cut) {
        key_on_again(u, k);
        return;
    }
    keep_decision(u, k, done.decision);
    send_on(done.bytes[OUT]);
}

/* Any course of events: messages lost, late and doubled, keys off at any time. The mileages are two, one step apart. */
static inline void check_history(const uint32_t *entries, size_t entry_count, size_t count)
{
    uint32_t n = one_of(VALUES(3, 3, 4, 5, 7, 16)), mileage = one_of(VALUES(400000, 9999999, 99999998));

    start_bike(below(2) ? 'B' : 'R', n, count, entries, entry_count);
    for (uint32_t events = 40 * n; events > 0 && bike.sent_count < PLACES; events--) {
        uint32_t u = below(n), event = below(20), newest = (uint32_t)bike.sent_count, late = newest > 3 * n ? newest - 3 * n : 0;

        if (event == 0 || bike.sent_count == 0)
            propose_on(u, one_of(entries, entry_count), mileage + below(2));
        else if (event == 1)
            key_on_again(u, one_of(entries, entry_count));
        else
            deliver_on(u, bike.sent[event < 4 ? below(newest) : late + below(newest - late)], event == 2);
    }
}

static inline void check_histories(uint32_t histories)
{
    unsigned long decided = decisions, again = votes_again;

    for (uint32_t i = 0; i < histories; i++) {
        check_history(VALUES(1), 1);
        check_history(VALUES(1, 2), 2);
        check_history(VALUES(1, 33, 64), 64);
    }
    if (decisions < decided + histories)
        fail("histories", "hardly any decision");
    if (votes_again < again + histories)
        fail("histories", "hardly any vote sent again");
}

/*
 * The example's bus (examples/one_bus.c) as events: a key goes off, a mileage is proposed, a message is carried to all but
 * one, or all the rest of them to all; a cut: the brake box's key goes off before its answer to the next message leaves.
 */
enum { DASH_1, DASH_2, BRAKE_BOX, NOBODY };
enum event { OFF, ON, CUT, PROPOSED, LOST_BY, ALL_CARRIED };
static const struct { enum event event; uint32_t unit; uint32_t mileage; } example[] = {
    {OFF, BRAKE_BOX, 0}, {PROPOSED, DASH_1, 412077}, {PROPOSED, DASH_2, 412080}, {LOST_BY, DASH_2, 0}, {ALL_CARRIED, NOBODY, 0},
    {ON, BRAKE_BOX, 0}, {CUT, BRAKE_BOX, 0}, {PROPOSED, DASH_1, 412077}, {LOST_BY, DASH_2, 0}, {ALL_CARRIED, NOBODY, 0},
    {ON, BRAKE_BOX, 0}, {PROPOSED, DASH_1, 412077}, {LOST_BY, DASH_2, 0}, {ALL_CARRIED, NOBODY, 0},
};

/* Of each entry: how far its messages were carried, and the brake box's key. */
static struct { size_t carried; bool off, cut; } runs[2];

/* The next message of the entry that was not carried. */
static inline const uint8_t *next_message(uint32_t k)
{
    size_t *carried = &runs[k - 1].carried;

    while (*carried < bike.sent_count && get(bike.sent[*carried] + 6, 2) != k)
        ++*carried;
    return *carried < bike.sent_count ? bike.sent[(*carried)++] : NULL;
}

static inline bool carry_next(uint32_t k, uint32_t lost_by)
{
    const uint8_t *message = next_message(k);

    for (uint32_t u = 0; u < 3 && message != NULL; u++) {
        bool cut = u == BRAKE_BOX && runs[k - 1].cut;

        if (u == lost_by || (u == BRAKE_BOX && runs[k - 1].off))
            continue;
        deliver_on(u, message, cut);
        if (cut) {
            runs[k - 1].off = true;
            runs[k - 1].cut = false;
        }
    }
    return message != NULL;
}

static inline void example_event(size_t i, uint32_t k)
{
    switch (example[i].event) {
    case OFF:
        runs[k - 1].off = true;
        break;
    case ON:
        key_on_again(example[i].unit, k);
        runs[k - 1].off = false;
        break;
    case CUT:
        runs[k - 1].cut = true;
        break;
    case PROPOSED:
        propose_on(example[i].unit, k, example[i].mileage + k);
        break;
    case LOST_BY:
        carry_next(k, example[i].unit);
        break;
    case ALL_CARRIED:
        while (carry_next(k, NOBODY))
            ;
    }
}

/* Both entries of a card of two run it, an event of one and an event of the other. All report dash 1's mileage, of each. */
static inline void check_example_on_cards(void)
{
    start_bike('B', 3, 2, VALUES(1, 2));
    for (size_t i = 0; i < 2 * COUNT(example); i++)
        example_event(i / 2, 1 + i % 2);
    for (uint32_t u = 0; u < 3; u++)
        if (bike.decided[0][u] != 412078 || bike.decided[1][u] != 412079)
            fail("the example's bus on a card of two", "a unit without the decision");
    if (bike.sent_count != 36)
        fail("the example's bus on a card of two", "not eighteen messages of each entry");
}

#endif
