/*
 * Two dashes and a brake box settle the mileages of two services on one bus, each with both entries on a card.
 *
 * The messages of both entries come mixed. The brake box's key goes off after a log write of one row and before its message
 * leaves, so both rows lose their images; at key-on both go on from their logs. Later a row of dash 2 is damaged in working
 * memory, goes on from its log, and has to try again. All three report the same mileage of each entry.
 *
 * From the repository's root, after `make all`:
 *   cc -std=c99 -Iinclude examples/one_card.c target/staticlib/libmileage.a -o target/one_card && target/one_card
 * or anywhere, after `make install`:
 *   cc -std=c99 one_card.c $(pkg-config --cflags --libs mileage) -o one_card && ./one_card
 */
#include <stdbool.h>
#include <stdio.h>
#include <stdlib.h>
#include <string.h>

#include "mileage.h"

/* The same in every call: engine, n, and the card's count of rows, which may be up to 64. */
enum { ENGINE = 'B', DASH_1 = 0, DASH_2, BRAKE_BOX, UNITS, ROWS = 2 };

/* What the odometer showed at each service. */
static const uint32_t odometer[ROWS] = {412077, 430500};

/* Permanent memory: outlives the key. Of each row whether it was started, its log, and its decision, which is firmware's to keep. */
struct permanent {
    bool started[ROWS];
    mileage_contents logs[ROWS];
    uint32_t decisions[ROWS];
};

/* One control unit. Its card is working memory, lost with the key. */
struct unit {
    const char *name;
    uint32_t number;
    struct permanent permanent;
    mileage_row card[ROWS];
    bool on, cut; /* cut: the key goes off before its next message leaves */
};

static struct unit units[UNITS] = {
    {.name = "dash 1", .number = DASH_1}, {.name = "dash 2", .number = DASH_2}, {.name = "brake box", .number = BRAKE_BOX}
};

/* The bus: every message sent, and how many of them it has carried. */
enum { PLACES = 64 };
static uint8_t sent[PLACES][MILEAGE_MESSAGE_LENGTH];
static unsigned sent_count, carried;

static void must(bool holds, const char *what)
{
    if (!holds) {
        printf("FAILED: %s\n", what);
        exit(1);
    }
}

/* The entry of a message, which is its row's number. Ask only of a message that is well-formed. */
static uint32_t entry_of(const uint8_t *message)
{
    uint32_t fields[MILEAGE_MESSAGE_FIELDS];

    must(mileage_read_message(message, MILEAGE_MESSAGE_LENGTH, fields, MILEAGE_MESSAGE_FIELDS) == MILEAGE_ACCEPTED, "a message");
    return fields[5];
}

static void show(const uint8_t *message)
{
    uint32_t f[MILEAGE_MESSAGE_FIELDS];

    must(mileage_read_message(message, MILEAGE_MESSAGE_LENGTH, f, MILEAGE_MESSAGE_FIELDS) == MILEAGE_ACCEPTED, "a message");
    printf("%s", f[0] == 'F' ? "FIRST" : f[0] == 'C' ? "CHECK" : f[0] == 'S' ? "SECOND" : "SKIP");
    if (f[7] == MILEAGE_SPLIT)
        printf(" split");
    else if (f[7] != MILEAGE_BLANK)
        printf(" %lu", (unsigned long)f[7]);
    printf(" of entry %lu, round %lu\n", (unsigned long)f[5], (unsigned long)f[6]);
}

/* Puts a unit's message on the bus; the empty message is none. */
static void send_out(const struct unit *unit, const uint8_t *message)
{
    static const uint8_t empty[MILEAGE_MESSAGE_LENGTH];

    if (memcmp(message, empty, sizeof empty) == 0)
        return;
    must(sent_count < PLACES, "a place on the bus");
    memcpy(sent[sent_count], message, sizeof empty);
    printf("  %s sends message %u: ", unit->name, sent_count++);
    show(message);
}

/* Writes a row's log to permanent memory, if it has changed. In firmware as one piece: the old log or the new one stands. */
static void save_log(struct unit *unit, uint32_t row)
{
    mileage_contents *stored = &unit->permanent.logs[row - 1];

    if (memcmp(stored, &unit->card[row - 1].log, sizeof *stored) == 0)
        return;
    *stored = unit->card[row - 1].log;
    printf("  %s writes the log of row %lu\n", unit->name, (unsigned long)row);
}

/* Once for each row: its log goes to permanent memory before any other call on it, together with the sign that it is there. */
static void start(struct unit *unit, uint32_t row)
{
    must(!unit->permanent.started[row - 1], "a row is started once");
    must(mileage_card_start(ENGINE, UNITS, unit->number, unit->card, ROWS, row) == MILEAGE_ACCEPTED, "start");
    unit->permanent.decisions[row - 1] = MILEAGE_BLANK;
    save_log(unit, row);
    unit->permanent.started[row - 1] = true;
}

/* A started row goes on from its log in permanent memory: the rest of the row is made of it. If that log is lost, the row is
 * never started again: left at zeros it takes no further part. */
static void recover(struct unit *unit, uint32_t row)
{
    bool good;

    unit->card[row - 1].log = unit->permanent.logs[row - 1];
    good = mileage_card_key_on(ENGINE, UNITS, unit->number, unit->card, ROWS, row) == MILEAGE_ACCEPTED;
    if (!good)
        memset(&unit->card[row - 1], 0, sizeof unit->card[row - 1]);
    printf("  %s: row %lu %s\n", unit->name, (unsigned long)row, good ? "goes on from its log" : "is lost");
}

static void key_off(struct unit *unit)
{
    unit->on = false;
    memset(unit->card, 0xa5, sizeof unit->card); /* what working memory holds at the next key-on, nobody knows */
}

/* After each key-on: zeros, so that a row that was not started is refused, and then every row that was. */
static void key_on(struct unit *unit)
{
    printf("%s: key on\n", unit->name);
    memset(unit->card, 0, sizeof unit->card);
    for (uint32_t row = 1; row <= ROWS; row++)
        if (unit->permanent.started[row - 1])
            recover(unit, row);
    unit->on = true;
}

/* A proposal writes no log: its message may leave at once. */
static void propose(struct unit *unit, uint32_t row)
{
    uint8_t out[MILEAGE_MESSAGE_LENGTH];
    uint32_t number;

    printf("%s proposes for entry %lu\n", unit->name, (unsigned long)row);
    number = mileage_card_propose(ENGINE, UNITS, unit->number, unit->card, ROWS, row, odometer[row - 1], out, sizeof out);
    if (number == MILEAGE_MALFORMED_LOG || number == MILEAGE_UNFIT_IMAGE) { /* the row was damaged: it proposes another time */
        printf("  the row gives %lu\n", (unsigned long)number);
        recover(unit, row);
        return;
    }
    must(number == MILEAGE_ACCEPTED, "propose");
    send_out(unit, out);
}

static void keep_decision(struct unit *unit, uint32_t row, uint32_t decision)
{
    uint32_t *kept = &unit->permanent.decisions[row - 1];

    must(*kept == MILEAGE_BLANK || *kept == decision, "one decision of an entry");
    *kept = decision;
    printf("  %s decides %lu for entry %lu\n", unit->name, (unsigned long)decision, (unsigned long)row);
}

/* A refused delivery changed nothing, and nothing leaves. */
static void refused(struct unit *unit, const uint8_t *message, uint32_t number)
{
    switch (number) {
    case MILEAGE_MALFORMED_LOG:
    case MILEAGE_UNFIT_IMAGE: /* the row is not started, and the message is dropped; or the row was damaged */
        printf("  %s refuses it with %lu\n", unit->name, (unsigned long)number);
        if (unit->permanent.started[entry_of(message) - 1])
            recover(unit, entry_of(message));
        break;
    case MILEAGE_NO_ROW:            /* an entry that this card has no row for */
    case MILEAGE_MALFORMED_MESSAGE: /* no unit's message */
    case MILEAGE_NOT_FOR_UNIT:      /* another unit's SKIP */
    case MILEAGE_LAST_ROUND:        /* this entry cannot go on here */
        break;                      /* dropped, which is as if it was lost */
    default:
        must(false, "a fault of this program");
    }
}

/* A message from the bus: the row's log is written first, and only then the answer leaves. */
static void deliver(struct unit *unit, const uint8_t *message)
{
    uint8_t out[MILEAGE_MESSAGE_LENGTH];
    uint32_t row, decision;
    uint32_t number = mileage_card_deliver(ENGINE, UNITS, unit->number, unit->card, ROWS, message, MILEAGE_MESSAGE_LENGTH,
                                           out, sizeof out, &decision);

    if (number != MILEAGE_ACCEPTED) {
        refused(unit, message, number);
        return;
    }
    row = entry_of(message);
    save_log(unit, row);
    if (unit->cut) {
        unit->cut = false;
        key_off(unit);
        printf("  %s: key off after this write, before its message leaves\n", unit->name);
        return;
    }
    if (decision != MILEAGE_BLANK)
        keep_decision(unit, row, decision);
    send_out(unit, out);
}

/* The oldest message not yet carried goes to every unit that is on, its sender too. */
static void carry(void)
{
    const uint8_t *message = sent[carried];

    printf("the bus carries message %u: ", carried++);
    show(message);
    for (int number = 0; number < UNITS; number++)
        if (units[number].on)
            deliver(&units[number], message);
}

/* Carries messages until this one is the next. */
static void carry_to(unsigned message)
{
    while (carried < message && carried < sent_count)
        carry();
}

/* Some time without a decision: the unit proposes again, for each row that has none. */
static void try_again(struct unit *unit)
{
    for (uint32_t row = 1; row <= ROWS; row++)
        if (unit->permanent.decisions[row - 1] == MILEAGE_BLANK)
            propose(unit, row);
    carry_to(PLACES);
}

/* A fresh unit: a card of zeros, then its rows. In firmware a row is started when its service begins. */
static void begin(struct unit *unit)
{
    unit->on = true;
    memset(unit->card, 0, sizeof unit->card);
    for (uint32_t row = 1; row <= ROWS; row++)
        start(unit, row);
}

int main(void)
{
    must(mileage_version() == MILEAGE_VERSION, "the archive is of this header's version");
    for (int number = 0; number < UNITS; number++)
        begin(&units[number]);

    propose(&units[DASH_1], 1);
    propose(&units[DASH_2], 2);
    carry_to(1); /* the FIRST of entry 1: all three send a CHECK */
    units[BRAKE_BOX].cut = true;
    carry_to(4); /* the FIRST of entry 2: the brake box logs it, and its CHECK never leaves; then two CHECKs of entry 1 */
    key_on(&units[BRAKE_BOX]);
    carry_to(12); /* the third CHECK of entry 1 makes both dashes send their SECONDs again */
    units[DASH_2].card[1].seconds.marks ^= UINT32_C(1) << 20; /* a bit that falls over in working memory */
    carry_to(PLACES);

    try_again(&units[DASH_2]); /* the others are a round ahead, and tell it so */
    try_again(&units[DASH_2]);

    for (int number = 0; number < UNITS; number++)
        must(memcmp(units[number].permanent.decisions, odometer, sizeof odometer) == 0, "the same decisions everywhere");
    printf("all three report 412077 for entry 1 and 430500 for entry 2\n");
    return 0;
}
