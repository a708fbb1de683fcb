/*
 * Two dashes and a brake box settle the mileage of one service on one bus.
 *
 * Both dashes propose, another mileage each, while the brake box's key is off, and the first round splits. In the second
 * the brake box's key goes off after its log write and before its CHECK leaves: one CHECK is on the bus, of the two that
 * are needed. After its key-on dash 1 proposes again. That FIRST makes the brake box send the CHECK that its log holds, and
 * all three report the same mileage. Dash 2 never gets a FIRST of dash 1.
 *
 * From the repository's root, after `make all`:
 *   cc -std=c99 -Iinclude examples/one_bus.c target/staticlib/libmileage.a -o target/one_bus && target/one_bus
 * or anywhere, after `make install`:
 *   cc -std=c99 one_bus.c $(pkg-config --cflags --libs mileage) -o one_bus && ./one_bus
 */
#include <stdbool.h>
#include <stdio.h>
#include <stdlib.h>
#include <string.h>

#include "mileage.h"

enum { DASH_1, DASH_2, BRAKE_BOX, UNITS, NOBODY };
enum { ENTRY = 7 };

/* One control unit, with its part in this one service entry. */
struct unit {
    const char *name;
    bool on;
    uint8_t permanent[MILEAGE_LOG_LENGTH]; /* the log: outlives the key; never lent itself, but as a copy */
    uint8_t image[MILEAGE_IMAGE_LENGTH];   /* working memory: lost with the key */
    bool cut;                              /* the key goes off before its next message leaves */
    uint32_t decision;                     /* firmware's to keep, as it keeps the log */
};

static struct unit units[UNITS] = {{.name = "dash 1"}, {.name = "dash 2"}, {.name = "brake box"}};

/* The bus: every message sent, and how many of them it has carried. */
enum { PLACES = 64 };
static uint8_t sent[PLACES][MILEAGE_MESSAGE_LENGTH];
static unsigned sent_count, carried;

static void must(bool holds, const char *what)
{
    if (!holds) {
        printf("FAILED: %s\n", what);
        exit(1);
    }
}

static void show(const uint8_t *message)
{
    uint32_t f[MILEAGE_MESSAGE_FIELDS];

    must(mileage_read_message(message, MILEAGE_MESSAGE_LENGTH, f, MILEAGE_MESSAGE_FIELDS) == MILEAGE_ACCEPTED, "a message");
    printf("%s", f[0] == 'F' ? "FIRST" : f[0] == 'C' ? "CHECK" : f[0] == 'S' ? "SECOND" : "SKIP");
    if (f[7] == MILEAGE_SPLIT)
        printf(" split");
    else if (f[7] != MILEAGE_BLANK)
        printf(" %lu", (unsigned long)f[7]);
    printf(" of round %lu", (unsigned long)f[6]);
}

/* Puts a unit's message on the bus; the empty message is none. */
static void send_out(const struct unit *unit, const uint8_t *message)
{
    static const uint8_t empty[MILEAGE_MESSAGE_LENGTH];

    if (memcmp(message, empty, sizeof empty) == 0)
        return;
    must(sent_count < PLACES, "a place on the bus");
    memcpy(sent[sent_count], message, sizeof empty);
    printf("  %s sends message %u: ", unit->name, sent_count++);
    show(message);
    printf("\n");
}

/* Permanent memory, to and from a copy in working memory, which is what the calls are lent. */
static void load_log(const struct unit *unit, uint8_t *log)
{
    memcpy(log, unit->permanent, MILEAGE_LOG_LENGTH);
}

/* In firmware as one piece: after a key-off the old log or the new one stands. */
static void save_log(struct unit *unit, const uint8_t *log)
{
    memcpy(unit->permanent, log, MILEAGE_LOG_LENGTH);
}

static void key_off(struct unit *unit)
{
    unit->on = false;
    memset(unit->image, 0, sizeof unit->image);
}

/* Once for each entry: the log goes to permanent memory. */
static void start(uint32_t number)
{
    struct unit *unit = &units[number];
    uint8_t log[MILEAGE_LOG_LENGTH];

    must(mileage_start('B', UNITS, number, ENTRY, log, sizeof log, unit->image, sizeof unit->image) == MILEAGE_ACCEPTED, "start");
    save_log(unit, log);
    unit->on = true;
    unit->decision = MILEAGE_BLANK;
}

/* After each key-on: the image is made of the log. */
static void key_on(struct unit *unit)
{
    uint8_t log[MILEAGE_LOG_LENGTH];

    load_log(unit, log);
    must(mileage_key_on(log, sizeof log, unit->image, sizeof unit->image) == MILEAGE_ACCEPTED, "key-on");
    unit->on = true;
    printf("%s: key on\n", unit->name);
}

/* A proposal writes no log: its message may leave at once. */
static void propose(struct unit *unit, uint32_t mileage)
{
    uint8_t log[MILEAGE_LOG_LENGTH], out[MILEAGE_MESSAGE_LENGTH];

    printf("%s proposes %lu\n", unit->name, (unsigned long)mileage);
    load_log(unit, log);
    must(mileage_propose(log, sizeof log, unit->image, sizeof unit->image, mileage, out, sizeof out) == MILEAGE_ACCEPTED,
         "propose");
    send_out(unit, out);
}

/* A message from the bus: the log is written first, then the answer leaves. */
static void deliver(struct unit *unit, const uint8_t *message)
{
    uint8_t log[MILEAGE_LOG_LENGTH], out[MILEAGE_MESSAGE_LENGTH];
    uint32_t number, decision;

    load_log(unit, log);
    number = mileage_deliver(log, sizeof log, unit->image, sizeof unit->image, message, MILEAGE_MESSAGE_LENGTH,
                             out, sizeof out, &decision);
    if (number == MILEAGE_MALFORMED_MESSAGE || number == MILEAGE_NOT_FOR_UNIT || number == MILEAGE_LAST_ROUND)
        return; /* nothing has changed; 5 is another unit's SKIP, or another entry's message */
    must(number == MILEAGE_ACCEPTED, "deliver");
    save_log(unit, log);
    if (unit->cut) {
        unit->cut = false;
        key_off(unit);
        printf("  %s: key off after its log write, before its message leaves\n", unit->name);
        return;
    }
    if (decision != MILEAGE_BLANK) {
        must(unit->decision == MILEAGE_BLANK || unit->decision == decision, "one decision");
        unit->decision = decision;
        printf("  %s decides %lu\n", unit->name, (unsigned long)decision);
    }
    send_out(unit, out);
}

/* The oldest message not yet carried goes to every unit that is on, its sender too, but not to the one that loses it. */
static void carry(int lost_by)
{
    const uint8_t *message = sent[carried];

    printf("the bus carries message %u: ", carried++);
    show(message);
    if (lost_by != NOBODY)
        printf(", lost on the way to %s", units[lost_by].name);
    printf("\n");
    for (int number = 0; number < UNITS; number++)
        if (units[number].on && number != lost_by)
            deliver(&units[number], message);
}

static void carry_the_rest(void)
{
    while (carried < sent_count)
        carry(NOBODY);
}

int main(void)
{
    must(mileage_version() == MILEAGE_VERSION, "the archive is of this header's version");
    for (uint32_t number = 0; number < UNITS; number++)
        start(number);

    key_off(&units[BRAKE_BOX]);
    propose(&units[DASH_1], 412077);
    propose(&units[DASH_2], 412080);
    carry(DASH_2);    /* so dash 2 goes by its own FIRST */
    carry_the_rest(); /* the CHECKs differ, so both dashes send split, and go on to round 1 */

    key_on(&units[BRAKE_BOX]);
    units[BRAKE_BOX].cut = true;
    propose(&units[DASH_1], 412077); /* some time later, without a decision: again */
    carry(DASH_2);    /* the brake box logs its estimate, and its CHECK is never sent */
    carry_the_rest(); /* dash 1's CHECK alone */

    key_on(&units[BRAKE_BOX]);
    propose(&units[DASH_1], 412077); /* some time later, without a decision: again */
    carry(DASH_2);    /* dash 1 sends its CHECK again, the brake box the one that never left */
    carry_the_rest();

    for (int number = 0; number < UNITS; number++)
        must(units[number].decision == 412077, "the same decision everywhere");
    printf("all three report 412077\n");
    return 0;
}
