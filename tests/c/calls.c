/*
 * The four calls of a unit (start, key-on, propose, deliver), called as firmware calls them.
 *
 * Rows made by hand after the scope paper, good calls changed in one place, every n and number of senders, every round,
 * and any bytes at all. Looked at each time: the number, the decision and every byte of every buffer. Each buffer is a heap
 * block of its own, so that under valgrind nothing outside it is read or written unseen.
 *
 * The argument, if there is one: of the long lists only every so-many-th is tried. Exit 0: all is as wanted.
 */
#include "lend.h"
#include "rows.h"
#include "rules.h"
#include "tallies.h"
#include "words.h"

/* Words and their bytes in full. */
static const struct { const char *log, *hex; } log_bytes[] = {
    {"B 3 0 7 0 - - -", "42 03 00 00 0007 0000 ffffffff ffffffff ffffffff"},
    {"R 16 15 4660 9029 1193046 7903932 -", "52 10 0f 00 1234 2345 00123456 00789abc ffffffff"},
    {"B 16 15 9999 9999 - 0 !", "42 10 0f 00 270f 270f ffffffff 00000000 fffffffe"},
};
static const struct { const char *message, *hex; } message_bytes[] = {
    {"S B 16 15 * 4660 9029 1193046 7903932", "53 42 10 0f ff 00 1234 2345 00123456 00789abc"},
    {"K R 3 1 2 7 4 - 412077", "4b 52 03 01 02 00 0007 0004 ffffffff 000649ad"},
    {NULL, "00 00 00 00 00 00 0000 0000 00000000 00000000"},
};
#define FF "ffffffff"
#define FF4 FF FF FF FF
#define FF16 FF4 FF4 FF4 FF4
static const struct { const char *image, *hex; } image_bytes[] = {
    {"B 3 0 7 0 - - -", "42 03 00 00 0007 0000" FF FF FF "0000" FF16 "0000" FF16},
    {"B 16 2 4660 9029 1193046 0 - C0=5 C8=412077 C15=99999999 S1=! S14=9",
     "42 10 02 00 1234 2345 00123456 00000000" FF
     "8101 00000005" FF4 FF FF FF "000649ad" FF4 FF FF "05f5e0ff"
     "4002" FF "fffffffe" FF4 FF4 FF4 "00000009" FF},
};

static void check_hex(const uint8_t *bytes, size_t count, const char *hex)
{
    unsigned byte;
    int used;

    for (const char *at = hex; count > 0; count--, at += used)
        if (sscanf(at, " %2x%n", &byte, &used) != 1 || byte != *bytes++)
            fail("words and bytes", hex);
}

static void check_words(void)
{
    uint8_t bytes[MILEAGE_IMAGE_LENGTH];

    for (size_t i = 0; i < COUNT(log_bytes); i++) {
        log_words(log_bytes[i].log, bytes);
        check_hex(bytes, MILEAGE_LOG_LENGTH, log_bytes[i].hex);
    }
    for (size_t i = 0; i < COUNT(message_bytes); i++) {
        message_words(message_bytes[i].message, bytes);
        check_hex(bytes, MILEAGE_MESSAGE_LENGTH, message_bytes[i].hex);
    }
    for (size_t i = 0; i < COUNT(image_bytes); i++) {
        image_words(image_bytes[i].image, bytes);
        check_hex(bytes, MILEAGE_IMAGE_LENGTH, image_bytes[i].hex);
    }
}

/* A row gives what it says. */
static void check_row(enum which which, const struct row *row)
{
    struct call before = row_call(which, row), wanted = row_wanted(row, &before);

    must_give(row->title, &before, &wanted);
}

static void check_rows(void)
{
    for (size_t table = 0; table < COUNT(tables); table++)
        for (size_t i = 0; i < tables[table].count; i++)
            check_row(tables[table].which, &tables[table].rows[i]);
}

/* Fresh units. Starting writes log and image; key-on of that log makes the same image. */
static void check_start(uint32_t engine, uint32_t n, uint32_t unit, uint32_t entry, uint32_t number)
{
    struct call before = new_call(START), wanted;
    char text[80];

    memcpy(before.given, (const uint32_t[]){engine, n, unit, entry}, sizeof before.given);
    for (unsigned choices = 1; choices < LENGTHS * LENGTHS; choices++) {
        set_lengths(&before, choices);
        must_answer("start, a wrong length", &before, MILEAGE_WRONG_LENGTH);
    }
    set_lengths(&before, 0);
    wanted = unchanged(&before, number);
    if (number == MILEAGE_ACCEPTED) {
        snprintf(text, sizeof text, "%c %lu %lu %lu 0 - - -", (int)engine, (unsigned long)n, (unsigned long)unit, (unsigned long)entry);
        log_words(text, wanted.bytes[LOG]);
        image_words(text, wanted.bytes[IMAGE]);
    }
    must_give("start", &before, &wanted);
}

/* Settings in range, and for each place values out of range. */
static const uint32_t good_settings[][GIVEN] = {
    {'B', 3, 0, 7}, {'R', 3, 2, 1}, {'B', 16, 0, 9999}, {'R', 16, 15, 256}, {'R', 10, 9, 255}
};
static const struct { int place; struct values values; } bad_settings[] = {
    {ENGINE, {VALUES(NO_ENGINE, 'B' + 256, 'R' + 256, BLANK)}}, {N, {VALUES(NO_N, 16 + 256, 3 + 65536)}},
    {UNIT, {VALUES(NOT_BELOW_16, 0 + 256)}}, {ENTRY, {VALUES(NO_ENTRY, 1 + 131072)}},
};

static void check_starts(void)
{
    for (size_t i = 0; i < COUNT(good_settings); i++) {
        const uint32_t *g = good_settings[i];

        check_start(g[ENGINE], g[N], g[UNIT], g[ENTRY], 0);
        check_start(g[ENGINE], g[N], g[N], g[ENTRY], 2);
        check_start(g[ENGINE], g[UNIT], g[UNIT], g[ENTRY], 2);
        for (size_t k = 0; k < COUNT(bad_settings); k++)
            for (size_t v = 0; v < bad_settings[k].values.count; v++) {
                uint32_t given[GIVEN];

                memcpy(given, g, sizeof given);
                given[bad_settings[k].place] = bad_settings[k].values.values[v];
                check_start(given[ENGINE], given[N], given[UNIT], given[ENTRY], 2);
            }
    }
    for (uint32_t n = 0; n <= 18; n++)
        for (uint32_t unit = 0; unit <= 18; unit++)
            check_start(n % 2 ? 'B' : 'R', n, unit, 1 + n * unit, n >= 3 && n <= 16 && unit < n ? 0 : 2);
}

/* Key-on: the image of the log, whatever the image held. */
static void check_key_ons(void)
{
    static const char *const logs[] = {
        "B 3 0 7 0 - - -", "B 3 1 7 4 9 8 6", "B 3 1 7 4 9 - 6", "B 3 1 7 4 - 8 !", "R 16 15 9999 9999 - 0 -", "R 4 2 1 256 5 - -",
        "B 3 1 7 4 10000000 10000000 10000000", "R 16 15 9999 9999 99999999 10000000 -", "B 5 0 1 255 9 99999999 99999999",
    };

    for (size_t i = 0; i < COUNT(logs); i++) {
        struct call before = new_call(KEY_ON), wanted;

        log_words(logs[i], before.bytes[LOG]);
        for (unsigned choices = 1; choices < LENGTHS * LENGTHS; choices++) {
            set_lengths(&before, choices);
            must_answer("key_on, a wrong length", &before, MILEAGE_WRONG_LENGTH);
        }
        set_lengths(&before, 0);
        wanted = before;
        wanted.number = 0;
        image_words(logs[i], wanted.bytes[IMAGE]);
        must_give("key_on", &before, &wanted);
    }
}

/* A SKIP, in each round: to a unit in that round, to one below and to one above. Each number is the entry too. */
static void check_skip(uint32_t round, uint32_t ours)
{
    struct call before = new_call(DELIVER), wanted;
    unsigned long entry = round > 0 ? round : 9999;
    char text[80];

    snprintf(text, sizeof text, "B 3 1 %lu %lu 9 - - S0=5", entry, (unsigned long)ours);
    log_words(text, before.bytes[LOG]);
    image_words(text, before.bytes[IMAGE]);
    snprintf(text, sizeof text, "K B 3 2 1 %lu %lu - 6", entry, (unsigned long)round);
    message_words(text, before.bytes[MESSAGE]);
    wanted = unchanged(&before, MILEAGE_ACCEPTED);
    snprintf(text, sizeof text, "B 3 1 %lu %lu 6 - -", entry, (unsigned long)round);
    if (round > ours)
        image_words(text, wanted.bytes[IMAGE]);
    snprintf(text, sizeof text, "K B 3 1 2 %lu %lu - 9", entry, (unsigned long)ours);
    if (round < ours)
        message_words(text, wanted.bytes[OUT]);
    must_give("each round", &before, &wanted);
}

static void check_rounds(void)
{
    for (uint32_t round = 0; round <= 9999; round += every) {
        check_skip(round, round);
        if (round > 0)
            check_skip(round, round - 1);
        if (round < 9999)
            check_skip(round, round + 1);
    }
}

/* Any bytes of any length: a good call with bytes changed, or noise. Whatever it answers, it keeps what an answer promises. */
static void check_anything(uint32_t calls)
{
    for (uint32_t i = 0; i < calls; i++) {
        struct call before = base_call(below(CALLS), below(COUNT(bases))), given;

        before.given[N] = below(20);
        set_lengths(&before, below(3) ? 0 : below(LENGTHS * LENGTHS * LENGTHS * LENGTHS));
        for (uint32_t hits = one_of(VALUES(0, 1, 1, 2, 400)); hits > 0; hits--)
            before.bytes[below(BUFFERS)][below(ROOM)] = (uint8_t)below(256);
        given = after(before);
        if (given.number > 7 || (given.number != MILEAGE_ACCEPTED && !(rights[before.which].numbers >> given.number & 1)))
            fail("any bytes", "a number that is not this call's");
        must_answer("any bytes", &before, given.number);
    }
}

int main(int argc, char **argv)
{
    if (argc > 1)
        every = (uint32_t)strtoul(argv[1], NULL, 10);
    if (every == 0)
        fail("argument", "not a number from 1 on");
    check_words();
    check_starts();
    check_key_ons();
    check_rows();
    check_each_length();
    check_lengths();
    check_rules();
    check_marks();
    check_order();
    check_rounds();
    check_tallies();
    check_anything(200000 / every + 1000);
    printf("calls: %lu calls, all as wanted\n", by_hand);
    return 0;
}
