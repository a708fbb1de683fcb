/*
 * The four calls on a card (start, key-on, propose, deliver), called as firmware calls them.
 *
 * Each refusal in its order, counts and row numbers at their limits, each of a row's fifty numbers damaged; the calls by
 * hand of a unit (rows.h, rules.h) on a row, at several places of cards of several sizes; whole entries on cards, step by
 * step beside the unit calls (card_bus.h). Looked at each time: the number, the decision, both messages and every number of
 * every row. Each buffer ends with a heap block of its own, so that under valgrind nothing behind it is read or written
 * unseen; it may stand at an odd address.
 *
 * The argument, if there is one: of the long lists only every so-many-th is tried. Exit 0: all is as wanted.
 */
#include "card_bus.h"
#include "card_order.h"
#include "cards.h"
#include "rows.h"
#include "rules.h"

/* Where a row stands: the first and the last of small cards and of the largest, and one in between. */
static const struct { size_t count; uint32_t row; } stands[] = {{1, 1}, {2, 1}, {2, 2}, {8, 7}, {64, 1}, {64, 63}, {64, 64}};

/* A unit's entry becomes the row's number, in every buffer where it stands. */
static void set_entry(struct call *call, uint32_t from, uint32_t to)
{
    static const size_t at[BUFFERS] = {[LOG] = 4, [IMAGE] = 4, [MESSAGE] = 6, [OUT] = 6};

    for (int buffer = 0; buffer < BUFFERS; buffer++)
        if (get(call->bytes[buffer] + at[buffer], 2) == from)
            put(call->bytes[buffer] + at[buffer], 2, to);
}

/* A row by hand gives on a card what it says; a message of another entry meets no row, or one that is not started. */
static void check_row(enum which which, const struct row *row, size_t count, uint32_t k)
{
    struct call unit = row_call(which, row), unit_wanted = row_wanted(row, &unit);
    uint32_t entry = get(unit.bytes[IMAGE] + 4, 2);
    struct card_call before, wanted;

    set_entry(&unit, entry, k);
    set_entry(&unit_wanted, entry, k);
    before = card_call_of(&unit, count, k);
    wanted = card_wanted(&before, which == DELIVER ? delivered_number(before.message, count, k, row->number) : row->number, &unit_wanted);
    card_must_give(row->title, &before, &wanted);
}

static void check_rows_at(size_t count, uint32_t k)
{
    for (size_t table = 0; table < COUNT(tables); table++)
        for (size_t i = 0; i < tables[table].count; i++)
            check_row(tables[table].which, &tables[table].rows[i], count, k);
}

/* The place in a row of a byte of the log or image; of the message's bytes none has one, and no zero byte. */
enum { NO_PLACE = MILEAGE_ROW_NUMBERS };
static size_t place_of(int buffer, size_t at)
{
    static const uint8_t places[] = {[0] = 0, [1] = 1, [2] = 2, [4] = 3, [6] = 4, [8] = 5, [12] = 6, [16] = 7};

    if (buffer == MESSAGE || at == 3)
        return NO_PLACE;
    if (at < 20)
        return places[at] + (buffer == IMAGE ? IMAGE_PLACE : 0);
    return at < 86 ? CHECKS_PLACE + (at == 20 ? 0 : 1 + (at - 22) / 4) : SECONDS_PLACE + (at == 86 ? 0 : 1 + (at - 88) / 4);
}

/* The number that a change of rules.h is answered with on a card: key-on sees of it a log malformed or of other settings. */
static uint32_t ruled_number(const struct rule *rule, enum which which, const struct card_call *call)
{
    bool named = place_of(rule->buffer, rule->at) < 4;

    if (which == DELIVER)
        return delivered_number(call->message, call->count, call->row, rule->number);
    if (which == START || rule->buffer == MESSAGE)
        return MILEAGE_ACCEPTED;
    if (which == PROPOSE)
        return rule->number;
    return rule->buffer == LOG && (rule->number == MILEAGE_MALFORMED_LOG || named) ? rule->number : MILEAGE_ACCEPTED;
}

/* The call gives this number, and what the same call of the unit by itself leaves. */
static void must_be_as_unit(const char *title, const struct card_call *before, uint32_t number, struct call unit)
{
    struct card_call wanted;

    if (before->which == START)
        memcpy(unit.given, (const uint32_t[]){before->engine, before->n, before->unit, before->row}, sizeof unit.given);
    unit = after(unit);
    wanted = card_wanted(before, number, &unit);
    card_must_give(title, before, &wanted);
}

/* A good row or message with a value in one place. One too large for a unit's bytes is tried too, if the place is a row's. */
static void check_ruled(const struct rule *rule, size_t base, uint32_t value, enum which which)
{
    struct call unit = base_call(which, base);
    struct card_call before = card_call_of(&unit, 8, 7);
    size_t place = place_of(rule->buffer, rule->at);

    put(unit.bytes[rule->buffer] + rule->at, rule->width, value);
    memcpy(before.message, unit.bytes[MESSAGE], MESSAGE_ROOM);
    if (place != NO_PLACE)
        set_number(&before.rows[6], place, value);
    must_be_as_unit("a value in one place", &before, ruled_number(rule, which, &before), unit);
}

static void check_rule_on_card(const struct rule *rule, size_t base)
{
    bool of_message = rule->buffer == MESSAGE, of_row = place_of(rule->buffer, rule->at) != NO_PLACE;

    for (size_t v = 0; v < rule->values.count; v++)
        for (enum which which = START; which < CALLS; which++)
            if (of_row || (of_message && (uint64_t)rule->values.values[v] >> 8 * rule->width == 0))
                check_ruled(rule, base, rule->values.values[v], which);
}

static void check_rules_on_card(void)
{
    for (size_t base = 0; base < COUNT(bases); base++)
        for (size_t i = 0; i < COUNT(rules); i++)
            if (rules[i].bases >> base & 1)
                check_rule_on_card(&rules[i], base);
}

/* A number of a good row becomes this one. Start takes it; key-on does where it is not the log's; the others refuse it. */
static void check_number(enum which which, size_t base, size_t place, uint32_t value)
{
    struct call unit = base_call(which, base);
    struct card_call before = card_call_of(&unit, 7, 7);

    set_number(&before.rows[6], place, value);
    if (which == START || (which == KEY_ON && place >= IMAGE_PLACE))
        must_be_as_unit("a number that is not read", &before, MILEAGE_ACCEPTED, unit);
    else
        card_must_refuse("a number damaged", &before, place < IMAGE_PLACE ? MILEAGE_MALFORMED_LOG : MILEAGE_UNFIT_IMAGE);
}

static void check_damaged(size_t base, size_t place, uint32_t value)
{
    for (enum which which = START; which < CALLS; which++)
        check_number(which, base, place, value);
}

static void check_values(size_t base, size_t place, const uint32_t *values, size_t count)
{
    for (size_t v = 0; v < count; v++)
        check_damaged(base, place, values[v]);
}

/* Settings, rounds and marks, right if cut to their bytes; every other place has a mileage, which can be too large. */
static void check_wide(size_t base, size_t place, uint32_t good)
{
    bool of_contents = place < CHECKS_PLACE;

    if (of_contents && place % IMAGE_PLACE < 3)
        check_values(base, place, VALUES(good + 256, good + 512, good + 32768));
    if (place == CHECKS_PLACE || place == SECONDS_PLACE || (of_contents && place % IMAGE_PLACE < 5))
        check_values(base, place, VALUES(good + 65536, good + 131072, good + 16777216, good + UINT32_C(2147483648)));
    else
        check_values(base, place, VALUES(NO_MILEAGE));
}

/* An estimate that is marked is not blank; one that is not marked is nothing else. */
static void check_estimates(size_t base, const mileage_row *good, size_t marks)
{
    for (size_t unit = 0; unit < 16; unit++)
        if (number_of(good, marks) >> unit & 1)
            check_damaged(base, marks + 1 + unit, BLANK);
        else
            check_values(base, marks + 1 + unit, VALUES(MILEAGES, SPLIT));
}

/* Every other set of marks is malformed, for a delivery. */
static void check_other_marks(size_t base, size_t place, uint32_t good)
{
    for (uint32_t marks = 0; marks < 65536; marks += every)
        if (marks != good)
            check_number(DELIVER, base, place, marks);
}

static void check_fifty(size_t base)
{
    struct call unit = base_call(DELIVER, base);
    mileage_row good = row_of(unit.bytes[LOG], unit.bytes[IMAGE]);

    for (size_t place = 0; place < MILEAGE_ROW_NUMBERS; place++)
        check_wide(base, place, number_of(&good, place));
    check_estimates(base, &good, CHECKS_PLACE);
    check_estimates(base, &good, SECONDS_PLACE);
    check_other_marks(base, CHECKS_PLACE, good.checks.marks);
    check_other_marks(base, SECONDS_PLACE, good.seconds.marks);
}

/* A row of B, n = 3, unit 1, beside other settings, in range or not, is refused; but a start takes it. */
static void check_row_beside(const char *row, uint32_t engine, uint32_t n, uint32_t unit, uint32_t number)
{
    for (enum which which = START; which < CALLS; which++) {
        struct call bytes = base_call(which, 0);
        struct card_call before;

        log_words(row, bytes.bytes[LOG]);
        image_words(row, bytes.bytes[IMAGE]);
        before = card_call_of(&bytes, 64, 7);
        before.engine = engine;
        before.n = n;
        before.unit = unit;
        if (number == MILEAGE_ACCEPTED || (which == START && number == MILEAGE_UNFIT_IMAGE))
            card_must_accept("settings beside the card", &before);
        else
            card_must_refuse("settings beside the card", &before, number);
    }
}

/* A fresh row would be well-formed with any settings in range; the other one with few. */
static void check_beside(uint32_t engine, uint32_t n, uint32_t unit, uint32_t number)
{
    check_row_beside("B 3 1 7 0 - - -", engine, n, unit, number);
    check_row_beside("B 3 1 7 4 9 412077 - C0=5 S2=!", engine, n, unit, number);
}

static void check_settings(void)
{
    static const uint32_t no_engine[] = {NO_ENGINE, 'B' + 256, BLANK}, no_n[] = {NO_N, 3 + 65536}, no_unit[] = {NOT_BELOW_3, 1 + 256};

    check_beside('B', 3, 1, MILEAGE_ACCEPTED);
    check_beside('R', 3, 1, MILEAGE_UNFIT_IMAGE);
    check_beside('B', 3, 0, MILEAGE_UNFIT_IMAGE);
    check_beside('B', 3, 2, MILEAGE_UNFIT_IMAGE);
    for (size_t v = 0; v < COUNT(no_engine); v++)
        check_beside(no_engine[v], 3, 1, MILEAGE_MALFORMED_LOG);
    for (size_t v = 0; v < COUNT(no_n); v++)
        check_beside('B', no_n[v], 1, MILEAGE_MALFORMED_LOG);
    for (size_t v = 0; v < COUNT(no_unit); v++)
        check_beside('B', 3, no_unit[v], MILEAGE_MALFORMED_LOG);
    for (uint32_t n = 4; n <= 16; n++)
        check_beside('B', n, 1, MILEAGE_UNFIT_IMAGE);
}

/* A whole row of one entry, standing in the place of another. */
static void check_moved(uint32_t k)
{
    for (enum which which = START; which < CALLS; which++) {
        struct call unit = base_call(which, 0);
        struct card_call before = card_call_of(&unit, 64, k);

        put(before.message + 6, 2, k);
        if (k == 7 || which == START)
            card_must_accept("a row in its own place", &before);
        else
            card_must_refuse("a row in another's place", &before, MILEAGE_UNFIT_IMAGE);
    }
}

/* A start: whatever stood in the row, it becomes the fresh one, as the unit call makes it. */
static void check_starts(void)
{
    for (uint32_t n = 0; n <= 18; n++)
        for (uint32_t unit = 0; unit <= 18; unit++) {
            struct call fresh = new_call(START);
            struct card_call before = new_card_call(START, 64, 1 + below(64)), wanted;

            before.engine = n % 2 ? 'B' : 'R';
            before.n = n;
            before.unit = unit;
            memcpy(fresh.given, (const uint32_t[]){before.engine, n, unit, before.row}, sizeof fresh.given);
            fresh = after(fresh);
            wanted = card_wanted(&before, n >= 3 && n <= 16 && unit < n ? 0 : 2, &fresh);
            card_must_give("start", &before, &wanted);
        }
}

/* Key-on: the image of the log, whatever stood in the image, marks and estimates. */
static void check_key_ons(void)
{
    static const char *const logs[] = {
        "B 3 0 7 0 - - -", "B 3 1 7 4 9 8 6", "B 3 1 7 4 9 - 6", "B 3 1 7 4 - 8 !", "R 16 15 7 9999 - 0 -", "R 4 2 7 256 5 - -",
        "B 3 1 7 4 10000000 10000000 10000000", "R 16 15 7 9999 99999999 10000000 -", "B 5 0 7 255 9 99999999 99999999",
    };

    for (size_t i = 0; i < COUNT(logs); i++) {
        struct call unit = new_call(KEY_ON);
        struct card_call before = new_card_call(KEY_ON, 7, 7), wanted;

        log_words(logs[i], unit.bytes[LOG]);
        image_words(logs[i], unit.bytes[IMAGE]);
        before.rows[6].log = contents_of(unit.bytes[LOG]);
        before.engine = before.rows[6].log.engine;
        before.n = before.rows[6].log.n;
        before.unit = before.rows[6].log.unit;
        wanted = card_wanted(&before, MILEAGE_ACCEPTED, &unit);
        card_must_give("key_on", &before, &wanted);
    }
}

int main(int argc, char **argv)
{
    if (argc > 1)
        every = (uint32_t)strtoul(argv[1], NULL, 10);
    if (every == 0)
        fail("argument", "not a number from 1 on");
    check_starts();
    check_key_ons();
    check_settings();
    for (uint32_t k = 1; k <= 64; k++)
        check_moved(k);
    check_counts();
    check_row_numbers();
    check_card_order(20000 / every + 500);
    for (size_t i = 0; i < COUNT(stands); i++)
        check_rows_at(stands[i].count, stands[i].row);
    check_rules_on_card();
    for (size_t base = 0; base < COUNT(bases); base++)
        check_fifty(base);
    check_example_on_cards();
    check_histories(500 / every + 20);
    printf("card: %lu calls on cards, all as wanted; in histories %lu decisions and %lu votes sent again\n", card_calls, decisions,
           votes_again);
    return 0;
}
