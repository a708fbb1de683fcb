/*
 * Good calls changed in one place or in several: which number each change is answered with, and that the lowest wins.
 */
#ifndef RULES_H
#define RULES_H

#include "lend.h"
#include "words.h"

/* Of the long lists every so-many-th is tried. */
static uint32_t every = 1;

/* Good calls that the rules below change in one place. Rules name sets of them: 1 is the first, 2 the second. */
enum { B_CHECKS = 1, B_SECOND = 2, R_3 = 4, B_16 = 8, R_16 = 16, B_LATE = 32, R_LATE = 64, K_B = 128, K_R = 256, ALL = 511 };
static const struct { const char *log, *image, *message; } bases[] = {
    {"B 3 1 7 4 9 412077 -", "B 3 1 7 4 6 412077 - C0=5 S2=!", "F B 3 0 * 7 4 412077 412077"},
    {"B 3 1 7 4 9 - 412077", "B 3 1 7 4 6 - 412077 S2=5", "S B 3 0 * 7 4 ! 9"},
    {"R 3 1 7 4 9 412077 -", "R 3 1 7 4 6 412077 - S0=5 S2=6", "S R 3 1 * 7 4 5 -"},
    {"B 16 15 7 4 - 412077 -", "B 16 15 7 4 - 412077 - C0=5 C9=5 S2=! S15=5", "C B 16 10 * 7 4 412077 412077"},
    {"R 16 15 7 4 - 412077 -", "R 16 15 7 4 - 412077 - S0=5 S9=6", "S R 16 10 * 7 4 412077 9"},
    {"B 3 1 7 4 9 5 !", "B 3 1 7 300 6 - - C0=5 S2=!", "C B 3 0 * 7 300 412077 412077"},
    {"R 3 1 7 4 9 5 -", "R 3 1 7 300 6 - - S0=5 S2=5", "F R 3 1 * 7 300 412077 412077"},
    {"B 3 1 7 4 9 5 -", "B 3 1 7 4 6 5 - C0=5 S2=!", "K B 3 0 1 7 9 - 412077"},
    {"R 16 15 7 4 9 5 -", "R 16 15 7 4 6 5 - S0=5 S2=5", "K R 16 0 15 7 9 - 412077"},
};
enum { B_BASES = B_CHECKS | B_SECOND | B_16 | B_LATE | K_B, LATE = B_LATE | R_LATE, IN_TIME = ALL - LATE };
enum { OF_3 = ALL - B_16 - R_16 - K_R, OF_16 = B_16 | R_16 | K_R, HAS_F = B_CHECKS | R_LATE, HAS_C = B_16 | B_LATE };
enum { HAS_S = B_SECOND | R_3 | R_16, HAS_K = K_B | K_R };

/* A rule: with one of these values in this place of these bases, the answer is the number. */
static const struct rule {
    uint32_t bases;
    int buffer;
    size_t at, width;
    uint32_t number;
    struct values values;
} rules[] = {
    {ALL, LOG, 0, 1, 2, {VALUES(NO_ENGINE)}},
    {B_CHECKS | B_16 | K_B, LOG, 0, 1, 3, {VALUES('R')}},
    {B_SECOND | B_LATE, LOG, 0, 1, 2, {VALUES('R')}},
    {R_3 | R_16 | R_LATE | K_R, LOG, 0, 1, 3, {VALUES('B')}},
    {ALL, LOG, 1, 1, 2, {VALUES(NO_N)}},
    {OF_3, LOG, 1, 1, 3, {VALUES(4, 5, 16)}},
    {OF_16, LOG, 1, 1, 2, {VALUES(15, 3)}},
    {OF_3, LOG, 2, 1, 2, {VALUES(NOT_BELOW_3)}},
    {OF_16, LOG, 2, 1, 2, {VALUES(NOT_BELOW_16)}},
    {ALL, LOG, 2, 1, 3, {VALUES(0, 2)}},
    {ALL, LOG, 3, 1, 2, {VALUES(1, 128, 255)}},
    {ALL, LOG, 4, 2, 2, {VALUES(NO_ENTRY)}},
    {ALL, LOG, 4, 2, 3, {VALUES(ENTRIES, 6, 8, 7 + 256)}},
    {ALL, LOG, 6, 2, 2, {VALUES(NO_ROUND)}},
    {IN_TIME, LOG, 6, 2, 3, {VALUES(ROUNDS, 3, 5, 4 + 256)}},
    {LATE, LOG, 6, 2, 3, {VALUES(300, 301, 511, 512, 9999)}},
    {LATE, LOG, 6, 2, 0, {VALUES(0, 3, 255, 256, 299)}},
    {ALL, LOG, 8, 4, 0, {VALUES(MILEAGES, BLANK)}},
    {ALL, LOG, 8, 4, 2, {VALUES(NO_MILEAGE, SPLIT)}},
    {ALL, LOG, 12, 4, 2, {VALUES(NO_MILEAGE, SPLIT)}},
    {IN_TIME - B_SECOND, LOG, 12, 4, 3, {VALUES(MILEAGES, BLANK, 6, 412076, 412077 + 65536)}},
    {B_SECOND, LOG, 12, 4, 3, {VALUES(MILEAGES)}},
    {LATE, LOG, 12, 4, 0, {VALUES(MILEAGES, BLANK)}},
    {B_BASES, LOG, 16, 4, 2, {VALUES(NO_MILEAGE)}},
    {ALL - B_BASES, LOG, 16, 4, 2, {VALUES(MILEAGES, NO_MILEAGE, SPLIT)}},
    {B_CHECKS | B_SECOND | B_16 | K_B, LOG, 16, 4, 3, {VALUES(MILEAGES, SPLIT)}},
    {B_SECOND, LOG, 16, 4, 3, {VALUES(BLANK)}},
    {B_LATE, LOG, 16, 4, 0, {VALUES(MILEAGES, SPLIT, BLANK)}},

    {ALL, IMAGE, 0, 1, 3, {VALUES(NO_ENGINE)}},
    {B_BASES, IMAGE, 0, 1, 3, {VALUES('R')}},
    {ALL - B_BASES, IMAGE, 0, 1, 3, {VALUES('B')}},
    {OF_3, IMAGE, 1, 1, 3, {VALUES(NO_N, 4, 5, 16)}},
    {OF_16, IMAGE, 1, 1, 3, {VALUES(NO_N, 3, 15)}},
    {OF_3, IMAGE, 2, 1, 3, {VALUES(NOT_BELOW_3, 0, 2)}},
    {OF_16, IMAGE, 2, 1, 3, {VALUES(NOT_BELOW_16, 0, 14)}},
    {ALL, IMAGE, 3, 1, 3, {VALUES(1, 128, 255)}},
    {ALL, IMAGE, 4, 2, 3, {VALUES(NO_ENTRY, ENTRIES, 6, 8, 7 + 256)}},
    {ALL, IMAGE, 6, 2, 3, {VALUES(NO_ROUND, 0, 3)}},
    {IN_TIME, IMAGE, 6, 2, 3, {VALUES(5, 255, 256, 4 + 256, 9999)}},
    {LATE, IMAGE, 6, 2, 0, {VALUES(5, 255, 256, 299, 301, 9998)}},
    {LATE, IMAGE, 6, 2, 3, {VALUES(4)}},
    {ALL, IMAGE, 8, 4, 0, {VALUES(MILEAGES, BLANK)}},
    {ALL, IMAGE, 8, 4, 3, {VALUES(NO_MILEAGE, SPLIT)}},
    {IN_TIME - B_SECOND, IMAGE, 12, 4, 3, {VALUES(MILEAGES, NO_MILEAGE, SPLIT, BLANK, 6, 412076)}},
    {B_SECOND | LATE, IMAGE, 12, 4, 3, {VALUES(MILEAGES, NO_MILEAGE, SPLIT, 5)}},
    {ALL - B_SECOND, IMAGE, 16, 4, 3, {VALUES(MILEAGES, NO_MILEAGE, SPLIT)}},
    {B_SECOND, IMAGE, 16, 4, 3, {VALUES(MILEAGES, NO_MILEAGE, SPLIT, BLANK)}},
    {B_CHECKS | B_16 | B_LATE | K_B, IMAGE, 22, 4, 0, {VALUES(MILEAGES)}},
    {B_CHECKS | B_16 | B_LATE | K_B, IMAGE, 22, 4, 3, {VALUES(NO_MILEAGE, SPLIT, BLANK)}},
    {ALL, IMAGE, 26, 4, 3, {VALUES(MILEAGES, NO_MILEAGE, SPLIT)}},
    {ALL, IMAGE, 82, 4, 3, {VALUES(MILEAGES, NO_MILEAGE, SPLIT)}},
    {ALL, IMAGE, 92, 4, 3, {VALUES(MILEAGES, NO_MILEAGE, SPLIT)}},
    {ALL - B_16, IMAGE, 148, 4, 3, {VALUES(MILEAGES, NO_MILEAGE, SPLIT)}},
    {B_16, IMAGE, 148, 4, 0, {VALUES(MILEAGES, SPLIT)}},
    {B_16, IMAGE, 148, 4, 3, {VALUES(NO_MILEAGE, BLANK)}},
    {B_BASES, IMAGE, 96, 4, 0, {VALUES(MILEAGES, SPLIT)}},
    {B_BASES, IMAGE, 96, 4, 3, {VALUES(NO_MILEAGE, BLANK)}},
    {ALL - B_BASES - R_16, IMAGE, 96, 4, 0, {VALUES(MILEAGES)}},
    {ALL - B_BASES - R_16, IMAGE, 96, 4, 3, {VALUES(NO_MILEAGE, SPLIT, BLANK)}},

    {ALL, MESSAGE, 0, 1, 4, {VALUES(NO_KIND)}},
    {HAS_F | HAS_C, MESSAGE, 0, 1, 4, {VALUES('K')}},
    {HAS_S, MESSAGE, 0, 1, 4, {VALUES('F', 'C', 'K')}},
    {HAS_K, MESSAGE, 0, 1, 4, {VALUES('F', 'C', 'S')}},
    {R_LATE, MESSAGE, 0, 1, 4, {VALUES('C')}},
    {HAS_F, MESSAGE, 0, 1, 0, {VALUES('S')}},
    {HAS_C | B_CHECKS, MESSAGE, 0, 1, 0, {VALUES('F', 'C', 'S')}},
    {ALL, MESSAGE, 1, 1, 4, {VALUES(NO_ENGINE)}},
    {HAS_C | B_SECOND, MESSAGE, 1, 1, 4, {VALUES('R')}},
    {B_CHECKS | K_B, MESSAGE, 1, 1, 5, {VALUES('R')}},
    {ALL - B_BASES, MESSAGE, 1, 1, 5, {VALUES('B')}},
    {ALL, MESSAGE, 2, 1, 4, {VALUES(NO_N)}},
    {OF_3, MESSAGE, 2, 1, 5, {VALUES(4, 16)}},
    {B_16 | R_16, MESSAGE, 2, 1, 5, {VALUES(11, 15)}},
    {B_16 | R_16, MESSAGE, 2, 1, 4, {VALUES(3, 10)}},
    {K_R, MESSAGE, 2, 1, 4, {VALUES(3, 15)}},
    {OF_3, MESSAGE, 3, 1, 4, {VALUES(NOT_BELOW_3)}},
    {OF_16, MESSAGE, 3, 1, 4, {VALUES(NOT_BELOW_16)}},
    {OF_3, MESSAGE, 3, 1, 0, {VALUES(0, 1)}},
    {OF_16, MESSAGE, 3, 1, 0, {VALUES(0, 7, 8, 15)}},
    {ALL - HAS_K, MESSAGE, 4, 1, 4, {VALUES(254, 0, 1, 2, 15)}},
    {K_B, MESSAGE, 4, 1, 4, {VALUES(NOT_BELOW_3)}},
    {K_R, MESSAGE, 4, 1, 4, {VALUES(NOT_BELOW_16)}},
    {HAS_K, MESSAGE, 4, 1, 5, {VALUES(0, 2)}},
    {ALL, MESSAGE, 5, 1, 4, {VALUES(1, 128, 255)}},
    {ALL, MESSAGE, 6, 2, 4, {VALUES(NO_ENTRY)}},
    {ALL, MESSAGE, 6, 2, 5, {VALUES(ENTRIES, 6, 8, 7 + 256)}},
    {ALL, MESSAGE, 8, 2, 4, {VALUES(NO_ROUND)}},
    {ALL, MESSAGE, 8, 2, 0, {VALUES(ROUNDS, 3, 4, 5, 299, 300, 301)}},
    {HAS_F | HAS_C, MESSAGE, 10, 4, 4, {VALUES(NOT_412077)}},
    {HAS_F | HAS_C, MESSAGE, 14, 4, 4, {VALUES(NOT_412077)}},
    {HAS_S, MESSAGE, 10, 4, 0, {VALUES(MILEAGES)}},
    {B_SECOND, MESSAGE, 10, 4, 0, {VALUES(SPLIT)}},
    {R_3 | R_16, MESSAGE, 10, 4, 4, {VALUES(SPLIT)}},
    {HAS_S, MESSAGE, 10, 4, 4, {VALUES(NO_MILEAGE, BLANK)}},
    {HAS_K, MESSAGE, 10, 4, 4, {VALUES(MILEAGES, NO_MILEAGE, SPLIT)}},
    {HAS_S | HAS_K, MESSAGE, 14, 4, 0, {VALUES(MILEAGES, BLANK)}},
    {HAS_S | HAS_K, MESSAGE, 14, 4, 4, {VALUES(NO_MILEAGE, SPLIT)}},
};

static inline struct call base_call(enum which which, size_t base)
{
    struct call call = new_call(which);

    log_words(bases[base].log, call.bytes[LOG]);
    image_words(bases[base].image, call.bytes[IMAGE]);
    message_words(bases[base].message, call.bytes[MESSAGE]);
    call.given[MILEAGE] = 99999999;
    return call;
}

/* A call that may not answer with a number does not look there, and accepts. */
static inline void check_rule(const struct rule *rule, size_t base)
{
    char title[80];

    for (size_t v = 0; v < rule->values.count; v++) {
        uint32_t value = rule->values.values[v];

        if ((uint64_t)value >> 8 * rule->width != 0)
            continue;
        snprintf(title, sizeof title, "base %lu, %s byte %lu with %lu", (unsigned long)base, buffer_names[rule->buffer],
                 (unsigned long)rule->at, (unsigned long)value);
        for (enum which which = KEY_ON; which < CALLS; which++) {
            struct call before = base_call(which, base);

            put(before.bytes[rule->buffer] + rule->at, rule->width, value);
            must_answer(title, &before, rights[which].numbers >> rule->number & 1 ? rule->number : 0);
        }
    }
}

static inline void check_rules(void)
{
    for (size_t base = 0; base < COUNT(bases); base++)
        for (size_t i = 0; i < COUNT(rules); i++)
            if (rules[i].bases >> base & 1)
                check_rule(&rules[i], base);
}

/* Every other set of marks is malformed: a mark without estimate, or an estimate without mark. */
static inline void check_marks(void)
{
    for (size_t base = 0; base < COUNT(bases); base++)
        for (size_t tally = 20; tally <= 86; tally += 66) {
            struct call before = base_call(DELIVER, base);
            uint8_t *marks = before.bytes[IMAGE] + tally;
            uint32_t good = (uint32_t)marks[0] * 256 + marks[1];

            for (uint32_t other = 0; other < 65536; other += every) {
                put(marks, 2, other);
                must_answer("other marks", &before, other == good ? 0 : 3);
            }
        }
}

/* One buffer has a wrong length, each in turn. */
static inline void check_each_length(void)
{
    for (enum which which = KEY_ON; which < CALLS; which++)
        for (unsigned buffer = 0, place = 1; buffer < BUFFERS; buffer++, place *= LENGTHS)
            for (unsigned choice = 1; choice < LENGTHS; choice++) {
                struct call before = base_call(which, 0);

                set_lengths(&before, choice * place);
                must_answer("one length", &before, rights[which].lent >> buffer & 1 ? MILEAGE_WRONG_LENGTH : MILEAGE_ACCEPTED);
            }
}

/* Each set of lengths, right and wrong. */
static inline void check_lengths(void)
{
    for (size_t base = 0; base < COUNT(bases); base++)
        for (enum which which = KEY_ON; which < CALLS; which++)
            for (unsigned choices = 0; choices < LENGTHS * LENGTHS * LENGTHS * LENGTHS; choices += every) {
                struct call before = base_call(which, base);
                bool right = true;

                set_lengths(&before, choices);
                for (int buffer = 0; buffer < BUFFERS; buffer++)
                    right = right && (before.length[buffer] == right_length[buffer] || !(rights[which].lent >> buffer & 1));
                must_answer("lengths", &before, right ? MILEAGE_ACCEPTED : MILEAGE_WRONG_LENGTH);
            }
}

/* Faults, each with its number: a wrong length of a buffer, or a byte in it. */
static const struct fault {
    uint32_t number;
    int buffer;
    size_t at;
    uint8_t byte;
} faults[] = {
    {1, LOG, 0, 0}, {1, IMAGE, 0, 0}, {1, MESSAGE, 0, 0}, {1, OUT, 0, 0},
    {2, LOG, 3, 1}, {2, LOG, 1, 17}, {3, LOG, 2, 0}, {3, IMAGE, 3, 1}, {3, IMAGE, 21, 128},
    {4, MESSAGE, 5, 1}, {4, MESSAGE, 0, 'Z'}, {5, MESSAGE, 7, 8}, {5, MESSAGE, 1, 'R'}, {5, MESSAGE, 2, 4},
    {6, 0, 0, 0},
};

/* Puts a set of faults into a good call. Gives the number: the lowest of those that the call may answer with. */
static inline uint32_t put_faults(struct call *call, uint32_t set, uint32_t number)
{
    for (size_t i = 0; i < COUNT(faults); i++) {
        const struct fault *fault = &faults[i];
        bool seen = rights[call->which].numbers >> fault->number & 1
            && (fault->number != 1 || rights[call->which].lent >> fault->buffer & 1);

        if (!(set >> i & 1))
            continue;
        if (fault->number == 1)
            call->length[fault->buffer]--;
        else if (fault->number == 6)
            call->given[MILEAGE] = 100000000;
        else
            call->bytes[fault->buffer][fault->at] = fault->byte;
        if (seen && (number == 0 || fault->number < number))
            number = fault->number;
    }
    return number;
}

/* Every set of faults: the lowest number wins. The second call would close round 9,999, so its number is 7 to begin with. */
static inline void check_order(void)
{
    for (uint32_t set = 0; set < UINT32_C(1) << COUNT(faults); set += every) {
        struct call closing = base_call(DELIVER, 1);

        log_words("B 3 1 7 9999 9 8 6", closing.bytes[LOG]);
        image_words("B 3 1 7 9999 9 8 6 S2=5", closing.bytes[IMAGE]);
        message_words("S B 3 0 * 7 9999 5 5", closing.bytes[MESSAGE]);
        must_answer("order, closing 9,999", &closing, put_faults(&closing, set, 7));
        for (enum which which = KEY_ON; which < CALLS; which++) {
            struct call before = base_call(which, 0);

            must_answer("order", &before, put_faults(&before, set, 0));
        }
    }
}

#endif
