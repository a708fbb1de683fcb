/*
 * Quorums, majorities and the lowest sender, for every n and every number of senders; and votes sent again, for every n,
 * unit and sender.
 */
#ifndef TALLIES_H
#define TALLIES_H

#include "lend.h"
#include "words.h"

/* For n = 3 to 16: the quorum in B, the quorum in R, the majority in R. */
static const uint8_t quorums[17][3] = {
    {0, 0, 0}, {0, 0, 0}, {0, 0, 0}, {2, 3, 2}, {3, 3, 2}, {3, 4, 3}, {4, 5, 3}, {4, 5, 3}, {5, 6, 4}, {5, 7, 4}, {6, 7, 4},
    {6, 8, 5}, {7, 9, 5}, {7, 9, 5}, {8, 10, 6}, {8, 11, 6}, {9, 11, 6}
};

static inline void put_mark(uint8_t *image, char kind, uint32_t unit, uint32_t estimate)
{
    uint8_t *tally = image + (kind == 'C' ? 20 : 86);

    put(tally, 2, ((uint32_t)tally[0] << 8 | tally[1]) | UINT32_C(1) << unit);
    put(tally + 2 + 4 * unit, 4, estimate);
}

/* What a tally's senders say, and who of them comes last. */
struct senders {
    uint32_t engine, n, count, newcomer, unit[16], estimate[16];
};

/* The unit's image before the newcomer, with the marks of the others, and the newcomer's message (a CHECK says 5). */
static inline struct call gathered(const struct senders *senders, char kind)
{
    struct call call = new_call(DELIVER);
    char text[80];

    snprintf(text, sizeof text, "%c %lu 1 7 4 8 6 -", (int)senders->engine, (unsigned long)senders->n);
    log_words(text, call.bytes[LOG]);
    image_words(text, call.bytes[IMAGE]);
    for (uint32_t i = 0; i < senders->count; i++)
        if (i != senders->newcomer)
            put_mark(call.bytes[IMAGE], kind, senders->unit[i], senders->estimate[i]);
    snprintf(text, sizeof text, "%c %c %lu %lu * 7 4 5 5", kind, (int)senders->engine, (unsigned long)senders->n,
             (unsigned long)senders->unit[senders->newcomer]);
    message_words(text, call.bytes[MESSAGE]);
    put(call.bytes[MESSAGE] + 10, 4, senders->estimate[senders->newcomer]);
    return call;
}

/* Below the quorum the newcomer is marked; from there on its image is malformed. */
static inline void check_open(const struct senders *senders, char kind, uint32_t quorum)
{
    struct call before = gathered(senders, kind), wanted = unchanged(&before, senders->count < quorum ? 0 : 3);

    if (senders->count < quorum)
        put_mark(wanted.bytes[IMAGE], kind, senders->unit[senders->newcomer], senders->estimate[senders->newcomer]);
    must_give("other than the quorum", &before, &wanted);
}

/* At the quorum SECONDs close the round with this proposal and decision. */
static inline void check_closing(const struct senders *senders, uint32_t proposal, uint32_t decision)
{
    struct call before = gathered(senders, 'S'), wanted = unchanged(&before, 0);
    char text[80];

    snprintf(text, sizeof text, "%c %lu 1 7 5 - - -", (int)senders->engine, (unsigned long)senders->n);
    image_words(text, wanted.bytes[IMAGE]);
    put(wanted.bytes[IMAGE] + 8, 4, proposal);
    wanted.decision = decision;
    must_give("at the quorum", &before, &wanted);
}

/* At the quorum CHECKs of one mileage give the second estimate. */
static inline void check_common(const struct senders *senders)
{
    struct call before = gathered(senders, 'C'), wanted = unchanged(&before, 0);
    char text[80];

    snprintf(text, sizeof text, "B %lu 1 7 4 8 6 5", (unsigned long)senders->n);
    log_words(text, wanted.bytes[LOG]);
    image_words(text, wanted.bytes[IMAGE]);
    snprintf(text, sizeof text, "S B %lu 1 * 7 4 5 8", (unsigned long)senders->n);
    message_words(text, wanted.bytes[OUT]);
    must_give("common at the quorum", &before, &wanted);
}

/* So many senders, the lowest units or the highest; all say 5. */
static inline struct senders senders_of(uint32_t engine, uint32_t n, uint32_t count, bool highest)
{
    struct senders senders = {.engine = engine, .n = n, .count = count};

    for (uint32_t i = 0; i < count; i++) {
        senders.unit[i] = highest ? n - count + i : i;
        senders.estimate[i] = 5;
    }
    return senders;
}

/* Every number of senders: below the quorum, at it and past it; each of them the newcomer. */
static inline void check_quorums(uint32_t engine, uint32_t n, bool highest)
{
    uint32_t quorum = quorums[n][engine == 'R'];

    for (uint32_t count = 1; count <= n; count++) {
        struct senders senders = senders_of(engine, n, count, highest);

        for (senders.newcomer = 0; senders.newcomer < count; senders.newcomer++) {
            if (count == quorum)
                check_closing(&senders, 5, 5);
            else
                check_open(&senders, 'S', quorum);
            if (engine == 'B' && count == quorum)
                check_common(&senders);
            else if (engine == 'B')
                check_open(&senders, 'C', quorum);
        }
    }
}

/* In R: the first or the last so many say 5, the others each something else. */
static inline void check_majority(uint32_t n, bool highest, bool last)
{
    uint32_t quorum = quorums[n][1], majority = quorums[n][2];

    for (uint32_t fives = 0; fives < quorum; fives++) {
        struct senders senders = senders_of('R', n, quorum, highest);

        for (uint32_t i = 0; i < quorum - fives; i++)
            senders.estimate[last ? i : quorum - 1 - i] = 100 + i;
        for (senders.newcomer = 0; senders.newcomer < quorum; senders.newcomer++)
            check_closing(&senders, fives >= majority ? 5 : BLANK, BLANK);
    }
}

/* In B: all split but one, or but two who differ: the lower's mileage. */
static inline void check_lowest(uint32_t n, bool highest)
{
    struct senders splits = senders_of('B', n, quorums[n][0], highest);

    for (uint32_t i = 0; i < splits.count; i++)
        splits.estimate[i] = SPLIT;
    check_closing(&splits, 8, BLANK);
    for (uint32_t low = 0; low < splits.count; low++)
        for (uint32_t high = low; high < splits.count; high++) {
            struct senders senders = splits;

            senders.estimate[high] = low % 2 ? 9 : 3;
            senders.estimate[low] = 5;
            for (senders.newcomer = 0; senders.newcomer < senders.count; senders.newcomer++)
                check_closing(&senders, 5, BLANK);
        }
}

/* A FIRST with the first estimate there, or a CHECK with the second: the vote goes out again. One SECOND is missing to the
 * quorum, and it stays so, also where the sender is a unit that is not marked. */
static inline void check_again(uint32_t engine, uint32_t n, uint32_t unit, uint32_t sender, char kind)
{
    struct call before = new_call(DELIVER), wanted;
    unsigned long numbers[] = {n, unit, sender};
    char text[80];

    snprintf(text, sizeof text, "%c %lu %lu 7 4 8 6 %c", (int)engine, numbers[0], numbers[1], kind == 'C' ? '!' : '-');
    log_words(text, before.bytes[LOG]);
    image_words(text, before.bytes[IMAGE]);
    for (uint32_t i = 0; i + 1 < quorums[n][engine == 'R']; i++)
        put_mark(before.bytes[IMAGE], 'S', i, 5);
    snprintf(text, sizeof text, "%c %c %lu %lu * 7 4 5 5", kind, (int)engine, numbers[0], numbers[2]);
    message_words(text, before.bytes[MESSAGE]);
    wanted = unchanged(&before, MILEAGE_ACCEPTED);
    if (engine == 'R')
        snprintf(text, sizeof text, "S R %lu %lu * 7 4 6 8", numbers[0], numbers[1]);
    else
        snprintf(text, sizeof text, "%s %lu %lu * 7 4 %s", kind == 'C' ? "S B" : "C B", numbers[0], numbers[1],
                 kind == 'C' ? "! 8" : "6 6");
    message_words(text, wanted.bytes[OUT]);
    must_give("a vote sent again", &before, &wanted);
}

static inline void check_votes_again(uint32_t n)
{
    for (uint32_t unit = 0; unit < n; unit++)
        for (uint32_t sender = 0; sender < n; sender++) {
            check_again('B', n, unit, sender, 'F');
            check_again('B', n, unit, sender, 'C');
            check_again('R', n, unit, sender, 'F');
        }
}

static inline void check_tallies(void)
{
    for (uint32_t n = 3; n <= 16; n++)
        check_votes_again(n);
    for (uint32_t n = 3; n <= 16; n++)
        for (int highest = 0; highest < 2; highest++) {
            check_quorums('B', n, highest);
            check_quorums('R', n, highest);
            check_majority(n, highest, false);
            check_majority(n, highest, true);
            check_lowest(n, highest);
        }
}

#endif
