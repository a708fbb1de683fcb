/*
 * Contents written down in words, and their bytes.
 *
 * A log: engine, n, unit, entry, round, proposal, first estimate, second estimate: "B 3 1 7 4 412077 5 -".
 * An image: the same, then its marks, C for CHECK and S for SECOND, each with its estimate: "B 3 1 7 4 9 5 - C0=5 S2=!".
 * With a small letter the estimate stands there without its mark.
 * A message: kind, engine, n, sender, receiver, entry, round, estimate, proposal: "S B 3 1 * 7 4 ! 9".
 * A dash is blank, an exclamation mark split, a star everyone.
 */
#ifndef WORDS_H
#define WORDS_H

#include <ctype.h>
#include <stdio.h>
#include <stdlib.h>
#include <string.h>

#include "cases.h"

/* A number into bytes, highest first. */
static inline void put(uint8_t *bytes, size_t width, uint32_t number)
{
    for (size_t i = 0; i < width; i++)
        bytes[i] = (uint8_t)((uint64_t)number >> 8 * (width - 1 - i));
}

/* The next word as a number. */
static inline uint32_t word(const char **text)
{
    while (**text == ' ')
        ++*text;
    if (isdigit((unsigned char)**text)) {
        char *end;
        unsigned long number = strtoul(*text, &end, 10);

        *text = end;
        return (uint32_t)number;
    }
    switch (*(*text)++) {
    case '-':
        return BLANK;
    case '!':
        return SPLIT;
    case '*':
        return MILEAGE_EVERYONE;
    default:
        return (unsigned char)(*text)[-1];
    }
}

/* One word for each width; a width of 0 is the zero byte. */
static inline const char *words(const char *text, const uint8_t *widths, size_t count, uint8_t *bytes)
{
    for (size_t i = 0; i < count; bytes += widths[i] ? widths[i] : 1, i++)
        if (widths[i])
            put(bytes, widths[i], word(&text));
        else
            *bytes = 0;
    return text;
}

static inline const char *log_words(const char *text, uint8_t *log)
{
    static const uint8_t widths[] = {1, 1, 1, 0, 2, 2, 4, 4, 4};

    return words(text, widths, COUNT(widths), log);
}

/* The marks are at bytes 20 and 86, each followed by sixteen estimates. */
static inline void image_words(const char *text, uint8_t *image)
{
    text = log_words(text, image);
    for (size_t tally = 20; tally <= 86; tally += 66) {
        memset(image + tally, 0, 2);
        memset(image + tally + 2, 255, 64);
    }
    while (*text != '\0') {
        uint32_t letter = word(&text), unit = word(&text);
        uint8_t *tally = image + (toupper((int)letter) == 'C' ? 20 : 86);

        if (isupper((int)letter))
            put(tally, 2, (((uint32_t)tally[0] << 8 | tally[1]) | UINT32_C(1) << unit));
        text++;
        put(tally + 2 + 4 * unit, 4, word(&text));
    }
}

/* No words: the empty message. */
static inline void message_words(const char *text, uint8_t *message)
{
    static const uint8_t widths[] = {1, 1, 1, 1, 1, 0, 2, 2, 4, 4};

    memset(message, 0, MILEAGE_MESSAGE_LENGTH);
    if (text != NULL)
        words(text, widths, COUNT(widths), message);
}

#endif
