/*
 * The header's version and limits are the archive's: a call with a limit is accepted, and with the number past it refused.
 * Exit 0: all is as wanted.
 */
#include <stdio.h>

#include "mileage.h"

static int failed;

static void want(const char *what, uint32_t number, uint32_t wanted)
{
    if (number != wanted) {
        printf("limits: %s: %lu, wanted %lu\n", what, (unsigned long)number, (unsigned long)wanted);
        failed = 1;
    }
}

/* A log with these, by mileage_write_log. */
static uint32_t written(uint32_t n, uint32_t unit, uint32_t entry, uint32_t round, uint32_t proposal)
{
    uint32_t fields[MILEAGE_LOG_FIELDS] = {'B', n, unit, entry, round, proposal, MILEAGE_BLANK, MILEAGE_BLANK};
    uint8_t log[MILEAGE_LOG_LENGTH];

    return mileage_write_log(fields, MILEAGE_LOG_FIELDS, log, sizeof log);
}

/* A fresh unit 0 with these, by mileage_start, that proposes this. */
static uint32_t proposed(uint32_t n, uint32_t entry, uint32_t mileage)
{
    uint8_t log[MILEAGE_LOG_LENGTH], image[MILEAGE_IMAGE_LENGTH], out[MILEAGE_MESSAGE_LENGTH];
    uint32_t number = mileage_start('R', n, 0, entry, log, sizeof log, image, sizeof image);

    return number != MILEAGE_ACCEPTED ? number : mileage_propose(log, sizeof log, image, sizeof image, mileage, out, sizeof out);
}

/* A card of so many rows, of which this one is started. */
static uint32_t started(size_t count, uint32_t row)
{
    static mileage_row rows[MILEAGE_MAX_ROWS + 1];

    return mileage_card_start('R', 3, 0, rows, count, row);
}

int main(void)
{
    want("the version", mileage_version(), MILEAGE_VERSION);

    want("least n", proposed(MILEAGE_MIN_UNITS, 7, 5), MILEAGE_ACCEPTED);
    want("below the least n", proposed(MILEAGE_MIN_UNITS - 1, 7, 5), MILEAGE_MALFORMED_LOG);
    want("greatest n", proposed(MILEAGE_MAX_UNITS, 7, 5), MILEAGE_ACCEPTED);
    want("above the greatest n", proposed(MILEAGE_MAX_UNITS + 1, 7, 5), MILEAGE_MALFORMED_LOG);
    want("the last unit", written(MILEAGE_MAX_UNITS, MILEAGE_MAX_UNITS - 1, 7, 0, 5), MILEAGE_ACCEPTED);
    want("past the last unit", written(MILEAGE_MAX_UNITS, MILEAGE_MAX_UNITS, 7, 0, 5), MILEAGE_MALFORMED_LOG);

    want("least entry", proposed(3, MILEAGE_MIN_ENTRY, 5), MILEAGE_ACCEPTED);
    want("below the least entry", proposed(3, MILEAGE_MIN_ENTRY - 1, 5), MILEAGE_MALFORMED_LOG);
    want("greatest entry", proposed(3, MILEAGE_MAX_ENTRY, 5), MILEAGE_ACCEPTED);
    want("above the greatest entry", proposed(3, MILEAGE_MAX_ENTRY + 1, 5), MILEAGE_MALFORMED_LOG);

    want("last round", written(3, 0, 7, MILEAGE_MAX_ROUND, 5), MILEAGE_ACCEPTED);
    want("past the last round", written(3, 0, 7, MILEAGE_MAX_ROUND + 1, 5), MILEAGE_MALFORMED_LOG);

    want("greatest mileage", proposed(3, 7, MILEAGE_MAX_MILEAGE), MILEAGE_ACCEPTED);
    want("above the greatest mileage", proposed(3, 7, MILEAGE_MAX_MILEAGE + 1), MILEAGE_OUT_OF_RANGE);
    want("greatest mileage in a log", written(3, 0, 7, 0, MILEAGE_MAX_MILEAGE), MILEAGE_ACCEPTED);
    want("above the greatest mileage in a log", written(3, 0, 7, 0, MILEAGE_MAX_MILEAGE + 1), MILEAGE_MALFORMED_LOG);

    want("fewest rows", started(MILEAGE_MIN_ROWS, 1), MILEAGE_ACCEPTED);
    want("below the fewest rows", started(MILEAGE_MIN_ROWS - 1, 1), MILEAGE_WRONG_LENGTH);
    want("most rows", started(MILEAGE_MAX_ROWS, 1), MILEAGE_ACCEPTED);
    want("above the most rows", started(MILEAGE_MAX_ROWS + 1, 1), MILEAGE_WRONG_LENGTH);
    want("the last row", started(MILEAGE_MAX_ROWS, MILEAGE_MAX_ROWS), MILEAGE_ACCEPTED);
    want("past the last row", started(MILEAGE_MAX_ROWS, MILEAGE_MAX_ROWS + 1), MILEAGE_NO_ROW);
    want("the numbers of a row", sizeof(mileage_row) / sizeof(uint32_t), MILEAGE_ROW_NUMBERS);
    want("the numbers of a row's log", sizeof(mileage_contents) / sizeof(uint32_t), MILEAGE_LOG_FIELDS);
    want("the estimates of a row's marks", sizeof(mileage_marks) / sizeof(uint32_t) - 1, MILEAGE_MAX_UNITS);
    return failed;
}
