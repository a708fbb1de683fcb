/*
 * A program without any library: it brings the three memory functions itself, and links nothing but the archive. It
 * asks for the version, starts three units, proposes, delivers until a mileage is decided, keys on, and reads and writes a
 * log and a message; then an entry once more, on cards. Exit 0: all thirteen entries did as wanted.
 */
#include "mileage.h"

void *memcpy(void *to, const void *from, size_t count);
void *memset(void *to, int byte, size_t count);
void *memmove(void *to, const void *from, size_t count);

void *memcpy(void *to, const void *from, size_t count)
{
    for (size_t i = 0; i < count; i++)
        ((uint8_t *)to)[i] = ((const uint8_t *)from)[i];
    return to;
}

void *memset(void *to, int byte, size_t count)
{
    for (size_t i = 0; i < count; i++)
        ((uint8_t *)to)[i] = (uint8_t)byte;
    return to;
}

void *memmove(void *to, const void *from, size_t count)
{
    if ((uintptr_t)to <= (uintptr_t)from)
        return memcpy(to, from, count);
    for (size_t i = count; i > 0; i--)
        ((uint8_t *)to)[i - 1] = ((const uint8_t *)from)[i - 1];
    return to;
}

enum { UNITS = 3, SENT = 16, WANTED = 412077 };
static uint8_t logs[UNITS][MILEAGE_LOG_LENGTH], images[UNITS][MILEAGE_IMAGE_LENGTH], sent[SENT][MILEAGE_MESSAGE_LENGTH];
static uint32_t decided[UNITS];

static int play(void)
{
    unsigned count = 0;

    for (uint32_t unit = 0; unit < UNITS; unit++)
        if (mileage_start('R', UNITS, unit, 7, logs[unit], sizeof logs[unit], images[unit], sizeof images[unit]) != MILEAGE_ACCEPTED)
            return 1;
    if (mileage_propose(logs[0], sizeof logs[0], images[0], sizeof images[0], WANTED, sent[count++], sizeof sent[0]) != MILEAGE_ACCEPTED)
        return 2;
    for (unsigned message = 0; message < count && count + UNITS < SENT; message++)
        for (uint32_t unit = 0; unit < UNITS; unit++) {
            uint32_t decision;

            if (mileage_deliver(logs[unit], sizeof logs[unit], images[unit], sizeof images[unit], sent[message], sizeof sent[0],
                                sent[count], sizeof sent[0], &decision) != MILEAGE_ACCEPTED)
                return 3;
            count += sent[count][0] != 0;
            decided[unit] = decision != MILEAGE_BLANK ? decision : decided[unit];
        }
    return decided[0] == WANTED && decided[1] == WANTED && decided[2] == WANTED ? 0 : 4;
}

/* Entry 2, on cards of three rows. Key-on of a row that is not started, or not there, is refused. */
enum { ROWS = 3, ROW = 2 };
static mileage_row cards[UNITS][ROWS];

static int play_card(void)
{
    unsigned count = 0;

    for (uint32_t unit = 0; unit < UNITS; unit++)
        if (mileage_card_start('R', UNITS, unit, cards[unit], ROWS, ROW) != MILEAGE_ACCEPTED
            || mileage_card_key_on('R', UNITS, unit, cards[unit], ROWS, ROW) != MILEAGE_ACCEPTED
            || mileage_card_key_on('R', UNITS, unit, cards[unit], ROWS, ROW + 1) != MILEAGE_MALFORMED_LOG
            || mileage_card_key_on('R', UNITS, unit, cards[unit], ROWS, ROWS + 1) != MILEAGE_NO_ROW)
            return 9;
    if (mileage_card_propose('R', UNITS, 0, cards[0], ROWS, ROW, WANTED + 1, sent[count++], sizeof sent[0]) != MILEAGE_ACCEPTED)
        return 10;
    for (unsigned message = 0; message < count && count + UNITS < SENT; message++)
        for (uint32_t unit = 0; unit < UNITS; unit++) {
            uint32_t decision;

            if (mileage_card_deliver('R', UNITS, unit, cards[unit], ROWS, sent[message], sizeof sent[0], sent[count], sizeof sent[0], &decision)
                != MILEAGE_ACCEPTED)
                return 11;
            count += sent[count][0] != 0;
            decided[unit] = decision != MILEAGE_BLANK ? decision : decided[unit];
        }
    return decided[0] == WANTED + 1 && decided[1] == WANTED + 1 && decided[2] == WANTED + 1 ? 0 : 12;
}

static int differ(const uint8_t *a, const uint8_t *b, size_t count)
{
    int different = 0;

    for (size_t i = 0; i < count; i++)
        different |= a[i] != b[i];
    return different;
}

static int fields(void)
{
    uint32_t log_fields[MILEAGE_LOG_FIELDS], message_fields[MILEAGE_MESSAGE_FIELDS];
    uint8_t log[MILEAGE_LOG_LENGTH], message[MILEAGE_MESSAGE_LENGTH];

    if (mileage_key_on(logs[0], sizeof logs[0], images[0], sizeof images[0]) != MILEAGE_ACCEPTED || differ(logs[0], images[0], sizeof log))
        return 5;
    if (mileage_read_log(logs[0], sizeof logs[0], log_fields, MILEAGE_LOG_FIELDS) != MILEAGE_ACCEPTED
        || mileage_write_log(log_fields, MILEAGE_LOG_FIELDS, log, sizeof log) != MILEAGE_ACCEPTED || differ(logs[0], log, sizeof log))
        return 6;
    if (mileage_read_message(sent[0], sizeof sent[0], message_fields, MILEAGE_MESSAGE_FIELDS) != MILEAGE_ACCEPTED
        || mileage_write_message(message_fields, MILEAGE_MESSAGE_FIELDS, message, sizeof message) != MILEAGE_ACCEPTED
        || differ(sent[0], message, sizeof message))
        return 7;
    return 0;
}

int run(void);

int run(void)
{
    int failed = mileage_version() == MILEAGE_VERSION ? play() : 8;

    if (failed == 0)
        failed = fields();
    return failed != 0 ? failed : play_card();
}

/* Linux on x86-64: what run answers is the exit status. */
__asm__(".globl _start\n_start:\n xor %ebp, %ebp\n call run\n mov %eax, %edi\n mov $60, %eax\n syscall\n");
