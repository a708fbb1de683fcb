/*
 * Buffers that a call only writes hold nothing before it: malloc's bytes, which valgrind knows to be undefined. Run under
 * it, a call whose answer rests on one of them is reported, and so is a byte that the call leaves undefined, since all of
 * them are looked at afterwards. Exit 0: each call was accepted, or refused, as wanted.
 */
#include "block.h"
#include "mileage.h"

static void *undefined(size_t size)
{
    void *block = malloc(size);

    if (block == NULL)
        exit(2);
    return block;
}

/* Looks at every byte. */
static unsigned sum(const void *block, size_t size)
{
    unsigned total = 0;

    for (size_t i = 0; i < size; i++)
        total += ((const uint8_t *)block)[i] > 127 ? 2 : 1;
    return total;
}

static void must(bool holds, const char *what)
{
    if (!holds) {
        printf("unread: FAILED, %s\n", what);
        exit(1);
    }
}

/* Of a card of three rows only the middle one is ever defined: a start makes it so, and a key-on of a log alone. */
static void check_card(void)
{
    mileage_row *rows = undefined(3 * sizeof *rows), *again = undefined(3 * sizeof *again);
    uint8_t *first = undefined(MILEAGE_MESSAGE_LENGTH), *out = undefined(MILEAGE_MESSAGE_LENGTH), *none = undefined(MILEAGE_MESSAGE_LENGTH);
    uint32_t *decision = undefined(sizeof *decision), *none_decided = undefined(sizeof *none_decided);
    uint8_t *again_out = undefined(MILEAGE_MESSAGE_LENGTH);
    uint32_t *again_decision = undefined(sizeof *again_decision);

    must(mileage_card_start('B', 3, 0, rows, 3, 4) == 12 && mileage_card_start('B', 2, 0, rows, 3, 2) == 2, "a refused start of a row");
    must(mileage_card_start('B', 3, 0, rows, 3, 2) == 0 && sum(&rows[1], sizeof *rows), "start of a row");
    memcpy(&again[1].log, &rows[1].log, sizeof again[1].log);
    must(mileage_card_key_on('B', 4, 0, again, 3, 2) == 3, "a refused key_on of a row");
    must(mileage_card_key_on('B', 3, 0, again, 3, 2) == 0 && memcmp(&rows[1], &again[1], sizeof *rows) == 0, "key_on of a row");
    must(mileage_card_propose('B', 3, 0, rows, 3, 2, 412077, first, 18) == 0 && sum(first, 18) && sum(&rows[1], sizeof *rows), "propose on a row");
    must(mileage_card_propose('B', 3, 0, rows, 3, 2, 100000000, none, 18) == 6 && sum(none, 18) == 18,
         "a refused proposal on a row");
    must(mileage_card_deliver('B', 3, 0, rows, 3, first, 18, out, 18, decision) == 0 && sum(out, 18) && *decision == MILEAGE_BLANK
             && sum(&rows[1], sizeof *rows), "deliver on a row");
    must(mileage_card_deliver('B', 3, 0, rows, 3, first, 18, again_out, 18, again_decision) == 0 && sum(again_out, 18)
             && memcmp(out, again_out, 18) == 0 && *again_decision == MILEAGE_BLANK && sum(&rows[1], sizeof *rows), "a FIRST again on a row");
    first[7] = 4;
    must(mileage_card_deliver('B', 3, 0, rows, 3, first, 18, none, 18, none_decided) == 12 && sum(none, 18) == 18
             && *none_decided == MILEAGE_BLANK, "a delivery to no row");
    free(rows), free(again), free(first), free(out), free(none), free(decision), free(none_decided), free(again_out), free(again_decision);
}

int main(void)
{
    uint8_t *log = undefined(MILEAGE_LOG_LENGTH), *image = undefined(MILEAGE_IMAGE_LENGTH), *again = undefined(MILEAGE_IMAGE_LENGTH);
    uint8_t *first = undefined(MILEAGE_MESSAGE_LENGTH), *out = undefined(MILEAGE_MESSAGE_LENGTH), *none = undefined(MILEAGE_MESSAGE_LENGTH);
    uint8_t *written = undefined(MILEAGE_LOG_LENGTH), *message = undefined(MILEAGE_MESSAGE_LENGTH);
    uint32_t *decision = undefined(sizeof *decision), *fields = undefined(MILEAGE_LOG_FIELDS * sizeof *fields);
    uint32_t *message_fields = undefined(MILEAGE_MESSAGE_FIELDS * sizeof *message_fields);
    uint8_t *again_out = undefined(MILEAGE_MESSAGE_LENGTH);
    uint32_t *again_decision = undefined(sizeof *again_decision);

    must(mileage_start('B', 3, 0, 7, log, 20, image, 152) == 0 && sum(log, 20) && sum(image, 152), "start");
    must(mileage_key_on(log, 20, again, 152) == 0 && memcmp(image, again, 152) == 0, "key_on");
    must(mileage_propose(log, 20, image, 152, 412077, first, 18) == 0 && sum(first, 18), "propose");
    must(mileage_propose(log, 20, image, 152, 100000000, none, 18) == 6 && sum(none, 18) == 18, "a refused proposal");
    must(mileage_deliver(log, 20, image, 152, first, 18, out, 18, decision) == 0 && sum(out, 18) && *decision == MILEAGE_BLANK, "deliver");
    must(mileage_deliver(log, 20, image, 152, first, 18, again_out, 18, again_decision) == 0 && sum(again_out, 18)
             && memcmp(out, again_out, 18) == 0 && *again_decision == MILEAGE_BLANK && sum(log, 20) && sum(image, 152), "a FIRST again");
    must(mileage_read_log(log, 20, fields, 8) == 0 && sum(fields, 32), "read_log");
    must(mileage_write_log(fields, 8, written, 20) == 0 && memcmp(log, written, 20) == 0, "write_log");
    must(mileage_read_message(out, 18, message_fields, 9) == 0 && sum(message_fields, 36), "read_message");
    must(mileage_write_message(message_fields, 9, message, 18) == 0 && memcmp(out, message, 18) == 0, "write_message");
    free(log), free(image), free(again), free(first), free(out), free(none), free(written), free(message), free(decision), free(fields);
    free(message_fields), free(again_out), free(again_decision);
    check_card();
    return 0;
}
