/*
 * Lends a block one byte short and says that it is whole: with the argument "read" the log that a key-on reads, with "row"
 * the last row of a card that a start writes, else the image that a start writes. Run under valgrind all three must be
 * reported: so it sees what the archive reads and writes outside a block.
 */
#include "block.h"
#include "mileage.h"

static void outside_bytes(bool read)
{
    uint8_t log[MILEAGE_LOG_LENGTH], image[MILEAGE_IMAGE_LENGTH], *block;

    mileage_start('B', 3, 0, 7, log, sizeof log, image, sizeof image);
    block = read ? lend(log, sizeof log - 1, sizeof log - 1) : lend(image, sizeof image - 1, sizeof image - 1);
    if (read)
        mileage_key_on(block, sizeof log, image, sizeof image);
    else
        mileage_start('B', 3, 0, 7, log, sizeof log, block, sizeof image);
    free(block);
}

static void outside_row(void)
{
    static const mileage_row rows[2];
    mileage_row *block = lend(rows, sizeof rows - 1, sizeof rows - 1);

    mileage_card_start('B', 3, 0, block, 2, 2);
    free(block);
}

int main(int argc, char **argv)
{
    if (argc > 1 && strcmp(argv[1], "row") == 0)
        outside_row();
    else
        outside_bytes(argc > 1);
    return 0;
}
