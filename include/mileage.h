/*
 * The mileage agreement core as C firmware calls it: the unit of one entry (starting it, key-on, proposing, delivering),
 * a card of up to 64 entries (the same four, on one of its rows), and reading and writing logs and messages. Link
 * libmileage.a, which is for x86-64 (System V calling convention, with SSE2 registers and the 128 bytes below the stack
 * pointer, which interrupt handlers must leave alone); it keeps nothing of its own between calls, allocates nothing, and
 * uses from outside at most memcpy, memset and memmove. Of the stack mileage_deliver uses at most 1,536 bytes in engine B
 * and 1,792 in engine R, mileage_card_deliver 2,304 and 2,560, the other calls of a card 2,048, every other call 512
 * (measured, not proved).
 *
 * A buffer is passed as a pointer and then its length. The length counts elements: bytes of a log, an image or a message,
 * numbers of a fields buffer, rows of a card. Each pointer must be valid for its length and not be null, `decision` for
 * one number. Numbers and rows are aligned as uint32_t; bytes may stand anywhere. The buffers of one call, `decision`
 * among them, must not overlap. Buffers passed as const are only read.
 *
 * Every call but mileage_version answers with a number: MILEAGE_ACCEPTED, or why it was turned down. Lengths are looked at
 * first; of several reasons the lowest number is given, on a card the first in the order that stands with the call. After
 * a refusal log and image, or every row of the card, are as they were (a card's row may have been written all the same,
 * with the numbers that it had), and an output buffer of 18 bytes is all zeros; one of another length is as it was.
 */
#ifndef MILEAGE_H
#define MILEAGE_H

#include <stddef.h>
#include <stdint.h>

#ifdef __cplusplus
extern "C" {
#endif

/*
 * The version of the interface, as this header has it; mileage_version gives the archive's. It is raised with every change
 * of bytes, sizes, numbers, signatures or what a call answers. Firmware compares the two before its first call of anything
 * else: where they differ, header and archive are not of one core, and nothing said here holds of the archive.
 */
#define MILEAGE_VERSION UINT32_C(4)

uint32_t mileage_version(void);

/* Lengths, in elements. */
#define MILEAGE_LOG_LENGTH 20
#define MILEAGE_LOG_FIELDS 8
#define MILEAGE_IMAGE_LENGTH 152
#define MILEAGE_MESSAGE_LENGTH 18
#define MILEAGE_MESSAGE_FIELDS 9
#define MILEAGE_ROW_NUMBERS 50

/* Limits: n, the units of a bike, numbered from 0; the entry, one for each service; the round, from 0 (MILEAGE_LAST_ROUND
 * below is a refusal, and no round); the mileage, from 0, in the steps that all units of a bike share, of ten metres or of
 * a hundred; the rows of a card, numbered from 1. */
#define MILEAGE_MIN_UNITS UINT32_C(3)
#define MILEAGE_MAX_UNITS UINT32_C(16)
#define MILEAGE_MIN_ENTRY UINT32_C(1)
#define MILEAGE_MAX_ENTRY UINT32_C(9999)
#define MILEAGE_MAX_ROUND UINT32_C(9999)
#define MILEAGE_MAX_MILEAGE UINT32_C(99999999)
#define MILEAGE_MIN_ROWS UINT32_C(1)
#define MILEAGE_MAX_ROWS UINT32_C(64)

/* What stands where there is no mileage: blank, nothing yet; split, the CHECKs gathered were not of one mileage. */
#define MILEAGE_BLANK UINT32_C(4294967295)
#define MILEAGE_SPLIT UINT32_C(4294967294)

/* The receiver of a message that goes to every unit, its sender too. */
#define MILEAGE_EVERYONE UINT32_C(255)

/*
 * The numbers that the calls below answer with.
 * 1: a buffer's length, or a card's count of rows, is wrong. 2: the log is malformed, or the settings of a fresh unit,
 * those beside a card or a log's fields are out of range. 3: the image is malformed or does not fit the log; on a card
 * also: the row is of other settings, or of another entry than its number. 4: the message is malformed. 5: the message is
 * of another engine, n or entry, or for another unit. 6: the mileage is above the greatest. 7: this SECOND would close the
 * last round. 12: the row number, or the message's entry, names no row of the card. (8 to 11 are the bench's alone.)
 */
#define MILEAGE_ACCEPTED UINT32_C(0)
#define MILEAGE_WRONG_LENGTH UINT32_C(1)
#define MILEAGE_MALFORMED_LOG UINT32_C(2)
#define MILEAGE_UNFIT_IMAGE UINT32_C(3)
#define MILEAGE_MALFORMED_MESSAGE UINT32_C(4)
#define MILEAGE_NOT_FOR_UNIT UINT32_C(5)
#define MILEAGE_OUT_OF_RANGE UINT32_C(6)
#define MILEAGE_LAST_ROUND UINT32_C(7)
#define MILEAGE_NO_ROW UINT32_C(12)

/*
 * A unit of one entry has a log, kept in permanent memory, and an image, kept in working memory and lost at key-off.
 * All that the unit is lies in these two. Firmware lends both to every call and need not understand either. It does this:
 *
 * - Once for each entry: mileage_start, with the same engine, n and entry in all units and a unit number of its own in
 *   each. The log goes to permanent memory before any other call of that entry. Once it is there, never again for that
 *   entry, nor is an older log put in its place, or the unit forgets what it has promised the others.
 * - After each key-on, for each entry still open, before any other call: mileage_key_on, with the log from permanent memory.
 *   A unit may leave an entry at any time by making no more calls on it, as if its key stayed off; the others then go on
 *   without it, if they are enough. Its log may then be erased, and the unit never starts that entry again.
 * - Which log and image to lend: those of the message's entry; as log a copy, in working memory, of the last one that went
 *   to permanent memory, never that memory itself (a call writes in pieces); as image the one that the last call on this
 *   entry left. Calls on one entry come one after the other.
 * - All units of one bike count mileages in the same steps, of ten metres or of a hundred, and an entry goes on in the steps
 *   in which it was begun, over a change of firmware too. The core only compares mileages: it cannot see in which steps they
 *   are.
 * - All units of one bike have a core of one version. A core before version 4 refuses mileages above 9,999,999, in messages
 *   with 4 and in logs with 2.
 * - To propose a mileage, or to try again after some time without a decision: mileage_propose, as often as you like, with
 *   any mileage in range. The log stays as it is. Each unit that gets this FIRST and is not past its round sends its vote,
 *   for the first time or again, so that one whose key went off before its message left is heard after all: in R a SECOND,
 *   in B a CHECK, and in B each CHECK makes a unit that has set its second estimate send its SECOND again. So one FIRST may
 *   bring n votes, in B these n times n SECONDs, and each SECOND that comes late a SKIP from each unit that went on. A
 *   SECOND or SKIP of a unit's own round is not answered.
 * - For each message from the bus, its own messages to everyone too, and also after its decision: mileage_deliver. If the
 *   log has changed (its 20 bytes differ from those before the call), the whole log goes to permanent memory, and only
 *   then does the message in the output buffer leave. Writing it every time is right too. The next call on this entry waits
 *   until the log is there: a vote that goes out again is the one in the log, and leaves the log as it is. If the log
 *   cannot be written, send nothing, and go on with mileage_key_on. A message of an entry that the unit has not started is
 *   dropped, which is as if it was lost, or the entry is started first.
 * - Every log, that of a start too, is written as one piece: after a key-off the old log or the new one stands, never a mix.
 * - A message of 18 zero bytes in the output buffer is no message. Any other goes to all units, its sender too, or, if
 *   its kind, byte 0, is 'K', to the one unit that its byte 4 names; the others refuse it with 5. A message may be lost,
 *   late or delivered more than once, but never altered, and none may come that no unit sent.
 * - A decision is firmware's to keep. A unit may report it again, always the same mileage as long as all units do all this.
 * - After a refusal nothing is to be written or sent, and the unit goes on from the same log and image; but with 2 or 3
 *   these were damaged, or no pair: go on with mileage_key_on and the log from permanent memory. If that gives 2, the log
 *   is lost: the unit takes no further part in the entry.
 */

/*
 * Starts a unit: round 0, nothing proposed, no marks. `engine` is 'B' or 'R' (ASCII). B: a round has FIRST, CHECK and
 * SECOND messages, and over half of the units close it. R: FIRST and SECOND alone, and over two thirds. Writes log and
 * image, and reads neither. Answers 0, 1 or 2.
 */
uint32_t mileage_start(uint32_t engine, uint32_t n, uint32_t unit, uint32_t entry,
                       uint8_t *log, size_t log_len, uint8_t *image, size_t image_len);

/* Makes the image of a log, without marks. Reads the log; writes the image, and does not read it. Answers 0, 1 or 2. */
uint32_t mileage_key_on(const uint8_t *log, size_t log_len, uint8_t *image, size_t image_len);

/*
 * Proposes: the mileage given where the unit has no proposal yet, else the proposal it has (the mileage must be in range
 * all the same). Reads log and image; writes the image, and to the output buffer the FIRST that goes out. Answers 0, 1,
 * 2, 3 or 6.
 */
uint32_t mileage_propose(const uint8_t *log, size_t log_len, uint8_t *image, size_t image_len, uint32_t mileage,
                         uint8_t *out, size_t out_len);

/*
 * Delivers a message to the unit. Reads log, image and message; writes image and log (the log's bytes change only where
 * the step logs), and to the output buffer the message that goes out, or the empty one. `decision` is always written: the
 * mileage decided, or MILEAGE_BLANK where there is none, on a refusal too. Answers 0, 1, 2, 3, 4, 5 or 7.
 */
uint32_t mileage_deliver(uint8_t *log, size_t log_len, uint8_t *image, size_t image_len,
                         const uint8_t *message, size_t message_len, uint8_t *out, size_t out_len, uint32_t *decision);

/*
 * A card is one unit's part in the entries 1 to 64, or fewer: an array of 1 to 64 rows, row k, rows[k - 1], being entry k.
 * A row is fifty numbers: the contents of the entry's log; those of its image, the CHECK marks with sixteen estimates and
 * the SECOND marks with theirs. Unit u's mark is the bit of value 2 to the power u.
 */
typedef struct mileage_contents {
    uint32_t engine, n, unit, entry, round, proposal, first, second;
} mileage_contents;

typedef struct mileage_marks {
    uint32_t marks;
    uint32_t estimates[16];
} mileage_marks;

typedef struct mileage_row {
    mileage_contents log, image;
    mileage_marks checks, seconds;
} mileage_row;

/* Where a row has another size, this does not compile. */
typedef char mileage_row_has_200_bytes[sizeof(mileage_row) == 200 ? 1 : -1];

/*
 * Firmware lends the whole card to every call and need not understand a row. Beside it stand engine, n and unit, which are
 * those of all its rows. A call is about one row: the one that its row number names, or that of the message's entry. It
 * looks at no other row, and every other row is the same afterwards, to the last number. Nothing is cut to fewer bits: an
 * n of 259 is out of range, and so are marks of 65,536. What is asked above for the unit of one entry is asked here for
 * each row, with the row's log, rows[k - 1].log, eight numbers, in the place of the log's 20 bytes. Firmware does this:
 *
 * - The card is in working memory, with the same count and the same engine, n and unit in every call. It is filled with
 *   zeros before its first use, and again after each key-on. A row of zeros is refused with 2 until it is started; what
 *   memory held by chance might pass for a row.
 * - Once for each entry: mileage_card_start, with the same engine and n in all units and a unit number of its own in each.
 *   The row's log goes to permanent memory before any other call on this row. Once it is there, never again for that row,
 *   nor is an older log put in its place. A bike has no second card: its rows would be the same entries once more.
 * - After each key-on, before any other call on the card: for each row that was started and is still open, the log from
 *   permanent memory is copied to rows[k - 1].log, and then mileage_card_key_on is called for that row. A row that is left
 *   at zeros takes no part, as if its key stayed off.
 * - Calls on one card come one after the other, those on different rows too. Firmware itself writes to a row only zeros, or
 *   its log from permanent memory, and then mileage_card_key_on follows.
 * - To propose for an entry, or to try again: mileage_card_propose with its row. No log changes; the message may leave.
 * - For each message from the bus, its own messages to everyone too, and also after its decision: mileage_card_deliver. If
 *   the log of the row of the message's entry has changed (mileage_read_message tells the entry), these eight numbers go to
 *   permanent memory, as one piece, and only then does the message in the output buffer leave. Writing them every time is
 *   right too. The next call on this row waits until they are there. If they cannot be written, send nothing: copy the log
 *   from permanent memory to the row, and go on with mileage_card_key_on. A decision is of the message's entry.
 * - Permanent memory may keep a row's log as these eight numbers, or as the 20 bytes that mileage_write_log makes of them:
 *   its fields are the same eight numbers in the same order, and mileage_read_log gives them back.
 * - After a refusal nothing is to be written or sent, and the card goes on as it is. 12 for a message: its entry has no
 *   row here, and it is dropped, which is as if it was lost, unless the unit keeps that entry by the calls above. 4, 5 or
 *   7: it is dropped too. 6: nothing is proposed. 2 or 3: the row is not started, or was damaged. If not started, the
 *   message is dropped, or the row is started first. If damaged, copy its log from permanent memory to the row and go on
 *   with mileage_card_key_on; if that gives 2 or 3, the log is lost, and the unit takes no further part in that entry. 1,
 *   12 for a row number, and 2 for settings out of range are faults of the program.
 * - All units keep an entry on cards, or all keep it by the calls above: agreement is proved of each of the two. By the
 *   calls above are the entries past the longest card of the bike. A unit whose card is shorter takes no part in those
 *   between.
 */

/*
 * Starts a row: round 0, nothing proposed, no marks. Writes this row; what any row held has no part in it, garbage will do.
 * Refusals, in this order: 1, 12, 2 (engine, n or unit).
 */
uint32_t mileage_card_start(uint32_t engine, uint32_t n, uint32_t unit, mileage_row *rows, size_t count, uint32_t row);

/*
 * Makes the image of a row's log, without marks. Reads the row's log; writes the row, its log as it was, and what image,
 * marks and estimates held has no part in it. Refusals, in this order: 1, 12, 2, 3 (the log is of other settings or
 * another entry).
 */
uint32_t mileage_card_key_on(uint32_t engine, uint32_t n, uint32_t unit, mileage_row *rows, size_t count, uint32_t row);

/*
 * Proposes, as mileage_propose does. Reads the row; writes it, its log as it was, and to the output buffer the FIRST that
 * goes out. Refusals, in this order: 1, 12, 2, 3, 6.
 */
uint32_t mileage_card_propose(uint32_t engine, uint32_t n, uint32_t unit, mileage_row *rows, size_t count, uint32_t row,
                              uint32_t mileage, uint8_t *out, size_t out_len);

/*
 * Delivers a message to the row of its entry. Reads the message and that row; writes the row (its log changes only where
 * the step logs), and to the output buffer the message that goes out, or the empty one. `decision` is always written: the
 * mileage decided for this entry, or MILEAGE_BLANK where there is none, on a refusal too. Refusals, in this order: 1, 4,
 * 12, 2, 3, 5 (another engine or n, or for another unit), 7.
 */
uint32_t mileage_card_deliver(uint32_t engine, uint32_t n, uint32_t unit, mileage_row *rows, size_t count,
                              const uint8_t *message, size_t message_len, uint8_t *out, size_t out_len, uint32_t *decision);

/*
 * Logs and messages as numbers, for tools, for tests, to learn a message's entry, and to keep a row's log as 20 bytes. A
 * log or message that was made here must not be lent as a unit's log or put on the bus, save a row's own log that goes back
 * to its row.
 *
 * Engine letter: 'B' or 'R'. n, entry and round: within the limits above. A unit: below n.
 * A log's proposal and first estimate: a mileage or blank. Its second estimate: a mileage, split or blank; in R blank.
 * Kind letter of a message: 'F' (FIRST), 'C' (CHECK, in B only), 'S' (SECOND), 'K' (SKIP). Receiver: a unit for K, else
 * MILEAGE_EVERYONE. F and C: estimate and proposal are the same mileage. S: estimate a mileage or, in B, split; proposal
 * a mileage or blank. K: estimate blank; proposal a mileage or blank.
 */

/*
 * The fields of a log, in this order: engine letter, n, unit, entry, round, proposal, first estimate, second estimate.
 * Reading: a refusal leaves the fields as they were.
 * Writing: a refusal leaves the log as it was. Fields that reading would refuse are refused, and so is a number too
 * large for its bytes. Both answer 0, 1 or 2.
 */
uint32_t mileage_read_log(const uint8_t *log, size_t log_len, uint32_t *fields, size_t fields_len);
uint32_t mileage_write_log(const uint32_t *fields, size_t fields_len, uint8_t *log, size_t log_len);

/*
 * The fields of a message, in this order: kind letter, engine letter, n, sender, receiver, entry, round, estimate,
 * proposal. Reading one from the bus tells its entry, and so which log and image to lend, or which row's log may change.
 * Reading: a refusal leaves the fields as they were. The empty message, 18 zero bytes, is refused as malformed.
 * Writing: a refusal leaves a message buffer of 18 bytes all zeros, and one of another length as it was. Fields that
 * reading would refuse are refused, and so is a number too large for its bytes. Both answer 0, 1 or 4.
 */
uint32_t mileage_read_message(const uint8_t *message, size_t message_len, uint32_t *fields, size_t fields_len);
uint32_t mileage_write_message(const uint32_t *fields, size_t fields_len, uint8_t *message, size_t message_len);

#ifdef __cplusplus
}
#endif

#endif
