/*
 * The four entries for logs and messages, called as firmware calls them.
 *
 * Rows made by hand after the scope paper: some in full, to the last byte, and for each rule good rows with a field
 * changed; then any fields and bytes, with the way back. Looked at each time: the number and every byte of both buffers.
 * Each buffer is a heap block of its own, so that under valgrind nothing outside it is read or written unseen.
 *
 * The argument, if there is one, is how many random cases there are for each call. Exit 0: all is as wanted.
 */
#include "block.h"
#include "cases.h"

#define DEFAULT_ROUNDS 200000ul

/* A row in full: the number, the fields, the bytes in hex. */
enum { MOST_BYTES = 20, MOST_FIELDS = 9 };
struct row {
    uint32_t number, fields[MOST_FIELDS];
    const char *hex;
};

/* A rule: these good rows, with one of the values in each of these fields, are accepted, or refused with the number. */
struct rule {
    uint32_t rows, fields, number;
    struct values accepted, refused;
};
#define EVERY UINT32_MAX
#define ACCEPTED(...) .accepted = {VALUES(__VA_ARGS__)}
#define REFUSED(no, ...) .number = no, .refused = {VALUES(__VA_ARGS__)}

/* Logs. The rules name sets of fields and sets of rows: 1 is the first, 2 the second, 4 the third. */
enum { L_ENGINE = 1, L_N = 2, L_UNIT = 4, L_ENTRY = 8, L_ROUND = 16, L_PROPOSAL = 32, L_FIRST = 64, L_SECOND = 128 };
enum { B_FRESH = 1, B_3 = 2, R_3 = 4, B_16 = 8, R_16 = 16 };

static const struct row log_rows[] = {
    {0, {'B', 3, 0, 7, 0, BLANK, BLANK, BLANK}, "42 03 00 00 0007 0000 ffffffff ffffffff ffffffff"},
    {0, {'B', 3, 2, 7, 3, 5, 9, 412077}, "42 03 02 00 0007 0003 00000005 00000009 000649ad"},
    {0, {'R', 3, 1, 7, 3, 412077, 99999999, BLANK}, "52 03 01 00 0007 0003 000649ad 05f5e0ff ffffffff"},
    {0, {'B', 16, 15, 4660, 9029, 1193046, 7903932, SPLIT}, "42 10 0f 00 1234 2345 00123456 00789abc fffffffe"},
    {0, {'R', 16, 15, 9999, 9999, BLANK, 0, BLANK}, "52 10 0f 00 270f 270f ffffffff 00000000 ffffffff"},
    {0, {'B', 3, 2, 7, 3, 10000000, 10000000, 10000000}, "42 03 02 00 0007 0003 00989680 00989680 00989680"},
    {0, {'B', 3, 2, 7, 3, 99999999, 99999999, 99999999}, "42 03 02 00 0007 0003 05f5e0ff 05f5e0ff 05f5e0ff"},
    {0, {'R', 3, 1, 7, 3, 10000000, 16777216, BLANK}, "52 03 01 00 0007 0003 00989680 01000000 ffffffff"},
    {2, {'B', 2, 0, 7, 0, BLANK, BLANK, BLANK}, "42 02 00 00 0007 0000 ffffffff ffffffff ffffffff"},
    {2, {'B', 3, 2, 7, 3, 100000000, 9, 5}, "42 03 02 00 0007 0003 05f5e100 00000009 00000005"},
    {2, {'B', 3, 2, 7, 3, 5, 100000000, 5}, "42 03 02 00 0007 0003 00000005 05f5e100 00000005"},
    {2, {'B', 3, 2, 7, 3, 5, 9, 100000000}, "42 03 02 00 0007 0003 00000005 00000009 05f5e100"},
};

static const struct rule log_rules[] = {
    {EVERY, L_ENGINE, ACCEPTED('B'), REFUSED(2, NO_ENGINE)},
    {B_FRESH | R_3 | R_16, L_ENGINE, ACCEPTED('R')},
    {B_3 | B_16, L_ENGINE, REFUSED(2, 'R')},
    {B_FRESH | B_3 | R_3, L_N, ACCEPTED(3, 16), REFUSED(2, NO_N)},
    {B_FRESH | B_3 | R_3, L_UNIT, ACCEPTED(0, 2), REFUSED(2, NOT_BELOW_3)},
    {B_16 | R_16, L_UNIT, ACCEPTED(0, 15), REFUSED(2, NOT_BELOW_16)},
    {EVERY, L_N | L_UNIT, REFUSED(2, 3, 4, 15, 16, 3 + 256)},
    {EVERY, L_ENTRY, ACCEPTED(ENTRIES), REFUSED(2, NO_ENTRY)},
    {EVERY, L_ROUND, ACCEPTED(ROUNDS), REFUSED(2, NO_ROUND)},
    {EVERY, L_PROPOSAL, ACCEPTED(MILEAGES, BLANK), REFUSED(2, NO_MILEAGE, SPLIT)},
    {EVERY, L_FIRST, ACCEPTED(MILEAGES, BLANK), REFUSED(2, NO_MILEAGE, SPLIT)},
    {B_FRESH | B_3 | B_16, L_SECOND, ACCEPTED(MILEAGES, SPLIT, BLANK), REFUSED(2, NO_MILEAGE)},
    {R_3 | R_16, L_SECOND, ACCEPTED(BLANK), REFUSED(2, MILEAGES, NO_MILEAGE, SPLIT)},
    {EVERY, EVERY, REFUSED(2, 0, BLANK)},
};

/* Messages, likewise. */
enum { KIND = 1, ENGINE = 2, N = 4, SENDER = 8, RECEIVER = 16, ENTRY = 32, ROUND = 64, ESTIMATE = 128, PROPOSAL = 256 };
enum { F_B = 1, F_R = 2, C_B = 4, S_B = 8, S_R = 16, S_SPLIT = 32, K_B = 64, K_R = 128, S_16 = 256, K_16 = 512 };
enum { F_OR_C = F_B | F_R | C_B, S_IN_B = S_B | S_SPLIT | S_16, S = S_IN_B | S_R, K = K_B | K_R | K_16 };
enum { ALL_3 = F_OR_C | S_B | S_R | S_SPLIT | K_B | K_R, ALL_16 = S_16 | K_16 };

static const struct row message_rows[] = {
    {0, {'F', 'B', 3, 0, 255, 7, 0, 412077, 412077}, "46 42 03 00 ff 00 0007 0000 000649ad 000649ad"},
    {0, {'F', 'R', 3, 1, 255, 7, 2, 412077, 412077}, "46 52 03 01 ff 00 0007 0002 000649ad 000649ad"},
    {0, {'C', 'B', 3, 2, 255, 7, 0, 412077, 412077}, "43 42 03 02 ff 00 0007 0000 000649ad 000649ad"},
    {0, {'S', 'B', 3, 2, 255, 7, 0, 5, BLANK}, "53 42 03 02 ff 00 0007 0000 00000005 ffffffff"},
    {0, {'S', 'R', 3, 0, 255, 7, 2, 5, 99999999}, "53 52 03 00 ff 00 0007 0002 00000005 05f5e0ff"},
    {0, {'S', 'B', 3, 1, 255, 7, 0, SPLIT, 9}, "53 42 03 01 ff 00 0007 0000 fffffffe 00000009"},
    {0, {'K', 'B', 3, 2, 0, 7, 4, BLANK, 412077}, "4b 42 03 02 00 00 0007 0004 ffffffff 000649ad"},
    {0, {'K', 'R', 3, 1, 1, 7, 4, BLANK, BLANK}, "4b 52 03 01 01 00 0007 0004 ffffffff ffffffff"},
    {0, {'S', 'B', 16, 15, 255, 4660, 9029, 1193046, 7903932}, "53 42 10 0f ff 00 1234 2345 00123456 00789abc"},
    {0, {'K', 'R', 16, 14, 15, 9999, 9999, BLANK, 0}, "4b 52 10 0e 0f 00 270f 270f ffffffff 00000000"},
    {0, {'F', 'B', 3, 0, 255, 7, 0, 10000000, 10000000}, "46 42 03 00 ff 00 0007 0000 00989680 00989680"},
    {0, {'F', 'R', 3, 1, 255, 7, 2, 99999999, 99999999}, "46 52 03 01 ff 00 0007 0002 05f5e0ff 05f5e0ff"},
    {0, {'C', 'B', 3, 2, 255, 7, 0, 10000000, 10000000}, "43 42 03 02 ff 00 0007 0000 00989680 00989680"},
    {0, {'C', 'B', 3, 2, 255, 7, 0, 99999999, 99999999}, "43 42 03 02 ff 00 0007 0000 05f5e0ff 05f5e0ff"},
    {0, {'S', 'B', 3, 2, 255, 7, 0, 10000000, 99999999}, "53 42 03 02 ff 00 0007 0000 00989680 05f5e0ff"},
    {0, {'S', 'R', 3, 0, 255, 7, 2, 99999999, 10000000}, "53 52 03 00 ff 00 0007 0002 05f5e0ff 00989680"},
    {0, {'K', 'B', 3, 2, 0, 7, 4, BLANK, 10000000}, "4b 42 03 02 00 00 0007 0004 ffffffff 00989680"},
    {0, {'K', 'R', 3, 1, 1, 7, 4, BLANK, 99999999}, "4b 52 03 01 01 00 0007 0004 ffffffff 05f5e0ff"},
    {4, {'F', 'B', 3, 0, 255, 7, 0, 100000000, 100000000}, "46 42 03 00 ff 00 0007 0000 05f5e100 05f5e100"},
    {4, {'C', 'B', 3, 2, 255, 7, 0, 100000000, 100000000}, "43 42 03 02 ff 00 0007 0000 05f5e100 05f5e100"},
    {4, {'S', 'B', 3, 2, 255, 7, 0, 100000000, 5}, "53 42 03 02 ff 00 0007 0000 05f5e100 00000005"},
    {4, {'S', 'R', 3, 0, 255, 7, 2, 5, 100000000}, "53 52 03 00 ff 00 0007 0002 00000005 05f5e100"},
    {4, {'K', 'B', 3, 2, 0, 7, 4, BLANK, 100000000}, "4b 42 03 02 00 00 0007 0004 ffffffff 05f5e100"},
    {4, {'Z', 'B', 3, 0, 255, 7, 0, 412077, 412077}, "5a 42 03 00 ff 00 0007 0000 000649ad 000649ad"},
    {4, {0}, "00 00 00 00 00 00 0000 0000 00000000 00000000"},
};

static const struct rule message_rules[] = {
    {EVERY, KIND, REFUSED(4, NO_KIND)},
    {F_B | C_B, KIND, ACCEPTED('F', 'C', 'S'), REFUSED(4, 'K')},
    {F_R, KIND, ACCEPTED('F', 'S'), REFUSED(4, 'C', 'K')},
    {S, KIND, ACCEPTED('S'), REFUSED(4, 'F', 'C', 'K')},
    {K, KIND, ACCEPTED('K'), REFUSED(4, 'F', 'C', 'S')},
    {EVERY, ENGINE, ACCEPTED('B'), REFUSED(4, NO_ENGINE)},
    {F_B | F_R | S_B | S_R | S_16 | K, ENGINE, ACCEPTED('R')},
    {C_B | S_SPLIT, ENGINE, REFUSED(4, 'R')},
    {ALL_3, N, ACCEPTED(3, 16), REFUSED(4, NO_N)},
    {ALL_3, SENDER, ACCEPTED(0, 2), REFUSED(4, NOT_BELOW_3)},
    {ALL_16, SENDER, ACCEPTED(0, 15), REFUSED(4, NOT_BELOW_16)},
    {EVERY, N | SENDER, REFUSED(4, 3, 4, 15, 16, 3 + 256)},
    {F_OR_C | S, RECEIVER, ACCEPTED(MILEAGE_EVERYONE), REFUSED(4, 254, 0, 2, 255 + 256, 255 + 65536, BLANK)},
    {K_B | K_R, RECEIVER, ACCEPTED(0, 2), REFUSED(4, NOT_BELOW_3)},
    {K_16, RECEIVER, ACCEPTED(0, 15), REFUSED(4, NOT_BELOW_16)},
    {EVERY, ENTRY, ACCEPTED(ENTRIES), REFUSED(4, NO_ENTRY)},
    {EVERY, ROUND, ACCEPTED(ROUNDS), REFUSED(4, NO_ROUND)},
    {F_OR_C, ESTIMATE | PROPOSAL, ACCEPTED(MILEAGES), REFUSED(4, NO_MILEAGE, SPLIT, BLANK)},
    {F_OR_C, ESTIMATE, ACCEPTED(412077), REFUSED(4, NOT_412077)},
    {F_OR_C, PROPOSAL, ACCEPTED(412077), REFUSED(4, NOT_412077)},
    {S, ESTIMATE | PROPOSAL, ACCEPTED(MILEAGES), REFUSED(4, NO_MILEAGE, SPLIT, BLANK)},
    {S_IN_B, ESTIMATE, ACCEPTED(MILEAGES, SPLIT), REFUSED(4, NO_MILEAGE, BLANK)},
    {S_R, ESTIMATE, ACCEPTED(MILEAGES), REFUSED(4, NO_MILEAGE, SPLIT, BLANK)},
    {K, ESTIMATE, ACCEPTED(BLANK), REFUSED(4, MILEAGES, NO_MILEAGE, SPLIT)},
    {S | K, PROPOSAL, ACCEPTED(MILEAGES, BLANK), REFUSED(4, NO_MILEAGE, SPLIT)},
    {EVERY, EVERY, REFUSED(4, 0, BLANK)},
};

/* A format: its layout, its calls, its rows and rules. */
static const struct format {
    const char *name;
    size_t bytes_len, fields_len, zero; /* zero: the byte that is always 0 */
    uint8_t width[MOST_FIELDS];         /* how many bytes each field has */
    bool cleared;                       /* a refused writing leaves zeros, if the length is right */
    uint32_t malformed;
    uint32_t (*read)(const uint8_t *bytes, size_t bytes_len, uint32_t *fields, size_t fields_len);
    uint32_t (*write)(const uint32_t *fields, size_t fields_len, uint8_t *bytes, size_t bytes_len);
    const struct row *rows;
    const struct rule *rules;
    size_t row_count, rule_count;
} formats[] = {
    {"log", MILEAGE_LOG_LENGTH, MILEAGE_LOG_FIELDS, 3, {1, 1, 1, 2, 2, 4, 4, 4}, false, MILEAGE_MALFORMED_LOG,
     mileage_read_log, mileage_write_log, log_rows, log_rules, COUNT(log_rows), COUNT(log_rules)},
    {"message", MILEAGE_MESSAGE_LENGTH, MILEAGE_MESSAGE_FIELDS, 5, {1, 1, 1, 1, 1, 2, 2, 4, 4}, true,
     MILEAGE_MALFORMED_MESSAGE, mileage_read_message, mileage_write_message,
     message_rows, message_rules, COUNT(message_rows), COUNT(message_rules)},
};

/* The bytes of any fields, highest byte first. Says whether every number had room; one too large is cut. */
static bool pack(const struct format *format, const uint32_t *fields, uint8_t *bytes)
{
    bool room = true;
    size_t at = 0;

    for (size_t i = 0; i < format->fields_len; i++) {
        if (at == format->zero)
            bytes[at++] = 0;
        for (unsigned left = format->width[i]; left > 0; left--)
            bytes[at++] = (uint8_t)(fields[i] >> 8 * (left - 1));
        room = room && (uint64_t)fields[i] >> 8 * format->width[i] == 0;
    }
    return room;
}

/* The two buffers of a call, the number it gave, and whether what stands behind the bytes looked at is as it was. */
enum { BYTES_ROOM = MOST_BYTES + 1, FIELDS_ROOM = MOST_FIELDS + 1 };
struct lent {
    uint32_t number;
    bool rest;
    size_t bytes_len, fields_len;
    uint8_t bytes[BYTES_ROOM];
    uint32_t fields[FIELDS_ROOM];
};

/* Reading is lent the bytes, writing the fields; the other buffer is filled with a random byte. */
enum way { READ, WRITE };
static struct lent lent_for(const struct format *format, enum way way, const uint8_t *bytes, const uint32_t *fields,
                            unsigned lengths)
{
    struct lent lent = {.rest = true, .bytes_len = length(format->bytes_len, lengths / LENGTHS),
                        .fields_len = length(format->fields_len, lengths % LENGTHS)};

    memset(lent.bytes, (int)below(256), sizeof lent.bytes);
    memset(lent.fields, (int)below(256), sizeof lent.fields);
    if (way == READ)
        memcpy(lent.bytes, bytes, format->bytes_len);
    else
        memcpy(lent.fields, fields, format->fields_len * sizeof *fields);
    return lent;
}

/* The buffers and the number after a call. */
static struct lent after(const struct format *format, enum way way, struct lent lent)
{
    uint8_t *bytes = lend(lent.bytes, sizeof lent.bytes, lent.bytes_len);
    uint32_t *fields = lend(lent.fields, sizeof lent.fields, lent.fields_len * sizeof *fields);

    if (way == READ)
        lent.number = format->read(bytes, lent.bytes_len, fields, lent.fields_len);
    else
        lent.number = format->write(fields, lent.fields_len, bytes, lent.bytes_len);
    lent.rest = take_back(bytes, lent.bytes, sizeof lent.bytes, lent.bytes_len) && lent.rest;
    lent.rest = take_back(fields, lent.fields, sizeof lent.fields, lent.fields_len * sizeof *fields) && lent.rest;
    return lent;
}

/* In hex, with a bar where the buffer ends. */
static void show(const char *what, const struct lent *lent)
{
    printf("  %s: number %lu, %lu bytes", what, (unsigned long)lent->number, (unsigned long)lent->bytes_len);
    for (size_t i = 0; i < BYTES_ROOM; i++)
        printf("%s %02x", i == lent->bytes_len ? " |" : "", (unsigned)lent->bytes[i]);
    printf(", %lu fields", (unsigned long)lent->fields_len);
    for (size_t i = 0; i < FIELDS_ROOM; i++)
        printf("%s %lx", i == lent->fields_len ? " |" : "", (unsigned long)lent->fields[i]);
    printf(lent->rest ? "\n" : " and bytes behind these changed\n");
}

/* The call, on what is before it, must give what is wanted to the last byte. */
static void must_give(const struct format *format, enum way way, const struct lent *before, const struct lent *wanted)
{
    struct lent given = after(format, way, *before);

    if (wanted->number == given.number && given.rest && memcmp(wanted->bytes, given.bytes, sizeof given.bytes) == 0
        && memcmp(wanted->fields, given.fields, sizeof given.fields) == 0)
        return;
    printf("fields: FAILED, %s %s\n", way ? "write" : "read", format->name);
    show("before", before);
    show("wanted", wanted);
    show("given", &given);
    exit(1);
}

/* These bytes read, or these fields written, give the number; with a wrong length 1, whatever they are. */
static void check_case(const struct format *format, enum way way, const uint8_t *bytes, const uint32_t *fields,
                       uint32_t number, unsigned lengths)
{
    struct lent before = lent_for(format, way, bytes, fields, lengths), wanted = before;

    wanted.number = lengths == 0 ? number : MILEAGE_WRONG_LENGTH;
    if (wanted.number == MILEAGE_ACCEPTED) {
        memcpy(wanted.bytes, bytes, format->bytes_len);
        memcpy(wanted.fields, fields, format->fields_len * sizeof *fields);
    } else if (way == WRITE && format->cleared && before.bytes_len == format->bytes_len) {
        memset(wanted.bytes, 0, format->bytes_len);
    }
    must_give(format, way, &before, &wanted);
}

static unsigned long by_hand;
enum { SOME = 13 };

/* By hand: the case at the right lengths, and at some wrong ones or all of them. */
static void check_lengths(const struct format *format, enum way way, const uint8_t *bytes, const uint32_t *fields,
                          uint32_t number, unsigned every)
{
    for (unsigned lengths = 0; lengths < LENGTHS * LENGTHS; lengths += every, by_hand++)
        check_case(format, way, bytes, fields, number, lengths);
}

/* A row both ways, and with each wrong zero byte. Its bytes must be those that packing its fields gives. */
static void check_row(const struct format *format, const struct row *row)
{
    uint8_t bytes[MOST_BYTES];
    const char *hex = row->hex;
    unsigned byte;
    int used;

    pack(format, row->fields, bytes);
    for (size_t i = 0; i < format->bytes_len; i++, hex += used)
        if (sscanf(hex, " %2x%n", &byte, &used) != 1 || byte != bytes[i]) {
            printf("fields: FAILED, fields and bytes of a %s row: %s\n", format->name, row->hex);
            exit(1);
        }
    check_lengths(format, READ, bytes, row->fields, row->number, 1);
    check_lengths(format, WRITE, bytes, row->fields, row->number, 1);
    for (bytes[format->zero] = 1; bytes[format->zero] != 0; bytes[format->zero]++)
        check_lengths(format, READ, bytes, row->fields, format->malformed, SOME);
}

/* A row with each of the values in some of its fields. Only writing can meet a number too large for its bytes. */
static void check_values(const struct format *format, const struct row *row, uint32_t changed,
                         const struct values *values, uint32_t number)
{
    uint32_t fields[MOST_FIELDS];
    uint8_t bytes[MOST_BYTES];

    for (size_t k = 0; k < values->count; k++) {
        for (size_t i = 0; i < format->fields_len; i++)
            fields[i] = changed >> i & 1 ? values->values[k] : row->fields[i];
        if (pack(format, fields, bytes))
            check_lengths(format, READ, bytes, fields, number, SOME);
        check_lengths(format, WRITE, bytes, fields, number, SOME);
    }
}

static void check_by_hand(const struct format *format)
{
    for (size_t i = 0; i < format->row_count; i++) {
        const struct row *row = &format->rows[i];

        check_row(format, row);
        for (const struct rule *rule = format->rules; rule < format->rules + format->rule_count; rule++)
            if (row->number == MILEAGE_ACCEPTED && rule->rows >> i & 1) {
                check_values(format, row, rule->fields, &rule->accepted, MILEAGE_ACCEPTED);
                check_values(format, row, rule->fields, &rule->refused, rule->number);
            }
    }
}

/* Puts another number into one field or two. */
static void damage(uint32_t *fields, uint32_t count)
{
    uint32_t one = below(count), two = below(4) ? one : below(count), number = fields[one];
    uint32_t flipped = number ^ UINT32_C(1) << below(32);

    fields[one] = fields[two] = one_of(VALUES(
        number, number + 1, number - 1, number + 256, number + 65536, flipped, below(UINT32_MAX), below(100000000),
        one_of(VALUES(NO_KIND)), one_of(VALUES(NO_ENGINE, 'R')), one_of(VALUES(NO_N, NOT_BELOW_16)),
        one_of(VALUES(NO_ENTRY, NO_ROUND)), one_of(VALUES(NO_MILEAGE, SPLIT, BLANK))));
}

/* A good row, damaged or past all likeness. Accepted or not is said; whichever, all bytes are as they must be, also on the way back. */
static bool check_any(const struct format *format, enum way way)
{
    uint32_t fields[MOST_FIELDS];
    uint8_t bytes[MOST_BYTES];
    struct lent given;

    memcpy(fields, format->rows[below((uint32_t)format->row_count)].fields, sizeof fields);
    for (uint32_t hits = one_of(VALUES(0, 1, 1, 2, 20)); hits > 0; hits--)
        damage(fields, (uint32_t)format->fields_len);
    pack(format, fields, bytes);
    for (uint32_t hits = one_of(VALUES(0, 0, 0, 0, 1, 40)); hits > 0 && way == READ; hits--)
        bytes[below((uint32_t)format->bytes_len)] = (uint8_t)below(256);
    given = after(format, way, lent_for(format, way, bytes, fields, 0));
    if (given.number != MILEAGE_ACCEPTED) {
        check_case(format, way, bytes, fields, format->malformed, 0);
        return false;
    }
    check_case(format, READ, way == READ ? bytes : given.bytes, given.fields, MILEAGE_ACCEPTED, 0);
    check_case(format, WRITE, given.bytes, way == WRITE ? fields : given.fields, MILEAGE_ACCEPTED, 0);
    return true;
}

/* Calls 0 to 3 are reading and writing a log, then a message. One never accepted or never refused shows nothing, and is a failure. */
int main(int argc, char **argv)
{
    unsigned long rounds = argc > 1 ? strtoul(argv[1], NULL, 10) : DEFAULT_ROUNDS, accepted[4] = {0};
    bool both = true;

    for (size_t i = 0; i < COUNT(formats); i++)
        check_by_hand(&formats[i]);
    for (unsigned long round = 0; round < rounds; round++)
        for (int call = 0; call < 4; call++)
            accepted[call] += check_any(&formats[call / 2], call % 2);
    printf("fields: %lu cases by hand; %lu random cases for each call, accepted:", by_hand, rounds);
    for (int call = 0; call < 4; call++) {
        printf(" %s %s %lu,", call % 2 ? "write" : "read", formats[call / 2].name, accepted[call]);
        both = both && accepted[call] > 0 && accepted[call] < rounds;
    }
    printf(both ? " all as wanted\n" : " FAILED, a call was never accepted or never refused\n");
    return both ? 0 : 1;
}
