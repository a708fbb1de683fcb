/*
 * How deep each call goes into the stack, measured: it is run on a painted stack of its own, and the lowest byte that lost
 * its paint is looked for. The inputs are the rows made by hand, and for every n the steps that gather most; for the calls
 * on a card the same, on row 7 of 64.
 *
 * Link it with -static: else the first call of memcpy runs the loader on the painted stack.
 *
 * The arguments are the most bytes that each kind of call may use, in the order of kind_names. Exit 0: none uses more.
 */
#define _XOPEN_SOURCE 700
#include <ucontext.h>

#include "cards.h"
#include "rows.h"
#include "tallies.h"

enum { STACK = 65536, PAINT = 0x5a };

/* What is measured: the four calls, deliver by its engine, the calls of fields together, and the four calls on a card. */
enum { DELIVER_B = DELIVER, DELIVER_R, FIELDS, CARD, KINDS = CARD + FIELDS, NOTHING_AT_ALL };
static const char *const kind_names[KINDS] = {
    "start", "key_on", "propose", "deliver in B", "deliver in R", "fields",
    "card_start", "card_key_on", "card_propose", "card_deliver in B", "card_deliver in R",
};
static uint8_t stack[STACK];
static ucontext_t here, there;
static struct call running;
static struct card_call running_card;
static int running_kind;

/* The four calls of fields, whether log and message read or not. */
static void run_fields(void)
{
    uint32_t fields[MILEAGE_MESSAGE_FIELDS] = {0};

    mileage_read_log(running.bytes[LOG], MILEAGE_LOG_LENGTH, fields, MILEAGE_LOG_FIELDS);
    mileage_write_log(fields, MILEAGE_LOG_FIELDS, running.bytes[LOG], MILEAGE_LOG_LENGTH);
    mileage_read_message(running.bytes[MESSAGE], MILEAGE_MESSAGE_LENGTH, fields, MILEAGE_MESSAGE_FIELDS);
    mileage_write_message(fields, MILEAGE_MESSAGE_FIELDS, running.bytes[MESSAGE], MILEAGE_MESSAGE_LENGTH);
}

static void run(void)
{
    uint8_t *const at[BUFFERS] = {running.bytes[LOG], running.bytes[IMAGE], running.bytes[MESSAGE], running.bytes[OUT]};

    if (running_kind == FIELDS)
        run_fields();
    else if (running_kind < FIELDS)
        running.number = answer(&running, at, &running.decision);
    else if (running_kind < KINDS)
        running_card.number = card_answer(&running_card, running_card.rows, running_card.message, running_card.out, &running_card.decision);
}

/* The bytes of stack that this run used, its way there and back among them. */
static size_t used(int kind, const struct call *call)
{
    size_t deepest = 0;

    running = *call;
    running_card = card_call_of(call, 64, 7);
    running_kind = kind;
    memset(stack, PAINT, sizeof stack);
    getcontext(&there);
    there.uc_stack.ss_sp = stack;
    there.uc_stack.ss_size = sizeof stack;
    there.uc_link = &here;
    makecontext(&there, run, 0);
    swapcontext(&here, &there);
    while (deepest < sizeof stack && stack[deepest] == PAINT)
        deepest++;
    return sizeof stack - deepest;
}

static size_t most[KINDS];
static size_t baseline;

static void measure(int kind, const struct call *call)
{
    size_t bytes = used(kind, call) - baseline;

    if (bytes > most[kind])
        most[kind] = bytes;
}

/* The call of a unit, and the same on a card. */
static void measure_both(const struct call *call)
{
    int kind = (int)call->which + (call->which == DELIVER && call->bytes[LOG][0] == 'R');

    measure(kind, call);
    measure(CARD + kind, call);
}

/* A round that closes without a majority, or with one, for every n. */
static void measure_closings(void)
{
    for (uint32_t n = 3; n <= 16; n++)
        for (int engine = 0; engine < 2; engine++)
            for (uint32_t apart = 0; apart < 2; apart++) {
                struct senders senders = senders_of(engine ? 'R' : 'B', n, quorums[n][engine], false);
                struct call call;

                for (uint32_t i = 0; i < senders.count; i++)
                    senders.estimate[i] += apart * i;
                call = gathered(&senders, 'S');
                measure_both(&call);
            }
}

int main(int argc, char **argv)
{
    struct call start = new_call(START), key_on = new_call(KEY_ON);
    bool within = argc == KINDS + 1;

    memcpy(start.given, (const uint32_t[]){'R', 16, 15, 9999}, sizeof start.given);
    log_words("R 16 15 9999 9999 - 0 -", key_on.bytes[LOG]);
    baseline = used(NOTHING_AT_ALL, &start);
    measure(START, &start);
    measure(KEY_ON, &key_on);
    /* on a card the entry is the row's number */
    start.given[3] = 7;
    image_words("R 16 15 7 0 - - -", start.bytes[IMAGE]);
    log_words("R 16 15 7 9999 - 0 -", key_on.bytes[LOG]);
    image_words("R 16 15 7 9999 - 0 -", key_on.bytes[IMAGE]);
    measure_both(&start);
    measure_both(&key_on);
    for (size_t table = 0; table < COUNT(tables); table++)
        for (size_t i = 0; i < tables[table].count; i++) {
            struct call call = row_call(tables[table].which, &tables[table].rows[i]);

            measure_both(&call);
            measure(FIELDS, &call);
        }
    measure_closings();
    printf("stack: the deepest use in bytes:");
    for (int kind = 0; kind < KINDS; kind++) {
        size_t limit = argc == KINDS + 1 ? strtoul(argv[kind + 1], NULL, 10) : 0;

        printf(" %s %lu of %lu%s", kind_names[kind], (unsigned long)most[kind], (unsigned long)limit, kind + 1 < KINDS ? "," : "");
        within = within && most[kind] > 0 && most[kind] <= limit;
    }
    printf(within ? "\n" : ": FAILED\n");
    return within ? 0 : 1;
}
