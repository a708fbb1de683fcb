/*
 * Puts itself between a program and the archive (link with --wrap for each entry): every buffer that the program lends is
 * handed on in a heap block of its own of exactly its length, so that valgrind sees what a call reads or writes outside it.
 */
#include "block.h"
#include "mileage.h"

/* The entries themselves, and what the program calls in their place. */
uint32_t __real_mileage_start(uint32_t, uint32_t, uint32_t, uint32_t, uint8_t *, size_t, uint8_t *, size_t);
uint32_t __real_mileage_key_on(const uint8_t *, size_t, uint8_t *, size_t);
uint32_t __real_mileage_propose(const uint8_t *, size_t, uint8_t *, size_t, uint32_t, uint8_t *, size_t);
uint32_t __real_mileage_deliver(uint8_t *, size_t, uint8_t *, size_t, const uint8_t *, size_t, uint8_t *, size_t, uint32_t *);
uint32_t __real_mileage_read_message(const uint8_t *, size_t, uint32_t *, size_t);
uint32_t __real_mileage_card_start(uint32_t, uint32_t, uint32_t, mileage_row *, size_t, uint32_t);
uint32_t __real_mileage_card_key_on(uint32_t, uint32_t, uint32_t, mileage_row *, size_t, uint32_t);
uint32_t __real_mileage_card_propose(uint32_t, uint32_t, uint32_t, mileage_row *, size_t, uint32_t, uint32_t, uint8_t *, size_t);
uint32_t __real_mileage_card_deliver(uint32_t, uint32_t, uint32_t, mileage_row *, size_t, const uint8_t *, size_t, uint8_t *, size_t, uint32_t *);
uint32_t __wrap_mileage_start(uint32_t, uint32_t, uint32_t, uint32_t, uint8_t *, size_t, uint8_t *, size_t);
uint32_t __wrap_mileage_key_on(const uint8_t *, size_t, uint8_t *, size_t);
uint32_t __wrap_mileage_propose(const uint8_t *, size_t, uint8_t *, size_t, uint32_t, uint8_t *, size_t);
uint32_t __wrap_mileage_deliver(uint8_t *, size_t, uint8_t *, size_t, const uint8_t *, size_t, uint8_t *, size_t, uint32_t *);
uint32_t __wrap_mileage_read_message(const uint8_t *, size_t, uint32_t *, size_t);
uint32_t __wrap_mileage_card_start(uint32_t, uint32_t, uint32_t, mileage_row *, size_t, uint32_t);
uint32_t __wrap_mileage_card_key_on(uint32_t, uint32_t, uint32_t, mileage_row *, size_t, uint32_t);
uint32_t __wrap_mileage_card_propose(uint32_t, uint32_t, uint32_t, mileage_row *, size_t, uint32_t, uint32_t, uint8_t *, size_t);
uint32_t __wrap_mileage_card_deliver(uint32_t, uint32_t, uint32_t, mileage_row *, size_t, const uint8_t *, size_t, uint8_t *, size_t, uint32_t *);

static void *whole(const void *buffer, size_t size)
{
    return lend(buffer, size, size);
}

static void back(void *block, void *buffer, size_t size)
{
    take_back(block, buffer, size, size);
}

uint32_t __wrap_mileage_start(uint32_t engine, uint32_t n, uint32_t unit, uint32_t entry,
                              uint8_t *log, size_t log_len, uint8_t *image, size_t image_len)
{
    uint8_t *l = whole(log, log_len), *i = whole(image, image_len);
    uint32_t number = __real_mileage_start(engine, n, unit, entry, l, log_len, i, image_len);

    back(l, log, log_len);
    back(i, image, image_len);
    return number;
}

uint32_t __wrap_mileage_key_on(const uint8_t *log, size_t log_len, uint8_t *image, size_t image_len)
{
    uint8_t *l = whole(log, log_len), *i = whole(image, image_len);
    uint32_t number = __real_mileage_key_on(l, log_len, i, image_len);

    free(l);
    back(i, image, image_len);
    return number;
}

uint32_t __wrap_mileage_propose(const uint8_t *log, size_t log_len, uint8_t *image, size_t image_len, uint32_t mileage,
                                uint8_t *out, size_t out_len)
{
    uint8_t *l = whole(log, log_len), *i = whole(image, image_len), *o = whole(out, out_len);
    uint32_t number = __real_mileage_propose(l, log_len, i, image_len, mileage, o, out_len);

    free(l);
    back(i, image, image_len);
    back(o, out, out_len);
    return number;
}

uint32_t __wrap_mileage_deliver(uint8_t *log, size_t log_len, uint8_t *image, size_t image_len,
                                const uint8_t *message, size_t message_len, uint8_t *out, size_t out_len, uint32_t *decision)
{
    uint8_t *l = whole(log, log_len), *i = whole(image, image_len), *m = whole(message, message_len), *o = whole(out, out_len);
    uint32_t *d = whole(decision, sizeof *d);
    uint32_t number = __real_mileage_deliver(l, log_len, i, image_len, m, message_len, o, out_len, d);

    back(l, log, log_len);
    back(i, image, image_len);
    free(m);
    back(o, out, out_len);
    back(d, decision, sizeof *d);
    return number;
}

uint32_t __wrap_mileage_read_message(const uint8_t *message, size_t message_len, uint32_t *fields, size_t fields_len)
{
    uint8_t *m = whole(message, message_len);
    uint32_t *f = whole(fields, fields_len * sizeof *f);
    uint32_t number = __real_mileage_read_message(m, message_len, f, fields_len);

    free(m);
    back(f, fields, fields_len * sizeof *f);
    return number;
}

uint32_t __wrap_mileage_card_start(uint32_t engine, uint32_t n, uint32_t unit, mileage_row *rows, size_t count, uint32_t row)
{
    mileage_row *r = whole(rows, count * sizeof *r);
    uint32_t number = __real_mileage_card_start(engine, n, unit, r, count, row);

    back(r, rows, count * sizeof *r);
    return number;
}

uint32_t __wrap_mileage_card_key_on(uint32_t engine, uint32_t n, uint32_t unit, mileage_row *rows, size_t count, uint32_t row)
{
    mileage_row *r = whole(rows, count * sizeof *r);
    uint32_t number = __real_mileage_card_key_on(engine, n, unit, r, count, row);

    back(r, rows, count * sizeof *r);
    return number;
}

uint32_t __wrap_mileage_card_propose(uint32_t engine, uint32_t n, uint32_t unit, mileage_row *rows, size_t count, uint32_t row,
                                     uint32_t mileage, uint8_t *out, size_t out_len)
{
    mileage_row *r = whole(rows, count * sizeof *r);
    uint8_t *o = whole(out, out_len);
    uint32_t number = __real_mileage_card_propose(engine, n, unit, r, count, row, mileage, o, out_len);

    back(r, rows, count * sizeof *r);
    back(o, out, out_len);
    return number;
}

uint32_t __wrap_mileage_card_deliver(uint32_t engine, uint32_t n, uint32_t unit, mileage_row *rows, size_t count,
                                     const uint8_t *message, size_t message_len, uint8_t *out, size_t out_len, uint32_t *decision)
{
    mileage_row *r = whole(rows, count * sizeof *r);
    uint8_t *m = whole(message, message_len), *o = whole(out, out_len);
    uint32_t *d = whole(decision, sizeof *d);
    uint32_t number = __real_mileage_card_deliver(engine, n, unit, r, count, m, message_len, o, out_len, d);

    back(r, rows, count * sizeof *r);
    free(m);
    back(o, out, out_len);
    back(d, decision, sizeof *d);
    return number;
}
