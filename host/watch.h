/* What the tests of the C interface share: counted checks, slices with watched bytes around them, and records. */
#ifndef WATCH_H
#define WATCH_H

#include <stdio.h>
#include <string.h>

#include "nxa.h"

#define GUARD 32
#define ROOM (NXA_RECORD_MAX + 9)

/* Counted in test.c. */
extern int checks, failures;

static inline void expect(int holds, const char *what, const char *service, const char *of)
{
    checks++;
    if (!holds) {
        failures++;
        printf("host: %s: %s of %s\n", what, service, of);
    }
}

static inline void expect_reply(const char *service, const char *what, nxa_reply got, nxa_reply want)
{
    const int same = got.number == want.number && got.record == want.record && got.place == want.place &&
                     got.length == want.length && got.value == want.value;
    expect(same, "reply", service, what);
    if (!same) {
        printf("  number %zu record %zu place %zu length %zu value %zu\n", got.number, got.record, got.place, got.length,
               got.value);
        printf("  wanted %zu %zu %zu %zu %zu\n", want.number, want.record, want.place, want.length, want.value);
    }
}

static inline nxa_reply granted(size_t length, size_t value)
{
    const nxa_reply reply = {NXA_GRANTED, 0, 0, length, value};
    return reply;
}

static inline nxa_reply refused(size_t number, size_t record, size_t place)
{
    const nxa_reply reply = {number, record, place, 0, 0};
    return reply;
}

/* ---- bytes in the middle of others that nobody may touch */

typedef struct {
    uint8_t all[GUARD + ROOM + GUARD];
    size_t size;
} slice;

static inline uint8_t sentinel(size_t place)
{
    return (uint8_t)(0xA5 + 37 * place);
}

static inline uint8_t *lend(slice *s, size_t size)
{
    size_t i;
    s->size = size;
    for (i = 0; i < sizeof s->all; i++) {
        s->all[i] = sentinel(i);
    }
    return s->all + GUARD;
}

/* The first bytes are these, and every other byte is what it was. */
static inline void expect_bytes(const slice *s, const uint8_t *written, size_t length, const char *service, const char *of)
{
    size_t i, wrong = 0;
    for (i = 0; i < sizeof s->all; i++) {
        const int inside = i >= GUARD && i - GUARD < length;
        wrong += s->all[i] != (inside ? written[i - GUARD] : sentinel(i));
    }
    expect(wrong == 0, "bytes of the buffer", service, of);
}

/* ---- records */

typedef struct {
    uint8_t bytes[ROOM];
    size_t length;
} record;

/* A record whose head says n and a, with as many rows as given; nothing is checked. */
static inline record record_of(unsigned n, unsigned a, const uint32_t *rows, size_t count)
{
    record r;
    size_t i, k;
    memset(r.bytes, 0, sizeof r.bytes);
    memcpy(r.bytes, "\x4E\x58\x41\x01", 4);
    r.bytes[5] = (uint8_t)n;
    r.bytes[6] = (uint8_t)a;
    for (i = 0; i < count; i++) {
        for (k = 0; k < 4; k++) {
            r.bytes[7 + 4 * i + k] = (uint8_t)(rows[i] >> (8 * k));
        }
    }
    r.length = 7 + 4 * count;
    return r;
}

/* Every row the same, and as many of them as n and a ask for. */
static inline record uniform(unsigned n, unsigned a, uint32_t row)
{
    uint32_t rows[2 + NXA_STATES_MAX * NXA_LETTERS_MAX];
    size_t i;
    for (i = 0; i < 2 + (size_t)a * n; i++) {
        rows[i] = row;
    }
    return record_of(n, a, rows, 2 + (size_t)a * n);
}

static inline record changed(record r, size_t offset, uint8_t byte)
{
    r.bytes[offset] = byte;
    return r;
}

static inline record cut(record r, size_t length)
{
    r.length = length;
    return r;
}

/* The four-state machine of X, every run of 0 not leaving 2 on division by 3, and its minimal record. */
static const uint32_t x12_rows[10] = {1, 3, 2, 4, 1, 8, 1, 1, 8, 8};
static const uint32_t x_rows[6] = {1, 3, 2, 3, 1, 1};

static inline record x12(void)
{
    return record_of(4, 2, x12_rows, 10);
}

static inline record x(void)
{
    return record_of(2, 2, x_rows, 6);
}

/* Only the word of so many times a letter, over so many letters. */
static inline record power_of(unsigned letter, unsigned length, unsigned letters)
{
    uint32_t rows[2 + NXA_STATES_MAX * NXA_LETTERS_MAX] = {0};
    uint32_t *own = rows + 2 + (size_t)letter * (length + 1);
    unsigned i;
    rows[0] = 1;
    rows[1] = (uint32_t)1 << length;
    for (i = 0; i < length; i++) {
        own[i] = (uint32_t)2 << i;
    }
    return record_of(length + 1, letters, rows, 2 + (size_t)letters * (length + 1));
}

/* Only the word of so many letters 0, over one letter. */
static inline record power(unsigned length)
{
    return power_of(0, length, 1);
}

/* The tests of the services on two records, of the operations, of the catalogue, and of the marking. */
void test_pairs(void);
void test_operations(void);
void test_catalogue(void);
void test_mark(void);

#endif
