/* Runs the stored cases through the C interface: the five numbers of every reply, and every byte of the lent buffer and around it. The
 * inputs lie right before a page that nobody may touch, so that a service that reads past their end is caught; they must stay as they
 * are. The file says how its lines are to be read.
 */
#include <stdio.h>
#include <stdlib.h>
#include <string.h>
#include <sys/mman.h>
#include <unistd.h>

#include "nxa.h"

#define INPUT_MAX ((size_t)1 << 17)
#define GUARD 64
#define LENT_MAX 2000

/* ---- the services by name */

typedef nxa_reply one_service(const uint8_t *, size_t, uint8_t *, size_t);
typedef nxa_reply two_service(const uint8_t *, size_t, const uint8_t *, size_t, uint8_t *, size_t);

typedef enum { CHECK, TEST, ONE, TWO, CATALOGUE, MARK } kind;

typedef struct {
    const char *name;
    kind of;
    one_service *one;
    two_service *two;
} service;

static const service services[] = {
    {"check", CHECK, NULL, NULL},
    {"test", TEST, NULL, NULL},
    {"rewrite", ONE, nxa_rewrite, NULL},
    {"minimal", ONE, nxa_minimal, NULL},
    {"complement", ONE, nxa_complement, NULL},
    {"mirror", ONE, nxa_mirror, NULL},
    {"star", ONE, nxa_star, NULL},
    {"compare", TWO, NULL, nxa_compare},
    {"sum", TWO, NULL, nxa_sum},
    {"meet", TWO, NULL, nxa_meet},
    {"product", TWO, NULL, nxa_product},
    {"catalogue", CATALOGUE, NULL, NULL},
    {"mark", MARK, NULL, NULL},
};

/* ---- a case */

typedef struct {
    uint8_t *end;   /* the page that nobody may touch */
    size_t length;
    uint8_t kept[INPUT_MAX];
} input;

typedef struct {
    const service *of;
    size_t number, lent;
    nxa_reply want;
    uint8_t written[LENT_MAX];
} stored_case;

static size_t line_number;

static void fail(const char *what)
{
    printf("stored: line %zu: %s\n", line_number, what);
    exit(1);
}

/* ---- reading a line */

static int digit(char c)
{
    return c >= '0' && c <= '9' ? c - '0' : c >= 'a' && c <= 'f' ? c - 'a' + 10 : -1;
}

/* One part, up to its end or a sign; the bytes that it holds, read from the text on. */
static const char *read_part(const char *text, uint8_t *bytes, size_t room, size_t *length)
{
    *length = 0;
    while (*text == '.' || digit(*text) >= 0) {
        const int zero = *text == '.';
        if (*length == room || (!zero && digit(text[1]) < 0)) {
            fail("bytes that cannot be read");
        }
        bytes[(*length)++] = (uint8_t)(zero ? 0 : 16 * digit(text[0]) + digit(text[1]));
        text += zero ? 1 : 2;
    }
    return text;
}

/* Parts joined by +, each with * and a count or without; a dash is nothing. */
static size_t read_bytes(const char *text, uint8_t *bytes, size_t room)
{
    size_t all = 0, length, count, i;
    char *after;
    if (strcmp(text, "-") == 0) {
        return 0;
    }
    for (;;) {
        text = read_part(text, bytes + all, room - all, &length);
        count = 1;
        if (*text == '*') {
            count = strtoul(text + 1, &after, 10);
            text = after;
        }
        if (count == 0 || length * count > room - all) {
            fail("more bytes than there is room for");
        }
        for (i = 1; i < count; i++) {
            memcpy(bytes + all + i * length, bytes + all, length);
        }
        all += length * count;
        if (*text != '+') {
            break;
        }
        text++;
    }
    if (*text != '\0') {
        fail("a sign that is not known");
    }
    return all;
}

static void read_input(const char *text, input *in)
{
    if (strcmp(text, "=") != 0) {
        in->length = read_bytes(text, in->kept, INPUT_MAX);
        memcpy(in->end - in->length, in->kept, in->length);
    }
}

static size_t read_number(const char *text)
{
    char *after;
    const unsigned long long number = strtoull(text, &after, 10);
    if (after == text || *after != '\0') {
        fail("a number that cannot be read");
    }
    return (size_t)number;
}

static const service *find_service(const char *name)
{
    size_t i;
    for (i = 0; i < sizeof services / sizeof services[0]; i++) {
        if (strcmp(services[i].name, name) == 0) {
            return &services[i];
        }
    }
    fail("a service that is not known");
    return NULL;
}

#define COLUMNS 11

static void read_case(char *line, stored_case *c, input *first, input *second)
{
    char *column[COLUMNS];
    size_t i;
    for (i = 0; i < COLUMNS; i++) {
        column[i] = strtok(i == 0 ? line : NULL, " \n");
        if (column[i] == NULL) {
            fail("too few columns");
        }
    }
    c->of = find_service(column[0]);
    read_input(column[1], first);
    read_input(column[2], second);
    c->number = read_number(column[3]);
    c->lent = read_number(column[4]);
    c->want.number = read_number(column[5]);
    c->want.record = read_number(column[6]);
    c->want.place = read_number(column[7]);
    c->want.length = read_number(column[8]);
    c->want.value = read_number(column[9]);
    if (c->lent > LENT_MAX || read_bytes(column[10], c->written, LENT_MAX) != c->want.length) {
        fail("the bytes written are not as many as the length says");
    }
}

/* ---- running it */

static nxa_reply call(const stored_case *c, const input *in, uint8_t *out)
{
    const uint8_t *const first = in[0].end - in[0].length, *const second = in[1].end - in[1].length;
    switch (c->of->of) {
    case CHECK:
        return nxa_check(first, in[0].length);
    case TEST:
        return nxa_test(first, in[0].length, second, in[1].length);
    case ONE:
        return c->of->one(first, in[0].length, out, c->lent);
    case TWO:
        return c->of->two(first, in[0].length, second, in[1].length, out, c->lent);
    case CATALOGUE:
        return nxa_catalogue(c->number, out, c->lent);
    default:
        return nxa_mark(first, in[0].length, c->number, out, c->lent);
    }
}

static uint8_t sentinel(size_t place)
{
    return (uint8_t)(0xA5 + 37 * place);
}

static void run_case(const stored_case *c, const input *in)
{
    static uint8_t all[GUARD + LENT_MAX + GUARD];
    nxa_reply got;
    size_t i;
    for (i = 0; i < sizeof all; i++) {
        all[i] = sentinel(i);
    }
    got = call(c, in, all + GUARD);
    if (got.number != c->want.number || got.record != c->want.record || got.place != c->want.place ||
        got.length != c->want.length || got.value != c->want.value) {
        printf("stored: %s replies %zu %zu %zu %zu %zu\n", c->of->name, got.number, got.record, got.place, got.length, got.value);
        fail("another reply");
    }
    for (i = 0; i < sizeof all; i++) {
        const int inside = i >= GUARD && i - GUARD < c->want.length;
        if (all[i] != (inside ? c->written[i - GUARD] : sentinel(i))) {
            printf("stored: %s, byte %ld of the lent buffer\n", c->of->name, (long)i - GUARD);
            fail("another byte");
        }
    }
    for (i = 0; i < 2; i++) {
        if (memcmp(in[i].end - in[i].length, in[i].kept, in[i].length) != 0) {
            fail("an input is written");
        }
    }
}

static void make_room(input *in)
{
    const size_t page = (size_t)sysconf(_SC_PAGESIZE);
    uint8_t *const bytes = mmap(NULL, INPUT_MAX + page, PROT_READ | PROT_WRITE, MAP_PRIVATE | MAP_ANONYMOUS, -1, 0);
    if (bytes == MAP_FAILED || mprotect(bytes + INPUT_MAX, page, PROT_NONE) != 0) {
        fail("no memory for an input");
    }
    in->end = bytes + INPUT_MAX;
}

int main(int argc, char **argv)
{
    static input in[2];
    static stored_case c;
    FILE *const file = argc > 1 ? fopen(argv[1], "r") : stdin;
    char *line = NULL;
    size_t room = 0, cases = 0, told = 0;
    if (file == NULL) {
        fail("the file cannot be read");
    }
    make_room(&in[0]);
    make_room(&in[1]);
    while (told == 0 && getline(&line, &room, file) > 0) {
        line_number++;
        if (strncmp(line, "end ", 4) == 0) {
            told = strtoul(line + 4, NULL, 10);
        } else if (line[0] != '#') {
            read_case(line, &c, &in[0], &in[1]);
            cases++;
            run_case(&c, in);
        }
    }
    if (told == 0 || told != cases) {
        fail("the file does not end as it should");
    }
    free(line);
    printf("stored: %zu cases agree\n", cases);
    return 0;
}
