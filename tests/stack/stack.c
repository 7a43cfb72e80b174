/* How much stack the services need. Each runs on its largest inputs in a thread whose stack was filled with a pattern, and what is left
 * of the pattern tells how far down it went; then once more in a thread that has NXA_STACK bytes in all, below which lies a page that
 * nobody may touch. Every answer must be the one that the main thread got.
 */
#include <pthread.h>
#include <stdlib.h>
#include <sys/mman.h>
#include <unistd.h>

#include "watch.h"

#define AMPLE ((size_t)1 << 20)   /* the stack for measuring */
#define FILLING 0x5A
#define WORD_LENGTH 100000
#define SCRIPT_MAX 65536
#define OUT_MAX (NXA_RECORD_MAX + 1)

/* ---- the inputs */

typedef struct {
    const uint8_t *first, *second;   /* of test, the second is the word */
    size_t first_len, second_len;
    size_t number;                   /* of the catalogue's entry, or of the record in a script */
} request;

static record dense, sparse, lacking, cycle, single, other_single, two_states, wide_two, full, nothing, cut_short, stray, blank;
static uint8_t word[WORD_LENGTH];
static uint8_t script[SCRIPT_MAX];

static uint32_t random_row(void)
{
    static uint64_t state = 1;
    state = state * 6364136223846793005u + 1442695040888963407u;
    return (uint32_t)(state >> 32);
}

/* 32 states over 8 letters, each bit set with a chance of one half, or of one in eight. */
static record scattered(int thin)
{
    uint32_t rows[2 + NXA_STATES_MAX * NXA_LETTERS_MAX];
    size_t i;
    for (i = 0; i < sizeof rows / sizeof rows[0]; i++) {
        rows[i] = thin ? random_row() & random_row() & random_row() : random_row();
    }
    return record_of(NXA_STATES_MAX, NXA_LETTERS_MAX, rows, sizeof rows / sizeof rows[0]);
}

/* Words ending in letter 7, of dimension 2, in as many states as asked for; the others are in no use. */
static record ending_in_7(unsigned states)
{
    uint32_t rows[2 + NXA_STATES_MAX * NXA_LETTERS_MAX] = {0};
    unsigned letter;
    rows[0] = 1;
    rows[1] = 2;
    for (letter = 0; letter < NXA_LETTERS_MAX; letter++) {
        rows[2 + letter * states] = rows[3 + letter * states] = letter == 7 ? 2 : 1;
    }
    return record_of(states, NXA_LETTERS_MAX, rows, 2 + (size_t)NXA_LETTERS_MAX * states);
}

/* As many records as a script can hold, all of the largest size: the cycle as the key, the single word as each answer. */
static size_t fill_script(void)
{
    size_t length = 0;
    while (length + NXA_RECORD_MAX <= SCRIPT_MAX) {
        memcpy(script + length, length == 0 ? cycle.bytes : single.bytes, NXA_RECORD_MAX);
        length += NXA_RECORD_MAX;
    }
    return length;
}

static void make_inputs(void)
{
    size_t i;
    dense = scattered(0);
    sparse = scattered(1);
    lacking = dense;
    memcpy(lacking.bytes + 7, "\1\0\0\0\2", 5);   /* state 0 alone is initial, and not final: no empty word, and so a star */
    single = power_of(7, 31, 8);
    other_single = power_of(0, 31, 8);
    cycle = changed(single, NXA_RECORD_MAX - 4, 1);   /* the last state leads back to the first: 63 letters to tell it from the word */
    two_states = ending_in_7(2);
    wide_two = ending_in_7(NXA_STATES_MAX);
    full = uniform(NXA_STATES_MAX, NXA_LETTERS_MAX, 0xFFFFFFFFu);
    nothing = uniform(0, NXA_LETTERS_MAX, 0);
    cut_short = cut(dense, NXA_RECORD_MAX - 1);
    stray = uniform(31, NXA_LETTERS_MAX, 0);
    stray = changed(stray, stray.length - 1, 0x80);
    blank = cut(nothing, 0);   /* as a second record the machine with no states; as a first one refused */
    for (i = 0; i < WORD_LENGTH; i++) {
        word[i] = (uint8_t)(random_row() % NXA_LETTERS_MAX);
    }
}

/* ---- the services, each called alike */

typedef nxa_reply calling(const request *r, uint8_t *out);

static nxa_reply call_check(const request *r, uint8_t *out)
{
    (void)out;
    return nxa_check(r->first, r->first_len);
}

static nxa_reply call_test(const request *r, uint8_t *out)
{
    (void)out;
    return nxa_test(r->first, r->first_len, r->second, r->second_len);
}

#define ONE(service)                                                     \
    static nxa_reply call_##service(const request *r, uint8_t *out)      \
    {                                                                    \
        return nxa_##service(r->first, r->first_len, out, OUT_MAX);      \
    }
#define TWO(service)                                                                               \
    static nxa_reply call_##service(const request *r, uint8_t *out)                                \
    {                                                                                              \
        return nxa_##service(r->first, r->first_len, r->second, r->second_len, out, OUT_MAX);      \
    }
ONE(rewrite)
ONE(minimal)
ONE(complement)
ONE(mirror)
ONE(star)
TWO(compare)
TWO(sum)
TWO(meet)
TWO(product)

static nxa_reply call_catalogue(const request *r, uint8_t *out)
{
    return nxa_catalogue(r->number, out, OUT_MAX);
}

static nxa_reply call_mark(const request *r, uint8_t *out)
{
    return nxa_mark(r->first, r->first_len, r->number, out, OUT_MAX);
}

typedef enum { RECORDS, WORDS, PAIRS, NUMBERS, SCRIPTS } inputs;

typedef struct {
    const char *name;
    calling *call;
    inputs of;
} service;

static const service services[] = {
    {"check", call_check, RECORDS},
    {"rewrite", call_rewrite, RECORDS},
    {"test", call_test, WORDS},
    {"minimal", call_minimal, RECORDS},
    {"compare", call_compare, PAIRS},
    {"sum", call_sum, PAIRS},
    {"meet", call_meet, PAIRS},
    {"complement", call_complement, RECORDS},
    {"mirror", call_mirror, RECORDS},
    {"product", call_product, PAIRS},
    {"star", call_star, RECORDS},
    {"catalogue", call_catalogue, NUMBERS},
    {"mark", call_mark, SCRIPTS},
};

/* ---- the requests of a service */

#define REQUESTS_MAX 169

typedef struct {
    request each[REQUESTS_MAX];
    size_t count;
} requests;

static void ask(requests *all, const uint8_t *first, size_t first_len, const uint8_t *second, size_t second_len, size_t number)
{
    const request r = {first, second, first_len, second_len, number};
    if (all->count == REQUESTS_MAX) {
        printf("stack: more requests than there is room for\n");
        exit(1);
    }
    all->each[all->count++] = r;
}

static void ask_records(requests *all, inputs of)
{
    const record *const records[] = {&dense,    &sparse, &lacking, &cycle,     &single, &other_single, &two_states,
                                     &wide_two, &full,   &nothing, &cut_short, &stray,  &blank};
    const size_t count = sizeof records / sizeof records[0];
    size_t i, j;
    for (i = 0; i < count; i++) {
        const record *const r = records[i];
        if (of == PAIRS) {
            for (j = 0; j < count; j++) {
                ask(all, r->bytes, r->length, records[j]->bytes, records[j]->length, 0);
            }
        } else {
            ask(all, r->bytes, r->length, word, of == WORDS ? WORD_LENGTH : 0, 0);
        }
    }
}

static void ask_all(requests *all, inputs of)
{
    size_t i;
    all->count = 0;
    if (of == NUMBERS) {
        for (i = 0; i <= NXA_CATALOGUE_LAST + 1; i++) {
            ask(all, NULL, 0, NULL, 0, i);
        }
    } else if (of == SCRIPTS) {
        const size_t length = fill_script();
        for (i = 0; i <= length / NXA_RECORD_MAX; i++) {
            ask(all, script, length, NULL, 0, i);
        }
        ask(all, script, length - 1, NULL, 0, length / NXA_RECORD_MAX - 1);
    } else {
        ask_records(all, of);
    }
}

/* ---- runs */

typedef struct {
    nxa_reply reply;
    uint8_t out[OUT_MAX];
} answer;

typedef struct {
    const service *of;
    const requests *all;
    answer *answers;
    uintptr_t frame;   /* where the caller of the service stands */
} run;

/* The answers stand in static memory, so that the stack holds little beside the service. */
static void *run_all(void *given)
{
    run *const r = given;
    size_t i;
    r->frame = (uintptr_t)__builtin_frame_address(0);
    for (i = 0; i < r->all->count; i++) {
        memset(r->answers[i].out, FILLING, OUT_MAX);
        r->answers[i].reply = r->of->call(&r->all->each[i], r->answers[i].out);
    }
    return NULL;
}

static void must(int holds, const char *what)
{
    if (!holds) {
        printf("stack: %s\n", what);
        exit(1);
    }
}

/* Runs in a thread on a stack of so many bytes, the lowest page below it out of bounds: how far below its caller a service went. */
static size_t run_on(size_t size, run *r)
{
    const size_t page = (size_t)sysconf(_SC_PAGESIZE);
    uint8_t *const whole = mmap(NULL, page + size, PROT_READ | PROT_WRITE, MAP_PRIVATE | MAP_ANONYMOUS, -1, 0);
    uint8_t *const stack = whole + page;
    pthread_attr_t attributes;
    pthread_t thread;
    size_t untouched = 0;
    must(whole != MAP_FAILED && mprotect(whole, page, PROT_NONE) == 0, "no memory for a stack");
    memset(stack, FILLING, size);
    must(pthread_attr_init(&attributes) == 0 && pthread_attr_setstack(&attributes, stack, size) == 0 &&
             pthread_create(&thread, &attributes, run_all, r) == 0 && pthread_join(thread, NULL) == 0,
         "no thread on this stack");
    while (stack[untouched] == FILLING) {
        untouched++;
    }
    pthread_attr_destroy(&attributes);
    munmap(whole, page + size);
    return (size_t)(r->frame - (uintptr_t)(stack + untouched));
}

static answer expected[REQUESTS_MAX], got[REQUESTS_MAX];

static int agree(size_t count)
{
    size_t i;
    for (i = 0; i < count; i++) {
        const nxa_reply one = expected[i].reply, two = got[i].reply;
        if (one.number != two.number || one.record != two.record || one.place != two.place || one.length != two.length ||
            one.value != two.value || memcmp(expected[i].out, got[i].out, OUT_MAX) != 0) {
            return 0;
        }
    }
    return 1;
}

/* One line of the table; the bytes of stack that the service used. */
static size_t measure(const service *s)
{
    static requests all;
    run r = {s, &all, expected, 0};
    size_t used;
    ask_all(&all, s->of);
    run_all(&r);
    r.answers = got;
    used = run_on(AMPLE, &r);
    must(agree(all.count), "another answer on another stack");
    memset(got, 0, sizeof got);
    run_on(NXA_STACK, &r);
    must(agree(all.count), "another answer on the small stack");
    printf("%-12s %8zu %8zu   passes\n", s->name, all.count, used);
    return used;
}

int main(void)
{
    size_t i, used, most = 0;
    make_inputs();
    printf("%-12s %8s %8s   on %d bytes in all\n", "service", "requests", "bytes", NXA_STACK);
    for (i = 0; i < sizeof services / sizeof services[0]; i++) {
        used = measure(&services[i]);
        most = used > most ? used : most;
    }
    printf("stack: at most %zu bytes; %d are asked for\n", most, NXA_STACK);
    must(most + NXA_STACK / 4 <= NXA_STACK, "less than a quarter is left");
    return 0;
}

/* Counted by the tests of the interface, and not here. */
int checks, failures;
