/* Tests of sum, meet, complement, mirror, product and star: the samples, the limits, which record is looked at first, every buffer. */
#include "watch.h"

typedef nxa_reply unary(const uint8_t *, size_t, uint8_t *, size_t);
typedef nxa_reply binary(const uint8_t *, size_t, const uint8_t *, size_t, uint8_t *, size_t);

/* An operation by its name, on one record or on two. */
typedef struct {
    const char *name;
    unary *one;
    binary *two;
} operation;

static const operation sum = {"sum", NULL, nxa_sum}, meet = {"meet", NULL, nxa_meet};
static const operation complement = {"complement", nxa_complement, NULL}, mirror = {"mirror", nxa_mirror, NULL};
static const operation product = {"product", NULL, nxa_product}, star = {"star", nxa_star, NULL};

static record inputs[2];

/* One call with a lent buffer of so many bytes: the reply, and every byte of the buffer and around it. */
static void lent(operation o, const char *what, const record *first, const record *second, size_t room, const record *wanted,
                 nxa_reply want)
{
    slice out;
    uint8_t *bytes = lend(&out, room);
    nxa_reply got;
    inputs[0] = *first;
    inputs[1] = *second;
    got = o.two != NULL ? o.two(inputs[0].bytes, first->length, inputs[1].bytes, second->length, bytes, room)
                        : o.one(inputs[0].bytes, first->length, bytes, room);
    expect_reply(o.name, what, got, want);
    expect_bytes(&out, wanted->bytes, want.length, o.name, what);
    expect(memcmp(&inputs[0], first, sizeof *first) == 0 && memcmp(&inputs[1], second, sizeof *second) == 0,
           "the inputs are kept", o.name, what);
}

/* A result: no room, one byte short, exactly enough, more than enough. */
static void gives(operation o, const char *what, record first, record second, record wanted)
{
    const nxa_reply short_reply = refused(NXA_NO_ROOM, 0, wanted.length), done = granted(wanted.length, 0);
    lent(o, what, &first, &second, 0, &wanted, short_reply);
    lent(o, what, &first, &second, wanted.length - 1, &wanted, short_reply);
    lent(o, what, &first, &second, wanted.length, &wanted, done);
    lent(o, what, &first, &second, wanted.length + 1, &wanted, done);
    lent(o, what, &first, &second, ROOM, &wanted, done);
}

/* A refusal with any buffer. */
static void refuses(operation o, const char *what, record first, record second, nxa_reply want)
{
    lent(o, what, &first, &second, 0, &first, want);
    lent(o, what, &first, &second, ROOM, &first, want);
}

static record of_words(unsigned states, const uint32_t *rows)
{
    return record_of(states, 2, rows, 2 + 2 * (size_t)states);
}

/* Samples 4, 6 and 8, and laws that hold of every record. */
static void samples(void)
{
    static const uint32_t all[4] = {1, 1, 1, 1}, empty_word[4] = {1, 1, 0, 0}, zeros[4] = {1, 1, 1, 0}, ones[4] = {1, 1, 0, 1};
    static const uint32_t either[6] = {1, 2, 2, 2, 3, 0};
    static const uint32_t ending_in_1[6] = {1, 2, 1, 1, 2, 2}, beginning_with_1[6] = {1, 2, 0, 2, 2, 2};
    const record nothing = uniform(0, 2, 0), every = of_words(1, all), last = of_words(2, ending_in_1);
    const record first = of_words(2, beginning_with_1), either_of = of_words(2, either);
    gives(complement, "n = 0", nothing, nothing, every);
    gives(complement, "all words", every, nothing, nothing);
    gives(sum, "0* and 1*", of_words(1, zeros), of_words(1, ones), either_of);
    gives(meet, "0* and 1*", of_words(1, zeros), of_words(1, ones), of_words(1, empty_word));
    gives(mirror, "words ending in 1", last, nothing, first);
    gives(mirror, "words beginning with 1", first, nothing, last);
    gives(sum, "X with itself", x12(), x(), nothing);
    gives(sum, "X and nothing", x12(), nothing, x());
    gives(meet, "X with itself", x12(), x(), x());
    gives(meet, "X and all words", x12(), every, x());
    gives(mirror, "only 0^31", power(31), nothing, power(31));
}

/* Words by the number of their cuts: in two, at any place; and into any number of words. */
static void cuts(void)
{
    static const uint32_t zeros[4] = {1, 1, 1, 0}, ones[4] = {1, 1, 0, 1}, empty_word[4] = {1, 1, 0, 0};
    static const uint32_t zeros_ones[6] = {1, 3, 1, 0, 2, 2}, ones_zeros[6] = {1, 3, 2, 2, 1, 0};
    static const uint32_t all[3] = {1, 1, 1}, even[4] = {1, 1, 2, 1}, nonempty[4] = {1, 2, 2, 2}, at_most_one[4] = {1, 3, 2, 0};
    static const uint32_t two_paths[4] = {3, 3, 1, 2}, only_0[6] = {1, 2, 2, 0, 0, 0};
    const record nothing = uniform(0, 2, 0), unit = of_words(1, empty_word), none = uniform(0, 1, 0);
    gives(product, "0* and then 1*", of_words(1, zeros), of_words(1, ones), of_words(2, zeros_ones));
    gives(product, "1* and then 0*", of_words(1, ones), of_words(1, zeros), of_words(2, ones_zeros));
    gives(product, "all words twice", record_of(1, 1, all, 3), record_of(1, 1, all, 3), record_of(2, 1, even, 4));
    gives(product, "X, then the empty word", x12(), unit, x());
    gives(product, "the empty word, then X", unit, x12(), x());
    gives(product, "X, then no word", x12(), nothing, nothing);
    gives(product, "no word, then X", nothing, x12(), nothing);
    gives(product, "only 0^15, then only 0^16", power(15), power(16), power(31));
    gives(star, "all nonempty words", record_of(2, 1, nonempty, 4), none, record_of(2, 1, at_most_one, 4));
    gives(star, "no word", nothing, nothing, unit);
    gives(star, "only 0", of_words(2, only_0), nothing, of_words(1, zeros));
    gives(star, "two paths along the empty word", record_of(2, 1, two_paths, 4), none, power(0));
}

/* A second record of 0 bytes, a blank, is the machine with no states over the first one's letters. */
static void blanks(void)
{
    unsigned a;
    gives(sum, "X and a blank", x12(), cut(x12(), 0), x());
    gives(meet, "X and a blank", x12(), cut(x12(), 0), uniform(0, 2, 0));
    gives(product, "X and a blank", x12(), cut(x12(), 0), uniform(0, 2, 0));
    for (a = 1; a <= NXA_LETTERS_MAX; a++) {
        const record largest = power_of(a - 1, 31, a), nothing = uniform(0, a, 0), blank = cut(largest, 0);
        gives(sum, "32 states and a blank", largest, blank, largest);
        gives(meet, "32 states and a blank", largest, blank, nothing);
        gives(product, "32 states and a blank", largest, blank, nothing);
        gives(sum, "n = 0 and a blank", nothing, blank, nothing);
        gives(meet, "n = 0 and a blank", nothing, blank, nothing);
        gives(product, "n = 0 and a blank", nothing, blank, nothing);
    }
}

/* Rows 10 and 11 at their limits; rows 8 and 14 and the records' own rows come before them, row 12 after. */
static void limits(void)
{
    const record none = uniform(0, 1, 0), cycle = changed(power(31), power(31).length - 4, 1);
    unsigned length;
    gives(meet, "only 0^7 with itself", power(7), power(7), power(7));
    gives(meet, "only 0^31 and only 0^1", power(31), power(1), none);
    refuses(meet, "only 0^8 and only 0^7", power(8), power(7), refused(NXA_PRODUCT, 0, 72));
    refuses(meet, "only 0^31 with itself", power(31), power(31), refused(NXA_PRODUCT, 0, 1024));
    refuses(sum, "only 0^20 and only 1^20", power_of(0, 20, 2), power_of(1, 20, 2), refused(NXA_DIMENSION, 0, 40));
    refuses(complement, "only 0^31", power(31), none, refused(NXA_DIMENSION, 0, 33));
    refuses(sum, "a = 2 and a = 1", power_of(0, 31, 2), power(31), refused(NXA_UNLIKE_LETTERS, 2, 6));
    refuses(meet, "a = 2 and a = 1", power_of(0, 31, 2), power(31), refused(NXA_UNLIKE_LETTERS, 2, 6));
    for (length = 1; length < 32; length++) {
        gives(product, "dimension 32", power_of(0, length, 8), power_of(0, 31 - length, 8), power_of(0, 31, 8));
        refuses(product, "dimension 33 to 63", power_of(0, 31, 8), power_of(7, length, 8), refused(NXA_DIMENSION, 0, 32 + length));
    }
    refuses(product, "only 0^16 with itself", power(16), power(16), refused(NXA_DIMENSION, 0, 33));
    refuses(product, "lengths 31 mod 32 with itself", cycle, cycle, refused(NXA_DIMENSION, 0, 64));
    refuses(product, "a = 2 and a = 1", power_of(0, 31, 2), power(31), refused(NXA_UNLIKE_LETTERS, 2, 6));
    refuses(star, "lengths 31 mod 32", cycle, none, refused(NXA_DIMENSION, 0, 33));
    refuses(star, "lengths 31 and 0 mod 32", changed(cycle, 11, 1), none, refused(NXA_EMPTY_WORD, 1, 0));
    refuses(star, "only 0^31 and the empty word", changed(power(31), 11, 1), none, refused(NXA_EMPTY_WORD, 1, 0));
    refuses(star, "X", x12(), none, refused(NXA_EMPTY_WORD, 1, 0));
    refuses(star, "only the empty word", power_of(0, 0, 8), none, refused(NXA_EMPTY_WORD, 1, 0));
}

/* Rows 1 to 7 of the first record, then of the second, where row 1 needs 1 to 6 bytes. */
static void refusals(void)
{
    static const operation pairs[3] = {{"sum", NULL, nxa_sum}, {"meet", NULL, nxa_meet}, {"product", NULL, nxa_product}};
    static const operation singles[3] = {{"complement", nxa_complement, NULL}, {"mirror", nxa_mirror, NULL}, {"star", nxa_star, NULL}};
    const record good = x12(), mark = changed(good, 2, 0x42), states = changed(good, 5, 33), stray = uniform(1, 2, 2);
    const record empty = cut(good, 0);
    size_t length;
    int i;
    for (i = 0; i < 3; i++) {
        refuses(pairs[i], "both empty", empty, empty, refused(NXA_TOO_SHORT, 1, 0));
        refuses(pairs[i], "first empty", empty, good, refused(NXA_TOO_SHORT, 1, 0));
        refuses(pairs[i], "first mark, second empty", mark, empty, refused(NXA_WRONG_MARK, 1, 2));
        refuses(pairs[i], "first stray bit, second empty", stray, empty, refused(NXA_STRAY_BIT, 1, 7));
        for (length = 1; length < 7; length++) {
            refuses(pairs[i], "second short", good, cut(good, length), refused(NXA_TOO_SHORT, 2, length));
        }
        refuses(pairs[i], "first mark, second states", mark, states, refused(NXA_WRONG_MARK, 1, 2));
        refuses(pairs[i], "second states", good, states, refused(NXA_STATES, 2, 5));
        refuses(pairs[i], "second stray bit", good, stray, refused(NXA_STRAY_BIT, 2, 7));
        refuses(pairs[i], "second length", good, cut(good, 48), refused(NXA_WRONG_LENGTH, 2, 47));
        refuses(singles[i], "no bytes", empty, good, refused(NXA_TOO_SHORT, 1, 0));
        refuses(singles[i], "mark 4E 58 42", mark, good, refused(NXA_WRONG_MARK, 1, 2));
        refuses(singles[i], "stray bit", stray, good, refused(NXA_STRAY_BIT, 1, 7));
    }
    refuses(star, "stray bit, and the empty word", changed(power(0), 15, 2), good, refused(NXA_STRAY_BIT, 1, 15));
    refuses(star, "length, and the empty word", cut(power(0), 20), good, refused(NXA_WRONG_LENGTH, 1, 19));
}

void test_operations(void)
{
    samples();
    cuts();
    blanks();
    limits();
    refusals();
}
