/* Tests of the C interface from C: the refusal table's samples, every limit, and every byte of every buffer. */
#include "watch.h"

/* ---- the services, each with its inputs watched */

static record input;

static void expect_input(const record *r, const char *service, const char *of)
{
    expect(memcmp(&input, r, sizeof input) == 0, "the input is kept", service, of);
}

static void test_check(const char *what, const record *r, nxa_reply want)
{
    input = *r;
    expect_reply("check", what, nxa_check(input.bytes, input.length), want);
    expect_input(r, "check", what);
}

static void test_word(const char *what, const record *r, const char *letters, size_t count, nxa_reply want)
{
    uint8_t word[16];
    memset(word, 0, sizeof word);
    memcpy(word, letters, count);
    input = *r;
    expect_reply("test", what, nxa_test(input.bytes, input.length, word, count), want);
    expect_input(r, "test", what);
    expect(memcmp(word, letters, count) == 0, "the word is kept", "test", what);
}

typedef nxa_reply service(const uint8_t *, size_t, uint8_t *, size_t);

/* One call with a lent buffer of so many bytes: the reply, and every byte of the buffer and around it. */
static void test_lent(const char *name, service *call, const char *what, const record *r, size_t room, const record *wanted,
                      nxa_reply want)
{
    slice out;
    uint8_t *bytes = lend(&out, room);
    input = *r;
    expect_reply(name, what, call(input.bytes, input.length, bytes, room), want);
    expect_bytes(&out, wanted->bytes, want.number == NXA_GRANTED ? wanted->length : 0, name, what);
    expect_input(r, name, what);
}

/* No room, one byte short, exactly enough, and more than enough. */
static void test_rooms(const char *name, service *call, const char *what, const record *r, const record *wanted, size_t value)
{
    const nxa_reply short_reply = refused(NXA_NO_ROOM, 0, wanted->length);
    const nxa_reply done = granted(wanted->length, value);
    test_lent(name, call, what, r, 0, wanted, short_reply);
    test_lent(name, call, what, r, wanted->length - 1, wanted, short_reply);
    test_lent(name, call, what, r, wanted->length, wanted, done);
    test_lent(name, call, what, r, wanted->length + 1, wanted, done);
    test_lent(name, call, what, r, ROOM, wanted, done);
}

/* A well-formed record with its minimal record and its dimension. */
static void test_good(const char *what, record r, record least, size_t dimension)
{
    test_check(what, &r, granted(0, 0));
    test_rooms("rewrite", nxa_rewrite, what, &r, &r, 0);
    test_rooms("minimal", nxa_minimal, what, &r, &least, dimension);
    test_rooms("minimal", nxa_minimal, what, &least, &least, dimension);
}

/* A record that every service refuses alike, with whatever buffer or word. */
static void test_refused(const char *what, record r, size_t number, size_t place)
{
    static const size_t rooms[4] = {0, 1, 31, ROOM};
    const nxa_reply want = refused(number, 1, place);
    size_t i;
    test_check(what, &r, want);
    test_word(what, &r, "", 0, want);
    test_word(what, &r, "\xFF", 1, want);
    for (i = 0; i < 4; i++) {
        test_lent("rewrite", nxa_rewrite, what, &r, rooms[i], &r, want);
        test_lent("minimal", nxa_minimal, what, &r, rooms[i], &r, want);
    }
}

/* ---- the refusal table */

static void refuse_head(void)
{
    size_t length;
    for (length = 0; length < 7; length++) {
        test_refused("fewer than 7 bytes", cut(x12(), length), NXA_TOO_SHORT, length);
    }
    test_refused("mark, byte 0", changed(x12(), 0, 0x4F), NXA_WRONG_MARK, 0);
    test_refused("mark, byte 1", changed(x12(), 1, 0), NXA_WRONG_MARK, 1);
    test_refused("mark 4E 58 42", changed(x12(), 2, 0x42), NXA_WRONG_MARK, 2);
    test_refused("mark, all wrong", changed(changed(x12(), 0, 0), 2, 0), NXA_WRONG_MARK, 0);
    test_refused("version 2", changed(x12(), 3, 2), NXA_WRONG_VERSION, 3);
    test_refused("version 0", changed(x12(), 3, 0), NXA_WRONG_VERSION, 3);
    test_refused("version 257", changed(x12(), 4, 1), NXA_WRONG_VERSION, 3);
    test_refused("n = 33", changed(x12(), 5, 33), NXA_STATES, 5);
    test_refused("n = 33, whole", uniform(33, 1, 0), NXA_STATES, 5);
    test_refused("n = 255", changed(x12(), 5, 255), NXA_STATES, 5);
    test_refused("a = 0", changed(x12(), 6, 0), NXA_LETTERS, 6);
    test_refused("a = 0, whole", uniform(32, 0, 0), NXA_LETTERS, 6);
    test_refused("a = 9", changed(x12(), 6, 9), NXA_LETTERS, 6);
    test_refused("a = 9, whole", uniform(1, 9, 0), NXA_LETTERS, 6);
    test_refused("a = 255", changed(x12(), 6, 255), NXA_LETTERS, 6);
    test_refused("n = 33 and a = 9", changed(changed(x12(), 5, 33), 6, 9), NXA_STATES, 5);
}

static void refuse_length(void)
{
    test_refused("n = 0, 16 bytes", cut(uniform(0, 1, 0), 16), NXA_WRONG_LENGTH, 15);
    test_refused("n = 0, 7 bytes", cut(uniform(0, 1, 0), 7), NXA_WRONG_LENGTH, 15);
    test_refused("n = 0, 14 bytes", cut(uniform(0, 8, 0), 14), NXA_WRONG_LENGTH, 15);
    test_refused("one byte short", cut(x12(), 46), NXA_WRONG_LENGTH, 47);
    test_refused("one byte long", cut(x12(), 48), NXA_WRONG_LENGTH, 47);
    test_refused("1038 bytes", cut(uniform(32, 8, 1), NXA_RECORD_MAX - 1), NXA_WRONG_LENGTH, NXA_RECORD_MAX);
    test_refused("1040 bytes", cut(uniform(32, 8, 1), NXA_RECORD_MAX + 1), NXA_WRONG_LENGTH, NXA_RECORD_MAX);
    test_refused("length before stray bits", cut(uniform(1, 1, 2), 18), NXA_WRONG_LENGTH, 19);
}

/* One stray bit, at n and at 31, in each field of a record of n states over two letters, the last field always having one. */
static void refuse_stray_bits(void)
{
    unsigned n, field, top;
    for (n = 0; n < NXA_STATES_MAX; n++) {
        for (field = 0; field < 2 + 2 * n; field++) {
            for (top = 0; top < 2; top++) {
                uint32_t rows[2 + 2 * NXA_STATES_MAX] = {0};
                rows[1 + 2 * n] = 0x80000000u;
                rows[field] = (uint32_t)1 << (top ? 31 : n);
                test_refused("stray bit", record_of(n, 2, rows, 2 + 2 * n), NXA_STRAY_BIT, 7 + 4 * field);
            }
        }
    }
}

/* ---- letters outside the alphabet are not accepted */

/* A word that is accepted, and with a letter put in, at its front, at its end and at each place between, is not. Where the record accepts
 * every word, a service would accept it that left the letter out, took another one for it, or read only up to it or from it on. */
static void test_foreign(const char *what, const record *r, const char *letters, size_t count, int foreign)
{
    char pasted[16];
    size_t place;
    test_word(what, r, letters, count, granted(0, 1));
    for (place = 0; place <= count; place++) {
        memcpy(pasted, letters, place);
        pasted[place] = (char)foreign;
        memcpy(pasted + place + 1, letters + place, count - place);
        test_word(what, r, pasted, count + 1, granted(0, 0));
    }
}

static void foreign_letters(void)
{
    const record all = uniform(1, 2, 1), wide = uniform(1, 8, 1), largest = uniform(31, 8, 0x7FFFFFFFu);
    const record r = x12(), empty = power_of(0, 0, 2), none = uniform(0, 8, 0);
    test_foreign("all words, a = 2, letter 2", &all, "\0\1\1\0\1", 5, 2);
    test_foreign("all words, a = 2, letter 3", &all, "\0\1\1\0\1", 5, 3);
    test_foreign("all words, a = 2, letter 128", &all, "\1\0\0\1", 4, 128);
    test_foreign("all words, a = 2, letter 255", &all, "\1\0\0\1", 4, 255);
    test_foreign("all words, a = 2, letter 2 alone", &all, "", 0, 2);
    test_foreign("all words, a = 2, letter 255 alone", &all, "", 0, 255);
    test_foreign("all words, a = 8, letter 8", &wide, "\0\7\3\7", 4, 8);
    test_foreign("all words, a = 8, letter 255", &wide, "\0\7\3\7", 4, 255);
    test_foreign("all words, 31 states, letter 8", &largest, "\7\0\1\6", 4, 8);
    test_foreign("X, 000 and letter 2", &r, "\0\0\0", 3, 2);
    test_foreign("the empty word only, and letter 2", &empty, "", 0, 2);
    test_word("all words, 2 2 2", &all, "\2\2\2", 3, granted(0, 0));
    test_word("X, 0 1 1 3 2", &r, "\0\1\1\3\2", 5, granted(0, 0));
    test_word("no states, a = 8, letter 7", &none, "\7", 1, granted(0, 0));
    test_word("no states, a = 8, letter 8", &none, "\x08", 1, granted(0, 0));
    expect(NXA_FOREIGN_LETTER == 9, "the number that no longer comes", "test", "the header");
}

/* One letter of a long word, which its record accepts. */
static void foreign_letter_of_many(void)
{
    static uint8_t word[70000];
    static const size_t places[3] = {0, sizeof word / 2, sizeof word - 1};
    const record all = uniform(1, 2, 1);
    size_t i;
    for (i = 0; i < sizeof word; i++) {
        word[i] = (uint8_t)(i % 3 == 0);
    }
    expect_reply("test", "70,000 letters", nxa_test(all.bytes, all.length, word, sizeof word), granted(0, 1));
    for (i = 0; i < 3; i++) {
        word[places[i]] = 2;
        expect_reply("test", "70,000 letters, one of them 2", nxa_test(all.bytes, all.length, word, sizeof word), granted(0, 0));
        word[places[i]] = 0;
    }
}

/* ---- what is granted */

static void limits(void)
{
    static const unsigned letters[2] = {1, NXA_LETTERS_MAX};
    unsigned i;
    for (i = 0; i < 2; i++) {
        const unsigned a = letters[i];
        const uint32_t one[2 + NXA_LETTERS_MAX] = {1, 1, 1, 1, 1, 1, 1, 1, 1, 1};
        test_good("n = 0", uniform(0, a, 0), uniform(0, a, 0), 0);
        test_good("n = 32, all rows 0", uniform(32, a, 0), uniform(0, a, 0), 0);
        test_good("n = 32, all bits, even everywhere", uniform(32, a, 0xFFFFFFFFu), uniform(0, a, 0), 0);
        test_good("n = 31, all bits, odd everywhere", uniform(31, a, 0x7FFFFFFFu), record_of(1, a, one, 2 + a), 1);
        test_good("n = 32, one state in use", uniform(32, a, 1), record_of(1, a, one, 2 + a), 1);
    }
    test_good("only 0^31", power(31), power(31), 32);
    test_good("only 0^30", power(30), power(30), 31);
}

static void samples(void)
{
    static const uint32_t cycle[9] = {1, 23, 2, 4, 8, 16, 32, 64, 1};
    static const uint32_t lengths[5] = {1, 7, 2, 4, 5};
    static const uint32_t even[4] = {3, 3, 1, 2};
    test_good("X 12", x12(), x(), 2);
    test_good("two paths each time", record_of(2, 1, even, 4), uniform(0, 1, 0), 0);
    test_good("the 7-state cycle", record_of(7, 1, cycle, 9), record_of(3, 1, lengths, 5), 3);
}

/* Sample 1 on both machines of X, and words of which only the parity of the paths decides. */
static void words(void)
{
    static const uint32_t even[4] = {3, 3, 1, 2};
    const record both[2] = {x12(), x()}, none = record_of(2, 1, even, 4), single = power(3);
    int i;
    for (i = 0; i < 2; i++) {
        test_word("X, the empty word", &both[i], "", 0, granted(0, 1));
        test_word("X, 0", &both[i], "\0", 1, granted(0, 1));
        test_word("X, 1", &both[i], "\1", 1, granted(0, 1));
        test_word("X, 000", &both[i], "\0\0\0", 3, granted(0, 1));
        test_word("X, 00", &both[i], "\0\0", 2, granted(0, 0));
        test_word("X, 001", &both[i], "\0\0\1", 3, granted(0, 0));
    }
    test_word("two paths, the empty word", &none, "", 0, granted(0, 0));
    test_word("two paths, 0", &none, "\0", 1, granted(0, 0));
    test_word("only 000, 00", &single, "\0\0", 2, granted(0, 0));
    test_word("only 000, 000", &single, "\0\0\0", 3, granted(0, 1));
    test_word("only 000, 0000", &single, "\0\0\0\0", 4, granted(0, 0));
}

int checks, failures;

int main(void)
{
    refuse_head();
    refuse_length();
    refuse_stray_bits();
    foreign_letters();
    foreign_letter_of_many();
    limits();
    samples();
    words();
    test_pairs();
    test_operations();
    test_catalogue();
    test_mark();
    printf("host: %d checks, %d failed\n", checks, failures);
    return failures != 0;
}
