/* Tests of the services on two records: which record is looked at first, the words that tell them apart, and every buffer. */
#include "watch.h"

typedef struct {
    const char *letters;
    size_t length;
} word_text;

static record inputs[2];

/* One comparison with a lent buffer of so many bytes: the reply, and every byte of the buffer and around it. */
static void compare_lent(const char *what, const record *first, const record *second, size_t room, word_text word, nxa_reply want)
{
    slice out;
    uint8_t *bytes = lend(&out, room);
    nxa_reply got;
    inputs[0] = *first;
    inputs[1] = *second;
    got = nxa_compare(inputs[0].bytes, first->length, inputs[1].bytes, second->length, bytes, room);
    expect_reply("compare", what, got, want);
    expect_bytes(&out, (const uint8_t *)word.letters, want.length, "compare", what);
    expect(memcmp(&inputs[0], first, sizeof *first) == 0 && memcmp(&inputs[1], second, sizeof *second) == 0,
           "the inputs are kept", "compare", what);
}

/* The same words, with any buffer. */
static void expect_same(const char *what, record first, record second)
{
    const word_text none = {"", 0};
    compare_lent(what, &first, &second, 0, none, granted(0, 0));
    compare_lent(what, &first, &second, NXA_WORD_MAX, none, granted(0, 0));
    compare_lent(what, &second, &first, 1, none, granted(0, 0));
}

/* A word that record `side` accepts and the other does not: no room, one byte short, exactly enough, more than enough; both ways. */
static void expect_word(const char *what, record first, record second, word_text word, size_t side)
{
    size_t room;
    for (room = 0; room <= NXA_WORD_MAX + 1; room++) {
        const int fits = room >= word.length;
        compare_lent(what, &first, &second, room, word,
                     fits ? granted(word.length, side) : refused(NXA_NO_ROOM, 0, word.length));
        compare_lent(what, &second, &first, room, word,
                     fits ? granted(word.length, 3 - side) : refused(NXA_NO_ROOM, 0, word.length));
    }
}

static void expect_refused(const char *what, record first, record second, nxa_reply want)
{
    const word_text none = {"", 0};
    compare_lent(what, &first, &second, 0, none, want);
    compare_lent(what, &first, &second, NXA_WORD_MAX, none, want);
}

/* A second record of 0 bytes, a blank, gives what the record with no states over the first one's letters gives, with any buffer. */
static void expect_blank(const char *what, record first, word_text word, size_t side)
{
    const record blank = cut(first, 0), nothing = uniform(0, first.bytes[6], 0);
    size_t room;
    for (room = 0; room <= NXA_WORD_MAX + 1; room++) {
        const nxa_reply want = room < word.length ? refused(NXA_NO_ROOM, 0, word.length) : granted(word.length, side);
        compare_lent(what, &first, &blank, room, word, want);
        compare_lent(what, &first, &nothing, room, word, want);
    }
}

/* Rows 1 to 7 of the first record, then of the second, then row 8; row 12 comes last. */
static void refusals(void)
{
    const record good = x12(), mark = changed(good, 2, 0x42), states = changed(good, 5, 33), longer = cut(good, 48);
    const record stray = uniform(1, 2, 2), empty = cut(good, 0), one = uniform(0, 1, 0);
    size_t length;
    expect_refused("first empty", empty, good, refused(NXA_TOO_SHORT, 1, 0));
    expect_refused("both empty", empty, empty, refused(NXA_TOO_SHORT, 1, 0));
    for (length = 1; length < 7; length++) {
        expect_refused("first short, second empty", cut(good, length), empty, refused(NXA_TOO_SHORT, 1, length));
        expect_refused("second short", good, cut(good, length), refused(NXA_TOO_SHORT, 2, length));
    }
    expect_refused("first mark, second empty", mark, empty, refused(NXA_WRONG_MARK, 1, 2));
    expect_refused("first version, second empty", changed(good, 3, 2), empty, refused(NXA_WRONG_VERSION, 1, 3));
    expect_refused("first states, second empty", states, empty, refused(NXA_STATES, 1, 5));
    expect_refused("first letters, second empty", changed(good, 6, 9), empty, refused(NXA_LETTERS, 1, 6));
    expect_refused("first length, second empty", longer, empty, refused(NXA_WRONG_LENGTH, 1, 47));
    expect_refused("first mark, second states", mark, states, refused(NXA_WRONG_MARK, 1, 2));
    expect_refused("first states, second mark", states, mark, refused(NXA_STATES, 1, 5));
    expect_refused("second mark", good, mark, refused(NXA_WRONG_MARK, 2, 2));
    expect_refused("second version", good, changed(good, 3, 2), refused(NXA_WRONG_VERSION, 2, 3));
    expect_refused("second states", good, states, refused(NXA_STATES, 2, 5));
    expect_refused("second letters", good, changed(good, 6, 9), refused(NXA_LETTERS, 2, 6));
    expect_refused("second length", good, longer, refused(NXA_WRONG_LENGTH, 2, 47));
    expect_refused("second stray bit", good, stray, refused(NXA_STRAY_BIT, 2, 7));
    expect_refused("first stray bit, second empty", stray, empty, refused(NXA_STRAY_BIT, 1, 7));
    expect_refused("stray bit before unlike letters", one, stray, refused(NXA_STRAY_BIT, 2, 7));
    expect_refused("a = 1 and a = 2", one, good, refused(NXA_UNLIKE_LETTERS, 2, 6));
    expect_refused("a = 2 and a = 1", good, one, refused(NXA_UNLIKE_LETTERS, 2, 6));
}

static void words(void)
{
    static const uint32_t everything[4] = {1, 1, 1, 1}, empty_word[4] = {1, 1, 0, 0};
    static const char zeros[NXA_WORD_MAX + 1] = {0};
    const word_text none = {"", 0}, two = {zeros, 2}, thirty_one = {zeros, 31}, longest = {zeros, NXA_WORD_MAX};
    const record nothing = uniform(0, 2, 0), all = record_of(1, 2, everything, 4);
    record cycle = power(31);
    cycle.bytes[cycle.length - 4] = 1;
    expect_same("X 12 and its minimal record", x12(), x());
    expect_same("X with itself", x12(), x12());
    expect_same("n = 32 and n = 0", uniform(32, 8, 0xFFFFFFFFu), uniform(0, 8, 0));
    expect_word("all words and X", all, x12(), two, 1);
    expect_word("the empty word and nothing", record_of(1, 2, empty_word, 4), nothing, none, 1);
    expect_word("X and nothing", x12(), nothing, none, 1);
    expect_word("only 0^31 and nothing", power(31), uniform(0, 1, 0), thirty_one, 1);
    expect_word("lengths 31 mod 32, and only 0^31", cycle, power(31), longest, 1);
}

/* A blank after records over every number of letters: it accepts no word. */
static void blanks(void)
{
    static const char zeros[NXA_WORD_MAX + 1] = {0};
    const word_text none = {"", 0}, thirty_one = {zeros, 31};
    unsigned a;
    expect_blank("X", x12(), none, 1);
    expect_blank("only 0^31", power(31), thirty_one, 1);
    for (a = 1; a <= NXA_LETTERS_MAX; a++) {
        const char letter = (char)(a - 1), letters[3] = {letter, letter, letter};
        const word_text three = {letters, 3};
        expect_blank("n = 0", uniform(0, a, 0), none, 0);
        expect_blank("n = 32, even everywhere", uniform(32, a, 0xFFFFFFFFu), none, 0);
        expect_blank("all words", uniform(1, a, 1), none, 1);
        expect_blank("only one word", power_of(a - 1, 3, a), three, 1);
    }
}

void test_pairs(void)
{
    refusals();
    words();
    blanks();
}
