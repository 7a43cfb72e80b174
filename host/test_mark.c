/* Tests of the marking of a script: the sample of 01, each kind of line, where marking stops and goes on, and every buffer. */
#include "watch.h"

/* As many bytes as the longest script and one more. */
static uint8_t script[NXA_SCRIPT_MAX + 1];
static size_t count;

static void start(void)
{
    count = 0;
}

static void put(record r)
{
    memcpy(script + count, r.bytes, r.length);
    count += r.length;
}

/* One call with a lent buffer of so many bytes: the reply, and every byte of the buffer and around it. */
static void lent(const char *what, size_t index, size_t room, const char *line, nxa_reply want)
{
    slice out;
    uint8_t *bytes = lend(&out, room);
    expect_reply("mark", what, nxa_mark(script, count, index, bytes, room), want);
    expect_bytes(&out, (const uint8_t *)line, want.length, "mark", what);
}

/* The line of an index, with every size of buffer up to one byte more than it needs. */
static void expect_line(const char *what, size_t index, const char *line)
{
    const size_t length = strlen(line);
    size_t room;
    for (room = 0; room <= length + 1; room++) {
        lent(what, index, room, line, room < length ? refused(NXA_NO_ROOM, 0, length) : granted(length, 0));
    }
    lent(what, index, NXA_LINE_MAX, line, granted(length, 0));
}

/* No bytes for this index and for every later one. */
static void expect_end(const char *what, size_t index)
{
    const size_t past[3] = {0, 4370, (size_t)-1 - 4370};
    size_t i;
    for (i = 0; i < 3; i++) {
        lent(what, index + past[i], 0, "", granted(0, 0));
        lent(what, index + past[i], NXA_LINE_MAX, "", granted(0, 0));
    }
}

static record all_words(void)
{
    static const uint32_t rows[4] = {1, 1, 1, 1};
    return record_of(1, 2, rows, 4);
}

/* The example script: language X, its four-state machine, all words. */
static void sample(void)
{
    start();
    put(x());
    put(x12());
    put(all_words());
    expect_line("the key", 0, "0 key dim 2\n");
    expect_line("the four states", 1, "1 same dim 2\n");
    expect_line("all words", 2, "2 differ dim 1 word 00 accepted-by answer\n");
    expect_end("the sample", 3);
}

/* The longest word, the empty word, and both sides. */
static void verdicts(void)
{
    record cycle = power(31);
    char longest[NXA_LINE_MAX + 1] = "2 differ dim 32 word ";
    cycle.bytes[cycle.length - 4] = 1;
    memset(longest + strlen(longest), '0', NXA_WORD_MAX);
    strcat(longest, " accepted-by answer\n");
    start();
    put(power(31));
    put(uniform(0, 1, 0));
    put(cycle);
    put(power(0));
    expect_line("only 0^31", 0, "0 key dim 32\n");
    expect_line("nothing", 1, "1 differ dim 0 word 0000000000000000000000000000000 accepted-by key\n");
    expect_line("lengths 31 mod 32", 2, longest);
    expect_line("the empty word", 3, "3 differ dim 1 word - accepted-by answer\n");
    expect_end("verdicts", 4);
}

/* After 7 and 8 of an answer marking goes on; after 1 to 6 it stops. */
static void refusals(void)
{
    const record ends[6] = {cut(x12(), 6), changed(x12(), 1, 0), changed(x12(), 3, 2), changed(x12(), 5, 33), changed(x12(), 6, 9),
                            cut(x12(), 46)};
    static const char *const lines[6] = {"3 refused 1 6\n", "3 refused 2 1\n", "3 refused 3 3\n",
                                         "3 refused 4 5\n", "3 refused 5 6\n", "3 refused 6 47\n"};
    int i;
    for (i = 0; i < 6; i++) {
        start();
        put(x());
        put(uniform(1, 2, 2));
        put(power(1));
        put(ends[i]);
        expect_line("stray bit", 1, "1 refused 7 7\n");
        expect_line("other letters", 2, "2 refused 8 6\n");
        expect_line("a refusal that stops", 3, lines[i]);
        expect_end("a refusal that stops", 4);
    }
}

/* A script of 0 bytes has no lines, one of 1 to 6 bytes the refusal of its key. */
static void short_scripts(void)
{
    static const char *const lines[6] = {"0 refused 1 1\n", "0 refused 1 2\n", "0 refused 1 3\n",
                                         "0 refused 1 4\n", "0 refused 1 5\n", "0 refused 1 6\n"};
    size_t length;
    start();
    for (length = 0; length < 4; length++) {
        expect_end("no bytes", length);
    }
    expect_end("no bytes", 4370);
    for (length = 1; length < 7; length++) {
        start();
        put(cut(x(), length));
        expect_line("1 to 6 bytes", 0, lines[length - 1]);
        expect_end("1 to 6 bytes", 1);
    }
}

/* A key that is refused: nothing is marked after it. */
static void keys(void)
{
    start();
    put(uniform(1, 2, 2));
    put(x());
    expect_line("stray bit in the key", 0, "0 refused 7 7\n");
    expect_end("stray bit in the key", 1);
    start();
    put(changed(x(), 0, 0));
    put(x());
    expect_line("mark of the key", 0, "0 refused 2 0\n");
    expect_end("mark of the key", 1);
}

/* The longest script that is marked: 4,369 records of 15 bytes and one byte; with one byte more it is too long. */
static void sizes(void)
{
    start();
    while (count + 15 <= NXA_SCRIPT_MAX) {
        put(uniform(0, 1, 0));
    }
    script[count] = 0x4E;
    count = NXA_SCRIPT_MAX;
    expect_line("65,536 bytes", 4368, "4368 same dim 0\n");
    expect_line("65,536 bytes", 4369, "4369 refused 1 1\n");
    expect_end("65,536 bytes", 4370);
    count++;
    expect_line("65,537 bytes", 0, "too long\n");
    expect_end("65,537 bytes", 1);
}

void test_mark(void)
{
    sample();
    verdicts();
    refusals();
    short_scripts();
    keys();
    sizes();
}
