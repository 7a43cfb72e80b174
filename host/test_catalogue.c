/* Tests of the catalogue: each record in full, every buffer, and the numbers past the last. */
#include "watch.h"

static void give(size_t number, size_t room, const record *wanted, nxa_reply want)
{
    slice out;
    uint8_t *bytes = lend(&out, room);
    expect_reply("catalogue", "an entry", nxa_catalogue(number, bytes, room), want);
    expect_bytes(&out, wanted->bytes, want.length, "catalogue", "an entry");
}

static void expect_entry(size_t number, unsigned states, unsigned letters, const uint32_t *rows)
{
    const record entry = record_of(states, letters, rows, 2 + (size_t)letters * states);
    slice least;
    size_t room;
    for (room = 0; room < entry.length + 9; room++) {
        give(number, room, &entry,
             room < entry.length ? refused(NXA_NO_ROOM, 0, entry.length) : granted(entry.length, 0));
    }
    expect_reply("check", "an entry", nxa_check(entry.bytes, entry.length), granted(0, 0));
    expect_reply("minimal", "an entry", nxa_minimal(entry.bytes, entry.length, lend(&least, ROOM), ROOM),
                 granted(entry.length, states));
    expect_bytes(&least, entry.bytes, entry.length, "minimal", "an entry");
}

void test_catalogue(void)
{
    static const uint32_t no_word[2] = {0, 0}, all[4] = {1, 1, 1, 1}, empty_word[4] = {1, 1, 0, 0};
    static const uint32_t ending_in_1[6] = {1, 2, 1, 1, 2, 2}, lengths[5] = {1, 7, 2, 4, 5};
    const size_t past[5] = {NXA_CATALOGUE_LAST + 1, 255, 256, (size_t)-2, (size_t)-1};
    const record none = uniform(0, 1, 0);
    size_t i;
    expect_entry(0, 0, 2, no_word);
    expect_entry(1, 1, 2, all);
    expect_entry(2, 1, 2, empty_word);
    expect_entry(3, 2, 2, ending_in_1);
    expect_entry(4, 2, 2, x_rows);
    expect_entry(5, 3, 1, lengths);
    for (i = 0; i < 5; i++) {
        give(past[i], 0, &none, refused(NXA_NO_ENTRY, 0, past[i]));
        give(past[i], ROOM, &none, refused(NXA_NO_ENTRY, 0, past[i]));
    }
}
