/* A small host: says what the desk finds of a record, of two records, or of a script. FILE - is standard input.
 *
 *   example [FILE [WORD..]]      a record: check, minimal record, operations, tests of words in digits, the empty word as -
 *   example -c FIRST SECOND      two records: the same words, or the first word that tells them apart; an empty SECOND is a blank
 *   example -m SCRIPT            a script: one line for each record
 */
#include <stdio.h>
#include <string.h>

#include "nxa.h"

/* One byte more than the longest script, so that a longer file is seen to be one; no record is longer. */
#define READ_MAX (NXA_SCRIPT_MAX + 1)

static const char *const reasons[] = {
    "granted",
    "the record is too short to have a head: its bytes number",
    "the mark is wrong; first wrong byte",
    "the version is not 1; it stands at offset",
    "there are more than 32 states; their number stands at offset",
    "there are no letters or more than 8; their number stands at offset",
    "the record's length does not fit its states and letters; bytes needed",
    "a field names a state that there is not; offset of the first such field",
    "the records have different letters; the number of letters stands at offset",
    "a number that no longer comes; place",
    "the product of the dimensions is over 64; product",
    "the result has more than 32 states; states",
    "the buffer is too short; bytes needed",
    "there is no such number in the catalogue; number",
    "the record accepts the empty word, so that it has no star; place",
};

static unsigned long shown(size_t number)
{
    return (unsigned long)number;
}

/* Says why a service refused; 1 where it did. */
static int refused(const char *service, nxa_reply reply)
{
    const size_t known = sizeof reasons / sizeof reasons[0];
    if (reply.number == NXA_GRANTED) {
        return 0;
    }
    printf("%s: refused (%lu): %s %lu\n", service, shown(reply.number),
           reply.number < known ? reasons[reply.number] : "unknown reason; place", shown(reply.place));
    return 1;
}

/* The record's fields, and the rows as numbers in hexadecimal, one line for each letter. */
static void print_record(const uint8_t *record)
{
    const size_t states = record[5], letters = record[6];
    size_t field, i;
    printf("  %lu states, %lu letters", shown(states), shown(letters));
    for (field = 0; field < 2 + letters * states; field++) {
        unsigned long row = 0;
        for (i = 4; i-- > 0;) {
            row = row * 256 + record[7 + 4 * field + i];
        }
        if (field >= 2 && (field - 2) % states == 0) {
            printf("\n  letter %lu:", shown((field - 2) / states));
        }
        printf(field == 0 ? "\n  I %08lx" : field == 1 ? "  F %08lx" : " %08lx", row);
    }
    printf("\n");
}

static int print_minimal(const uint8_t *record, size_t length)
{
    uint8_t least[NXA_RECORD_MAX];
    const nxa_reply reply = nxa_minimal(record, length, least, sizeof least);
    if (refused("minimal", reply)) {
        return 1;
    }
    printf("minimal: dimension %lu, %lu bytes\n", shown(reply.value), shown(reply.length));
    print_record(least);
    return 0;
}

/* A service that writes a record from a record. */
typedef nxa_reply operation(const uint8_t *record, size_t record_len, uint8_t *out, size_t out_len);

/* The dimension of a result is the number of its states. */
static int print_result(const char *name, operation *call, const uint8_t *record, size_t length)
{
    uint8_t result[NXA_RECORD_MAX];
    const nxa_reply reply = call(record, length, result, sizeof result);
    if (refused(name, reply)) {
        return 1;
    }
    printf("%s: dimension %lu, %lu bytes\n", name, shown(result[5]), shown(reply.length));
    return 0;
}

/* A word given in digits; any other character becomes a letter that no record has, so that the word is not accepted. */
static int print_test(const uint8_t *record, size_t length, const char *text)
{
    uint8_t word[1000];
    const size_t letters = strcmp(text, "-") == 0 ? 0 : strlen(text);
    nxa_reply reply;
    size_t i;
    if (letters > sizeof word) {
        printf("test: the word is longer than %lu letters\n", shown(sizeof word));
        return 1;
    }
    for (i = 0; i < letters; i++) {
        word[i] = (uint8_t)(text[i] >= '0' && text[i] <= '9' ? text[i] - '0' : 255);
    }
    reply = nxa_test(record, length, word, letters);
    if (refused("test", reply)) {
        return 1;
    }
    printf("test: %s is %s\n", text, reply.value == 1 ? "accepted" : "not accepted");
    return 0;
}

/* What is read of a file. Static, since a script is large for a stack. */
static struct input {
    uint8_t bytes[READ_MAX];
    size_t length;
} first, second;

static int read_all(const char *name, struct input *in)
{
    FILE *file = strcmp(name, "-") == 0 ? stdin : fopen(name, "rb");
    int failed = file == NULL;
    if (!failed) {
        in->length = fread(in->bytes, 1, READ_MAX, file);
        failed = ferror(file);
        if (file != stdin) {
            fclose(file);
        }
    }
    if (failed) {
        printf("%s cannot be read\n", name);
    }
    return failed;
}

/* The first word that just one of two records accepts, in digits. */
static int print_comparison(void)
{
    uint8_t word[NXA_WORD_MAX];
    const nxa_reply reply = nxa_compare(first.bytes, first.length, second.bytes, second.length, word, sizeof word);
    size_t i;
    if (refused("compare", reply)) {
        return 1;
    }
    if (reply.value == 0) {
        printf("compare: the same words\n");
        return 0;
    }
    printf("compare: they differ at %s", reply.length == 0 ? "-" : "");
    for (i = 0; i < reply.length; i++) {
        printf("%d", word[i]);
    }
    printf(", accepted by the %s\n", reply.value == 1 ? "first" : "second");
    return 0;
}

/* A line for each record of a script, until there is none. */
static int print_marks(void)
{
    uint8_t line[NXA_LINE_MAX];
    size_t index;
    for (index = 0;; index++) {
        const nxa_reply reply = nxa_mark(first.bytes, first.length, index, line, sizeof line);
        if (refused("mark", reply)) {
            return 1;
        }
        if (reply.length == 0) {
            return 0;
        }
        fwrite(line, 1, reply.length, stdout);
    }
}

static int print_all(int words, char **word)
{
    int failed, i;
    if (refused("check", nxa_check(first.bytes, first.length))) {
        return 1;
    }
    printf("check: well formed, %lu bytes\n", shown(first.length));
    failed = print_minimal(first.bytes, first.length);
    failed |= print_result("complement", nxa_complement, first.bytes, first.length);
    failed |= print_result("mirror", nxa_mirror, first.bytes, first.length);
    failed |= print_test(first.bytes, first.length, "-");
    for (i = 0; i < words; i++) {
        failed |= print_test(first.bytes, first.length, word[i]);
    }
    return failed;
}

int main(int argc, char **argv)
{
    if (argc == 4 && strcmp(argv[1], "-c") == 0) {
        return read_all(argv[2], &first) || read_all(argv[3], &second) ? 2 : print_comparison();
    }
    if (argc == 3 && strcmp(argv[1], "-m") == 0) {
        return read_all(argv[2], &first) ? 2 : print_marks();
    }
    if (read_all(argc > 1 ? argv[1] : "-", &first)) {
        return 2;
    }
    return print_all(argc > 2 ? argc - 2 : 0, argv + 2);
}
