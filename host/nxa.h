/* The C interface of the marking desk: xor automata as records, and the services on them.
 *
 * A record is at most NXA_RECORD_MAX bytes: the mark 4E 58 41, the version (2 bytes), the number of states n (1 byte), the number of
 * letters a (1 byte), then rows of 4 bytes each: I, F, and for every letter its n rows. Numbers go low byte first. Bit j of a row,
 * worth 2^j, stands for state j. A word is one byte per letter, the letters being 0 to a-1. A record accepts a word when the number
 * of paths along it, from a state of I to a state of F, is odd. A word with a letter that is a or more, wherever it comes, is not accepted.
 *
 * In the services on two records (compare, sum, meet and product) a second record of 0 bytes, a blank, means the machine with no states
 * over the first one's letters, which accepts no word. A blank is never refused. A first or only record of 0 bytes is refused 1, place 0.
 *
 * What a service is given: numbers, and slices of bytes as a pointer and a length.
 * What it gives back: an nxa_reply. Number NXA_GRANTED (0) says that it did its work. Any other number is a refusal; it comes with the
 * record it is about (1 or 2; 0 where none is named) and a place, and then the lent buffer is left exactly as it was. Fields that a
 * reply has no use for are 0. A service that writes does so from the start of the lent buffer; the bytes past those written stay.
 * The line "Numbers:" of a service has all numbers that its reply can have, as its contract promises; 9 is in none.
 *
 * What the host owes:
 *   - every pointer is valid and not null, also where its length is 0;
 *   - as many bytes as the length says can be read there, and in a lent buffer written;
 *   - a lent buffer overlaps no other slice of the same call, and nobody else touches it during the call;
 *   - the thread that calls has a stack of NXA_STACK bytes or more.
 * The services keep nothing between calls, allocate nothing and may run at the same time in several threads.
 */
#ifndef NXA_H
#define NXA_H

#include <stddef.h>
#include <stdint.h>

#ifdef __cplusplus
extern "C" {
#endif

/* Sizes. */
#define NXA_STATES_MAX 32    /* states of a record */
#define NXA_LETTERS_MAX 8    /* letters of a record */
#define NXA_RECORD_MAX 1039  /* bytes of the longest record, NXA_RECORD_LENGTH(NXA_STATES_MAX, NXA_LETTERS_MAX) */
#define NXA_WORD_MAX 63      /* letters of the longest word that a comparison writes */
#define NXA_CATALOGUE_LAST 5 /* the catalogue's last number */
#define NXA_SCRIPT_MAX 65536 /* bytes of the longest script that is marked */
#define NXA_LINE_MAX 160     /* bytes that are enough for every line of a marking */

/* Bytes of stack that are enough in all for a thread that calls any service. No service calls itself, so each has a deepest point; the
 * deepest was measured below 30 KiB. The rest is a margin for the thread's own data, its callers and a signal's handler. */
#define NXA_STACK 65536

/* The bytes of a record of n states over a letters. */
#define NXA_RECORD_LENGTH(n, a) (15 + 4 * (size_t)(a) * (size_t)(n))

/* The numbers of a reply, with the place that each refusal gives. */
#define NXA_GRANTED 0        /* no refusal */
#define NXA_TOO_SHORT 1      /* fewer than 7 bytes, of a second record 1 to 6: the record's length */
#define NXA_WRONG_MARK 2     /* wrong mark: offset of the first wrong byte, 0 to 2 */
#define NXA_WRONG_VERSION 3  /* version not 1: 3 */
#define NXA_STATES 4         /* n over 32: 5 */
#define NXA_LETTERS 5        /* a is 0 or over 8: 6 */
#define NXA_WRONG_LENGTH 6   /* length not 15 + 4*a*n: the length needed */
#define NXA_STRAY_BIT 7      /* I, F or a row has a bit at n or above: offset of the first such field */
#define NXA_UNLIKE_LETTERS 8 /* the two records have different a: 6; names record 2 */
#define NXA_FOREIGN_LETTER 9 /* no longer comes: a word with a letter that is a or more is not accepted */
#define NXA_PRODUCT 10       /* meet: product of the two dimensions over 64: the product; names no record */
#define NXA_DIMENSION 11     /* dimension of the result over 32: the dimension; names no record */
#define NXA_NO_ROOM 12       /* the lent buffer is too short: the bytes needed; names no record */
#define NXA_NO_ENTRY 13      /* catalogue number over 5: the number; names no record */
#define NXA_EMPTY_WORD 14    /* star: the record accepts the empty word: 0 */

typedef struct {
    size_t number; /* NXA_GRANTED, or the refusal's number */
    size_t record; /* of a refusal: the record it is about, or 0 */
    size_t place;  /* of a refusal: see the numbers above */
    size_t length; /* the bytes written */
    size_t value;  /* what else the service answers */
} nxa_reply;

/* Checks a record.
 *
 * Reads:    the record.
 * Writes:   nothing.
 * Granted:  the record is well formed; length 0, value 0.
 * Refused:  1 to 7, record 1, in this order: the first condition that is met is told.
 * Numbers:  0 to 7.
 *
 *   nxa_reply r = nxa_check(bytes, count);
 *   if (r.number == NXA_STRAY_BIT) printf("stray bit in the field at %lu\n", (unsigned long)r.place);
 */
nxa_reply nxa_check(const uint8_t *record, size_t record_len);

/* Reads a record into its fields and writes it out afresh.
 *
 * Reads:    the record.
 * Writes:   the record, length bytes.
 * Granted:  length is 15 + 4*a*n, value 0.
 * Refused:  1 to 7, record 1; then 12, record 0, place the bytes needed.
 * Numbers:  0 to 7, 12.
 *
 *   uint8_t copy[NXA_RECORD_MAX];
 *   nxa_reply r = nxa_rewrite(bytes, count, copy, sizeof copy);
 */
nxa_reply nxa_rewrite(const uint8_t *record, size_t record_len, uint8_t *out, size_t out_len);

/* Tests whether a record accepts a word. A word may have any length, and any bytes: one with a letter that is a or more is not accepted,
 * whatever its other letters are.
 *
 * Reads:    the record, and the word, one letter per byte.
 * Writes:   nothing.
 * Granted:  value 1 where the word is accepted, else 0; length 0.
 * Refused:  1 to 7, record 1.
 * Numbers:  0 to 7.
 *
 *   static const uint8_t word[2] = {0, 1};
 *   nxa_reply r = nxa_test(bytes, count, word, sizeof word);
 *   if (r.number == NXA_GRANTED && r.value == 1) puts("accepted");
 */
nxa_reply nxa_test(const uint8_t *record, size_t record_len, const uint8_t *word, size_t word_len);

/* Writes the minimal record of a record: the one record of the fewest states that stands for all that accept the same words. Two
 * records over the same letters accept the same words exactly when their minimal records are equal byte for byte.
 *
 * Reads:    the record.
 * Writes:   its minimal record, length bytes.
 * Granted:  length is 15 + 4*a*d, value is the dimension d, the number of states of the minimal record.
 * Refused:  1 to 7, record 1; then 12, record 0, place the bytes needed. NXA_RECORD_MAX bytes are always enough.
 * Numbers:  0 to 7, 12.
 *
 *   uint8_t least[NXA_RECORD_MAX];
 *   nxa_reply r = nxa_minimal(bytes, count, least, sizeof least);
 *   if (r.number == NXA_GRANTED) printf("%lu states\n", (unsigned long)r.value);
 */
nxa_reply nxa_minimal(const uint8_t *record, size_t record_len, uint8_t *out, size_t out_len);

/* Compares two records over the same letters: do they accept the same words, of whatever length?
 *
 * Reads:    both records; a second one of 0 bytes is a blank.
 * Writes:   where they differ, the first word in prefix order (shorter words first, equal lengths by the first differing letter) that
 *           just one of them accepts, one letter per byte, length bytes.
 * Granted:  value 0: the same words, length 0. Value 1 or 2: the record that accepts the word, length its letters, 0 to 63.
 * Refused:  1 to 7, record 1; 1 to 7, record 2, where 1 needs 1 to 6 bytes; 8, record 2, place 6; then, only where they differ, 12,
 *           record 0, place the letters of the word. A refusal of the first record is the whole answer. NXA_WORD_MAX bytes are always
 *           enough.
 * Numbers:  0 to 8, 12.
 *
 *   uint8_t word[NXA_WORD_MAX];
 *   nxa_reply r = nxa_compare(key, key_count, answer, answer_count, word, sizeof word);
 *   if (r.number == NXA_GRANTED && r.value == 0) puts("same");
 *
 * For an answer that was left empty, with a blank: value 0 where the key accepts no word, else the first word that the key accepts. The
 * pointer must be valid, also for 0 bytes:
 *
 *   r = nxa_compare(key, key_count, key, 0, word, sizeof word);
 */
nxa_reply nxa_compare(const uint8_t *first, size_t first_len, const uint8_t *second, size_t second_len, uint8_t *word,
                      size_t word_len);

/* Writes the minimal record of the sum of two records over the same letters: the words that just one of them accepts.
 *
 * Reads:    both records; a second one of 0 bytes is a blank, and the sum then has the first one's words.
 * Writes:   the minimal record of the sum, length bytes.
 * Granted:  length is 15 + 4*a*d for a sum of dimension d, value 0.
 * Refused:  1 to 7, record 1; 1 to 7, record 2, where 1 needs 1 to 6 bytes; 8, record 2, place 6; 11, record 0, place the dimension,
 *           33 to 64; then 12, record 0, place the bytes needed. A refusal of the first record is the whole answer. NXA_RECORD_MAX bytes
 *           are always enough.
 * Numbers:  0 to 8, 11, 12.
 *
 *   uint8_t out[NXA_RECORD_MAX];
 *   nxa_reply r = nxa_sum(key, key_count, answer, answer_count, out, sizeof out);
 */
nxa_reply nxa_sum(const uint8_t *first, size_t first_len, const uint8_t *second, size_t second_len, uint8_t *out, size_t out_len);

/* Writes the minimal record of the meet of two records over the same letters: the words that both accept.
 *
 * Reads:    both records; a second one of 0 bytes is a blank, and the meet then has no words.
 * Writes:   the minimal record of the meet, length bytes.
 * Granted:  length is 15 + 4*a*d for a meet of dimension d, value 0.
 * Refused:  1 to 7, record 1; 1 to 7, record 2, where 1 needs 1 to 6 bytes; 8, record 2, place 6; 10, record 0, place the product of
 *           the dimensions of the two languages, which is over 64, however few words they share; 11, record 0, place the dimension, 33
 *           to 64; then 12, record 0, place the bytes needed. A refusal of the first record is the whole answer.
 * Numbers:  0 to 8, 10, 11, 12.
 *
 *   uint8_t out[NXA_RECORD_MAX];
 *   nxa_reply r = nxa_meet(first, first_count, second, second_count, out, sizeof out);
 *   if (r.number == NXA_PRODUCT) printf("a product of %lu is too large\n", (unsigned long)r.place);
 */
nxa_reply nxa_meet(const uint8_t *first, size_t first_len, const uint8_t *second, size_t second_len, uint8_t *out, size_t out_len);

/* Writes the minimal record of the complement of a record: the words over its letters that it does not accept.
 *
 * Reads:    the record.
 * Writes:   the minimal record of the complement, length bytes.
 * Granted:  length is 15 + 4*a*d for a complement of dimension d, value 0.
 * Refused:  1 to 7, record 1; 11, record 0, place 33, the only dimension over 32 that there can be; then 12, record 0, place the bytes
 *           needed.
 * Numbers:  0 to 7, 11, 12.
 *
 *   uint8_t rest[NXA_RECORD_MAX];
 *   nxa_reply r = nxa_complement(bytes, count, rest, sizeof rest);
 */
nxa_reply nxa_complement(const uint8_t *record, size_t record_len, uint8_t *out, size_t out_len);

/* Writes the minimal record of the mirror of a record: its words reversed.
 *
 * Reads:    the record.
 * Writes:   the minimal record of the mirror, length bytes.
 * Granted:  length is 15 + 4*a*d, d being the record's own dimension, value 0.
 * Refused:  1 to 7, record 1; then 12, record 0, place the bytes needed.
 * Numbers:  0 to 7, 12.
 *
 *   uint8_t backward[NXA_RECORD_MAX];
 *   nxa_reply r = nxa_mirror(bytes, count, backward, sizeof backward);
 */
nxa_reply nxa_mirror(const uint8_t *record, size_t record_len, uint8_t *out, size_t out_len);

/* Writes the minimal record of the product of two records over the same letters. A word may be cut in two at any place, before its first
 * letter and after its last one too: it is in the product when the number of its cuts into a word that the first accepts and then a word
 * that the second accepts is odd.
 *
 * Reads:    both records; a second one of 0 bytes is a blank, and the product then has no words.
 * Writes:   the minimal record of the product, length bytes.
 * Granted:  length is 15 + 4*a*d for a product of dimension d, which is at most the two dimensions added; value 0.
 * Refused:  1 to 7, record 1; 1 to 7, record 2, where 1 needs 1 to 6 bytes; 8, record 2, place 6; 11, record 0, place the dimension,
 *           33 to 64; then 12, record 0, place the bytes needed. A refusal of the first record is the whole answer. NXA_RECORD_MAX bytes
 *           are always enough.
 * Numbers:  0 to 8, 11, 12.
 *
 *   uint8_t out[NXA_RECORD_MAX];
 *   nxa_reply r = nxa_product(first, first_count, second, second_count, out, sizeof out);
 *   if (r.number == NXA_DIMENSION) printf("%lu states are too many\n", (unsigned long)r.place);
 */
nxa_reply nxa_product(const uint8_t *first, size_t first_len, const uint8_t *second, size_t second_len, uint8_t *out, size_t out_len);

/* Writes the minimal record of the star of a record that does not accept the empty word. A word is in the star when the number of its
 * cuts into words that the record accepts, however many, is odd; the empty word has one cut, into none. So the star of a record that
 * accepts no word has the empty word only.
 *
 * Reads:    the record.
 * Writes:   the minimal record of the star, length bytes.
 * Granted:  length is 15 + 4*a*d for a star of dimension d, value 0.
 * Refused:  1 to 7, record 1; 14, record 1, place 0, where the record accepts the empty word; 11, record 0, place 33, the only dimension
 *           over 32 that there can be; then 12, record 0, place the bytes needed.
 * Numbers:  0 to 7, 11, 12, 14.
 *
 *   uint8_t out[NXA_RECORD_MAX];
 *   nxa_reply r = nxa_star(bytes, count, out, sizeof out);
 *   if (r.number == NXA_EMPTY_WORD) puts("no star: the empty word is accepted");
 */
nxa_reply nxa_star(const uint8_t *record, size_t record_len, uint8_t *out, size_t out_len);

/* Gives out a record of the catalogue. 0 no word; 1 all words; 2 the empty word only; 3 words ending in 1; 4 language X, in which every
 * maximal run of letter 0 has a length that does not leave 2 on division by 3; all these over two letters; 5 over one letter, the
 * lengths that leave 0, 1, 2 or 4 on division by 7.
 *
 * Writes:   the record, which is minimal, length bytes.
 * Granted:  length is 15, 23, 23, 31, 31, 27 for numbers 0 to 5, value 0.
 * Refused:  13, record 0, place the number; then 12, record 0, place the bytes needed.
 * Numbers:  0, 12, 13.
 *
 *   uint8_t x[NXA_RECORD_MAX];
 *   nxa_reply r = nxa_catalogue(4, x, sizeof x);
 */
nxa_reply nxa_catalogue(size_t number, uint8_t *out, size_t out_len);

/* Marks one record of a script: a key record and then answer records, end to end, NXA_SCRIPT_MAX bytes at most. The key has index 0.
 *
 * Reads:    the script.
 * Writes:   the line of the record, its end 0A included, length bytes; no bytes where marking ends before that record.
 *             0 key dim 2                                  the key, and the dimension of its language
 *             1 same dim 2                                 an answer that accepts exactly the key's words
 *             2 differ dim 1 word 00 accepted-by answer    the first word that tells the two apart, `-` for the empty word
 *             3 refused 7 15                               a record's own refusal, number and place
 *             too long                                     line 0 of a longer script, and its only one
 *           A line says `refused` only with 1 to 8. Marking ends with the last record, after a refusal 1 to 6, and after any refusal of
 *           the key; after 7 or 8 of an answer it goes on. A script of 0 bytes has no lines; one of 1 to 6 bytes, say 3, has the line
 *           `0 refused 1 3`.
 * Granted:  length is that of the line, 0 where there is none; value 0.
 * Refused:  12, record 0, place the bytes needed. NXA_LINE_MAX bytes are always enough.
 * Numbers:  0, 12.
 *
 * Each call walks the script up to the record asked for. To mark a whole script, ask for index 0, 1, 2 and so on until length is 0.
 * No script can hold a blank: an answer of 0 bytes adds nothing to it. nxa_compare takes one.
 *
 *   uint8_t line[NXA_LINE_MAX];
 *   size_t i;
 *   for (i = 0; (r = nxa_mark(script, count, i, line, sizeof line)).length > 0; i++) fwrite(line, 1, r.length, stdout);
 */
nxa_reply nxa_mark(const uint8_t *script, size_t script_len, size_t index, uint8_t *out, size_t out_len);

#ifdef __cplusplus
}
#endif

#endif
