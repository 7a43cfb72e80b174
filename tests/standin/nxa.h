/* The C interface as the stand-in answers it: every service, also those that the archive does not have yet. */
#ifndef NXA_STANDIN_H
#define NXA_STANDIN_H

#include <stddef.h>
#include <stdint.h>

#ifdef __cplusplus
extern "C" {
#endif

/* number 0: granted; unused fields are 0 */
typedef struct {
    size_t number, record, place, length, value;
} nxa_reply;

nxa_reply nxa_check(const uint8_t *record, size_t record_len);
nxa_reply nxa_rewrite(const uint8_t *record, size_t record_len, uint8_t *out, size_t out_len);
/* value 1: accepted */
nxa_reply nxa_test(const uint8_t *record, size_t record_len, const uint8_t *word, size_t word_len);
/* value: dimension */
nxa_reply nxa_minimal(const uint8_t *record, size_t record_len, uint8_t *out, size_t out_len);
/* value 0: same, 1 or 2: the record that accepts the word */
nxa_reply nxa_compare(const uint8_t *first, size_t first_len, const uint8_t *second, size_t second_len,
                      uint8_t *word, size_t word_len);
nxa_reply nxa_sum(const uint8_t *first, size_t first_len, const uint8_t *second, size_t second_len,
                  uint8_t *out, size_t out_len);
nxa_reply nxa_meet(const uint8_t *first, size_t first_len, const uint8_t *second, size_t second_len,
                   uint8_t *out, size_t out_len);
nxa_reply nxa_complement(const uint8_t *record, size_t record_len, uint8_t *out, size_t out_len);
nxa_reply nxa_mirror(const uint8_t *record, size_t record_len, uint8_t *out, size_t out_len);
nxa_reply nxa_product(const uint8_t *first, size_t first_len, const uint8_t *second, size_t second_len,
                      uint8_t *out, size_t out_len);
nxa_reply nxa_star(const uint8_t *record, size_t record_len, uint8_t *out, size_t out_len);
nxa_reply nxa_catalogue(size_t number, uint8_t *out, size_t out_len);
nxa_reply nxa_mark(const uint8_t *script, size_t script_len, size_t index, uint8_t *out, size_t out_len);

#ifdef __cplusplus
}
#endif

#endif
