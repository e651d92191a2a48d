/*
 * reference.h - the second implementation: words by their definition.
 *
 * It shares no code with the library and takes no short way: the product is
 * shift and xor, the sums are sums, check bytes come from long division, and
 * a repair is found by trying sets of places.
 */
#ifndef REFERENCE_H
#define REFERENCE_H

#include <stddef.h>
#include <stdint.h>

enum {
    REF_CHECK_BYTES = 5,
    REF_WORD_MIN = 6,
    REF_WORD_MAX = 255,
    REF_LANE_MAX = 187,
    REF_REACH = 5 /* the most that 2e + f may come to */
};

/*
 * length is what the writer wrote; for the test it is 1 if clean. What comes
 * after it belongs to records and strips.
 */
struct ref_result {
    unsigned code;
    unsigned mended;
    unsigned repainted;
    unsigned length;
    unsigned lane;
    unsigned version;
    unsigned width, height, par;
    unsigned wear;
    unsigned lanes; /* of the strip that was read */
};

uint8_t ref_product(uint8_t a, uint8_t b);
uint8_t ref_power(int32_t exponent);

/* The sums S_-2 to S_2 of a list of any length. */
void ref_sums(const uint8_t *word, size_t len, uint8_t sums[REF_CHECK_BYTES]);

struct ref_result ref_word_write(const uint8_t *data, size_t data_len,
                                 uint8_t *word, size_t word_len);
struct ref_result ref_word_test(const uint8_t *word, size_t len);
struct ref_result ref_word_repair(uint8_t *word, size_t len,
                                  const uint8_t *marks, size_t marks_len);
struct ref_result ref_lane_repair(uint8_t *lane, size_t len,
                                  const uint8_t *marks, size_t marks_len);

#endif
