/*
 * reference_pool.h - a second implementation of pooling, for the tests.
 */
#ifndef REFERENCE_POOL_H
#define REFERENCE_POOL_H

#include "reference_strip.h"

/* Cells in a strip that can be pooled: those of four lanes. */
enum { REF_POOL_MIN = 24, REF_POOL_MAX = 384 };

/* Cells and marks, each with its own length. */
struct ref_picture {
    const uint8_t *cells;
    size_t cells_len;
    const uint8_t *marks;
    size_t marks_len;
};

/* How many cells are of each kind; with a refusal all are zero. */
struct ref_pooling {
    unsigned code;
    unsigned agreed, taken, in_conflict, marked_in_both;
};

/* The layout written down a second time: the header's is under test. */
uint64_t packed_pooling(struct ref_pooling r);

struct ref_pooling ref_strip_pool(const struct ref_picture *first,
                                  const struct ref_picture *second,
                                  uint8_t *cells, size_t cells_len,
                                  uint8_t *marks, size_t marks_len);

#endif
