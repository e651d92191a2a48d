/*
 * pairs.h - two pictures of a strip as pooling is given them, and the check of
 * one call.
 */
#ifndef PAIRS_H
#define PAIRS_H

#include "pictures.h"
#include "reference_pool.h"

/* Two pictures, and the lengths of the buffers for cells and marks, which are
   STRIP_ROOM at the most. */
struct pair {
    struct picture first, second;
    size_t cells_len, marks_len;
};

/* The buffers become as long as the first strip. */
void fit_buffers(struct pair *p);

/*
 * Pool the two and compare with the second implementation, all buffers
 * included. Returns what that one says.
 */
struct ref_pooling check_pair(const struct pair *p);

#endif
