/*
 * beside.h - what the benchmarks share: libfec for the same code, and two
 * implementations timed in turn.
 */
#ifndef BESIDE_H
#define BESIDE_H

#include <stdbool.h>

#include "reference.h"

/* A libfec code for words of this length; free_rs_char when done. */
void *new_fec(size_t len);

/* The marked cells, at most five, as libfec wants them. */
void find_erasures(const uint8_t *marks, size_t len,
                   int erasures[REF_CHECK_BYTES]);

/* A pass that gives wrong results is not worth timing: end the program. */
void require(bool right, const char *who);

/* ---- a row of a table ---- */

typedef void pass(void *batch);

struct side {
    pass *run;
    pass *check; /* what the run left; not timed */
};

struct row {
    void *batch;
    int count;     /* words, strips or records in the batch */
    int rounds;    /* in a run: as many passes of each, the quickest counts */
    pass *fill;    /* before each round: new ones, so that no branch can be
                      learnt by heart. NULL: they are too many for that */
    pass *restore; /* before each pass: what the last one changed */
    struct side theirs, ours;
};

/*
 * These follow what names the row: ns each, the least of all runs, and how many
 * times faster ours is, the median of the runs with the least and the greatest
 * beside it. Where these are far apart, the machine had other work. Rates are
 * how many a second instead of ns.
 */
void print_heads(const char *theirs);
void print_row(const struct row *r);
void print_rates(const struct row *r);

#endif
