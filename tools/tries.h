/*
 * tries.h - a strip read with the lane count that was named, or with each that
 * fits its length.
 */
#ifndef TRIES_H
#define TRIES_H

#include "common.h"

/*
 * What came of it. A level is handed out only if just one count gives one: a
 * strip does not say how many lanes it has, so with two levels nobody but its
 * sender knows which is meant.
 */
struct tries {
    size_t asked;     /* the count that was named, or ANY_LANES */
    size_t count;     /* so many were tried, fewest lanes first */
    size_t lanes[LANE_COUNTS];
    uint64_t results[LANE_COUNTS];
    size_t levels;    /* so many of them gave a level */
    uint64_t result;  /* the level's; or of the refusals the one asked last */
    bool fits_others; /* no count was named, four is refused, and others fit */
};

/* The tiles are the level's if there is one; with several they are of no
 * use. */
void try_lanes(struct tries *t, const struct lanes *l, const struct cells *c,
               uint8_t tiles[ZAV_TILES_MAX]);

/* Why no level is handed out, and the end of the line. */
void print_refusals(FILE *out, const struct tries *t);

/* For whoever named no count, and may have strips of others than four; on
 * standard error, after what was printed. */
void hint_lanes(const char *tool, const char *whose_length);

#endif
