/*
 * damage.h - damaged strips, as both sides are given them.
 */
#ifndef DAMAGE_H
#define DAMAGE_H

#include "beside.h"
#include "boards.h"
#include "pictures.h"

struct damage {
    const char *name;
    size_t first_lane; /* this lane and those after it are damaged */
    size_t wrong;      /* so many cells of each of them */
    size_t marked;
};

/* Is the strip that was written within reach? */
bool is_reached(const struct damage *d);

/* As many as a strip can have; those past its own lanes are not used. */
typedef uint8_t dealt[REF_LANES_MAX][REF_LANE_MAX];
typedef int erasures[REF_LANES_MAX][REF_CHECK_BYTES];

struct damaged {
    struct picture picture; /* what we are given */
    dealt written;          /* what is right, and what libfec is given */
    dealt lane;
    erasures marked;
};

/* The level's strip of so many lanes, damaged. No byte under a mark is
   right. */
void draw_damaged(struct damaged *s, size_t lanes, const struct board *level,
                  const struct damage *d);

/* What our reader must say of it: the level, or refusal 6. */
uint64_t due_result(const struct board *level, const struct damage *d,
                    size_t lanes, size_t cells);

/* libfec on one lane of it. */
void fec_read_lane(void *fec, uint8_t *word, const struct damage *d,
                   size_t lane, int marked[REF_CHECK_BYTES]);

#endif
