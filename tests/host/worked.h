/*
 * worked.h - the boards that FORMAT works out, all of width 2 and par 5.
 */
#ifndef WORKED_H
#define WORKED_H

#include <stddef.h>
#include <stdint.h>

struct worked {
    size_t version, height;
    uint8_t tiles[4];
    uint8_t record[5];
    size_t record_len;
    uint8_t strip[28];
    size_t strip_len;
};

/* FORMAT 12.13 and 12.14, and 12.17: the same tiles in version 2. */
extern const struct worked worked_level;
extern const struct worked worked_level_v2;

/* FORMAT 12.16: a pit and a spare crate. */
extern const struct worked worked_pit;

/* FORMAT 12.5 and 12.6: no level, as its only crate is on its goal. */
extern const struct worked worked_finished;

/* FORMAT 12.18: the level of 12.13 in strips of 2, 4, 8 and 16 lanes. */
struct worked_strip {
    size_t lanes;
    uint8_t strip[96];
    size_t strip_len;
};

enum { WORKED_STRIPS = 4 };
extern const struct worked_strip worked_strips[WORKED_STRIPS];

#endif
