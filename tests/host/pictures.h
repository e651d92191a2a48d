/*
 * pictures.h - strips as the reader is given them, and the check of one call.
 */
#ifndef PICTURES_H
#define PICTURES_H

#include "boards.h"
#include "draw.h"
#include "worked.h"

/* Long enough for a strip that is too long, and for a scratch that would hold
   the longest strip. */
enum { STRIP_ROOM = 512, SCRATCH_ROOM = REF_STRIP_MAX + 64 };

/* Every lane count there is, and one of them by lot. */
enum { LANE_COUNTS = 4 };
extern const size_t lane_counts[LANE_COUNTS];
size_t draw_lane_count(void);

struct picture {
    size_t lanes; /* as they are named to the reader */
    uint8_t strip[STRIP_ROOM];
    size_t strip_len;
    uint8_t marks[STRIP_ROOM];
    size_t marks_len;
    size_t tiles_len;
    size_t scratch_len;
};

/* k data bytes in each of so many clean lanes, no marks, buffers of the least
   length or more. */
void picture_data(struct picture *p, size_t lanes, const uint8_t *data,
                  size_t k);

/* The board's record, filled up, in the same way. */
void picture_board(struct picture *p, size_t lanes, const struct board *b);

/* A level with k data bytes in each lane, or, where there is none, data with a
   level's front. Returns whether there is one. */
bool picture_length(struct picture *p, size_t lanes, size_t k);

/* A random level's strip, and the level. */
void picture_any_level(struct picture *p, size_t lanes, struct board *b);

/* A strip of FORMAT, of four lanes, no marks, buffers of the least length. */
void picture_worked(struct picture *p, const struct worked *w);

/* Cells in each lane. */
size_t lane_len(const struct picture *p);

/* A lane with its marks, taken out and put back. */
void take_lane(const struct picture *p, size_t lane, struct sample *s);
void put_lane(struct picture *p, size_t lane, const struct sample *s);

/* Mark so many cells of a lane and change so many others. */
void damage_lane(struct picture *p, size_t lane, size_t wrong, size_t marked,
                 enum under_mark under);

/* Damage every lane, with 2e + f at most so much: 6 or less, since the shortest
   lanes have six cells. */
void damage_lanes(struct picture *p, size_t most);

/*
 * Read the picture and compare with the second implementation, all buffers
 * included. Returns what that one says.
 */
struct ref_result check_picture(const struct picture *p);

/* The same by the readers for version 1. */
struct ref_result check_picture_v1(const struct picture *p);

/* The same where the test knows what must come out; the second implementation
   is not asked, as it takes long. */
void check_counts(const struct picture *p, const struct board *b,
                  unsigned mended, unsigned repainted);
void check_refused(const struct picture *p, unsigned code, unsigned lane);

/* Here the repainted cells are counted, against the board's strip. */
void check_level(const struct picture *p, const struct board *b,
                 unsigned mended);

/*
 * An editor's way, by the library alone: a level that is read is written again,
 * and the two strips differ in as many unmarked and as many marked cells as was
 * told, FORMAT 11.14. False if the picture is refused.
 */
bool check_redrawn(const struct picture *p);

#endif
