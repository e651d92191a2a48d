/*
 * zavullimen_strips.h - levels as strips of cells, as a C host calls them.
 *
 * A strip is cells of one byte each, dealt out to R lanes, cell p to lane
 * p mod R, where R is 2, 4, 8 or 16: small icons have few lanes, wide banners
 * many. Each lane is a word with five check bytes that is mended by itself: a
 * level comes back as long as in each lane f cells are marked and e others
 * wrong, 2e + f at most 5. A strip does not say how many lanes it has. Whoever
 * reads it must know, and names the number; so does whoever writes it.
 *
 * Buffers, packed results and refusals are those of zavullimen_words.h, levels
 * those of zavullimen_records.h. The scratch is the one buffer that a refused
 * call may write to.
 */
#ifndef ZAVULLIMEN_STRIPS_H
#define ZAVULLIMEN_STRIPS_H

#include "zavullimen_records.h"

#ifdef __cplusplus
extern "C" {
#endif

/*
 * Numbers that changed when lanes could be named: ZAV_STRIP_MAX was 384,
 * ZAV_SCRATCH_MIN 96 and ZAV_LANE_MAX 96; ZAV_STRIP_MIN, which was 24, is
 * ZAV_STRIP_SHORTEST(4) now; ZAV_STICKER_UNMARKED and ZAV_STICKER_MARKED, 8 and
 * 20, take the lanes; the lane told with refusal 6 was at most 3, mended at
 * most 8, repainted at most 20, and bits 50 to 54 of a result were zero.
 */
#define ZAV_STRIP_LANES 4   /* what pooling and readstrip take, and every strip
                               had before the number could be named */
#define ZAV_LANES_MAX 16    /* the most lanes that can be named */
#define ZAV_STRIP_MAX 448   /* cells in a buffer for a strip of any lanes */
#define ZAV_SCRATCH_MIN 187 /* bytes of scratch that the reader needs */

/* Cells in the shortest and the longest strip of so many lanes: 14 and 374 of
 * two, 24 and 384 of four, 48 and 408 of eight, 96 and 448 of sixteen; those
 * between go in steps of the lanes. */
#define ZAV_STRIP_SHORTEST(lanes) \
    ((lanes) * ((ZAV_RECORD_MIN + (lanes) - 1) / (lanes) + ZAV_CHECK_BYTES))
#define ZAV_STRIP_LONGEST(lanes) \
    ((lanes) * ((ZAV_RECORD_MAX + (lanes) - 1) / (lanes) + ZAV_CHECK_BYTES))

/* 1 if strips of so many lanes can have this length. Many lengths fit several
 * lane counts: 96 cells fit all four. */
static inline int zav_strip_fits(size_t lanes, size_t length)
{
    return (lanes == 2 || lanes == 4 || lanes == 8 || lanes == 16) &&
           length % lanes == 0 && length >= ZAV_STRIP_SHORTEST(lanes) &&
           length <= ZAV_STRIP_LONGEST(lanes);
}

/*
 * What a sticker may cover on a strip of so many lanes: so many neighbouring
 * cells, wherever it starts and whatever its colours, if nothing else is wrong
 * or marked; more if they are marked. The level then always comes back; one
 * cell more may be refused. FORMAT 14, and docs/STICKERS.md for those who make
 * stickers.
 */
#define ZAV_STICKER_UNMARKED(lanes) (2 * (lanes))
#define ZAV_STICKER_MARKED(lanes) (5 * (lanes))

/* With refusal 6: the lowest lane beyond reach, 0 to 15, in bits 5 to 8. */
static inline unsigned zav_lane(uint64_t result)
{
    return (unsigned)(result >> 5 & 0xF);
}

/* 100 times mended over the cells of the strip, to the nearest whole number, an
 * exact half to the even one: 0 to 33, in bits 44 to 49. */
static inline unsigned zav_wear(uint64_t result)
{
    return (unsigned)(result >> 44 & 0x3F);
}

/* The lane count of the strip that was read, as it was named: 2, 4, 8 or 16, in
 * bits 50 to 54. */
static inline unsigned zav_lanes(uint64_t result)
{
    return (unsigned)(result >> 50 & 0x1F);
}

/*
 * Write the level's strip of so many lanes to the front of the buffer, and
 * return the length written; what is past it keeps its value. Lanes other than
 * 2, 4, 8 and 16 are refused with ZAV_BAD_LANES, before all else. The version
 * is ZAV_LEVEL_V1 or ZAV_LEVEL_V2; any other number is refused with
 * ZAV_OUT_OF_RANGE. tiles_len must be width times height, and strip_len at
 * least ZAV_STRIP_MAX, whatever the lanes. Nothing is written when refused, and
 * the tiles never are. Tiles and strip must not overlap.
 */
uint64_t zav_strip_write(size_t lanes, size_t version, size_t width,
                         size_t height, size_t par, const uint8_t *tiles,
                         size_t tiles_len, uint8_t *strip, size_t strip_len);

/*
 * Read the level whose strip of so many lanes is within reach: its tiles, one
 * byte each, are put in front of the tile buffer, and version, width, height,
 * par, mended (unmarked cells that were wrong, over all lanes: 0 to twice the
 * lanes), repainted (marked cells whose byte was wrong: 0 to five times the
 * lanes), wear and the lane count are returned; tile bytes past the level keep
 * their value. There is one mark for each cell: 0 if it was read, 1 if it was
 * not; the byte under a mark has influence on repainted, and on nothing else.
 *
 * Lanes other than 2, 4, 8 and 16 are refused with ZAV_BAD_LANES, before all
 * else. Name the count that the strip was written with: nothing tells a strip
 * of another count from a damaged one, and what comes of it is nothing that
 * anybody drew. docs/C-INTERFACE.md says what to do if the count is not known.
 *
 * The strip within reach is the one that zav_strip_write writes for the level
 * returned, with the same lanes: it differs from the strip read in mended
 * unmarked and repainted marked cells, and in no others.
 *
 * strip_len is the strip's own length, the one that its writer returned, and
 * not that of the buffer it stands in. tiles_len must be at least
 * ZAV_TILES_MAX, and scratch_len at least ZAV_SCRATCH_MIN: the longest lane
 * there is, whatever the lanes and the length. More scratch makes no
 * difference.
 *
 * The strip and the marks are never written, nor are the tiles when refused.
 * After 15 and 1 to 5 the scratch keeps its bytes; after 6 to 10, and when a
 * level is returned, it may hold anything. None of the four buffers may
 * overlap another.
 */
uint64_t zav_strip_read(size_t lanes, const uint8_t *strip, size_t strip_len,
                        const uint8_t *marks, size_t marks_len,
                        uint8_t *tiles, size_t tiles_len,
                        uint8_t *scratch, size_t scratch_len);

/*
 * The same for version 1 only, for an engine that has no pits: where the strip
 * is mended to a record of version 2, it is refused with ZAV_OUT_OF_RANGE, as
 * every other version is, before its size and its tiles are looked at.
 */
uint64_t zav_strip_read_v1(size_t lanes, const uint8_t *strip,
                           size_t strip_len, const uint8_t *marks,
                           size_t marks_len, uint8_t *tiles, size_t tiles_len,
                           uint8_t *scratch, size_t scratch_len);

#ifdef __cplusplus
}
#endif

#endif
