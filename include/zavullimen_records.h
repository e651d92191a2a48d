/*
 * zavullimen_records.h - levels as records, as a C host calls them.
 *
 * A level is a version, 1 or 2, a width and a height of 1 to 31, a par of at
 * most 1023 and width times height tile codes, row by row: 0 floor, 1 wall,
 * 2 crate, 3 goal, 4 crate on goal, 5 player, 6 player on goal, and in version
 * 2 also 7, a pit. It has one player, as many crates as goals, or in version 2
 * at least as many, and at least one crate off its goal. Its record is the
 * level, bit-packed: 4 to 364 bytes. Two levels that differ only in their
 * version are two levels, with different records and strips.
 *
 * Buffers, packed results and refusals are those of zavullimen_words.h.
 */
#ifndef ZAVULLIMEN_RECORDS_H
#define ZAVULLIMEN_RECORDS_H

#include "zavullimen_words.h"

#ifdef __cplusplus
extern "C" {
#endif

#define ZAV_RECORD_MIN 4   /* bytes in a record */
#define ZAV_RECORD_MAX 364 /* and in a buffer for one */
#define ZAV_TILES_MAX 961  /* tiles of a level, and in a buffer for them */

#define ZAV_LEVEL_V1 1 /* versions of levels: without pits, */
#define ZAV_LEVEL_V2 2 /* and with them */

/*
 * A reader's result has the level's version in bits 9 and 10, the width in bits
 * 11 to 15, the height in bits 16 to 20 and the par in bits 21 to 30.
 */
static inline unsigned zav_level_version(uint64_t result)
{
    return (unsigned)(result >> 9 & 0x3);
}

static inline unsigned zav_width(uint64_t result)
{
    return (unsigned)(result >> 11 & 0x1F);
}

static inline unsigned zav_height(uint64_t result)
{
    return (unsigned)(result >> 16 & 0x1F);
}

static inline unsigned zav_par(uint64_t result)
{
    return (unsigned)(result >> 21 & 0x3FF);
}

/*
 * Write the level's record to the front of the buffer, and return the length
 * written; what is past it keeps its value. The version is ZAV_LEVEL_V1 or
 * ZAV_LEVEL_V2; any other number is refused with ZAV_OUT_OF_RANGE. tiles_len
 * must be width times height, and record_len at least ZAV_RECORD_MAX. Nothing
 * is written when refused, and the tiles never are. Tiles and record must not
 * overlap.
 */
uint64_t zav_record_write(size_t version, size_t width, size_t height,
                          size_t par, const uint8_t *tiles, size_t tiles_len,
                          uint8_t *record, size_t record_len);

/*
 * Read a level from its record: its tiles, one byte each, are put in front of
 * the tile buffer, and version, width, height and par are returned; tile bytes
 * past the level keep their value. tiles_len must be at least ZAV_TILES_MAX.
 * Nothing is written when refused, and the record never is. Record and tiles
 * must not overlap.
 */
uint64_t zav_record_read(const uint8_t *record, size_t record_len,
                         uint8_t *tiles, size_t tiles_len);

/*
 * The same for version 1 only, for an engine that has no pits: a record of
 * version 2 is refused with ZAV_OUT_OF_RANGE, as every other version is, before
 * its size and its tiles are looked at.
 */
uint64_t zav_record_read_v1(const uint8_t *record, size_t record_len,
                            uint8_t *tiles, size_t tiles_len);

#ifdef __cplusplus
}
#endif

#endif
