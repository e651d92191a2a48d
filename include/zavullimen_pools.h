/*
 * zavullimen_pools.h - two pictures of one strip made one, as a C host calls it.
 *
 * Players post the same strip twice with different stickers. Pooled, a cell is
 * marked only where both pictures hide it, or show different bytes; so a strip
 * that is refused in each picture alone may be read in the pooled one.
 *
 * Buffers, packed results and refusals are those of zavullimen_words.h, strips
 * those of zavullimen_strips.h, of four lanes (ZAV_STRIP_LANES): 24 to 384
 * cells.
 */
#ifndef ZAVULLIMEN_POOLS_H
#define ZAVULLIMEN_POOLS_H

#include "zavullimen_strips.h"

#ifdef __cplusplus
extern "C" {
#endif

/*
 * The four counts of a pooled strip, 0 to 384 each. Every cell is in one of
 * them, so that they add up to the strip's length. They belong to the result of
 * zav_strip_pool alone: other results have other fields in these bits.
 */

/* Unmarked in both pictures, with the same byte; in bits 5 to 13. */
static inline unsigned zav_agreed(uint64_t result)
{
    return (unsigned)(result >> 5 & 0x1FF);
}

/* Unmarked in just one picture, and taken from it; in bits 14 to 22. */
static inline unsigned zav_taken(uint64_t result)
{
    return (unsigned)(result >> 14 & 0x1FF);
}

/* Unmarked in both, with different bytes, and now marked; in bits 23 to 31. */
static inline unsigned zav_in_conflict(uint64_t result)
{
    return (unsigned)(result >> 23 & 0x1FF);
}

/* Marked in both, and so still marked; in bits 32 to 40. */
static inline unsigned zav_marked_in_both(uint64_t result)
{
    return (unsigned)(result >> 32 & 0x1FF);
}

/*
 * Pool two pictures of a strip, each with a mark for every cell: 0 if it was
 * read, 1 if it was not. Cells and marks of the pooled picture are written over
 * the last two buffers, and the four counts are returned. An unmarked cell of
 * it has the byte of every picture in which that cell is unmarked; a marked one
 * has byte 0. Which picture comes first makes no difference.
 *
 * Both strips, their marks and the two buffers must be of one length, the
 * strip's own, which its writer returned: the buffers exactly so long, and not
 * longer. Strips of different lengths are refused with ZAV_UNEQUAL_STRIPS.
 *
 * The pictures are never written, nor are the two buffers when refused. None of
 * the six may overlap another.
 */
uint64_t zav_strip_pool(const uint8_t *first, size_t first_len,
                        const uint8_t *first_marks, size_t first_marks_len,
                        const uint8_t *second, size_t second_len,
                        const uint8_t *second_marks, size_t second_marks_len,
                        uint8_t *cells, size_t cells_len,
                        uint8_t *marks, size_t marks_len);

#ifdef __cplusplus
}
#endif

#endif
