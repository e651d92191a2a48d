/*
 * zavullimen_tiny.h - all legal boards of a tiny size in order, as a C host
 * calls them.
 *
 * A size is tiny if the board has at most six tiles. Its legal boards are those
 * that are levels of version 1 with par 0. They are ordered by their tile
 * codes, row by row, read as one number in base 7, the smallest first.
 *
 * Buffers, packed results and refusals are those of zavullimen_words.h, levels
 * those of zavullimen_records.h.
 */
#ifndef ZAVULLIMEN_TINY_H
#define ZAVULLIMEN_TINY_H

#include "zavullimen_records.h"

#ifdef __cplusplus
extern "C" {
#endif

#define ZAV_TINY_MAX 6 /* tiles of a tiny board */

#define ZAV_AFTER 0 /* the board after the given one */
#define ZAV_START 1 /* the first board of the size */

/*
 * Put the next legal board of this size in front of the tile buffer, and return
 * the number of its tiles as the length; what is past them keeps its value. If
 * there is none, the length is 0 and nothing is written: none is left, which is
 * no refusal.
 *
 * With ZAV_AFTER it is the first legal board that is strictly later than the
 * given one, which need not be legal itself; given_len must be width times
 * height, and each of its codes at most 6. With ZAV_START, or any number but 0,
 * it is the first of all, and the given board is not looked at: it may be NULL.
 *
 * A size that is not tiny is refused with ZAV_NOT_TINY, whatever the numbers.
 * tiles_len must be at least ZAV_TILES_MAX. Nothing is written when refused,
 * and the given board never is. The two must not overlap: copy a board out of
 * the tile buffer before you ask for the one after it.
 */
uint64_t zav_tiny_next(size_t width, size_t height, uint32_t start,
                       const uint8_t *given, size_t given_len,
                       uint8_t *tiles, size_t tiles_len);

#ifdef __cplusplus
}
#endif

#endif
