/*
 * reference_tiny.h - a second implementation of tiny boards, for the tests: all
 * boards of a size are listed, and those that are levels are kept.
 */
#ifndef REFERENCE_TINY_H
#define REFERENCE_TINY_H

#include "reference_record.h"

/* Tiles of a tiny board, and how many boards of so many tiles there are, legal
   or not: 7 to the sixth. */
enum { REF_TINY_MAX = 6, REF_TINY_BOARDS = 117649 };

/* The legal boards of a size, by their numbers, in order. */
struct ref_tiny {
    uint32_t numbers[REF_TINY_BOARDS];
    size_t count;
};

/* How many boards, legal or not, have so many tiles. */
uint32_t ref_tiny_all(size_t tiles);

/* The tiles of the board with this number, and the number of a board. */
void ref_tiny_tiles(uint32_t number, uint8_t *tiles, size_t len);
uint32_t ref_tiny_number(const uint8_t *tiles, size_t len);

/* List them; the size must be tiny. */
void ref_tiny_list(struct ref_tiny *list, size_t width, size_t height);

/* The list of this size, made when it is first asked for. */
const struct ref_tiny *ref_tiny_of(size_t width, size_t height);

/* length is the number of the next board's tiles, 0 if none is left. */
struct ref_result ref_tiny_next(size_t width, size_t height, uint32_t start,
                                const uint8_t *given, size_t given_len,
                                uint8_t *tiles, size_t tiles_len);

#endif
