/*
 * fuzz_pool.h - one input for fuzz_pool.c: a head of six bytes, a body.
 *
 * The body's quarters are the cells of the first picture, its marks, the cells
 * of the second and its marks: six zero bytes and two .cells files of one
 * length make an input. README.md has the whole layout.
 */
#ifndef FUZZ_POOL_H
#define FUZZ_POOL_H

/* Where the bytes of the head stand. */
enum { FLAGS_AT, FIRST_MARKS_AT, SECOND_AT, SECOND_MARKS_AT, CELLS_AT,
       MARKS_AT, HEAD };

enum { RAW_MARKS = 1 /* marks are whole bytes, not their lowest bits */ };

#endif
