/*
 * fuzz_strip.h - one input for fuzz_strip.c: a head of ten bytes, a body.
 *
 * The body's first half are cells, its second half marks: ten zero bytes and
 * a .cells file of four lanes make an input. README.md has the whole layout.
 */
#ifndef FUZZ_STRIP_H
#define FUZZ_STRIP_H

#include <stddef.h>
#include <stdint.h>

/* Where the bytes of the head stand. */
enum { FLAGS_AT, MARKS_AT, TILES_AT, SCRATCH_AT, BUFFER_AT, WIDTH_AT,
       HEIGHT_AT, PAR_AT, LANES_AT = PAR_AT + 2, HEAD };

/* Most bytes say a lane count that there is; from ANY_LANES on they say any
   number, counted from there. */
enum { ANY_LANES = 192 };
size_t lanes_of(uint8_t byte);

enum {
    RAW_MARKS = 1, /* marks are whole bytes, not their lowest bits */
    LAID = 2,      /* the first half is data for clean lanes, the second says
                      what to damage */
    RAW_TILES = 4, /* the writers are lent the whole body, whatever the size */
    VERSION = 8,   /* and 16: what the writers' version is more than 1 */
    FIRST_ONLY = 32 /* the readers are those for version 1 */
};

#endif
