/*
 * reference_strip.h - a second implementation of strips, for the tests.
 */
#ifndef REFERENCE_STRIP_H
#define REFERENCE_STRIP_H

#include <stdbool.h>

#include "reference_record.h"

/* REF_LANES is the lane count of pooling and of the program, which name none;
   REF_STRIP_MAX is the longest strip of any lane count. */
enum { REF_LANES = 4, REF_LANES_MAX = 16, REF_STRIP_MAX = 448,
       REF_SCRATCH_MIN = 187 };

bool ref_is_lane_count(size_t lanes);

/* Whether a strip of these lanes may be so long; of no other lane count there
   are strips. */
bool ref_is_strip_len(size_t lanes, size_t len);

/* Whether some mark is neither 0 nor 1. */
bool ref_has_bad_mark(const uint8_t *marks, size_t len);

/* Data bytes in each lane of the strip for a record of so many bytes. */
size_t ref_k_of(size_t lanes, size_t record_len);

/* The same for the shortest and the longest record. */
size_t ref_k_min(size_t lanes);
size_t ref_k_max(size_t lanes);

/* Cells in a strip with so many data bytes in each lane. */
size_t ref_strip_len(size_t lanes, size_t k);

/*
 * Lay k data bytes for each lane into clean lanes, whether or not they are a
 * level's record. Returns the length of the strip.
 */
size_t ref_lay_strip(size_t lanes, const uint8_t *data, size_t k,
                     uint8_t *strip);

struct ref_result ref_strip_write(size_t lanes, size_t version, size_t width,
                                  size_t height, size_t par,
                                  const uint8_t *tiles, size_t tiles_len,
                                  uint8_t *strip, size_t strip_len);

/* 100 times mended over len to the nearest whole number, a half to the even
   one. */
unsigned ref_wear(unsigned mended, size_t len);

/* The scratch may hold anything afterwards, so only its length matters. */
struct ref_result ref_strip_read(size_t lanes, const uint8_t *strip,
                                 size_t strip_len, const uint8_t *marks,
                                 size_t marks_len, uint8_t *tiles,
                                 size_t tiles_len, size_t scratch_len);
struct ref_result ref_strip_read_v1(size_t lanes, const uint8_t *strip,
                                    size_t strip_len, const uint8_t *marks,
                                    size_t marks_len, uint8_t *tiles,
                                    size_t tiles_len, size_t scratch_len);

#endif
