/*
 * reference_record.h - a second implementation of records, for the tests.
 */
#ifndef REFERENCE_RECORD_H
#define REFERENCE_RECORD_H

#include "reference.h"

enum { REF_NEWEST = 2, REF_SIDE_MAX = 31, REF_PAR_MAX = 1023,
       REF_RECORD_MIN = 4, REF_RECORD_MAX = 364,
       REF_LAID_MAX = 368, /* a record with what fills it up to 16 lanes */
       REF_TILES_MAX = REF_SIDE_MAX * REF_SIDE_MAX };

/* The length of a record with this many tiles. */
size_t ref_record_len(size_t tiles);

/*
 * Lay out a record, with the filling, from fields that fit their bits and
 * need not be a level's. Returns its length.
 */
size_t ref_lay_record(size_t version, size_t width, size_t height, size_t par,
                      const uint8_t *tiles, size_t tiles_len, uint8_t *record);

/* Which versions are read: 1 and 2, or 1 only. */
enum ref_versions { REF_BOTH, REF_FIRST_ONLY };

/*
 * The level laid out in these bytes, or refusal 7 to 10; the tiles are put
 * out only with a level. The record must be that of the size when its length
 * is rounded up to a multiple of `unit`: 1 for a record by itself.
 */
struct ref_result ref_level_of(const uint8_t *bytes, size_t len, size_t unit,
                               enum ref_versions versions, uint8_t *tiles);

struct ref_result ref_record_write(size_t version, size_t width, size_t height,
                                   size_t par, const uint8_t *tiles,
                                   size_t tiles_len, uint8_t *record,
                                   size_t record_len);
struct ref_result ref_record_read(const uint8_t *record, size_t record_len,
                                  uint8_t *tiles, size_t tiles_len);
struct ref_result ref_record_read_v1(const uint8_t *record, size_t record_len,
                                     uint8_t *tiles, size_t tiles_len);

#endif
