/* test_record.h - the record reader against the second implementation. */
#ifndef TEST_RECORD_H
#define TEST_RECORD_H

#include "reference_record.h"

/* Room for a record that is too long. */
enum { RECORD_ROOM = REF_RECORD_MAX + 64 };

/* Read a record and compare with the second implementation, buffers included.
   Returns what that one says. */
struct ref_result check_record(const uint8_t *record, size_t len,
                               size_t tiles_len);

/* The same by the readers for version 1. */
struct ref_result check_record_v1(const uint8_t *record, size_t len,
                                  size_t tiles_len);

void test_record(void);

#endif
