/*
 * test_reader.h - what readers have in common: bytes read into a tile buffer,
 * for records and texts, and the judging of a record, for records and strips.
 */
#ifndef TEST_READER_H
#define TEST_READER_H

#include "reference.h"
#include "test_writer.h"

/* The record or text reader, and its second implementation. */
struct bytes_reader {
    uint64_t (*read)(const uint8_t *bytes, size_t len, uint8_t *tiles,
                     size_t tiles_len);
    struct ref_result (*ref_read)(const uint8_t *bytes, size_t len,
                                  uint8_t *tiles, size_t tiles_len);
};

/* Read these bytes with both and compare, buffers included. Returns what the
   second one says. */
struct ref_result check_bytes(const struct bytes_reader *entry,
                              const uint8_t *bytes, size_t len,
                              size_t tiles_len);

struct reader {
    const char *name;
    size_t lanes;  /* of a strip, which holds a multiple of so many data bytes;
                      0 for a record by itself */
    size_t newest; /* the newest version that it reads */
    const struct writer *writer;

    /* Read this data, for a strip out of so many clean lanes, and compare with
       the second implementation. Returns what that one says. */
    struct ref_result (*check)(size_t lanes, const uint8_t *data, size_t len);

    /* Read what the writer wrote, with the library alone. */
    uint64_t (*read)(size_t lanes, const uint8_t *written, size_t len,
                     uint8_t *tiles);
};

/* All groups on the judging of a record. */
void test_reader(const struct reader *entry);

#endif
