/*
 * test_writer.h - the record, strip and text writers against the second
 * implementation.
 */
#ifndef TEST_WRITER_H
#define TEST_WRITER_H

#include "pictures.h"
#include "reference_text.h"

/* The writers differ in what they write, and in the room for it. The lanes are
   what is named to the strip writer; the others have none. */
struct writer {
    const char *name;
    uint64_t (*run)(size_t lanes, size_t version, size_t width, size_t height,
                    size_t par, const uint8_t *tiles, size_t tiles_len,
                    uint8_t *buffer, size_t buffer_len);
    struct ref_result (*reference)(size_t lanes, size_t version, size_t width,
                                   size_t height, size_t par,
                                   const uint8_t *tiles, size_t tiles_len,
                                   uint8_t *buffer, size_t buffer_len);
    size_t lanes;
    size_t newest;         /* the newest version that it writes */
    size_t room;           /* the least that the buffer must hold */
    const uint8_t *worked; /* what it writes for the level of FORMAT 12.13 */
    size_t worked_len;
};

/* One strip writer for each lane count. */
enum { RECORD_WRITER, TEXT_WRITER, STRIP_WRITER,
       WRITERS = STRIP_WRITER + LANE_COUNTS };
extern const struct writer writers[WRITERS];

/* That for this lane count. */
const struct writer *strip_writer(size_t lanes);

/* Room for what is written and for bytes past it. */
enum { BUFFER_ROOM = REF_TEXT_MAX + 64 };

/* Write a board to a buffer of this length and compare with the second
   implementation, buffers included. Returns what that one says. */
struct ref_result check_writing(const struct writer *entry,
                                const struct board *b, size_t room);

/* All groups of one writer. */
void test_writer(const struct writer *entry);

#endif
