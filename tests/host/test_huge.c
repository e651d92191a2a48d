/* test_huge.c - lengths that a narrower number would cut, at all entries. */
#include "test_huge.h"

#include "harness.h"
#include "reference_pool.h"
#include "reference_tiny.h"
#include "test_repair.h"
#include "test_writer.h"
#include "zavullimen.h"

/* Only refused calls: they write nothing, so read-only zeros can be lent. */
static void check_huge_word(uint8_t *zeros, uint8_t *more, size_t past)
{
    group_case();
    check_number(zav_word_test(zeros, past + 10),
                 packed(ref_word_test(zeros, past + 10)), "test");
    check_number(zav_word_write(zeros, past + 10, more, past + 15),
                 packed(ref_word_write(zeros, past + 10, more, past + 15)),
                 "write, both lengths");
    check_number(zav_word_write(zeros, 10, more, past + 15),
                 packed(ref_word_write(zeros, 10, more, past + 15)),
                 "write, buffer length");
}

static void check_huge_repair(const struct repair *entry, uint8_t *zeros,
                              size_t len, const uint8_t *marks,
                              size_t marks_len)
{
    const struct ref_result r = entry->reference(zeros, len, marks, marks_len);

    group_case();
    check_number(entry->run(zeros, len, marks, marks_len), packed(r),
                 entry->name);
}

/* Four zeros are no record (7). A length that is cut would make a long record
   one of four bytes (1 is right), or a long tile buffer too short (7 is). */
static void check_huge_record(uint8_t *zeros, uint8_t *more, size_t past)
{
    group_case();
    check_number(zav_record_read(zeros, past + 4, more, REF_TILES_MAX),
                 packed(ref_record_read(zeros, past + 4, more, REF_TILES_MAX)),
                 "record reader, record");
    check_number(zav_record_read(zeros, 4, more, past + 4),
                 packed(ref_record_read(zeros, 4, more, past + 4)),
                 "record reader, tile buffer");
}

/* Zeros are no text (11). A length that is cut would make a long tile buffer
   too short (4). */
static void check_huge_text(uint8_t *zeros, uint8_t *more, size_t past)
{
    group_case();
    check_number(zav_text_read(zeros, past + 4, more, REF_TILES_MAX),
                 packed(ref_text_read(zeros, past + 4, more, REF_TILES_MAX)),
                 "text reader, text");
    check_number(zav_text_read(zeros, 4, more, past + REF_TILES_MAX - 1),
                 packed(ref_text_read(zeros, 4, more,
                                      past + REF_TILES_MAX - 1)),
                 "text reader, tile buffer");
}

/* Tiles past the size, and a buffer that is longer than it need be. */
static void check_huge_writer(const struct writer *entry, uint8_t *zeros,
                              uint8_t *more, size_t past)
{
    group_case();
    check_number(entry->run(entry->lanes, 1, 2, 2, 0, zeros, past + 4, more,
                            entry->room),
                 packed(entry->reference(entry->lanes, 1, 2, 2, 0, zeros,
                                         past + 4, more, entry->room)),
                 "tiles");
    check_number(entry->run(entry->lanes, 1, 0, 2, 0, zeros, 4, more, past + 4),
                 packed(entry->reference(entry->lanes, 1, 0, 2, 0, zeros, 4,
                                         more, past + 4)),
                 "buffer");
    check_number(entry->run(entry->lanes + past, 1, 0, 2, 0, zeros, 4, more,
                            entry->room),
                 packed(entry->reference(entry->lanes + past, 1, 0, 2, 0,
                                         zeros, 4, more, entry->room)),
                 "lanes");
}

/* The buffers of the strip reader, and a second picture. */
struct stretch {
    uint8_t *strip, *marks, *tiles, *scratch;
    uint8_t *second, *second_marks;
};

struct lengths {
    size_t lanes, strip, marks, tiles, scratch;
};

static void check_huge_strip(struct stretch s, struct lengths len)
{
    group_case();
    check_number(zav_strip_read(len.lanes, s.strip, len.strip, s.marks,
                                len.marks, s.tiles, len.tiles, s.scratch,
                                len.scratch),
                 packed(ref_strip_read(len.lanes, s.strip, len.strip, s.marks,
                                       len.marks, s.tiles, len.tiles,
                                       len.scratch)),
                 "strip reader");
}

/* Zeros pooled with zeros, and a length that would fit the others if it were
   cut. */
static void check_huge_pool(struct stretch s, const size_t len[6])
{
    const struct ref_picture first = {s.strip, len[0], s.marks, len[1]};
    const struct ref_picture second = {s.second, len[2], s.second_marks,
                                       len[3]};

    group_case();
    check_number(zav_strip_pool(s.strip, len[0], s.marks, len[1], s.second,
                                len[2], s.second_marks, len[3], s.tiles,
                                len[4], s.scratch, len[5]),
                 packed_pooling(ref_strip_pool(&first, &second, s.tiles,
                                               len[4], s.scratch, len[5])),
                 "pooling");
}

/* Each length by itself, and those of both pictures together. */
static void check_huge_lengths_of_pool(struct stretch s, size_t past)
{
    const size_t pictures[6] = {past + 24, past + 24, past + 24, past + 24,
                                24, 24};

    check_huge_pool(s, pictures);
    for (size_t k = 0; k < 6; k++) {
        size_t len[6] = {24, 24, 24, 24, 24, 24};

        len[k] += past;
        check_huge_pool(s, len);
    }
}

/* Zeros as a given board, and a number that would fit if it were cut. */
static void check_huge_tiny(struct stretch s, size_t width, size_t height,
                            size_t given_len, size_t tiles_len)
{
    group_case();
    check_number(zav_tiny_next(width, height, ZAV_AFTER, s.strip, given_len,
                               s.scratch, tiles_len),
                 packed(ref_tiny_next(width, height, ZAV_AFTER, s.strip,
                                      given_len, s.scratch, tiles_len)),
                 "tiny boards");
}

static void check_huge_numbers_of_tiny(struct stretch s, size_t past)
{
    check_huge_tiny(s, past + 2, 1, 2, REF_TILES_MAX);
    check_huge_tiny(s, 2, past + 1, 2, REF_TILES_MAX);
    check_huge_tiny(s, 2, 1, past + 2, REF_TILES_MAX);
    check_huge_tiny(s, 2, 1, 2, past);
}

/* The lanes and each length by itself, and strip and marks together. */
static void check_huge_numbers_of_strip(struct stretch s, size_t lanes,
                                        size_t past)
{
    const size_t len = ref_strip_len(lanes, ref_k_min(lanes));
    const struct lengths all[] = {
        {past + lanes, len, len, REF_TILES_MAX, REF_SCRATCH_MIN},
        {lanes, past + len, past + len, REF_TILES_MAX, REF_SCRATCH_MIN},
        {lanes, past + len, len, REF_TILES_MAX, REF_SCRATCH_MIN},
        {lanes, len, past + len, REF_TILES_MAX, REF_SCRATCH_MIN},
        {lanes, len, len, past + 4, REF_SCRATCH_MIN},
        {lanes, len, len, REF_TILES_MAX, past + 4},
    };

    for (size_t k = 0; k < COUNT(all); k++)
        check_huge_strip(s, all[k]);
}

static void check_past(struct stretch s, size_t past)
{
    const size_t len = past + 10;

    check_huge_word(s.strip, s.tiles, past);
    for (size_t e = 0; e < REPAIRS; e++) {
        check_huge_repair(&repairs[e], s.strip, len, s.marks, len);
        check_huge_repair(&repairs[e], s.strip, 10, s.marks, len);
        check_huge_repair(&repairs[e], s.strip, len, s.marks, 10);
    }
    check_huge_record(s.strip, s.tiles, past);
    check_huge_text(s.strip, s.tiles, past);
    for (size_t e = 0; e < WRITERS; e++)
        check_huge_writer(&writers[e], s.strip, s.tiles, past);
    for (size_t i = 0; i < LANE_COUNTS; i++)
        check_huge_numbers_of_strip(s, lane_counts[i], past);
    check_huge_lengths_of_pool(s, past);
    check_huge_numbers_of_tiny(s, past);
}

/* All are zeros. Only the scratch is written to; all else is refused. */
void test_huge(void)
{
    static const size_t past[] = {(size_t)1 << 8, (size_t)1 << 16,
                                  (size_t)1 << 31, (size_t)1 << 32};
    const size_t most = ((size_t)1 << 32) + 4096;
    const struct stretch s = {map_zeros(most), map_zeros(most),
                              map_zeros(most), map_scratch(most),
                              map_zeros(most), map_zeros(most)};

    group_begin("all entries", "lengths past 2^8, 2^16, 2^31 and 2^32");
    for (size_t k = 0; k < COUNT(past); k++)
        check_past(s, past[k]);
    group_end();
    unmap_long(s.strip, most);
    unmap_long(s.marks, most);
    unmap_long(s.tiles, most);
    unmap_long(s.scratch, most);
    unmap_long(s.second, most);
    unmap_long(s.second_marks, most);
}
