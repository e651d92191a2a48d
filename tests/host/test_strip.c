/* test_strip.c - whole strips against the second implementation. */
#include "test_strip.h"

#include <stdio.h>
#include <string.h>

#include "draw.h"
#include "harness.h"
#include "pictures.h"
#include "test_reader.h"
#include "zavullimen_strips.h"

static const char subject[] = "strip reader";

/* ---- the judging of a record, for every lane count ---- */

static struct ref_result check_data(size_t lanes, const uint8_t *data,
                                    size_t len)
{
    struct picture p;

    picture_data(&p, lanes, data, len / lanes);
    return check_picture(&p);
}

static uint64_t read_written(size_t lanes, const uint8_t *written, size_t len,
                             uint8_t *tiles)
{
    static const uint8_t marks[REF_STRIP_MAX];
    uint8_t scratch[REF_SCRATCH_MIN];

    return zav_strip_read(lanes, written, len, marks, len, tiles,
                          REF_TILES_MAX, scratch, sizeof scratch);
}

/* Version 1 only. */
static struct ref_result check_data_v1(size_t lanes, const uint8_t *data,
                                       size_t len)
{
    struct picture p;

    picture_data(&p, lanes, data, len / lanes);
    return check_picture_v1(&p);
}

static uint64_t read_written_v1(size_t lanes, const uint8_t *written,
                                size_t len, uint8_t *tiles)
{
    static const uint8_t marks[REF_STRIP_MAX];
    uint8_t scratch[REF_SCRATCH_MIN];

    return zav_strip_read_v1(lanes, written, len, marks, len, tiles,
                             REF_TILES_MAX, scratch, sizeof scratch);
}

static void test_both_readers(size_t lanes)
{
    const struct writer *writer = strip_writer(lanes);
    char name[60], name_v1[60];
    const struct reader both = {name, lanes, 2, writer, check_data,
                                read_written};
    const struct reader first = {name_v1, lanes, 1, writer, check_data_v1,
                                 read_written_v1};

    sprintf(name, "%s, %zu lanes", subject, lanes);
    sprintf(name_v1, "%s, version 1, %zu lanes", subject, lanes);
    test_reader(&both);
    test_reader(&first);
}

/* ---- every legal length ---- */

/* Clean, with damage that is always within reach, and with more. */
static void check_length(size_t lanes, size_t k)
{
    struct picture p;

    picture_length(&p, lanes, k);
    check_picture(&p);
    damage_lanes(&p, REF_REACH);
    check_picture(&p);
    picture_length(&p, lanes, k);
    damage_lanes(&p, REF_REACH + 1);
    check_picture(&p);
}

static void test_lengths(void)
{
    group_begin(subject, "every legal length, clean and damaged");
    for (size_t i = 0; i < LANE_COUNTS; i++) {
        const size_t lanes = lane_counts[i];

        for (size_t k = ref_k_min(lanes); k <= ref_k_max(lanes); k++)
            for (size_t n = 0; n < scaled(3); n++)
                check_length(lanes, k);
    }
    group_end();
}

/* Where the second implementation gives a level, it must have been one; and
   no level has one of these lengths. */
static void check_no_level(size_t lanes, size_t k)
{
    struct picture p;

    if (picture_length(&p, lanes, k))
        return;

    const unsigned code = check_picture(&p).code;

    if (code != 7 && code != 8)
        group_fail("%zu lanes, k is %zu, and the reference says %u", lanes, k,
                   code);
}

static void test_lengths_without_levels(void)
{
    group_begin(subject, "lengths that no level has");
    for (size_t i = 0; i < LANE_COUNTS; i++) {
        const size_t lanes = lane_counts[i];

        for (size_t k = ref_k_min(lanes); k <= ref_k_max(lanes); k++)
            for (size_t n = 0; n < scaled(20); n++)
                check_no_level(lanes, k);
    }
    group_end();
}

/* ---- the strips of FORMAT 12.6, 12.14, 12.16 and 12.17 ---- */

static void expect(const struct picture *p, struct ref_result result)
{
    check_number(packed(check_picture(p)), packed(result), "reference");
}

/* FORMAT 12.8 and 12.9: each cell wrong by itself. */
static void expect_each_cell(const struct picture *whole,
                             struct ref_result result)
{
    for (size_t cell = 0; cell < whole->strip_len; cell++)
        for (size_t k = 0; k < scaled(20); k++) {
            struct picture p = *whole;

            p.strip[cell] ^= draw_nonzero();
            expect(&p, result);
        }
}

/* FORMAT 12.10: any three cells of lane 2 are wrong. */
static void expect_beyond(const struct picture *whole)
{
    for (size_t a = 2; a < whole->strip_len; a += REF_LANES)
        for (size_t b = 2; b < a; b += REF_LANES)
            for (size_t c = 2; c < b; c += REF_LANES) {
                struct picture p = *whole;

                p.strip[a] ^= draw_nonzero();
                p.strip[b] ^= draw_nonzero();
                p.strip[c] ^= draw_nonzero();
                expect(&p, (struct ref_result){.code = 6, .lane = 2});
            }
}

/* FORMAT 12.5, 12.6, 12.13, 12.14, 12.16 and 12.17: the record and the strip
   of a board, whether or not it is a level, and that the lanes are words. */
static void check_layout(const struct worked *w)
{
    uint8_t record[REF_RECORD_MAX] = {0}, strip[REF_STRIP_MAX];
    struct picture p;
    struct sample lane;

    check_number(ref_lay_record(w->version, 2, w->height, 5, w->tiles,
                                2 * w->height, record),
                 w->record_len, "record");
    check_number(ref_lay_strip(REF_LANES, record,
                               ref_k_of(REF_LANES, w->record_len), strip),
                 w->strip_len, "strip");
    if (memcmp(record, w->record, w->record_len) != 0 ||
        memcmp(strip, w->strip, w->strip_len) != 0)
        group_fail("the reference lays other bytes");
    picture_worked(&p, w);
    for (size_t i = 0; i < REF_LANES; i++) {
        take_lane(&p, i, &lane);
        check_number(zav_length(zav_word_test(lane.word, lane.len)), 1,
                     "a clean lane");
    }
}

/* What is beyond reach is refused for that, finished or not. */
static void test_finished_strip(void)
{
    const struct ref_result refused = {.code = 10};
    struct picture p;

    group_begin(subject, "the finished board of FORMAT, also damaged");
    check_layout(&worked_finished);
    picture_worked(&p, &worked_finished);
    expect(&p, refused);
    expect_each_cell(&p, refused);
    expect_beyond(&p);
    group_end();
}

/* Also FORMAT 12.11, and the examples of FORMAT 9 that are strips. */
static void test_worked_strip(void)
{
    const struct ref_result level = {.version = 1, .width = 2, .height = 1,
                                     .par = 5, .lanes = REF_LANES};
    struct ref_result mended = level;
    struct picture whole, p;

    group_begin(subject, "the strip of FORMAT, mended and refused");
    mended.mended = 1;
    mended.wear = 4;
    check_layout(&worked_level);
    picture_worked(&whole, &worked_level);
    expect(&whole, level);
    expect_each_cell(&whole, mended);
    expect_beyond(&whole);
    p = whole;
    p.strip[4] = p.strip[5] = 0;
    p.marks[5] = p.marks[6] = 1;
    mended.repainted = 1;
    expect(&p, mended);
    p = whole;
    p.strip_len = 26;
    expect(&p, (struct ref_result){.code = 1});
    p = whole;
    p.marks_len = 23;
    expect(&p, (struct ref_result){.code = 2});
    p = whole;
    p.marks[7] = 2;
    expect(&p, (struct ref_result){.code = 3});
    p = whole;
    p.scratch_len = 186;
    expect(&p, (struct ref_result){.code = 5});
    p = whole;
    p.lanes = 3;
    expect(&p, (struct ref_result){.code = 15});
    group_end();
}

/* Its level, by the readers for both versions; the one for version 1 refuses
   it, however it is damaged. */
static void check_worked_v2(const struct worked *w)
{
    const struct ref_result level = {.version = 2, .width = 2,
                                     .height = (unsigned)w->height, .par = 5,
                                     .lanes = REF_LANES};
    const struct ref_result other = {.code = 7};
    struct picture p;

    picture_worked(&p, w);
    expect(&p, level);
    check_number(packed(check_picture_v1(&p)), packed(other), "version 1");
    damage_lanes(&p, REF_REACH);
    check_number(check_picture(&p).version, 2, "damaged");
    check_number(packed(check_picture_v1(&p)), packed(other), "damaged");
}

static void test_worked_v2(void)
{
    group_begin(subject, "the strips of version 2 of FORMAT");
    check_layout(&worked_pit);
    check_layout(&worked_level_v2);
    for (size_t k = 0; k < scaled(200); k++) {
        check_worked_v2(&worked_pit);
        check_worked_v2(&worked_level_v2);
    }
    if (memcmp(worked_level.strip, worked_level_v2.strip, 24) == 0 ||
        memcmp(worked_level.record, worked_level_v2.record, 4) == 0)
        group_fail("the versions of a board are written alike");
    group_end();
}

void test_strip(void)
{
    test_worked_strip();
    test_worked_v2();
    test_finished_strip();
    for (size_t i = 0; i < LANE_COUNTS; i++)
        test_both_readers(lane_counts[i]);
    test_lengths();
    test_lengths_without_levels();
}
