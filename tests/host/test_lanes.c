/*
 * test_lanes.c - what depends on the lane count: lengths, limits, lanes within
 * reach and beyond, and refusal 15. What must come out is said here once more,
 * from FORMAT 7 and 9, beside what the second implementation says.
 */
#include "test_lanes.h"

#include <stdio.h>
#include <string.h>

#include "draw.h"
#include "harness.h"
#include "pictures.h"
#include "test_writer.h"
#include "zavullimen_strips.h"

static const char subject[] = "lanes";

/* FORMAT 7.9: the least k and the largest, and so the lengths of strips. */
static const struct kind {
    size_t lanes, k_min, k_max, shortest, longest;
} kinds[] = {{2, 2, 182, 14, 374},
             {4, 1, 91, 24, 384},
             {8, 1, 46, 48, 408},
             {16, 1, 23, 96, 448}};

/* ---- lengths ---- */

/* By the library, and compared. */
static size_t write_level(struct picture *p, size_t lanes,
                          const struct board *b)
{
    check_writing(strip_writer(lanes), b, REF_STRIP_MAX);
    picture_board(p, lanes, b);
    return zav_length(zav_strip_write(lanes, b->version, b->width, b->height,
                                      b->par, b->tiles, b->tiles_len, p->strip,
                                      sizeof p->strip));
}

/* A level whose strip has this length, if there is one: read back as it was
   written, and with damage. */
static void check_length(size_t lanes, size_t k, size_t len)
{
    struct picture p;
    struct board b;

    if (!draw_level_for(&b, lanes * k, lanes))
        return;
    check_number(write_level(&p, lanes, &b), len, "length written");
    check_level(&p, &b, 0);
    damage_lanes(&p, REF_REACH);
    check_picture(&p);
    check_picture_v1(&p);
    if (!check_redrawn(&p))
        group_fail("%zu lanes, %zu cells: not read", lanes, len);
    damage_lane(&p, draw_below(lanes), 0, 1, ANY_BYTE);
    check_picture(&p);
}

static void test_lengths(void)
{
    group_begin(subject, "every legal length written, and read with damage");
    for (size_t i = 0; i < COUNT(kinds); i++) {
        const struct kind *kind = &kinds[i];

        for (size_t k = kind->k_min; k <= kind->k_max; k++)
            check_length(kind->lanes, k,
                         kind->shortest + kind->lanes * (k - kind->k_min));
    }
    group_end();
}

static bool is_legal(const struct kind *kind, size_t len)
{
    return len >= kind->shortest && len <= kind->longest &&
           len % kind->lanes == 0;
}

/* Zeros are clean, whatever the lanes, and no level (7). */
static void check_zeros(size_t lanes, size_t len, unsigned code)
{
    const struct picture p = {.lanes = lanes,
                              .strip_len = len,
                              .marks_len = len,
                              .tiles_len = REF_TILES_MAX,
                              .scratch_len = REF_SCRATCH_MIN};

    check_number(check_picture(&p).code, code, "zeros");
    check_number(check_picture_v1(&p).code, code, "zeros, version 1");
}

static void test_other_lengths(void)
{
    group_begin(subject, "every other length is refused with 1");
    for (size_t i = 0; i < COUNT(kinds); i++)
        for (size_t len = 0; len <= STRIP_ROOM; len++)
            check_zeros(kinds[i].lanes, len, is_legal(&kinds[i], len) ? 7 : 1);
    group_end();
}

/* ---- limits of buffers ---- */

/* A level with k data bytes in each lane: the strip buffer is one byte too
   short, and long enough, and so is the scratch. */
static void check_limits(size_t lanes, size_t k)
{
    struct picture p;
    struct board b;

    if (!draw_level_for(&b, lanes * k, lanes))
        group_fail("%zu lanes: no level has k %zu", lanes, k);
    check_number(check_writing(strip_writer(lanes), &b, 447).code, 4,
                 "buffer of 447");
    check_number(check_writing(strip_writer(lanes), &b, 448).code, 0,
                 "buffer of 448");
    picture_board(&p, lanes, &b);
    p.scratch_len = 186;
    check_refused(&p, 5, 0);
    check_number(check_picture_v1(&p).code, 5, "scratch of 186");
    p.scratch_len = 187;
    check_level(&p, &b, 0);
    damage_lanes(&p, REF_REACH);
    check_number(check_picture(&p).code, 0, "scratch of 187");
}

static void test_limits(void)
{
    group_begin(subject, "buffers of 447 and 448, and scratch of 186 and 187");
    for (size_t i = 0; i < COUNT(kinds); i++)
        for (size_t k = 0; k < scaled(20); k++) {
            check_limits(kinds[i].lanes, kinds[i].k_min);
            check_limits(kinds[i].lanes, kinds[i].k_max);
        }
    group_end();
}

/* ---- one lane ---- */

/* Exactly 6 is refused always; more may come within reach of another word. */
static void check_damaged(const struct picture *p, const struct board *b,
                          size_t lane, size_t wrong, size_t marked)
{
    const size_t sum = 2 * wrong + marked;

    if (sum <= REF_REACH)
        check_level(p, b, (unsigned)wrong);
    else if (sum == REF_REACH + 1)
        check_refused(p, 6, (unsigned)lane);
    check_picture(p);
}

/* The lane alone, and with the lanes above it beyond reach too, which is told
   only of the lowest. */
static void check_split(const struct picture *clean, const struct board *b,
                        size_t lane, size_t wrong, size_t marked)
{
    struct picture p = *clean;

    damage_lane(&p, lane, wrong, marked, draw_under_mark());
    check_damaged(&p, b, lane, wrong, marked);
    for (size_t above = lane + 1; above < p.lanes; above++)
        damage_lane(&p, above, 0, REF_REACH + 1, ANY_BYTE);
    if (2 * wrong + marked == REF_REACH + 1)
        check_refused(&p, 6, (unsigned)lane);
    if (2 * wrong + marked <= REF_REACH && lane + 1 < p.lanes)
        check_refused(&p, 6, (unsigned)lane + 1);
}

/* e up to 3 and f up to 6, as far as the lane has cells. */
static void check_splits(const struct picture *clean, const struct board *b,
                         size_t lane)
{
    for (size_t wrong = 0; wrong <= 3; wrong++)
        for (size_t marked = 0; marked <= REF_REACH + 1; marked++)
            if (wrong + marked <= lane_len(clean))
                check_split(clean, b, lane, wrong, marked);
}

/* In the first lane, the last and another; of two lanes, in both. */
static void check_lanes(size_t lanes, size_t k)
{
    struct picture p;
    struct board b;

    if (!draw_level_for(&b, lanes * k, lanes))
        group_fail("%zu lanes: no level has k %zu", lanes, k);
    write_level(&p, lanes, &b);
    check_splits(&p, &b, 0);
    check_splits(&p, &b, lanes - 1);
    if (lanes > 2)
        check_splits(&p, &b, draw_between(1, lanes - 2));
}

static void test_splits(void)
{
    group_begin(subject, "every split in the shortest and the longest lanes");
    for (size_t i = 0; i < COUNT(kinds); i++)
        for (size_t n = 0; n < scaled(4); n++) {
            check_lanes(kinds[i].lanes, kinds[i].k_min);
            check_lanes(kinds[i].lanes, kinds[i].k_max);
        }
    group_end();
}

/* ---- refusal 15 ---- */

/* Also numbers that a narrower one would cut to 2, 4, 8 or 16. */
static const size_t no_counts[] = {
    0,  1,  3,  5,  6,  7,  9,   10,  11,  12,    13,
    14, 15, 17, 18, 20, 24, 32,  64,  128, 255,   256,
    258, 260, 264, 272, 65538, 65540, 65544, 65552,
    ((size_t)1 << 32) + 2, ((size_t)1 << 32) + 16,
    ((size_t)1 << 63) + 4, SIZE_MAX - 1, SIZE_MAX};

/* A strip that is right for the lane count that it was laid for; then a bit of
   the mixture for each other thing that can be refused. */
static void draw_mixture(struct picture *p, unsigned mixture)
{
    struct board b;

    draw_any_level(&b);
    if (mixture & 1)
        b.tiles[draw_below(b.tiles_len)] = 7;
    picture_board(p, draw_lane_count(), &b);
    if (mixture & 2)
        damage_lane(p, draw_below(p->lanes), 0, REF_REACH + 1, ANY_BYTE);
    p->scratch_len = mixture & 4 ? draw_below(REF_SCRATCH_MIN) : SCRATCH_ROOM;
    p->tiles_len = mixture & 8 ? draw_below(REF_TILES_MAX) : TILES_ROOM;
    if (mixture & 16)
        p->marks[draw_below(p->strip_len)] = 2;
    if (mixture & 32)
        p->marks_len--;
    if (mixture & 64)
        p->strip_len++;
}

/* Nothing is written: neither tiles nor scratch. */
static void check_read_15(size_t lanes, unsigned mixture)
{
    struct picture p;

    draw_mixture(&p, mixture);
    p.lanes = lanes;
    check_refused(&p, 15, 0);
    check_number(check_picture(&p).code, 15, "reference");
    check_number(check_picture_v1(&p).code, 15, "version 1, reference");
}

/* The same with a bit for each thing that the writer refuses. */
static void check_write_15(size_t lanes, unsigned mixture)
{
    struct writer entry = *strip_writer(REF_LANES);
    struct board b;

    draw_any_level(&b);
    if (mixture & 1)
        b.tiles[draw_below(b.tiles_len)] = 5;
    if (mixture & 2)
        b.tiles[draw_below(b.tiles_len)] = 8;
    if (mixture & 4)
        b.tiles_len--;
    if (mixture & 8)
        b.version = 0;
    entry.lanes = lanes;
    check_number(check_writing(&entry, &b,
                               REF_STRIP_MAX - (mixture >> 4 & 1)).code,
                 15, "reference");
}

static void test_no_counts(void)
{
    group_begin(subject, "other lane counts, refused before all else");
    for (size_t i = 0; i < COUNT(no_counts); i++) {
        for (unsigned mixture = 0; mixture < 128; mixture++)
            check_read_15(no_counts[i], mixture);
        for (unsigned mixture = 0; mixture < 32; mixture++)
            check_write_15(no_counts[i], mixture);
    }
    group_end();
}

/* Every number to 2000, and those about each power of two. */
static void test_counts(void)
{
    struct picture p;
    struct board b;

    group_begin(subject, "every number to 2000 as the lane count, and more");
    draw_level(&b, 2, 1);
    for (size_t lanes = 0; lanes <= 2000; lanes++) {
        picture_board(&p, REF_LANES_MAX, &b); /* 96 cells fit all four */
        p.lanes = lanes;
        check_picture(&p);
    }
    for (int bit = 11; bit < 64; bit++)
        for (size_t off = 0; off <= 16; off++) {
            p.lanes = ((size_t)1 << bit) + off;
            check_refused(&p, 15, 0);
        }
    group_end();
}

/* ---- one level, several lane counts ---- */

/* Clean, as it was written; each comes to the same level. */
static void test_every_count(void)
{
    struct picture p;
    struct board b;

    group_begin(subject, "one level in strips of every lane count");
    for (size_t n = 0; n < scaled(1000); n++) {
        draw_any_level(&b);
        for (size_t i = 0; i < COUNT(kinds); i++) {
            const size_t len = write_level(&p, kinds[i].lanes, &b);

            if (!is_legal(&kinds[i], len))
                group_fail("%zu lanes: %zu cells", kinds[i].lanes, len);
            check_level(&p, &b, 0);
        }
    }
    group_end();
}

static void check_as(struct picture p, const struct kind *other)
{
    if (draw_below(4) == 0)
        p.marks[draw_below(p.strip_len)] = 1;
    p.lanes = other->lanes;

    const unsigned code = check_picture(&p).code;

    if ((code == 1) == is_legal(other, p.strip_len))
        group_fail("%zu cells read as of %zu lanes: %u", p.strip_len, p.lanes,
                   code);
}

/* Of any length, and of 96 cells, which fit every lane count. */
static void check_lanes_as(size_t lanes, const struct kind *other)
{
    struct picture p;
    struct board b;

    picture_any_level(&p, lanes, &b);
    check_as(p, other);
    picture_length(&p, lanes, 96 / lanes - REF_CHECK_BYTES);
    check_as(p, other);
}

/* With five marks in each of two lanes some clean strip of two lanes is always
   within reach; here it is a level's, as the clean strip of four lanes is. */
static void check_either(void)
{
    static const size_t marked[] = {1, 2, 3, 4, 5, 7, 8, 9, 10, 12};
    const struct board b = {.version = 1, .width = 1, .height = 2, .par = 745,
                            .tiles = {6, 2}, .tiles_len = 2};
    struct picture p;

    picture_board(&p, 4, &b);
    for (size_t i = 0; i < COUNT(marked); i++)
        p.marks[marked[i]] = 1;
    check_level(&p, &b, 0);
    p.lanes = 2;

    const struct ref_result other = check_picture(&p);

    check_number(other.code, 0, "as two lanes");
    check_number(other.height, 29, "as two lanes, height");
}

static void test_other_counts(void)
{
    group_begin(subject, "strips of one lane count read as another");
    check_either();
    for (size_t i = 0; i < LANE_COUNTS; i++)
        for (size_t j = 0; j < COUNT(kinds); j++)
            for (size_t n = 0; n < scaled(100); n++)
                if (lane_counts[i] != kinds[j].lanes)
                    check_lanes_as(lane_counts[i], &kinds[j]);
    group_end();
}

/* ---- worked out ---- */

static void check_worked(const struct worked *w, size_t lanes,
                         const uint8_t *strip, size_t len)
{
    const struct ref_result level = {.version = (unsigned)w->version,
                                     .width = 2,
                                     .height = (unsigned)w->height,
                                     .par = 5,
                                     .lanes = (unsigned)lanes};
    struct board b = {.version = w->version, .width = 2, .height = w->height,
                      .par = 5, .tiles_len = 2 * w->height};
    struct picture p;

    memcpy(b.tiles, w->tiles, b.tiles_len);
    check_number(write_level(&p, lanes, &b), len, "length");
    if (memcmp(p.strip, strip, len) != 0)
        group_fail("%zu lanes: other cells are written", lanes);
    check_number(packed(check_picture(&p)), packed(level), "reference");
}

/* FORMAT 12.14, 12.16 and 12.17 with four lanes, and 12.18 with each count. */
static void test_worked(void)
{
    static const struct worked *const four[] = {&worked_level,
                                                &worked_level_v2, &worked_pit};

    group_begin(subject, "the strips that are worked out");
    for (size_t i = 0; i < COUNT(four); i++)
        check_worked(four[i], REF_LANES, four[i]->strip, four[i]->strip_len);
    for (size_t i = 0; i < WORKED_STRIPS; i++)
        check_worked(&worked_level, worked_strips[i].lanes,
                     worked_strips[i].strip, worked_strips[i].strip_len);
    group_end();
}

void test_lanes(void)
{
    test_worked();
    test_lengths();
    test_other_lengths();
    test_limits();
    test_splits();
    test_no_counts();
    test_counts();
    test_every_count();
    test_other_counts();
}
