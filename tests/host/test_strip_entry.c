/*
 * test_strip_entry.c - the strip reader's lane counts, lengths, marks and
 * buffers, against the second implementation.
 */
#include <string.h>

#include "draw.h"
#include "harness.h"
#include "pictures.h"
#include "test_strip.h"
#include "zavullimen_strips.h"

static const char subject[] = "strip reader, entry";

/* Random cells of any length; zeros are clean lanes. */
static void picture_any(struct picture *p, size_t lanes, size_t strip_len,
                        size_t marks_len)
{
    memset(p, 0, sizeof *p);
    p->lanes = lanes;
    if (draw_below(2))
        draw_bytes(p->strip, strip_len);
    p->strip_len = strip_len;
    p->marks_len = marks_len;
    p->tiles_len = REF_TILES_MAX;
    p->scratch_len = REF_SCRATCH_MIN;
}

static void test_lengths(void)
{
    struct picture p;

    group_begin(subject, "strips of every length");
    for (size_t i = 0; i < LANE_COUNTS; i++)
        for (size_t len = 0; len <= STRIP_ROOM; len++) {
            picture_any(&p, lane_counts[i], len, len);
            check_picture(&p);
        }
    group_end();
}

static void test_marks_lengths(void)
{
    struct picture p;
    struct board b;

    group_begin(subject, "marks of every other length");
    for (size_t len = 0; len <= STRIP_ROOM; len++) {
        picture_any_level(&p, draw_lane_count(), &b);
        p.marks_len = len;
        check_picture(&p);
        picture_any(&p, draw_lane_count(), draw_below(STRIP_ROOM), len);
        check_picture(&p);
    }
    for (size_t off = 1; off <= 8; off++) {
        picture_any_level(&p, draw_lane_count(), &b);
        p.marks_len = p.strip_len + off;
        check_picture(&p);
        p.marks_len = p.strip_len - off;
        check_picture(&p);
    }
    group_end();
}

/* The least k with which a strip has this cell. */
static size_t k_with(size_t lanes, size_t cell)
{
    size_t k = ref_k_min(lanes);

    while (ref_strip_len(lanes, k) <= cell)
        k++;
    return k;
}

/* In a strip of any length that has the cell. */
static void check_mark(size_t lanes, size_t cell, uint8_t value)
{
    struct picture p;

    picture_length(&p, lanes,
                   draw_between(k_with(lanes, cell), ref_k_max(lanes)));
    p.marks[cell] = value;
    check_picture(&p);
    p.marks[p.strip_len - 1 - cell] = value;
    check_picture(&p);
}

static void check_marks(size_t lanes)
{
    const size_t cells = ref_strip_len(lanes, ref_k_max(lanes));

    for (unsigned value = 0; value < 256; value++) {
        check_mark(lanes, 0, (uint8_t)value);
        check_mark(lanes, draw_below(cells), (uint8_t)value);
    }
    for (size_t cell = 0; cell < cells; cell++)
        check_mark(lanes, cell, draw_below(2) ? 2 : 255);
}

static void test_mark_values(void)
{
    group_begin(subject, "marks of every value, and at every cell");
    for (size_t i = 0; i < LANE_COUNTS; i++)
        check_marks(lane_counts[i]);
    group_end();
}

static void test_tile_buffers(void)
{
    struct picture p;
    struct board b;

    group_begin(subject, "tile buffers of every length");
    for (size_t room = 0; room <= TILES_ROOM; room++) {
        picture_any_level(&p, draw_lane_count(), &b);
        p.tiles_len = room;
        check_picture(&p);
    }
    group_end();
}

/* The scratch is used where cells have to be put right. */
static void check_scratch(size_t lanes, size_t room)
{
    struct picture p;
    struct board b;

    picture_any_level(&p, lanes, &b);
    p.scratch_len = room;
    check_picture(&p);
    damage_lanes(&p, REF_REACH);
    check_picture(&p);
}

static void test_scratches(void)
{
    group_begin(subject, "scratch of every length, clean strips and damaged");
    for (size_t room = 0; room <= SCRATCH_ROOM; room++)
        if (room < REF_SCRATCH_MIN)
            for (size_t i = 0; i < LANE_COUNTS; i++)
                check_scratch(lane_counts[i], room);
        else
            check_scratch(draw_lane_count(), room);
    group_end();
}

/* Tiles that are not written stay as they are, the same in every call. */
static uint64_t read_with(const struct picture *p, size_t scratch_len,
                          uint8_t tiles[REF_TILES_MAX])
{
    uint8_t scratch[SCRATCH_ROOM];

    draw_bytes(scratch, scratch_len);
    memset(tiles, 0xA5, REF_TILES_MAX);
    return zav_strip_read(p->lanes, p->strip, p->strip_len, p->marks,
                          p->marks_len, tiles, REF_TILES_MAX, scratch,
                          scratch_len);
}

/* FORMAT 10.10: with the least scratch the answer and the tiles are those with
   more, as much as a whole strip and past that. */
static void check_alike(const struct picture *p)
{
    static const size_t longer[] = {REF_SCRATCH_MIN + 1, REF_STRIP_MAX - 1,
                                    REF_STRIP_MAX, REF_STRIP_MAX + 1,
                                    SCRATCH_ROOM};
    uint8_t tiles[REF_TILES_MAX], others[REF_TILES_MAX];
    const uint64_t answer = read_with(p, REF_SCRATCH_MIN, tiles);

    for (size_t i = 0; i < COUNT(longer); i++) {
        group_case();
        check_number(read_with(p, longer[i], others), answer, "more scratch");
        if (memcmp(tiles, others, sizeof tiles) != 0)
            group_fail("with a scratch of %zu the tiles are others", longer[i]);
    }
}

static void check_answers(size_t lanes, size_t k)
{
    struct picture p;

    picture_length(&p, lanes, k);
    check_alike(&p);
    damage_lanes(&p, draw_below(2) ? REF_REACH : REF_REACH + 1);
    check_alike(&p);
}

static void test_one_answer(void)
{
    group_begin(subject, "one answer, however long the scratch");
    for (size_t i = 0; i < LANE_COUNTS; i++) {
        const size_t lanes = lane_counts[i];

        for (size_t k = ref_k_min(lanes); k <= ref_k_max(lanes); k++)
            for (size_t n = 0; n < scaled(8); n++)
                check_answers(lanes, k);
    }
    group_end();
}

/* ---- several refusals at once ---- */

/* Any other number but 2, 4, 8 and 16. */
static size_t draw_no_lane_count(void)
{
    size_t lanes;

    do
        lanes = draw_below(2) ? draw_below(20)
                              : (size_t)(draw_u64() >> draw_below(64));
    while (ref_is_lane_count(lanes));
    return lanes;
}

static void spoil_entry(struct picture *p)
{
    if (draw_below(8) == 0)
        p->lanes = draw_no_lane_count();
    if (draw_below(4) == 0)
        p->strip_len = p->marks_len = draw_below(STRIP_ROOM);
    if (draw_below(4) == 0)
        p->marks_len = draw_below(STRIP_ROOM);
    if (draw_below(4) == 0)
        p->marks[draw_below(p->marks_len + 1)] = draw_byte();
    if (draw_below(4) == 0)
        p->tiles_len = REF_TILES_MAX - draw_below(2);
    if (draw_below(4) == 0)
        p->scratch_len = REF_SCRATCH_MIN - draw_below(2);
}

/* Lanes within reach and beyond. */
static void spoil_lanes(struct picture *p)
{
    for (size_t lane = 0; lane < p->lanes; lane++) {
        if (draw_below(4) == 0)
            damage_lane(p, lane, draw_below(3), draw_below(2), ANY_BYTE);
        else if (draw_below(2 * p->lanes) == 0)
            damage_lane(p, lane, 3, draw_below(3), ANY_BYTE);
    }
}

/* A record that is refused, or lanes beyond reach, or both or neither. */
static void spoil_cells(struct picture *p)
{
    const size_t lanes = draw_lane_count();
    uint8_t data[REF_LAID_MAX];
    struct board b;

    draw_any_board(&b);
    if (draw_below(4) == 0)
        b.tiles[draw_below(b.tiles_len)] = (uint8_t)draw_below(8);
    memset(data, 0, sizeof data);

    const size_t k = ref_k_of(lanes, record_of(&b, data));

    if (draw_below(4) == 0)
        data[draw_below(3)] ^= draw_nonzero();
    if (draw_below(4) == 0)
        data[lanes * k - 1] ^= draw_nonzero();
    picture_data(p, lanes, data, k);
    spoil_lanes(p);
}

static void test_order(void)
{
    struct picture p;

    group_begin(subject, "several refusals at once");
    for (size_t k = 0; k < scaled(8000); k++) {
        spoil_cells(&p);
        spoil_entry(&p);
        check_picture(&p);
    }
    group_end();
}

/* A bit of the mixture for each of 1 to 5 and for 15, over cells of any kind.
   The readers for version 1 are asked too. */
static void check_limits(unsigned mixture)
{
    struct picture p;

    spoil_cells(&p);
    if (mixture & 1)
        p.strip_len += draw_between(1, p.lanes - 1);
    p.marks_len = p.strip_len + (mixture >> 1 & 1);
    if (mixture & 4)
        p.marks[draw_below(p.marks_len)] = 2;
    p.tiles_len = REF_TILES_MAX - (mixture >> 3 & 1);
    p.scratch_len = REF_SCRATCH_MIN - (mixture >> 4 & 1);
    if (mixture & 32)
        p.lanes = draw_no_lane_count();
    check_picture(&p);
    check_picture_v1(&p);
}

static void test_limits(void)
{
    group_begin(subject, "refusals 15 and 1 to 5 in all mixtures, at limits");
    for (unsigned mixture = 0; mixture < 64; mixture++)
        for (size_t k = 0; k < scaled(30); k++)
            check_limits(mixture);
    group_end();
}

/* ---- NULL ---- */

struct null_case {
    bool strip, marks, tiles, scratch; /* whether it is there */
};

static void check_null(size_t lanes, struct null_case has)
{
    static const uint8_t cells[REF_STRIP_MAX], marks[REF_STRIP_MAX];
    uint8_t tiles[REF_TILES_MAX], scratch[REF_SCRATCH_MIN];
    const size_t len = lanes > 0 ? ref_strip_len(lanes, ref_k_min(lanes)) : 14;
    const size_t strip_len = has.strip ? len : 0;
    const size_t marks_len = has.marks ? len : 0;
    const size_t tiles_len = has.tiles ? sizeof tiles : 0;
    const size_t scratch_len = has.scratch ? sizeof scratch : 0;

    group_case();
    check_number(zav_strip_read(lanes, has.strip ? cells : NULL, strip_len,
                                has.marks ? marks : NULL, marks_len,
                                has.tiles ? tiles : NULL, tiles_len,
                                has.scratch ? scratch : NULL, scratch_len),
                 packed(ref_strip_read(lanes, cells, strip_len, marks,
                                       marks_len, tiles, tiles_len,
                                       scratch_len)), "NULL");
}

static void test_nulls(void)
{
    static const size_t lanes[] = {0, 2, 4, 8, 16};

    group_begin(subject, "NULL with length 0");
    for (size_t i = 0; i < COUNT(lanes); i++)
        for (unsigned mixture = 0; mixture < 16; mixture++)
            check_null(lanes[i],
                       (struct null_case){mixture & 1, mixture & 2,
                                          mixture & 4, mixture & 8});
    group_end();
}

void test_strip_entry(void)
{
    test_lengths();
    test_marks_lengths();
    test_mark_values();
    test_tile_buffers();
    test_scratches();
    test_one_answer();
    test_order();
    test_limits();
    test_nulls();
}
