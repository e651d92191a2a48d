/*
 * test_pool.c - two pictures of a strip, pooled, against the second
 * implementation, and the pooled picture read: FORMAT 15.
 */
#include "test_pool.h"

#include <string.h>

#include "draw.h"
#include "harness.h"
#include "pairs.h"
#include "zavullimen_pools.h"

static const char subject[] = "pooling";

/* ---- cells of every kind ---- */

/* Bytes below a limit, so that some of two pictures are equal, and marks at
   one cell in so many; 0 is none. */
static void draw_picture(struct picture *p, size_t len, size_t bytes,
                         size_t one_in)
{
    memset(p, 0, sizeof *p);
    p->strip_len = p->marks_len = len;
    for (size_t i = 0; i < len; i++) {
        p->strip[i] = (uint8_t)draw_below(bytes);
        p->marks[i] = one_in > 0 && draw_below(one_in) == 0;
    }
}

static size_t draw_len(void)
{
    return REF_LANES * draw_between(REF_POOL_MIN / REF_LANES,
                                    REF_POOL_MAX / REF_LANES);
}

static void draw_pair(struct pair *p, size_t len)
{
    static const size_t bytes[] = {1, 2, 4, 256};
    const size_t limit = bytes[draw_below(COUNT(bytes))];

    draw_picture(&p->first, len, limit, draw_below(5));
    draw_picture(&p->second, len, limit, draw_below(5));
    fit_buffers(p);
}

static bool has_every_kind(struct ref_pooling r)
{
    return r.agreed > 0 && r.taken > 0 && r.in_conflict > 0 &&
           r.marked_in_both > 0;
}

static void test_kinds(void)
{
    struct pair p;
    size_t mixed = 0;

    group_begin(subject, "cells of every kind, at every legal length");
    for (size_t len = REF_POOL_MIN; len <= REF_POOL_MAX; len += REF_LANES)
        for (size_t n = 0; n < scaled(100); n++) {
            draw_pair(&p, len);
            mixed += has_every_kind(check_pair(&p));
        }
    if (mixed == 0)
        group_fail("no pair had cells of every kind");
    group_end();
}

/* Two bytes and two marks in one cell; in the others the pictures agree. */
static void check_cell(size_t len, uint8_t x, uint8_t y, unsigned marks)
{
    const size_t cell = draw_below(len);
    struct pair p;

    draw_picture(&p.first, len, 256, 0);
    p.second = p.first;
    p.first.strip[cell] = x;
    p.second.strip[cell] = y;
    p.first.marks[cell] = marks & 1;
    p.second.marks[cell] = marks >> 1;
    fit_buffers(&p);
    check_pair(&p);
}

static void test_one_cell(void)
{
    group_begin(subject, "one cell, with every mark and byte");
    for (unsigned marks = 0; marks < 4; marks++)
        for (unsigned byte = 0; byte < 256; byte++) {
            check_cell(draw_len(), (uint8_t)byte, (uint8_t)byte, marks);
            check_cell(draw_len(), (uint8_t)byte, draw_byte(), marks);
            check_cell(draw_len(), 0, (uint8_t)byte, marks);
            for (unsigned bit = 1; bit < 256; bit *= 2)
                check_cell(draw_len(), (uint8_t)byte, (uint8_t)(byte ^ bit),
                           marks);
        }
    group_end();
}

/* Stickers of one colour, marked or not, somewhere on one strip. */
static void cover(struct picture *p)
{
    const size_t start = draw_below(p->strip_len);
    const size_t cells = draw_between(1, p->strip_len - start);

    if (draw_below(2))
        memset(p->strip + start, draw_byte(), cells);
    if (draw_below(2))
        memset(p->marks + start, 1, cells);
}

static void test_colours(void)
{
    struct pair p;
    struct board b;

    group_begin(subject, "runs of one colour over one strip");
    for (size_t k = 0; k < scaled(4000); k++) {
        picture_any_level(&p.first, REF_LANES, &b);
        p.second = p.first;
        fit_buffers(&p);
        cover(&p.first);
        cover(&p.second);
        check_pair(&p);
    }
    group_end();
}

/* ---- lengths and marks ---- */

/* The first strip, the second, or both are of this length. */
static void test_lengths(void)
{
    struct pair p;

    group_begin(subject, "strips of every length");
    for (size_t len = 0; len < STRIP_ROOM; len++) {
        draw_pair(&p, len);
        check_pair(&p);
        draw_picture(&p.second, draw_len(), 256, 2);
        check_pair(&p);
        draw_picture(&p.first, p.second.strip_len, 256, 2);
        draw_picture(&p.second, len, 256, 2);
        fit_buffers(&p);
        check_pair(&p);
    }
    group_end();
}

static void test_marks_lengths(void)
{
    struct pair p;

    group_begin(subject, "marks of every other length");
    for (size_t len = 0; len < STRIP_ROOM; len++) {
        draw_pair(&p, draw_len());
        p.first.marks_len = len;
        check_pair(&p);
        p.second.marks_len = len;
        check_pair(&p);
        p.first.marks_len = p.first.strip_len;
        check_pair(&p);
    }
    group_end();
}

static void check_mark(size_t cell, uint8_t value)
{
    struct pair p;

    do
        draw_pair(&p, draw_len());
    while (cell >= p.cells_len);

    const uint8_t old = p.first.marks[cell];

    p.first.marks[cell] = value;
    check_pair(&p);
    p.second.marks[cell] = value;
    check_pair(&p);
    p.first.marks[cell] = old;
    check_pair(&p);
}

static void test_mark_values(void)
{
    group_begin(subject, "marks of every value, and at every cell");
    for (unsigned value = 0; value < 256; value++)
        check_mark(draw_below(REF_POOL_MIN), (uint8_t)value);
    for (size_t cell = 0; cell < REF_POOL_MAX; cell++)
        check_mark(cell, draw_below(2) ? 2 : 255);
    group_end();
}

static void test_buffers(void)
{
    struct pair p;

    group_begin(subject, "buffers of every other length");
    for (size_t len = 0; len < STRIP_ROOM; len++) {
        draw_pair(&p, draw_len());
        p.cells_len = len;
        check_pair(&p);
        p.marks_len = len;
        check_pair(&p);
        p.cells_len = p.first.strip_len;
        check_pair(&p);
    }
    group_end();
}

/* A bit of the mixture for each thing that can be wrong; each of them is 1, 2
   or 3 off, or 2 for a mark. */
static void check_mixture(unsigned mixture)
{
    struct pair p;

    draw_pair(&p, draw_len());
    if (mixture & 1)
        p.first.strip_len += draw_between(1, 3);
    if (mixture & 2)
        p.second.strip_len -= draw_between(1, 3);
    if (mixture & 4)
        p.second.strip_len = draw_len();
    p.first.marks_len = p.first.strip_len + (mixture >> 3 & 1);
    p.second.marks_len = p.second.strip_len - (mixture >> 4 & 1);
    if (mixture & 32)
        p.first.marks[draw_below(p.first.marks_len)] = 2;
    if (mixture & 64)
        p.second.marks[draw_below(p.second.marks_len)] = 2;
    p.cells_len = p.first.strip_len + (mixture >> 7 & 1);
    p.marks_len = p.first.strip_len - (mixture >> 8 & 1);
    check_pair(&p);
}

static void test_order(void)
{
    group_begin(subject, "refusals in all mixtures, at the limits");
    for (unsigned mixture = 0; mixture < 512; mixture++)
        for (size_t k = 0; k < scaled(20); k++)
            check_mixture(mixture);
    group_end();
}

/* ---- NULL ---- */

/* A bit of the mixture for each buffer that is not there. */
static void check_null(unsigned mixture)
{
    static uint8_t zeros[6][REF_POOL_MIN];
    uint8_t cells[REF_POOL_MIN], marks[REF_POOL_MIN];
    uint8_t *bytes[6];
    size_t len[6];

    for (unsigned i = 0; i < 6; i++) {
        const bool null = mixture >> i & 1;

        bytes[i] = null ? NULL : zeros[i];
        len[i] = null ? 0 : REF_POOL_MIN;
    }

    const struct ref_picture first = {zeros[0], len[0], zeros[1], len[1]};
    const struct ref_picture second = {zeros[2], len[2], zeros[3], len[3]};
    const struct ref_pooling r =
        ref_strip_pool(&first, &second, cells, len[4], marks, len[5]);

    group_case();
    check_number(zav_strip_pool(bytes[0], len[0], bytes[1], len[1], bytes[2],
                                len[2], bytes[3], len[3], bytes[4], len[4],
                                bytes[5], len[5]),
                 packed_pooling(r), "NULL");
}

static void test_nulls(void)
{
    group_begin(subject, "NULL with length 0");
    for (unsigned mixture = 0; mixture < 64; mixture++)
        check_null(mixture);
    group_end();
}

/* ---- what is said of pooled pictures, by the library alone ---- */

/* The two of a pair, pooled to a picture that can be read. */
static uint64_t pool(const struct picture *first, const struct picture *second,
                     struct picture *out)
{
    memset(out, 0, sizeof *out);
    out->lanes = REF_LANES;
    out->strip_len = out->marks_len = first->strip_len;
    out->tiles_len = REF_TILES_MAX;
    out->scratch_len = REF_SCRATCH_MIN;
    return zav_strip_pool(first->strip, first->strip_len, first->marks,
                          first->marks_len, second->strip, second->strip_len,
                          second->marks, second->marks_len, out->strip,
                          out->strip_len, out->marks, out->marks_len);
}

static bool same_picture(const struct picture *a, const struct picture *b)
{
    return a->strip_len == b->strip_len &&
           memcmp(a->strip, b->strip, a->strip_len) == 0 &&
           memcmp(a->marks, b->marks, a->strip_len) == 0;
}

static void test_exchange(void)
{
    struct pair p;

    group_begin(subject, "exchanged, the same cells, marks and counts");
    for (size_t k = 0; k < scaled(4000); k++) {
        struct picture one, other;

        draw_pair(&p, draw_len());
        group_case();
        check_number(pool(&p.first, &p.second, &one),
                     pool(&p.second, &p.first, &other), "counts");
        if (!same_picture(&one, &other))
            group_fail("other cells or marks");
    }
    group_end();
}

/* FORMAT 15.8. */
static void check_itself(const struct picture *p)
{
    const struct picture copy = *p;
    struct picture out, expected = *p;
    const uint64_t r = pool(p, &copy, &out);
    unsigned marked = 0;

    group_case();
    for (size_t i = 0; i < p->strip_len; i++)
        if (p->marks[i]) {
            expected.strip[i] = 0;
            marked++;
        }
    if (!same_picture(&out, &expected))
        group_fail("pooled with itself it is another picture");
    check_number(zav_marked_in_both(r), marked, "marked in both");
    check_number(zav_agreed(r), p->strip_len - marked, "agreed");
    check_number(zav_taken(r) + zav_in_conflict(r), 0, "taken or in conflict");
}

static void test_itself(void)
{
    struct picture p;

    group_begin(subject, "with itself");
    for (size_t k = 0; k < scaled(4000); k++) {
        draw_picture(&p, draw_len(), 256, draw_below(5));
        check_itself(&p);
    }
    group_end();
}

/* ---- pictures of one strip that was written, with all unmarked cells right */

struct scene {
    struct board board;
    struct picture clean;
};

/* The strip is the one that the library writes. */
static void draw_scene(struct scene *s)
{
    const struct board *b = &s->board;

    picture_any_level(&s->clean, REF_LANES, &s->board);
    check_number(zav_length(zav_strip_write(REF_LANES, b->version, b->width,
                                            b->height, b->par, b->tiles,
                                            b->tiles_len, s->clean.strip,
                                            sizeof s->clean.strip)),
                 s->clean.strip_len, "the length written");
}

/* A sticker over some cells, marked, with anything under the marks; what is
   covered may be more than a picture can bear. */
static void put_sticker(struct picture *p)
{
    const size_t cells = draw_between(1, p->strip_len < 40 ? p->strip_len : 40);
    const size_t start = draw_below(p->strip_len - cells + 1);

    for (size_t i = start; i < start + cells; i++) {
        p->marks[i] = 1;
        if (draw_below(2))
            p->strip[i] = draw_byte();
    }
}

static void stick(const struct scene *s, struct picture *p)
{
    *p = s->clean;
    for (size_t k = draw_below(4); k > 0; k--)
        put_sticker(p);
}

static bool is_read(const struct picture *p)
{
    uint8_t tiles[REF_TILES_MAX], scratch[REF_SCRATCH_MIN];

    return zav_code(zav_strip_read(p->lanes, p->strip, p->strip_len, p->marks,
                                   p->marks_len, tiles, sizeof tiles, scratch,
                                   sizeof scratch)) == ZAV_DONE;
}

/* FORMAT 15.5: marked where both are, and right elsewhere. */
static void check_shown(const struct scene *s, const struct picture *a,
                        const struct picture *b, const struct picture *out)
{
    for (size_t i = 0; i < out->strip_len; i++) {
        const uint8_t marked = a->marks[i] && b->marks[i];

        if (out->marks[i] != marked)
            group_fail("cell %zu: mark %u", i, out->marks[i]);
        if (out->strip[i] != (marked ? 0 : s->clean.strip[i]))
            group_fail("cell %zu is wrong", i);
    }
}

/* FORMAT 15.6. True if neither picture alone was read, and the pooled one is. */
static bool check_one_strip(const struct scene *s, const struct picture *a,
                            const struct picture *b)
{
    struct picture out;
    const uint64_t r = pool(a, b, &out);
    const bool alone = is_read(a) || is_read(b), pooled = is_read(&out);

    group_case();
    check_number(zav_code(r), ZAV_DONE, "code");
    check_number(zav_in_conflict(r), 0, "in conflict");
    check_shown(s, a, b, &out);
    if (alone && !pooled)
        group_fail("read alone, and not when pooled");
    if (pooled)
        check_level(&out, &s->board, 0);
    return pooled && !alone;
}

static void test_one_strip(void)
{
    size_t won = 0;

    group_begin(subject, "two pictures of one strip, read when either is");
    for (size_t k = 0; k < scaled(6000); k++) {
        struct scene s;
        struct picture a, b;

        draw_scene(&s);
        stick(&s, &a);
        stick(&s, &b);
        won += check_one_strip(&s, &a, &b);
    }
    if (won == 0)
        group_fail("no strip was read by pooling alone");
    group_end();
}

/* Pooled one after the other, whichever way round: a cell is marked where it
   is in all three. */
static void test_three(void)
{
    group_begin(subject, "three pictures of one strip, in any order");
    for (size_t k = 0; k < scaled(3000); k++) {
        struct scene s;
        struct picture a, b, c, ab, bc, one, other;

        draw_scene(&s);
        stick(&s, &a);
        stick(&s, &b);
        stick(&s, &c);
        pool(&a, &b, &ab);
        pool(&ab, &c, &one);
        pool(&b, &c, &bc);
        pool(&a, &bc, &other);
        group_case();
        check_shown(&s, &ab, &c, &one);
        if (!same_picture(&one, &other))
            group_fail("the order makes a difference");
    }
    group_end();
}

/* ---- strips of two levels */

/* FORMAT 15.11: right and unmarked in every cell. The second level is of the
   same size, or the first with one thing changed. */
static void test_two_levels(void)
{
    group_begin(subject, "strips of two levels, refused when pooled");
    for (size_t k = 0; k < scaled(1500); k++) {
        struct scene s;
        struct board b;
        struct picture other, out;

        draw_scene(&s);
        b = s.board;
        if (draw_below(2))
            b.par ^= 1;
        else
            draw_level(&b, b.width, b.height);
        picture_board(&other, REF_LANES, &b);
        pool(&s.clean, &other, &out);
        if (memcmp(s.clean.strip, other.strip, other.strip_len) != 0 &&
            check_picture(&out).code != ZAV_BEYOND_REACH)
            group_fail("two levels were pooled, and not refused");
    }
    group_end();
}

/* ---- with wrong cells too */

/* The pooled picture is read as the second implementation reads it. */
static void test_damaged(void)
{
    size_t conflicts = 0;

    group_begin(subject, "damaged pictures of one strip, pooled and read");
    for (size_t k = 0; k < scaled(1500); k++) {
        struct scene s;
        struct picture a, b, out;

        draw_scene(&s);
        a = b = s.clean;
        damage_lanes(&a, draw_below(REF_REACH + 2));
        damage_lanes(&b, draw_below(REF_REACH + 2));
        conflicts += zav_in_conflict(pool(&a, &b, &out));
        check_picture(&out);
    }
    if (conflicts == 0)
        group_fail("no cell was in conflict");
    group_end();
}

/* ---- the worked example ---- */

/* FORMAT 15.10: the strip of 12.14, its first cells covered in two ways. */
static void test_worked(void)
{
    static const uint8_t first[6] = {0xFF, 0xFF, 0x05, 0x58, 0xB2, 0x1F};
    static const uint8_t first_marks[6] = {1, 1, 0, 0, 0, 0};
    static const uint8_t second[6] = {0x11, 0x00, 0x05, 0x59, 0xB2, 0x00};
    static const uint8_t second_marks[6] = {0, 1, 0, 0, 0, 1};
    static const uint8_t cells[6] = {0x11, 0x00, 0x05, 0x00, 0xB2, 0x1F};
    static const uint8_t marks[6] = {0, 1, 0, 1, 0, 0};
    const struct ref_pooling expected = {.agreed = 20, .taken = 2,
                                         .in_conflict = 1, .marked_in_both = 1};
    struct picture a, b, out;

    group_begin(subject, "as in FORMAT, library and reference");
    picture_worked(&a, &worked_level);
    b = a;
    memcpy(a.strip, first, sizeof first);
    memcpy(a.marks, first_marks, sizeof first_marks);
    memcpy(b.strip, second, sizeof second);
    memcpy(b.marks, second_marks, sizeof second_marks);
    check_number(pool(&a, &b, &out), packed_pooling(expected), "counts");
    if (memcmp(out.strip, cells, sizeof cells) != 0 ||
        memcmp(out.marks, marks, sizeof marks) != 0 ||
        memcmp(out.strip + 6, worked_level.strip + 6, 18) != 0)
        group_fail("other cells or marks");

    struct pair p = {.first = a, .second = b};

    fit_buffers(&p);
    check_number(packed_pooling(check_pair(&p)), packed_pooling(expected),
                 "reference");
    check_picture(&out);
    group_end();
}

void test_pool(void)
{
    test_worked();
    test_kinds();
    test_one_cell();
    test_colours();
    test_lengths();
    test_marks_lengths();
    test_mark_values();
    test_buffers();
    test_order();
    test_nulls();
    test_exchange();
    test_itself();
    test_one_strip();
    test_three();
    test_two_levels();
    test_damaged();
}
