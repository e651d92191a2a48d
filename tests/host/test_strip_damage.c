/*
 * test_strip_damage.c - strips with counted damage in each lane, for every lane
 * count.
 *
 * Here the damage says what must come out, so that there can be many cases;
 * some are put to the second implementation as well.
 */
#include <string.h>

#include "draw.h"
#include "harness.h"
#include "pictures.h"
#include "test_strip.h"

static const char subject[] = "strip reader, damage";

/* Some lanes of a strip, as bits. */
static bool has_lane(unsigned set, size_t lane)
{
    return set >> lane & 1;
}

static unsigned all_of(size_t lanes)
{
    return (1u << lanes) - 1;
}

/* One lane, and none, all or some of those above it. */
static unsigned draw_set(size_t lanes, size_t lowest)
{
    const unsigned above = all_of(lanes) & ~all_of(lowest + 1);
    const unsigned some[] = {0, above, above & (unsigned)draw_u64()};

    return 1u << lowest | some[draw_below(COUNT(some))];
}

/* A split with 2e + f = sum; returns e. */
static unsigned damage_exactly(struct picture *p, size_t lane, size_t sum)
{
    const size_t wrong = draw_below(sum / 2 + 1);

    damage_lane(p, lane, wrong, sum - 2 * wrong, draw_under_mark());
    return (unsigned)wrong;
}

/* Damage within reach in these lanes; returns the sum of e. */
static unsigned damage_within(struct picture *p, unsigned set)
{
    unsigned wrong = 0;

    for (size_t lane = 0; lane < p->lanes; lane++)
        if (has_lane(set, lane))
            wrong += damage_exactly(p, lane, draw_below(REF_REACH + 1));
    return wrong;
}

/* ---- one lane, the others clean ---- */

static void check_split(size_t lanes, size_t lane, size_t wrong, size_t marked)
{
    struct picture p;
    struct board b;

    picture_any_level(&p, lanes, &b);
    damage_lane(&p, lane, wrong, marked, draw_under_mark());
    check_picture(&p);
    if (2 * wrong + marked <= REF_REACH)
        check_level(&p, &b, (unsigned)wrong);
    else
        check_refused(&p, 6, (unsigned)lane);
}

/* Every split with 2e + f = sum, in each lane, in strips of any length. */
static void check_sum(size_t lanes, size_t sum)
{
    for (size_t lane = 0; lane < lanes; lane++)
        for (size_t wrong = 0; 2 * wrong <= sum; wrong++)
            for (size_t k = 0; k < scaled(80 / lanes); k++)
                check_split(lanes, lane, wrong, sum - 2 * wrong);
}

static void test_splits(const char *name, size_t least, size_t most)
{
    group_begin(subject, name);
    for (size_t sum = least; sum <= most; sum++)
        for (size_t i = 0; i < LANE_COUNTS; i++)
            check_sum(lane_counts[i], sum);
    group_end();
}

/* ---- all lanes ---- */

static void test_all_lanes(void)
{
    struct picture p;
    struct board b;

    group_begin(subject, "within 5 in every lane gives the level back");
    for (size_t k = 0; k < scaled(10000); k++) {
        picture_any_level(&p, draw_lane_count(), &b);
        check_level(&p, &b, damage_within(&p, all_of(p.lanes)));
    }
    group_end();
}

static void test_limit_of_all_lanes(void)
{
    struct picture p;
    struct board b;

    group_begin(subject, "exactly 5 in every lane gives the level back");
    for (size_t k = 0; k < scaled(4000); k++) {
        unsigned wrong = 0;

        picture_any_level(&p, draw_lane_count(), &b);
        for (size_t lane = 0; lane < p.lanes; lane++)
            wrong += damage_exactly(&p, lane, REF_REACH);
        check_level(&p, &b, wrong);
    }
    group_end();
}

/* Each lane as the lowest of a set, for every lane count. */
static void at_lowest_lanes(size_t cases,
                            void (*check)(size_t lanes, size_t lowest))
{
    for (size_t i = 0; i < LANE_COUNTS; i++)
        for (size_t lowest = 0; lowest < lane_counts[i]; lowest++)
            for (size_t k = 0; k < cases; k++)
                check(lane_counts[i], lowest);
}

/* Exactly 6 in some lanes, within reach in the others. */
static void check_beyond(size_t lanes, size_t lowest)
{
    const unsigned set = draw_set(lanes, lowest);
    struct picture p;
    struct board b;

    draw_any_board(&b);
    picture_board(&p, lanes, &b);
    damage_within(&p, all_of(lanes) & ~set);
    for (size_t lane = 0; lane < lanes; lane++)
        if (has_lane(set, lane))
            damage_exactly(&p, lane, REF_REACH + 1);
    check_refused(&p, 6, (unsigned)lowest);
}

static void test_lowest_lane(void)
{
    group_begin(subject, "exactly 6 in any lanes, and the lowest is named");
    at_lowest_lanes(scaled(250), check_beyond);
    group_end();
}

/* ---- marks ---- */

static void check_marked_lanes(size_t lanes, size_t lowest)
{
    const unsigned set = draw_set(lanes, lowest);
    struct picture p;
    struct board b;

    picture_any_level(&p, lanes, &b);
    for (size_t lane = 0; lane < lanes; lane++)
        if (has_lane(set, lane))
            damage_lane(&p, lane, 0, lane_len(&p), draw_under_mark());
    check_refused(&p, 6, (unsigned)lowest);
}

static void test_marked_lanes(void)
{
    group_begin(subject, "whole lanes marked, their bytes right or not");
    at_lowest_lanes(scaled(30), check_marked_lanes);
    group_end();
}

static void test_five_marks(void)
{
    struct picture p;
    struct board b;

    group_begin(subject, "five marks in every lane, over bytes of any kind");
    for (size_t k = 0; k < scaled(2000); k++) {
        const enum under_mark under = draw_under_mark();

        picture_any_level(&p, draw_lane_count(), &b);
        for (size_t lane = 0; lane < p.lanes; lane++)
            damage_lane(&p, lane, 0, 5, under);
        check_level(&p, &b, 0);
        if (under != ANY_BYTE)
            check_counts(&p, &b, 0,
                         under == WRONG_BYTE ? 5 * (unsigned)p.lanes : 0);
    }
    group_end();
}

/* Damage within reach: so many marked cells right, so many not, others wrong.
   The right ones are marked first, so that no wrong cell gets such a mark. */
static void mark_lane(struct picture *p, size_t lane, size_t wrong,
                      size_t right, size_t repainted)
{
    damage_lane(p, lane, 0, right, RIGHT_BYTE);
    damage_lane(p, lane, wrong, repainted, WRONG_BYTE);
}

/* In any lane of a strip of any lane count. */
static void check_repainted_in_a_lane(size_t wrong, size_t right,
                                      size_t repainted)
{
    struct picture p;
    struct board b;

    picture_any_level(&p, draw_lane_count(), &b);
    mark_lane(&p, draw_below(p.lanes), wrong, right, repainted);
    check_counts(&p, &b, (unsigned)wrong, (unsigned)repainted);
}

static void test_repainted_in_a_lane(void)
{
    group_begin(subject, "so many marked cells right and wrong, in any lane");
    for (size_t wrong = 0; wrong <= 2; wrong++)
        for (size_t marked = 0; 2 * wrong + marked <= REF_REACH; marked++)
            for (size_t repainted = 0; repainted <= marked; repainted++)
                for (size_t k = 0; k < scaled(160); k++)
                    check_repainted_in_a_lane(wrong, marked - repainted,
                                              repainted);
    group_end();
}

/* How many of so many things the lanes get that are dealt to them in turn. */
static size_t share_of(size_t things, size_t lanes, size_t lane)
{
    return things / lanes + (lane < things % lanes);
}

/* A level with k data bytes in each lane; nothing where there is none. */
static void check_repainted(size_t lanes, size_t k, unsigned repainted)
{
    const size_t first = draw_below(lanes);
    unsigned mended = 0;
    struct picture p;
    struct board b;

    if (!draw_level_for(&b, lanes * k, lanes))
        return;
    picture_board(&p, lanes, &b);
    for (size_t lane = 0; lane < lanes; lane++) {
        const size_t here = share_of(repainted, lanes, lane);
        const size_t wrong = draw_below((REF_REACH - here) / 2 + 1);

        mark_lane(&p, (first + lane) % lanes, wrong,
                  draw_below(REF_REACH - here - 2 * wrong + 1), here);
        mended += (unsigned)wrong;
    }
    check_counts(&p, &b, mended, repainted);
}

/* Every k of every lane count, with every number up to so many a lane. */
static void at_every_count(size_t most,
                           void (*check)(size_t lanes, size_t k,
                                         unsigned count))
{
    for (size_t i = 0; i < LANE_COUNTS; i++) {
        const size_t lanes = lane_counts[i];

        for (size_t k = ref_k_min(lanes); k <= ref_k_max(lanes); k++)
            for (unsigned count = 0; count <= most * lanes; count++)
                check(lanes, k, count);
    }
}

static void test_repainted(void)
{
    group_begin(subject,
                "0 to 5 repainted cells a lane at every length of a level");
    at_every_count(5, check_repainted);
    group_end();
}

/* Data that is refused with this code, 7 to 10: a level's, with one slip.
   Returns its length before it is filled up. */
static size_t draw_refused(uint8_t data[REF_LAID_MAX], unsigned code)
{
    struct board b;

    do
        draw_any_level(&b);
    while (3 * b.tiles_len % 8 == 0); /* it has a filling bit */
    if (code == 9) {
        b.version = 1;
        b.tiles[draw_below(b.tiles_len)] = 7;
    }
    if (code == 10)
        memset(b.tiles, (int)draw_below(2), b.tiles_len);
    memset(data, 0, REF_LAID_MAX);

    const size_t len = record_of(&b, data);

    if (code == 7)
        data[0] ^= 0x10;
    if (code == 8)
        data[len - 1] ^= 1;
    return len;
}

/* Marked cells are put right before 7 to 10 are asked, and not told then. */
static void test_refused_repainted(void)
{
    uint8_t data[REF_LAID_MAX];
    struct picture p;

    group_begin(subject, "refusals 7 to 10 with wrong cells under marks");
    for (unsigned code = 7; code <= 10; code++)
        for (size_t k = 0; k < scaled(400); k++) {
            const size_t len = draw_refused(data, code);
            const size_t lanes = draw_lane_count();

            picture_data(&p, lanes, data, ref_k_of(lanes, len));
            for (size_t lane = 0; lane < lanes; lane++) {
                const size_t wrong = draw_below(3);

                damage_lane(&p, lane, wrong,
                            draw_between(1, REF_REACH - 2 * wrong),
                            WRONG_BYTE);
            }
            check_refused(&p, code, 0);
        }
    group_end();
}

/* A finished board is mended like a level, and refused then. */
static void test_finished_boards(void)
{
    struct picture p;
    struct board b;

    group_begin(subject, "finished boards with up to 5 in every lane");
    for (size_t k = 0; k < scaled(4000); k++) {
        draw_any_finished(&b);
        picture_board(&p, draw_lane_count(), &b);
        check_refused(&p, 10, 0);
        damage_within(&p, all_of(p.lanes));
        check_refused(&p, 10, 0);
        if (k % 8 == 0)
            check_picture(&p);
    }
    group_end();
}

/* Five neighbouring cells of each lane: the front, the check cells, between. */
static void test_marked_runs(void)
{
    struct picture p;
    struct board b;

    group_begin(subject, "a run of 5 marked cells a lane, anywhere");
    for (size_t k = 0; k < scaled(2000); k++) {
        picture_any_level(&p, draw_lane_count(), &b);

        const size_t cells = 5 * p.lanes;
        const size_t start = draw_below(p.strip_len - cells + 1);

        memset(p.marks + start, 1, cells);
        draw_bytes(p.strip + start, cells);
        check_level(&p, &b, 0);
    }
    group_end();
}

static uint64_t packed_but_repainted(struct ref_result r)
{
    r.repainted = 0;
    return packed(r);
}

/* What stands under the marks changes repainted, and nothing else, whatever
   the answer. */
static void test_under_marks(void)
{
    struct picture p;
    struct board b;

    group_begin(subject, "other bytes under the same marks");
    for (size_t k = 0; k < scaled(300); k++) {
        picture_any_level(&p, draw_lane_count(), &b);
        for (size_t lane = 0; lane < p.lanes; lane++)
            damage_lane(&p, lane, draw_below(3), draw_below(4), ANY_BYTE);

        const uint64_t first = packed_but_repainted(check_picture(&p));

        for (size_t i = 0; i < p.strip_len; i++)
            if (p.marks[i])
                p.strip[i] = draw_byte();
        check_number(packed_but_repainted(check_picture(&p)), first,
                     "reference");
    }
    group_end();
}

/* ---- mended and wear ---- */

/* So many wrong cells, at most two in a lane, the lanes in turn. Returns what
   the second implementation says. */
static struct ref_result check_wear(size_t lanes, size_t k, unsigned wrong)
{
    const size_t first = draw_below(lanes);
    struct picture p;
    const bool is_level = picture_length(&p, lanes, k);

    for (size_t lane = 0; lane < lanes; lane++)
        damage_lane(&p, (first + lane) % lanes, share_of(wrong, lanes, lane),
                    draw_below(2), draw_under_mark());

    const struct ref_result r = check_picture(&p);

    check_number(r.mended, is_level ? wrong : 0, "mended");
    return r;
}

static void check_mended(size_t lanes, size_t k, unsigned wrong)
{
    check_wear(lanes, k, wrong);
}

static void test_wear(void)
{
    group_begin(subject, "0 to 2 wrong cells a lane at every legal length");
    at_every_count(2, check_mended);
    group_end();
}

/* The rows of FORMAT 12.12, for four lanes. */
static const struct worn {
    unsigned mended;
    size_t len;
    unsigned wear;
} worn[] = {
    {0, 24, 0}, {8, 24, 33},
    {1, 40, 2}, {1, 200, 0}, {2, 80, 2}, {3, 24, 12}, {3, 40, 8},
    {3, 120, 2}, {3, 200, 2}, {4, 32, 12}, {4, 160, 2}, {5, 40, 12},
    {5, 200, 2}, {6, 48, 12}, {6, 80, 8}, {6, 240, 2}, {7, 40, 18},
    {7, 56, 12}, {7, 200, 4}, {7, 280, 2}, {8, 64, 12}, {8, 320, 2}};

static bool is_worn(unsigned mended, size_t len)
{
    for (size_t i = 0; i < COUNT(worn); i++)
        if (worn[i].mended == mended && worn[i].len == len)
            return true;
    return false;
}

static void test_worked_wear(void)
{
    group_begin(subject, "the wear of FORMAT, with every exact half");
    for (size_t i = 0; i < COUNT(worn); i++) {
        const struct worn *row = &worn[i];
        const size_t k = row->len / REF_LANES - REF_CHECK_BYTES;

        check_number(check_wear(REF_LANES, k, row->mended).wear, row->wear,
                     "reference");
    }
    for (size_t len = 0; len <= REF_STRIP_MAX; len++)
        for (unsigned mended = 0; mended <= 2 * REF_LANES; mended++)
            if (ref_is_strip_len(REF_LANES, len) &&
                200 * mended % (2 * len) == len && !is_worn(mended, len))
                group_fail("%u in %zu is a half, and not there", mended, len);
    group_end();
}

/* Filling bytes are data cells: spoilt they are mended, and counted. There are
   fewer of them than lanes. */
static void check_spoilt_filling(size_t lanes, size_t width, size_t height)
{
    unsigned wrong = 0;
    struct picture p;
    struct board b;

    draw_level(&b, width, height);
    picture_board(&p, lanes, &b);

    const size_t data_len = p.strip_len - lanes * REF_CHECK_BYTES;

    for (size_t q = ref_record_len(width * height); q < data_len; q++, wrong++)
        p.strip[q] ^= draw_nonzero();
    check_level(&p, &b, wrong);
}

static void test_spoilt_filling(void)
{
    group_begin(subject, "filling bytes spoilt, mended and counted");
    for (size_t i = 0; i < LANE_COUNTS; i++)
        for (size_t w = 1; w <= REF_SIDE_MAX; w++)
            for (size_t h = 2; h <= REF_SIDE_MAX; h++)
                check_spoilt_filling(lane_counts[i], w, h);
    group_end();
}

static void check_single_cells(struct picture *p, const struct board *b)
{
    for (size_t cell = 0; cell < p->strip_len; cell++) {
        const uint8_t right = p->strip[cell];

        p->strip[cell] ^= draw_nonzero();
        check_counts(p, b, 1, 0);
        p->marks[cell] = 1;
        check_counts(p, b, 0, 1);
        p->strip[cell] = right;
        check_counts(p, b, 0, 0);
        p->marks[cell] = 0;
    }
}

/* Each cell of a strip by itself. */
static void test_single_cells(void)
{
    static const size_t sides[][2] = {{2, 1}, {5, 4}, {12, 11}, {31, 31}};
    struct picture p;
    struct board b;

    group_begin(subject, "every cell wrong by itself, and marked by itself");
    for (size_t i = 0; i < LANE_COUNTS; i++)
        for (size_t k = 0; k < COUNT(sides); k++) {
            draw_level(&b, sides[k][0], sides[k][1]);
            picture_board(&p, lane_counts[i], &b);
            check_single_cells(&p, &b);
        }
    group_end();
}

void test_strip_damage(void)
{
    test_splits("every split of 2e + f from 0 to 4, in each lane", 0, 4);
    test_splits("every split of 2e + f = 5, in each lane", 5, 5);
    test_splits("every split of 2e + f = 6, in each lane", 6, 6);
    test_all_lanes();
    test_limit_of_all_lanes();
    test_lowest_lane();
    test_marked_lanes();
    test_five_marks();
    test_repainted_in_a_lane();
    test_repainted();
    test_refused_repainted();
    test_finished_boards();
    test_marked_runs();
    test_under_marks();
    test_wear();
    test_worked_wear();
    test_spoilt_filling();
    test_single_cells();
}
