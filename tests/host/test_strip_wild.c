/*
 * test_strip_wild.c - strips with damage as it comes, where only the second
 * implementation can say what must come out.
 */
#include <string.h>

#include "draw.h"
#include "harness.h"
#include "pictures.h"
#include "test_strip.h"

static const char subject[] = "strip reader, wild";

/* ---- stickers ---- */

enum marking { UNMARKED, PARTLY_MARKED, MARKED, MARKINGS };

/* One colour over a run of cells. */
static void put_sticker(struct picture *p, size_t cells, uint8_t colour,
                        enum marking marking)
{
    const size_t start = draw_below(p->strip_len - cells + 1);

    memset(p->strip + start, colour, cells);
    for (size_t i = start; i < start + cells; i++)
        p->marks[i] = marking == MARKED ||
                      (marking == PARTLY_MARKED && draw_below(2));
}

static size_t fitting(const struct picture *p, size_t cells)
{
    return cells < p->strip_len ? cells : p->strip_len;
}

/* A run that covers as much of each lane as so many cells do of four. */
static size_t scaled_run(const struct picture *p, size_t cells)
{
    return cells * p->lanes / REF_LANES;
}

static void test_stickers(void)
{
    struct picture p;
    struct board b;

    group_begin(subject, "runs of up to 8 cells a lane, of one colour");
    for (size_t cells = 3; cells <= 30; cells++)
        for (size_t k = 0; k < scaled(60); k++) {
            picture_any_level(&p, draw_lane_count(), &b);
            put_sticker(&p, fitting(&p, scaled_run(&p, cells)), draw_byte(),
                        (enum marking)(k % MARKINGS));
            check_picture(&p);
        }
    group_end();
}

/* A level of one tile code but for what it cannot do without: many of its
   cells have one colour, and a sticker of that colour leaves them right. */
static void draw_plain_level(struct board *b)
{
    draw_any_level(b);
    memset(b->tiles, (int)draw_below(2), b->tiles_len);

    const size_t player = draw_below(b->tiles_len);

    b->tiles[player] = 6;
    b->tiles[(player + draw_between(1, b->tiles_len - 1)) % b->tiles_len] = 2;
}

static void test_plain_stickers(void)
{
    struct picture p;
    struct board b;

    group_begin(subject, "runs in a colour of the strip, on plain levels");
    for (size_t k = 0; k < scaled(1500); k++) {
        draw_plain_level(&b);
        picture_board(&p, draw_lane_count(), &b);

        const uint8_t colour = p.strip[draw_below(p.strip_len)];
        const size_t cells = scaled_run(&p, draw_between(3, 30));

        put_sticker(&p, fitting(&p, cells), colour,
                    (enum marking)(k % MARKINGS));
        check_picture(&p);
    }
    group_end();
}

/* ---- another level close by ---- */

static void swap_two_tiles(struct board *b)
{
    const size_t i = draw_below(b->tiles_len), j = draw_below(b->tiles_len);
    const uint8_t tile = b->tiles[i];

    b->tiles[i] = b->tiles[j];
    b->tiles[j] = tile;
}

/* Give p the cells of another strip in this lane, but for `left` of those in
   which they differ. */
static void move_lane(struct picture *p, const struct picture *other,
                      size_t lane, size_t left)
{
    size_t cells[REF_LANE_MAX], count = 0;

    for (size_t cell = lane; cell < p->strip_len; cell += p->lanes)
        if (p->strip[cell] != other->strip[cell])
            cells[count++] = cell;
    for (; count > left; count--) {
        const size_t i = draw_below(count);

        p->strip[cells[i]] = other->strip[cells[i]];
        cells[i] = cells[count - 1];
    }
}

/* Two strips that differ in all lanes or, where two tiles were swapped, in a
   few. Some lanes are moved to within 3 of the other level's. */
static void check_between(bool swapped)
{
    struct picture p, other;
    struct board b;

    picture_any_level(&p, draw_lane_count(), &b);
    if (swapped)
        swap_two_tiles(&b);
    else
        draw_level(&b, b.width, b.height);
    picture_board(&other, p.lanes, &b);
    for (size_t lane = 0; lane < p.lanes; lane++)
        if (swapped || draw_below(2))
            move_lane(&p, &other, lane, draw_below(4));
    check_picture(&p);
}

static void test_other_levels(void)
{
    group_begin(subject, "lanes moved to within 3 of another level's");
    for (size_t k = 0; k < scaled(2000); k++)
        check_between(k % 2);
    group_end();
}

/* Move all lanes to within 2 of the board's; returns how many cells are left in
   which they differ. */
static unsigned move_all_lanes(struct picture *p, const struct board *b)
{
    struct picture other;
    unsigned wrong = 0;

    picture_board(&other, p->lanes, b);
    for (size_t lane = 0; lane < p->lanes; lane++)
        move_lane(p, &other, lane, draw_below(3));
    for (size_t i = 0; i < p->strip_len; i++)
        wrong += p->strip[i] != other.strip[i];
    return wrong;
}

/* That level must come out. */
static void test_moved_levels(void)
{
    struct picture p;
    struct board b;

    group_begin(subject, "all lanes moved to within 2 of another level's");
    for (size_t k = 0; k < scaled(1000); k++) {
        picture_any_level(&p, draw_lane_count(), &b);
        draw_level(&b, b.width, b.height);
        check_level(&p, &b, move_all_lanes(&p, &b));
    }
    group_end();
}

/* No level is within reach, though one is close by: that in which the crates
   are not yet on their goals. */
static void test_moved_to_finished(void)
{
    struct picture p;
    struct board b;

    group_begin(subject, "all lanes moved to within 2 of a finished board's");
    for (size_t k = 0; k < scaled(1000); k++) {
        picture_any_level(&p, draw_lane_count(), &b);
        while (settle_crate(&b))
            continue;
        move_all_lanes(&p, &b);
        check_refused(&p, 10, 0);
    }
    group_end();
}

/* ---- damage anywhere ---- */

static void test_scattered(void)
{
    struct picture p;
    struct board b;

    group_begin(subject, "wrong and marked cells scattered over the strip");
    for (size_t k = 0; k < scaled(3000); k++) {
        picture_any_level(&p, draw_lane_count(), &b);
        for (size_t wrong = draw_below(10); wrong > 0; wrong--)
            p.strip[draw_below(p.strip_len)] = draw_byte();
        for (size_t marked = draw_below(12); marked > 0; marked--)
            p.marks[draw_below(p.strip_len)] = 1;
        check_picture(&p);
    }
    group_end();
}

/* No level, yet within reach: what was mended is not told. */
static void test_no_levels(void)
{
    struct picture p;
    struct board b;

    group_begin(subject, "damage within reach on what is no level");
    for (size_t k = 0; k < scaled(2000); k++) {
        draw_any_level(&b);
        b.tiles[draw_below(b.tiles_len)] = (uint8_t)draw_below(8);
        b.tiles[draw_below(b.tiles_len)] = (uint8_t)draw_below(8);
        picture_board(&p, draw_lane_count(), &b);
        for (size_t lane = 0; lane < p.lanes; lane++)
            damage_lane(&p, lane, draw_below(3), draw_below(2), ANY_BYTE);
        check_picture(&p);
    }
    group_end();
}

static void test_garbage(void)
{
    struct picture p;
    struct board b;

    group_begin(subject, "random cells with up to six marks in a lane");
    for (size_t k = 0; k < scaled(1500); k++) {
        picture_any_level(&p, draw_lane_count(), &b);
        if (draw_below(2))
            draw_bytes(p.strip, p.strip_len);
        for (size_t lane = 0; lane < p.lanes; lane++)
            damage_lane(&p, lane, 0, draw_below(7), ANY_BYTE);
        check_picture(&p);
    }
    group_end();
}

/* The owner's slip: a lane in which four sums are zero and one is not. */
static void test_forgotten_sums(void)
{
    struct picture p;
    struct sample s;
    struct board b;

    group_begin(subject, "a lane with all sums zero but one, and damage");
    for (size_t k = 0; k < scaled(300); k++)
        for (int row = 0; row < REF_CHECK_BYTES; row++) {
            picture_any_level(&p, draw_lane_count(), &b);
            draw_all_sums_but(&s, lane_len(&p), row);
            draw_damage(&s, draw_below(3), draw_below(3), ANY_BYTE);
            put_lane(&p, draw_below(p.lanes), &s);
            check_picture(&p);
        }
    group_end();
}

/* Lanes that lack their first cells, or have got one another's cells. */
static void test_cut_strips(void)
{
    struct picture p;
    struct board b;

    group_begin(subject, "strips cut in front, or shifted against the lanes");
    for (size_t k = 0; k < scaled(1500); k++) {
        const size_t lanes = draw_lane_count();
        const size_t cut = draw_below(4) ? draw_between(1, 2 * lanes)
                                         : lanes * draw_between(1, 2);

        do
            picture_any_level(&p, lanes, &b);
        while (lane_len(&p) < ref_k_min(lanes) + REF_CHECK_BYTES + 2);
        memmove(p.strip, p.strip + cut, p.strip_len - cut);
        if (cut % lanes == 0)
            p.strip_len = p.marks_len = p.strip_len - cut;
        check_picture(&p);
    }
    group_end();
}

/* Two lanes changed places: each is clean, the record is another. */
static void test_swapped_lanes(void)
{
    struct picture p;
    struct sample first, second;
    struct board b;

    group_begin(subject, "two lanes in each other's place");
    for (size_t k = 0; k < scaled(600); k++) {
        picture_any_level(&p, draw_lane_count(), &b);

        const size_t lane = draw_below(p.lanes);
        const size_t other = (lane + draw_between(1, p.lanes - 1)) % p.lanes;

        take_lane(&p, lane, &first);
        take_lane(&p, other, &second);
        put_lane(&p, lane, &second);
        put_lane(&p, other, &first);
        check_picture(&p);
    }
    group_end();
}

/* ---- the editor's way ---- */

/* Damage that is within reach in most lanes. */
static void draw_lanes(struct picture *p, size_t k)
{
    struct board b;

    (void)k;
    picture_any_level(p, draw_lane_count(), &b);
    for (size_t lane = 0; lane < p->lanes; lane++) {
        const size_t wrong = draw_below(3);

        damage_lane(p, lane, wrong,
                    draw_below(REF_REACH + 1 - 2 * wrong +
                               (draw_below(4 * p->lanes) == 0)),
                    draw_under_mark());
    }
}

/* A sticker, and marks over other cells than those that it covers. */
static void draw_sticker(struct picture *p, size_t k)
{
    struct board b;

    draw_plain_level(&b);
    picture_board(p, draw_lane_count(), &b);
    put_sticker(p, fitting(p, scaled_run(p, draw_between(3, 16))),
                p->strip[draw_below(p->strip_len)],
                (enum marking)(k % MARKINGS));
    for (size_t marked = draw_below(5); marked > 0; marked--)
        p->marks[draw_below(p->strip_len)] = 1;
}

/* What is read is redrawn. Where all pictures are refused, nothing was
   compared. */
static void test_redrawn(const char *name, size_t cases,
                         void (*draw)(struct picture *p, size_t k))
{
    struct picture p;
    size_t levels = 0;

    group_begin(subject, name);
    for (size_t k = 0; k < scaled(cases); k++) {
        draw(&p, k);
        levels += check_redrawn(&p);
    }
    if (levels == 0)
        group_fail("no level was read");
    group_end();
}

void test_strip_wild(void)
{
    test_stickers();
    test_plain_stickers();
    test_other_levels();
    test_moved_levels();
    test_moved_to_finished();
    test_scattered();
    test_no_levels();
    test_garbage();
    test_forgotten_sums();
    test_cut_strips();
    test_swapped_lanes();
    test_redrawn("read, written again and compared cell by cell", 20000,
                 draw_lanes);
    test_redrawn("stickers, read, written again and compared", 4000,
                 draw_sticker);
}
