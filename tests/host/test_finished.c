/*
 * test_finished.c - boards on which every crate is on a goal, and boards close
 * to these. How they were drawn says what must come out: FORMAT 5.13.
 */
#include "test_finished.h"

#include <stdio.h>

#include "draw.h"
#include "harness.h"

/* Of a version that is not taken it is refused for that. */
static void expect(const struct judge *j, const struct board *b, unsigned code)
{
    char what[80];

    sprintf(what, "version %zu, %zu by %zu, reference", b->version, b->width,
            b->height);
    check_number(j->check(j->entry, b).code, b->version > j->newest ? 7 : code,
                 what);
}

static void test_every_size(const struct judge *j)
{
    struct board b;

    group_begin(j->name, "finished boards of every size");
    for (size_t w = 1; w <= REF_SIDE_MAX; w++)
        for (size_t h = w == 1 ? 2 : 1; h <= REF_SIDE_MAX; h++) {
            draw_finished(&b, w, h);
            expect(j, &b, 10);
        }
    group_end();
}

static void test_last_crates(const struct judge *j)
{
    struct board b;

    group_begin(j->name, "every size with one crate off its goal");
    for (size_t w = 1; w <= REF_SIDE_MAX; w++)
        for (size_t h = w == 1 ? 2 : 1; h <= REF_SIDE_MAX; h++) {
            draw_last_crate(&b, w, h, draw_below(w * h));
            expect(j, &b, 0);
        }
    group_end();
}

/* The crate in this place is the only one off its goal; then it is on a goal,
   and there is one goal too many. */
static void check_place(const struct judge *j, size_t width, size_t height,
                        size_t place)
{
    struct board b;

    draw_last_crate(&b, width, height, place);
    expect(j, &b, 0);
    b.tiles[place] = 4;
    expect(j, &b, 10);
}

/* Rows of every length, and the largest board. */
static void test_places(const struct judge *j)
{
    group_begin(j->name, "the one crate off its goal in every place");
    for (size_t w = 2; w <= REF_SIDE_MAX; w++)
        for (size_t place = 0; place < w; place++)
            check_place(j, w, 1, place);
    for (size_t place = 0; place < REF_TILES_MAX; place++)
        check_place(j, REF_SIDE_MAX, REF_SIDE_MAX, place);
    group_end();
}

/* A level before each move, and none after the last. */
static void test_played(const struct judge *j)
{
    struct board b;

    group_begin(j->name, "levels with crate after crate put on a goal");
    for (size_t k = 0; k < scaled(200); k++) {
        draw_level(&b, draw_between(1, 6), draw_between(2, 6));
        do
            expect(j, &b, 0);
        while (settle_crate(&b));
        expect(j, &b, 10);
    }
    group_end();
}

/* A tile that is none of the version comes first, whatever the others are. */
static void test_bad_codes(const struct judge *j)
{
    struct board b;

    group_begin(j->name, "finished boards with a code that is none");
    for (unsigned k = 0; k < 500; k++) {
        draw_any_finished(&b);

        const unsigned least = b.version == 1 ? 7 : 8;

        if (least > j->code_most)
            continue;
        b.tiles[draw_below(b.tiles_len)] =
            (uint8_t)(least + k % (j->code_most - least + 1));
        expect(j, &b, 9);
    }
    group_end();
}

void test_finished(const struct judge *j)
{
    test_every_size(j);
    test_last_crates(j);
    test_places(j);
    test_played(j);
    if (j->code_most > 6)
        test_bad_codes(j);
}
