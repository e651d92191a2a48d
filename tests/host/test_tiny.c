/*
 * test_tiny.c - the legal boards of tiny sizes against the second
 * implementation: FORMAT 16.
 */
#include "test_tiny.h"

#include <stdio.h>
#include <string.h>

#include "draw.h"
#include "harness.h"
#include "pictures.h"
#include "reference_text.h"
#include "reference_tiny.h"
#include "zavullimen.h"

static const char subject[] = "tiny boards";

/* Room for a given board that is too long. */
enum { GIVEN_ROOM = 32 };

/* What a call is given, but for the bytes of the tile buffer. */
struct wish {
    size_t width, height;
    uint32_t start;
    uint8_t given[GIVEN_ROOM];
    size_t given_len;
    size_t tiles_len;
};

static struct {
    struct lent given, tiles;
} lent;

static void name_wish(char what[80], const struct wish *w)
{
    sprintf(what, "%zu by %zu, start %u, given %zu, buffer %zu", w->width,
            w->height, (unsigned)w->start, w->given_len, w->tiles_len);
}

/* One call, beside the second implementation, with buffers between pages that
   may not be touched. */
static struct ref_result check_wish(const struct wish *w)
{
    uint8_t tiles[TILES_ROOM];
    struct ref_result r;
    char what[80];

    group_case();
    name_wish(what, w);
    draw_bytes(tiles, sizeof tiles);
    lend(&lent.given, w->given, w->given_len);
    seal(&lent.given);
    lend(&lent.tiles, tiles, w->tiles_len);
    r = ref_tiny_next(w->width, w->height, w->start, w->given, w->given_len,
                      tiles, w->tiles_len);
    if (r.length == 0)
        seal(&lent.tiles);
    check_number(zav_tiny_next(w->width, w->height, w->start, lent.given.bytes,
                               w->given_len, lent.tiles.bytes, w->tiles_len),
                 packed(r), what);
    check_buffer(&lent.given, w->given, what);
    check_buffer(&lent.tiles, tiles, what);
    return r;
}

/* ---- sizes ---- */

typedef void size_test(size_t width, size_t height);

static void for_every_size(size_test *test)
{
    for (size_t w = 1; w <= REF_TINY_MAX; w++)
        for (size_t h = 1; w * h <= REF_TINY_MAX; h++)
            test(w, h);
}

/* ---- walks ---- */

/* A walk by the library alone: what is given is what the call before gave. */
struct walk {
    size_t width, height;
    uint8_t given[REF_TINY_MAX];
    uint8_t tiles[TILES_ROOM];
    uint64_t result;
};

static void walk_on(struct walk *w, uint32_t start)
{
    const size_t n = w->width * w->height;

    memcpy(w->given, w->tiles, n);
    w->result = zav_tiny_next(w->width, w->height, start, w->given,
                              start ? 0 : n, w->tiles, sizeof w->tiles);
}

static void walk_from_start(struct walk *w, size_t width, size_t height)
{
    w->width = width;
    w->height = height;
    draw_bytes(w->tiles, sizeof w->tiles);
    walk_on(w, ZAV_START);
}

/* The list and its length are those of the second implementation; what is past
   the board is kept, and at the end all of it. */
static void check_walk(size_t width, size_t height)
{
    const struct ref_tiny *list = ref_tiny_of(width, height);
    uint8_t expected[TILES_ROOM];
    struct walk w;
    size_t k = 0;

    walk_from_start(&w, width, height);
    memcpy(expected, w.tiles, sizeof expected);
    while (zav_length(w.result) != 0 && k < list->count) {
        group_case();
        ref_tiny_tiles(list->numbers[k++], expected, width * height);
        check_number(w.result, (uint64_t)(width * height) << 48, "a board");
        if (memcmp(w.tiles, expected, sizeof expected) != 0)
            group_fail("%zu by %zu: board %zu differs", width, height, k);
        walk_on(&w, ZAV_AFTER);
    }
    check_number(w.result, 0, "none left");
    check_number(k, list->count, "boards of a size");
    if (memcmp(w.tiles, expected, sizeof expected) != 0)
        group_fail("%zu by %zu: none left, and written", width, height);
}

static void test_walks(void)
{
    group_begin(subject, "every size walked from the start to its end");
    for_every_size(check_walk);
    group_end();
}

/* All n! ways to order n things. */
static size_t orders(size_t n)
{
    return n < 2 ? 1 : n * orders(n - 1);
}

/* The legal boards of n tiles, counted by what stands on them: so many crates
   off and on their goals, goals that are free, and the player, on a goal or
   not; each other tile is floor or wall. */
static size_t count_boards(size_t n)
{
    size_t boards = 0;

    for (size_t off = 1; off < n; off++)
        for (size_t on = 0; off + on < n; on++)
            for (size_t under = 0; under < 2; under++) {
                const size_t free = off - under, taken = off + on + free + 1;

                if (taken <= n)
                    boards += orders(n) / orders(off) / orders(on) /
                              orders(free) / orders(n - taken)
                              << (n - taken);
            }
    return boards;
}

static void check_count(size_t width, size_t height)
{
    struct walk w;
    size_t boards = 0;

    group_case();
    for (walk_from_start(&w, width, height); zav_length(w.result) != 0;
         walk_on(&w, ZAV_AFTER))
        boards++;
    check_number(boards, count_boards(width * height), "boards of a size");
}

static void test_counts(void)
{
    group_begin(subject, "as many boards as can be put together");
    for_every_size(check_count);
    group_end();
}

/* The board that a walk has come to, typed and read back. */
static void check_typed(const struct walk *w, struct ref_result level)
{
    const size_t n = (size_t)level.width * level.height;
    uint8_t text[REF_TEXT_MAX], back[REF_TILES_MAX];
    const size_t len =
        zav_length(zav_text_write(1, level.width, level.height, 0, w->tiles, n,
                                  text, sizeof text));

    check_number(zav_text_read(text, len, back, sizeof back), packed(level),
                 "the text of a board");
    if (memcmp(back, w->tiles, n) != 0)
        group_fail("%u by %u: another board is typed", level.width,
                   level.height);
}

/* The same written to a strip. */
static void check_strip(const struct walk *w, struct ref_result level)
{
    static const uint8_t marks[REF_STRIP_MAX];
    const size_t n = (size_t)level.width * level.height;
    uint8_t strip[REF_STRIP_MAX], back[REF_TILES_MAX];
    uint8_t scratch[ZAV_SCRATCH_MIN];
    const size_t len =
        zav_length(zav_strip_write(level.lanes, 1, level.width, level.height,
                                   0, w->tiles, n, strip, sizeof strip));

    check_number(zav_strip_read(level.lanes, strip, len, marks, len, back,
                                sizeof back, scratch, sizeof scratch),
                 packed(level), "the strip of a board");
    if (memcmp(back, w->tiles, n) != 0)
        group_fail("%u by %u: another board is read", level.width,
                   level.height);
}

/* Each is a level for the writers, and is read back. */
static void check_written(size_t width, size_t height)
{
    struct ref_result level = {.version = 1,
                               .width = (unsigned)width,
                               .height = (unsigned)height};
    struct walk w;

    for (walk_from_start(&w, width, height); zav_length(w.result) != 0;
         walk_on(&w, ZAV_AFTER)) {
        group_case();
        level.lanes = 0;
        check_typed(&w, level);
        level.lanes = (unsigned)draw_lane_count();
        check_strip(&w, level);
    }
}

static void test_written(void)
{
    group_begin(subject, "each board of a walk typed, and written to a strip");
    for_every_size(check_written);
    group_end();
}

/* ---- given boards ---- */

/* Each of the 7^n boards is given, legal or not. Of six tiles as many as the
   run has time for. */
static void check_given(size_t width, size_t height)
{
    const size_t n = width * height;
    const uint32_t all = ref_tiny_all(n);
    const uint32_t step = n < REF_TINY_MAX ? 1 : (uint32_t)(100 / scaled(100));
    uint8_t tiles[TILES_ROOM], expected[TILES_ROOM];
    uint8_t given[REF_TINY_MAX];
    char what[80];

    draw_bytes(tiles, sizeof tiles);
    memcpy(expected, tiles, sizeof tiles);
    for (uint32_t number = 0; number < all; number += step) {
        group_case();
        ref_tiny_tiles(number, given, n);
        sprintf(what, "%zu by %zu, after number %u", width, height, number);
        check_number(zav_tiny_next(width, height, ZAV_AFTER, given, n, tiles,
                                   sizeof tiles),
                     packed(ref_tiny_next(width, height, ZAV_AFTER, given, n,
                                          expected, sizeof expected)), what);
        if (memcmp(tiles, expected, sizeof tiles) != 0)
            group_fail("%s: another board", what);
    }
}

static void test_every_given(void)
{
    group_begin(subject, "after every board, legal or not");
    for_every_size(check_given);
    group_end();
}

/* After the last legal board, and after all that have a greater number, none is
   left; after the one before the last, the last. */
static void check_last(size_t width, size_t height)
{
    const size_t n = width * height;
    const struct ref_tiny *list = ref_tiny_of(width, height);
    struct wish w = {.width = width, .height = height, .given_len = n,
                     .tiles_len = REF_TILES_MAX};

    for (size_t k = 0; k < 2 && k < list->count; k++) {
        ref_tiny_tiles(list->numbers[list->count - 1 - k], w.given, n);
        check_number(check_wish(&w).length, k * n, "after one of the last");
    }
    memset(w.given, 6, n);
    check_number(check_wish(&w).length, 0, "after the greatest number");
}

static void test_last(void)
{
    group_begin(subject, "the last board, and none after it");
    for_every_size(check_last);
    group_end();
}

/* ---- FORMAT 16.10 ---- */

static void check_step(struct walk *w, uint32_t start, unsigned first,
                       unsigned second, size_t len)
{
    group_case();
    walk_on(w, start);
    check_number(w->result, (uint64_t)len << 48, "worked");
    check_number(w->tiles[0], first, "first tile");
    check_number(w->tiles[1], second, "second tile");
}

static void test_worked(void)
{
    struct walk w = {.width = 1, .height = 1, .tiles = {9, 9}};

    group_begin(subject, "the walks of one tile and of two");
    check_step(&w, ZAV_START, 9, 9, 0);
    w.width = 2;
    check_step(&w, ZAV_START, 2, 6, 2);
    check_step(&w, ZAV_AFTER, 6, 2, 2);
    check_step(&w, ZAV_AFTER, 6, 2, 0);
    group_end();
}

/* ---- starts ---- */

/* Any number but 0 wishes for the start, and then there need not be a board:
   NULL may have any length. */
static void check_start(size_t width, size_t height)
{
    static const uint32_t starts[] = {1, 2, 3, 255, 256, 65536, 0x80000000,
                                      0xFFFFFFFF};
    static const size_t lens[] = {0, 1, 6, 7, 961, SIZE_MAX};
    uint8_t tiles[TILES_ROOM], expected[TILES_ROOM];

    for (size_t s = 0; s < COUNT(starts); s++)
        for (size_t k = 0; k < COUNT(lens); k++) {
            group_case();
            draw_bytes(tiles, sizeof tiles);
            memcpy(expected, tiles, sizeof tiles);
            check_number(zav_tiny_next(width, height, starts[s], NULL, lens[k],
                                       tiles, sizeof tiles),
                         packed(ref_tiny_next(width, height, 1, NULL, 0,
                                              expected, sizeof expected)),
                         "a start with no board");
            if (memcmp(tiles, expected, sizeof tiles) != 0)
                group_fail("%zu by %zu: another first board", width, height);
        }
}

static void test_starts(void)
{
    group_begin(subject, "on a start no given board is looked at");
    for_every_size(check_start);
    group_end();
}

/* ---- refusals ---- */

static void draw_given(struct wish *w, size_t len)
{
    w->given_len = len;
    for (size_t i = 0; i < sizeof w->given; i++)
        w->given[i] = (uint8_t)draw_below(7);
}

/* Sizes whose product is cut to a small number, or to 0, among them. */
static void test_sizes(void)
{
    static const size_t sides[] = {
        0, 1, 2, 3, 4, 5, 6, 7, 8, 31, 32, 255, 256, 257, 258, 65536, 65537,
        (size_t)1 << 31, (size_t)1 << 32, ((size_t)1 << 32) + 1,
        ((size_t)1 << 32) + 2, (size_t)1 << 62, (size_t)1 << 63,
        ((size_t)1 << 63) + 1, ((size_t)1 << 63) + 3, SIZE_MAX / 3,
        SIZE_MAX / 3 + 1, SIZE_MAX / 2, SIZE_MAX - 5, SIZE_MAX - 1, SIZE_MAX};
    struct wish w = {.tiles_len = REF_TILES_MAX};
    size_t refused = 0;

    group_begin(subject, "widths and heights of all kinds");
    for (size_t i = 0; i < COUNT(sides); i++)
        for (size_t j = 0; j < COUNT(sides); j++)
            for (w.start = 0; w.start < 2; w.start++) {
                w.width = sides[i];
                w.height = sides[j];
                draw_given(&w, w.width * w.height % 8);
                refused += check_wish(&w).code == 14;
            }
    check_number(refused, 2 * (COUNT(sides) * COUNT(sides) - 14),
                 "all but the 14 tiny sizes");
    group_end();
}

static void check_given_lengths(size_t width, size_t height)
{
    struct wish w = {.width = width, .height = height,
                     .tiles_len = REF_TILES_MAX};

    for (size_t len = 0; len <= GIVEN_ROOM; len++)
        for (w.start = 0; w.start < 2; w.start++) {
            draw_given(&w, len);
            check_number(check_wish(&w).code,
                         w.start == 0 && len != width * height ? 8 : 0,
                         "a given board of another length");
        }
}

static void test_given_lengths(void)
{
    group_begin(subject, "given boards of every length");
    for_every_size(check_given_lengths);
    group_end();
}

/* Each byte in each place. */
static void check_given_codes(size_t width, size_t height)
{
    struct wish w = {.width = width, .height = height,
                     .tiles_len = REF_TILES_MAX};

    for (size_t place = 0; place < width * height; place++)
        for (unsigned byte = 0; byte < 256; byte++) {
            draw_given(&w, width * height);
            w.given[place] = (uint8_t)byte;
            check_number(check_wish(&w).code, byte > 6 ? 9 : 0,
                         "a given board with any code");
        }
}

static void test_given_codes(void)
{
    group_begin(subject, "every byte in every place of a given board");
    for_every_size(check_given_codes);
    group_end();
}

static void test_tile_buffers(void)
{
    struct wish w;

    group_begin(subject, "tile buffers of every length");
    for (size_t room = 0; room <= TILES_ROOM; room++) {
        w = (struct wish){.width = 3, .height = 2, .start = room % 2,
                          .tiles_len = room};
        draw_given(&w, 6);
        check_number(check_wish(&w).code, room < REF_TILES_MAX ? 4 : 0,
                     "a tile buffer");
    }
    group_end();
}

/* Several things wrong at once: 4, 14, 8 and 9 are told in this order. */
static void test_order(void)
{
    size_t seen[15] = {0};
    struct wish w;

    group_begin(subject, "several refusals at once");
    for (size_t k = 0; k < scaled(20000); k++) {
        w = (struct wish){.width = draw_below(8), .height = draw_below(8),
                          .start = draw_below(4) == 0,
                          .tiles_len = REF_TILES_MAX - draw_below(2)};
        draw_given(&w, draw_below(2) ? w.width * w.height % GIVEN_ROOM
                                     : draw_below(8));
        if (draw_below(2))
            w.given[draw_below(REF_TINY_MAX)] = draw_byte();
        seen[check_wish(&w).code]++;
    }
    for (unsigned code = 0; code < COUNT(seen); code++) {
        const bool told = code == 0 || code == 4 || code == 8 || code == 9 ||
                          code == 14;

        if ((seen[code] > 0) != told)
            group_fail("code %u was told %zu times", code, seen[code]);
    }
    group_end();
}

static void check_null(size_t width, uint32_t start, uint8_t *tiles,
                       size_t tiles_len, unsigned code)
{
    group_case();
    check_number(zav_tiny_next(width, 1, start, NULL, 0, tiles, tiles_len),
                 code, "NULL");
    check_number(packed(ref_tiny_next(width, 1, start, NULL, 0, tiles,
                                      tiles_len)), code, "NULL, reference");
}

static void test_nulls(void)
{
    uint8_t tiles[REF_TILES_MAX];

    group_begin(subject, "NULL with length 0");
    check_null(2, ZAV_START, NULL, 0, 4);
    check_null(0, ZAV_AFTER, tiles, sizeof tiles, 14);
    check_null(2, ZAV_AFTER, tiles, sizeof tiles, 8);
    check_null(1, ZAV_START, tiles, sizeof tiles, 0);
    group_end();
}

/* ---- */

void test_tiny(void)
{
    test_walks();
    test_counts();
    test_written();
    test_every_given();
    test_last();
    test_worked();
    test_starts();
    test_sizes();
    test_given_lengths();
    test_given_codes();
    test_tile_buffers();
    test_order();
    test_nulls();
}
