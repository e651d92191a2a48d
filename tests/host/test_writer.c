/*
 * test_writer.c - the record, strip and text writers against the second
 * implementation.
 */
#include "test_writer.h"

#include <stdio.h>
#include <string.h>

#include "boards.h"
#include "draw.h"
#include "harness.h"
#include "test_finished.h"
#include "worked.h"
#include "zavullimen.h"

static const uint8_t worked_text[] = {'p', 'a', 'r', ' ', '5', '\n',
                                      '$', '+', '\n'};

/* ---- the writers, all with lanes ---- */

static uint64_t record_write(size_t lanes, size_t version, size_t width,
                             size_t height, size_t par, const uint8_t *tiles,
                             size_t tiles_len, uint8_t *record,
                             size_t record_len)
{
    (void)lanes;
    return zav_record_write(version, width, height, par, tiles, tiles_len,
                            record, record_len);
}

static struct ref_result record_reference(size_t lanes, size_t version,
                                          size_t width, size_t height,
                                          size_t par, const uint8_t *tiles,
                                          size_t tiles_len, uint8_t *record,
                                          size_t record_len)
{
    (void)lanes;
    return ref_record_write(version, width, height, par, tiles, tiles_len,
                            record, record_len);
}

static uint64_t text_write(size_t lanes, size_t version, size_t width,
                           size_t height, size_t par, const uint8_t *tiles,
                           size_t tiles_len, uint8_t *text, size_t text_len)
{
    (void)lanes;
    return zav_text_write(version, width, height, par, tiles, tiles_len, text,
                          text_len);
}

static struct ref_result text_reference(size_t lanes, size_t version,
                                        size_t width, size_t height,
                                        size_t par, const uint8_t *tiles,
                                        size_t tiles_len, uint8_t *text,
                                        size_t text_len)
{
    (void)lanes;
    return ref_text_write(version, width, height, par, tiles, tiles_len, text,
                          text_len);
}

const struct writer writers[WRITERS] = {
    [RECORD_WRITER] = {"record writer", record_write, record_reference, 0, 2,
                       REF_RECORD_MAX, worked_level.record, 4},
    [TEXT_WRITER] = {"text writer", text_write, text_reference, 0, 1,
                     REF_TEXT_MAX, worked_text, sizeof worked_text},
    [STRIP_WRITER] =
        {"strip writer, 2 lanes", zav_strip_write, ref_strip_write, 2, 2,
         REF_STRIP_MAX, worked_strips[0].strip, 14},
    {"strip writer, 4 lanes", zav_strip_write, ref_strip_write, 4, 2,
     REF_STRIP_MAX, worked_level.strip, 24},
    {"strip writer, 8 lanes", zav_strip_write, ref_strip_write, 8, 2,
     REF_STRIP_MAX, worked_strips[2].strip, 48},
    {"strip writer, 16 lanes", zav_strip_write, ref_strip_write, 16, 2,
     REF_STRIP_MAX, worked_strips[3].strip, 96},
};

const struct writer *strip_writer(size_t lanes)
{
    const struct writer *w = &writers[STRIP_WRITER];

    while (w->lanes != lanes)
        w++;
    return w;
}

struct ref_result check_writing(const struct writer *entry,
                                const struct board *b, size_t room)
{
    static struct lent tiles, buffer;
    uint8_t before[BUFFER_ROOM], expected[BUFFER_ROOM];
    char what[160];

    group_case();
    draw_bytes(before, sizeof before);
    memcpy(expected, before, sizeof before);

    const struct ref_result r =
        entry->reference(entry->lanes, b->version, b->width, b->height,
                         b->par, b->tiles, b->tiles_len, expected, room);

    lend(&tiles, b->tiles, b->tiles_len);
    lend(&buffer, before, room);
    seal(&tiles);
    if (r.code != 0)
        seal(&buffer);
    sprintf(what,
            "lanes %zu, version %zu, %zu by %zu, par %zu, %zu tiles, buffer "
            "%zu", entry->lanes, b->version, b->width, b->height, b->par,
            b->tiles_len, room);
    check_number(entry->run(entry->lanes, b->version, b->width, b->height,
                            b->par, tiles.bytes, b->tiles_len, buffer.bytes,
                            room), packed(r), what);
    check_buffer(&buffer, expected, what);
    check_buffer(&tiles, b->tiles, what);
    return r;
}

/* With a buffer that is long enough. */
static struct ref_result check_written(const struct writer *entry,
                                       const struct board *b)
{
    return check_writing(entry, b, draw_between(entry->room, BUFFER_ROOM));
}

static void test_every_size(const struct writer *entry)
{
    struct board b;

    group_begin(entry->name, "every size from 1 by 1 to 31 by 31");
    for (size_t w = 1; w <= REF_SIDE_MAX; w++)
        for (size_t h = 1; h <= REF_SIDE_MAX; h++) {
            draw_level(&b, w, h);
            check_written(entry, &b);
        }
    group_end();
}

static void test_every_par(const struct writer *entry)
{
    struct board b;

    group_begin(entry->name, "every par from 0 to 1030");
    draw_level(&b, 7, 5);
    for (b.par = 0; b.par <= 1030; b.par++)
        check_written(entry, &b);
    group_end();
}

/* All boards of up to four tiles, with codes up to 7: most are no levels. */
static size_t count_small(const struct writer *entry, size_t version)
{
    struct board b = {.version = version, .height = 1, .par = 3};
    size_t boards = 1, levels = 0;

    for (size_t n = 1; n <= 4; n++) {
        b.width = b.tiles_len = n;
        boards *= 8;
        for (size_t k = 0; k < boards; k++) {
            for (size_t i = 0; i < n; i++)
                b.tiles[i] = (uint8_t)(k >> 3 * i & 7);
            levels += check_writing(entry, &b, entry->room).code == 0;
        }
    }
    return levels;
}

static void test_small_boards(const struct writer *entry)
{
    group_begin(entry->name, "every board of one to four tiles");
    check_number(count_small(entry, 1), SMALL_LEVELS, "levels");
    check_number(count_small(entry, 2),
                 entry->newest == 2 ? SMALL_LEVELS_V2 : 0,
                 "levels of version 2");
    group_end();
}

/* Each of these is spoilt in one case of four, so that several meet. */
static bool spoil(void)
{
    return draw_below(4) == 0;
}

static void spoil_numbers(struct board *b)
{
    static const size_t sides[] = {0, 1, 3, 31, 32, 258, 66000,
                                   ((size_t)1 << 32) + 2, SIZE_MAX};
    static const size_t pars[] = {0, 1023, 1024, 66000,
                                  ((size_t)1 << 32) + 2, SIZE_MAX};
    static const size_t versions[] = {0, 3, 15, 17, 257,
                                      ((size_t)1 << 32) + 1, SIZE_MAX};

    if (spoil())
        b->version = versions[draw_below(COUNT(versions))];
    if (spoil())
        b->width = sides[draw_below(COUNT(sides))];
    if (spoil())
        b->height = sides[draw_below(COUNT(sides))];
    if (spoil())
        b->par = pars[draw_below(COUNT(pars))];
}

static void spoil_tiles(struct board *b)
{
    if (spoil())
        b->tiles[draw_below(b->tiles_len)] = draw_byte();
    if (spoil())
        b->tiles[draw_below(b->tiles_len)] = (uint8_t)draw_below(8);
    if (spoil())
        b->tiles_len += draw_below(3) - 1;
}

static void test_refusals(const struct writer *entry)
{
    const size_t rooms[] = {0, 1, entry->room - 1, entry->room,
                            entry->room + 1};
    struct board b;

    group_begin(entry->name, "refusals, several at once");
    for (size_t k = 0; k < scaled(30000); k++) {
        draw_level(&b, draw_between(1, 8), draw_between(2, 8));
        if (spoil())
            draw_finished(&b, b.width, b.height);
        b.tiles[b.tiles_len] = (uint8_t)draw_below(8); /* one too many */
        spoil_numbers(&b);
        spoil_tiles(&b);
        check_writing(entry, &b,
                      spoil() ? rooms[draw_below(COUNT(rooms))] : entry->room);
    }
    group_end();
}

/* A number that a narrower one would cut to a legal one. */
static void check_wide(const struct writer *entry, const struct board *level,
                       size_t past)
{
    struct board b = *level;

    b.version += past;
    check_written(entry, &b);
    b = *level;
    b.width += past;
    check_written(entry, &b);
    b = *level;
    b.height += past;
    check_written(entry, &b);
    b = *level;
    b.par += past;
    check_written(entry, &b);
}

static void test_wide_numbers(const struct writer *entry)
{
    struct board b;

    group_begin(entry->name, "a number past 2^5 up to 2^63");
    for (int bit = 5; bit < 64; bit++) {
        draw_level(&b, 2, 2);
        b.par = 2;
        check_wide(entry, &b, (size_t)1 << bit);
    }
    group_end();
}

/* No size at all, with no tiles at all: the numbers are judged first. */
static void test_nothing(const struct writer *entry)
{
    struct board b = {.version = 1, .par = 5};

    group_begin(entry->name, "no tiles, and sides of 0 and 1");
    for (b.width = 0; b.width < 2; b.width++)
        for (b.height = 0; b.height < 2; b.height++)
            check_written(entry, &b);
    group_case();
    check_number(entry->run(entry->lanes, 0, 0, 0, 0, NULL, 0, NULL, 0),
                 packed(entry->reference(entry->lanes, 0, 0, 0, 0, NULL, 0,
                                         NULL, 0)), "NULL");
    group_end();
}

/* Tiles of one code only, as an editor leaves them; then with a player, and
   with a player on the goal of one crate more. */
static void test_plain_tiles(const struct writer *entry)
{
    struct board b;

    group_begin(entry->name, "boards of one code");
    for (unsigned code = 0; code < 256; code++) {
        draw_level(&b, 31, 31);
        memset(b.tiles, (int)code, b.tiles_len);
        check_written(entry, &b);

        const size_t player = draw_between(1, b.tiles_len - 1);

        b.tiles[player] = 5;
        check_written(entry, &b);
        b.tiles[player] = 6;
        b.tiles[draw_below(player)] = 2;
        check_written(entry, &b);
    }
    group_end();
}

/* Every length of the buffer, from none to longer than is needed. */
static void test_rooms(const struct writer *entry)
{
    struct board b;

    group_begin(entry->name, "buffers of every length");
    for (size_t room = 0; room <= BUFFER_ROOM; room++) {
        draw_any_level(&b);
        check_writing(entry, &b, room);
    }
    group_end();
}

/* A board that FORMAT works out, lent to both. */
static struct ref_result check_worked(const struct writer *entry,
                                      const struct worked *w)
{
    struct board b = {.version = w->version, .width = 2, .height = w->height,
                      .par = 5, .tiles_len = 2 * w->height};

    memcpy(b.tiles, w->tiles, b.tiles_len);
    return check_written(entry, &b);
}

static void test_worked(const struct writer *entry)
{
    const struct ref_result length = {.length = (unsigned)entry->worked_len};
    const struct ref_result refused = {.code = 10};
    const uint8_t *tiles = worked_level.tiles;
    uint8_t got[BUFFER_ROOM];

    group_begin(entry->name, "the worked examples of FORMAT");
    check_number(packed(check_worked(entry, &worked_level)), packed(length),
                 "reference");
    check_number(packed(check_worked(entry, &worked_finished)),
                 packed(refused), "reference, finished");
    entry->run(entry->lanes, 1, 2, 1, 5, tiles, 2, got, sizeof got);
    if (memcmp(got, entry->worked, entry->worked_len) != 0)
        group_fail("other bytes are written");
    group_end();
}

static struct ref_result check_lent(const void *entry, const struct board *b)
{
    return check_written(entry, b);
}

static void test_finished_boards(const struct writer *entry)
{
    const struct judge j = {entry->name, 255, entry->newest, entry,
                            check_lent};

    test_finished(&j);
}

void test_writer(const struct writer *entry)
{
    test_worked(entry);
    test_every_size(entry);
    test_every_par(entry);
    test_small_boards(entry);
    test_refusals(entry);
    test_wide_numbers(entry);
    test_nothing(entry);
    test_plain_tiles(entry);
    test_rooms(entry);
    test_finished_boards(entry);
}
