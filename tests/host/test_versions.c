/*
 * test_versions.c - levels of two versions: what each allows, and the readers
 * for version 1. What must come out is said here once more, from FORMAT 5, 6.4,
 * 8.32 and 9.7, beside what the second implementation says.
 */
#include "test_versions.h"

#include <stdio.h>
#include <string.h>

#include "draw.h"
#include "harness.h"
#include "pictures.h"
#include "test_record.h"
#include "test_writer.h"
#include "zavullimen.h"

static const char subject[] = "versions";

static void expect_written(const struct writer *entry, const struct board *b,
                           unsigned code)
{
    char what[120];

    sprintf(what, "%s, version %zu, %zu by %zu", entry->name, b->version,
            b->width, b->height);
    check_number(check_writing(entry, b, entry->room).code, code, what);
}

/* Laid out, and read as a record and as a strip of any lanes, by the readers
   for both and for version 1. */
static void expect_read(const struct board *b, unsigned code)
{
    const unsigned code_v1 = b->version == 1 ? code : 7;
    uint8_t record[REF_RECORD_MAX] = {0};
    const size_t len = record_of(b, record);
    struct picture p;

    picture_board(&p, draw_lane_count(), b);
    check_number(check_record(record, len, REF_TILES_MAX).code, code, "record");
    check_number(check_record_v1(record, len, REF_TILES_MAX).code, code_v1,
                 "record, version 1");
    check_number(check_picture(&p).code, code, "strip");
    check_number(check_picture_v1(&p).code, code_v1, "strip, version 1");
}

/* At every entry; the text writer takes version 1 only. */
static void expect_everywhere(const struct board *b, unsigned code)
{
    expect_written(&writers[RECORD_WRITER], b, code);
    expect_written(strip_writer(draw_lane_count()), b, code);
    expect_written(&writers[TEXT_WRITER], b, b->version == 1 ? code : 7);
    expect_read(b, code);
}

/* ---- the number told ---- */

static void expect_unknown(struct board b, size_t version)
{
    b.version = version;
    for (size_t e = 0; e < WRITERS; e++)
        expect_written(&writers[e], &b, 7);
}

/* Also where there is more to refuse, and where a narrower number would be 1
   or 2. */
static void test_unknown(void)
{
    struct board b;

    group_begin(subject, "numbers other than 1 and 2, up to 2^64 - 1");
    for (size_t version = 0; version < 600; version++) {
        draw_any_board(&b);
        if (draw_below(4) == 0)
            b.tiles[draw_below(b.tiles_len)] = draw_byte();
        if (draw_below(4) == 0)
            b.tiles_len--;
        if (version != 1 && version != 2)
            expect_unknown(b, version);
    }
    for (int bit = 2; bit < 64; bit++) {
        draw_any_level(&b);
        expect_unknown(b, ((size_t)1 << bit) + draw_below(3));
    }
    expect_unknown(b, SIZE_MAX);
    group_end();
}

/* ---- the rule ---- */

static void put(struct board *b, uint8_t tile, size_t times)
{
    memset(b->tiles + b->tiles_len, tile, times);
    b->tiles_len += times;
}

static unsigned refusal_by_rule(size_t version, const size_t tiles[8])
{
    const size_t players = tiles[5] + tiles[6];
    const size_t crates = tiles[2] + tiles[4];
    const size_t goals = tiles[3] + tiles[4] + tiles[6];

    if (version == 1 && tiles[7] > 0)
        return 9;
    if (players != 1 || crates < goals || (version == 1 && crates > goals) ||
        tiles[2] == 0)
        return 10;
    return 0;
}

/* A row with these numbers of tiles of each code. */
static void check_row(size_t version, const size_t tiles[8])
{
    struct board b = {.version = version, .height = 1, .par = 9};

    for (uint8_t code = 0; code < 8; code++)
        put(&b, code, tiles[code]);
    b.width = b.tiles_len;
    expect_everywhere(&b, refusal_by_rule(version, tiles));
}

static void test_rule(void)
{
    group_begin(subject, "every mixture of up to two tiles of a code");
    for (unsigned k = 0; k < 3 * 3 * 3 * 3 * 3 * 3 * 2; k++) {
        const size_t tiles[8] = {1,          0,          k % 3,
                                 k / 3 % 3,  k / 9 % 3,  k / 27 % 3,
                                 k / 81 % 3, k / 243 % 3};

        check_row(1 + k / 729, tiles);
    }
    group_end();
}

/* ---- pits ---- */

static bool holds(const struct board *b, uint8_t tile)
{
    return memchr(b->tiles, tile, b->tiles_len) != NULL;
}

/* A level of version 1 with a pit where there was floor or a wall. */
static void test_pit_places(void)
{
    struct board b;

    group_begin(subject, "a pit in any place, in both versions");
    draw_versions(1);
    for (size_t k = 0; k < scaled(2000); k++) {
        draw_any_level(&b);
        if (!holds(&b, 0) && !holds(&b, 1))
            continue;
        for (size_t place = draw_below(b.tiles_len);; place++) {
            uint8_t *tile = &b.tiles[place % b.tiles_len];

            if (*tile <= 1) {
                *tile = 7;
                break;
            }
        }
        expect_everywhere(&b, 9);
        b.version = 2;
        expect_everywhere(&b, 0);
    }
    draw_versions(REF_NEWEST);
    group_end();
}

/* ---- one board in both versions ---- */

static size_t write_strip(const struct board *b, size_t lanes, size_t version,
                          uint8_t strip[REF_STRIP_MAX])
{
    return zav_length(zav_strip_write(lanes, version, b->width, b->height,
                                      b->par, b->tiles, b->tiles_len, strip,
                                      REF_STRIP_MAX));
}

static size_t write_record(const struct board *b, size_t version,
                           uint8_t record[REF_RECORD_MAX])
{
    return zav_length(zav_record_write(version, b->width, b->height, b->par,
                                       b->tiles, b->tiles_len, record,
                                       REF_RECORD_MAX));
}

/* By the library alone: written in both versions, and read back. */
static void check_two(const struct board *b)
{
    static const uint8_t marks[REF_STRIP_MAX];
    const size_t lanes = draw_lane_count();
    uint8_t strips[2][REF_STRIP_MAX], records[2][REF_RECORD_MAX];
    uint8_t tiles[REF_TILES_MAX], scratch[REF_SCRATCH_MIN];

    for (size_t v = 1; v <= 2; v++) {
        const size_t cells = write_strip(b, lanes, v, strips[v - 1]);
        const size_t bytes = write_record(b, v, records[v - 1]);

        group_case();
        check_number(zav_level_version(zav_strip_read(
                         lanes, strips[v - 1], cells, marks, cells, tiles,
                         sizeof tiles, scratch, sizeof scratch)),
                     v, "the strip's version");
        check_number(zav_level_version(zav_record_read(
                         records[v - 1], bytes, tiles, sizeof tiles)),
                     v, "the record's version");
        check_number(zav_code(zav_strip_read_v1(
                         lanes, strips[v - 1], cells, marks, cells, tiles,
                         sizeof tiles, scratch, sizeof scratch)),
                     v == 1 ? 0 : 7, "the strip, for version 1");
        check_number(zav_code(zav_record_read_v1(records[v - 1], bytes, tiles,
                                                 sizeof tiles)),
                     v == 1 ? 0 : 7, "the record, for version 1");
        if (cells == 0 || bytes == 0)
            group_fail("%zu by %zu is not written", b->width, b->height);
    }
    if (memcmp(strips[0], strips[1], 14) == 0 ||
        memcmp(records[0], records[1], 4) == 0)
        group_fail("%zu by %zu: alike in both versions", b->width, b->height);
}

static void test_both(void)
{
    struct board b;

    group_begin(subject, "one board in both versions, written and read back");
    draw_versions(1);
    for (size_t k = 0; k < scaled(4000); k++) {
        draw_any_level(&b);
        check_two(&b);
    }
    draw_versions(REF_NEWEST);
    group_end();
}

/* ---- two readers of one picture ---- */

struct answer {
    uint64_t result;
    uint8_t tiles[REF_TILES_MAX];
};

static struct answer read_both(const struct picture *p)
{
    struct answer a;
    uint8_t scratch[REF_SCRATCH_MIN];

    memset(a.tiles, 0xA5, sizeof a.tiles);
    a.result = zav_strip_read(p->lanes, p->strip, p->strip_len, p->marks,
                              p->marks_len, a.tiles, sizeof a.tiles, scratch,
                              sizeof scratch);
    return a;
}

static struct answer read_first(const struct picture *p)
{
    struct answer a;
    uint8_t scratch[REF_SCRATCH_MIN];

    memset(a.tiles, 0xA5, sizeof a.tiles);
    a.result = zav_strip_read_v1(p->lanes, p->strip, p->strip_len, p->marks,
                                 p->marks_len, a.tiles, sizeof a.tiles,
                                 scratch, sizeof scratch);
    return a;
}

/* Data of this version in lanes that are damaged within reach. Of version 2 the
   reader for version 1 says 7, whatever the other says; else they say the
   same. */
static void check_readers(const struct picture *p, unsigned version)
{
    const struct answer both = read_both(p), first = read_first(p);

    group_case();
    check_number(first.result, version == 2 ? 7 : both.result, "version 1");
    if (version != 1 && version != 2)
        check_number(both.result, 7, "another version");
    if (zav_code(both.result) == ZAV_DONE)
        check_number(zav_level_version(both.result), version, "its version");
    if (version == 2 && zav_code(both.result) == ZAV_BAD_TILE)
        group_fail("three bits say no code above 7");
    if (version != 2 && memcmp(both.tiles, first.tiles, sizeof both.tiles) != 0)
        group_fail("other tiles for version 1");
}

/* A board, a bit of it turned perhaps, in each of the sixteen versions that
   four bits can say. */
static void test_readers(void)
{
    uint8_t data[REF_LAID_MAX];
    struct picture p;
    struct board b;

    group_begin(subject, "the two strip readers, on all sixteen versions");
    for (size_t k = 0; k < scaled(20000); k++) {
        const size_t lanes = draw_lane_count();
        const unsigned version = draw_below(4) ? (unsigned)draw_between(1, 2)
                                               : (unsigned)draw_below(16);

        draw_any_board(&b);
        memset(data, 0, sizeof data);

        const size_t len = record_of(&b, data);

        if (draw_below(2))
            data[draw_below(len)] ^= (uint8_t)(1 << draw_below(8));
        data[0] = (uint8_t)(version << 4 | (data[0] & 0xF));
        picture_data(&p, lanes, data, ref_k_of(lanes, len));
        damage_lanes(&p, REF_REACH);
        check_readers(&p, version);
    }
    group_end();
}

/* Beyond reach and before the picture is looked at the versions do not matter:
   one answer. */
static void test_elsewhere(void)
{
    struct picture p;
    struct board b;

    group_begin(subject, "the two strip readers, refused with 15 and 1 to 6");
    for (size_t k = 0; k < scaled(4000); k++) {
        picture_any_level(&p, draw_lane_count(), &b);
        damage_lane(&p, draw_below(p.lanes), 0, 6, draw_under_mark());
        if (draw_below(4) == 0)
            p.lanes++;
        if (draw_below(4) == 0)
            p.strip_len--;
        if (draw_below(4) == 0)
            p.marks_len--;
        if (draw_below(4) == 0)
            p.marks[draw_below(p.marks_len)] = 2;

        const struct answer both = read_both(&p), first = read_first(&p);

        group_case();
        check_number(first.result, both.result, "version 1");
        if (zav_code(both.result) == 0 ||
            (zav_code(both.result) > 6 && zav_code(both.result) != 15))
            group_fail("it is not refused with 15 or 1 to 6");
    }
    group_end();
}

void test_versions(void)
{
    test_unknown();
    test_rule();
    test_pit_places();
    test_both();
    test_readers();
    test_elsewhere();
}
