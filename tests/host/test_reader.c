/* test_reader.c - bytes read into a tile buffer; the judging of a record. */
#include "test_reader.h"

#include <stdio.h>
#include <string.h>

#include "boards.h"
#include "draw.h"
#include "harness.h"
#include "test_finished.h"

struct ref_result check_bytes(const struct bytes_reader *entry,
                              const uint8_t *bytes, size_t len,
                              size_t tiles_len)
{
    static struct lent lent_bytes, lent_tiles;
    uint8_t before[TILES_ROOM], expected[TILES_ROOM];
    char what[HEX_TEXT + 80], digits[HEX_TEXT];

    group_case();
    draw_bytes(before, tiles_len);
    memcpy(expected, before, tiles_len);

    const struct ref_result r =
        entry->ref_read(bytes, len, expected, tiles_len);

    lend(&lent_bytes, bytes, len);
    lend(&lent_tiles, before, tiles_len);
    seal(&lent_bytes);
    if (r.code != 0)
        seal(&lent_tiles);

    const uint64_t got =
        entry->read(lent_bytes.bytes, len, lent_tiles.bytes, tiles_len);

    if (got == packed(r) && is_kept(&lent_tiles, expected) &&
        is_kept(&lent_bytes, bytes))
        return r;
    sprintf(what, "%zu bytes %s, tile buffer %zu", len,
            hex(digits, bytes, len), tiles_len);
    check_number(got, packed(r), what);
    check_buffer(&lent_tiles, expected, what);
    check_buffer(&lent_bytes, bytes, what);
    return r;
}

/* A record and the zero bytes that fill it; what is past them is zero too. */
struct data {
    uint8_t bytes[REF_LAID_MAX];
    size_t len;
    size_t bits; /* where the tiles end and the filling starts */
};

/* Data comes in multiples of so many bytes. */
static size_t unit_of(const struct reader *entry)
{
    return entry->lanes > 0 ? entry->lanes : 1;
}

static size_t filled_len(const struct reader *entry, size_t len)
{
    while (len % unit_of(entry) != 0)
        len++;
    return len;
}

static size_t shortest(const struct reader *entry)
{
    return filled_len(entry, REF_RECORD_MIN);
}

static size_t longest(const struct reader *entry)
{
    return filled_len(entry, REF_RECORD_MAX);
}

static struct ref_result check(const struct reader *entry, const uint8_t *data,
                               size_t len)
{
    return entry->check(entry->lanes, data, len);
}

static void lay(const struct reader *entry, const struct board *b,
                struct data *d)
{
    memset(d->bytes, 0, sizeof d->bytes);
    d->len = filled_len(entry, record_of(b, d->bytes));
    d->bits = 24 + 3 * b->tiles_len;
}

static struct ref_result check_board(const struct reader *entry,
                                     const struct board *b)
{
    struct data d;

    lay(entry, b, &d);
    return check(entry, d.bytes, d.len);
}

/* ---- levels ---- */

/* What is written is read back: here the board itself says what is right. */
static void check_read_back(const struct reader *entry, const struct board *b)
{
    const struct ref_result level = {.version = (unsigned)b->version,
                                     .width = (unsigned)b->width,
                                     .height = (unsigned)b->height,
                                     .par = (unsigned)b->par,
                                     .lanes = (unsigned)entry->lanes};
    const bool taken = b->version <= entry->newest;
    uint8_t written[REF_STRIP_MAX], tiles[REF_TILES_MAX];
    char what[80];

    group_case();
    sprintf(what, "version %zu, %zu by %zu, par %zu", b->version, b->width,
            b->height, b->par);

    const uint64_t result =
        entry->writer->run(entry->lanes, b->version, b->width, b->height,
                           b->par, b->tiles, b->tiles_len, written,
                           sizeof written);

    check_number(entry->read(entry->lanes, written, (size_t)(result >> 48),
                             tiles), taken ? packed(level) : 7, what);
    if (taken && memcmp(tiles, b->tiles, b->tiles_len) != 0)
        group_fail("%s: other tiles were read back", what);
}

static void test_read_back(const struct reader *entry)
{
    struct board b;

    group_begin(entry->name, "every size, read back by the library alone");
    for (size_t w = 1; w <= REF_SIDE_MAX; w++)
        for (size_t h = 1; h <= REF_SIDE_MAX; h++)
            if (w * h >= 2) {
                draw_level(&b, w, h);
                check_read_back(entry, &b);
            }
    group_end();
}

/* Levels, and boards of any codes, which are hardly ever levels. */
static void test_every_size(const struct reader *entry)
{
    struct board b;

    group_begin(entry->name, "every size from 1 by 1 to 31 by 31");
    for (size_t w = 1; w <= REF_SIDE_MAX; w++)
        for (size_t h = 1; h <= REF_SIDE_MAX; h++) {
            draw_level(&b, w, h);
            check_board(entry, &b);
            for (size_t i = 0; i < b.tiles_len; i++)
                b.tiles[i] = (uint8_t)draw_below(8);
            check_board(entry, &b);
        }
    group_end();
}

static void test_every_par(const struct reader *entry)
{
    struct board b;

    group_begin(entry->name, "every par from 0 to 1023");
    draw_level(&b, 4, 3);
    for (b.par = 0; b.par <= REF_PAR_MAX; b.par++) {
        check_board(entry, &b);
        check_read_back(entry, &b);
    }
    group_end();
}

/* All boards of up to four tiles, with codes up to 7: most are no levels. */
static size_t count_small(const struct reader *entry, size_t version)
{
    struct board b = {.version = version, .height = 1, .par = 77};
    size_t boards = 1, levels = 0;

    for (b.width = 1; b.width <= 4; b.width++) {
        b.tiles_len = b.width;
        boards *= 8;
        for (size_t k = 0; k < boards; k++) {
            for (size_t i = 0; i < b.width; i++)
                b.tiles[i] = (uint8_t)(k >> 3 * i & 7);
            levels += check_board(entry, &b).code == 0;
        }
    }
    return levels;
}

static void test_small_boards(const struct reader *entry)
{
    group_begin(entry->name, "every board of one to four tiles");
    check_number(count_small(entry, 1), SMALL_LEVELS, "levels");
    check_number(count_small(entry, 2),
                 entry->newest == 2 ? SMALL_LEVELS_V2 : 0,
                 "levels of version 2");
    group_end();
}

/* One tile of a level changed, and so one count wrong, or a code of 7. */
static void test_changed_tiles(const struct reader *entry)
{
    struct board b;

    group_begin(entry->name, "levels with a tile or two changed");
    for (size_t k = 0; k < scaled(4000); k++) {
        draw_any_level(&b);
        for (size_t changes = draw_between(1, 2); changes > 0; changes--)
            b.tiles[draw_below(b.tiles_len)] = (uint8_t)draw_below(8);
        check_board(entry, &b);
    }
    group_end();
}

/* ---- what is not of the layout ---- */

/* A side of 0 leaves no tiles, and a record too short to be read as one. */
static size_t readable(const struct reader *entry, size_t len)
{
    return len < shortest(entry) ? shortest(entry) : len;
}

static void check_front(const struct reader *entry, unsigned version,
                        size_t width, size_t height)
{
    struct board b;
    struct data d;

    draw_level(&b, width, height);
    lay(entry, &b, &d);
    d.bytes[0] = (uint8_t)(version << 4 | (d.bytes[0] & 0xF));
    check(entry, d.bytes, readable(entry, d.len));
}

static void test_fronts(const struct reader *entry)
{
    group_begin(entry->name, "every version, and sides of 0 and more");
    for (unsigned version = 0; version < 16; version++)
        for (size_t side = 0; side <= REF_SIDE_MAX; side++) {
            check_front(entry, version, side, 0);
            check_front(entry, version, 0, side);
            check_front(entry, version, side, draw_below(32));
        }
    group_end();
}

static size_t draw_other_len(const struct reader *entry)
{
    const size_t unit = unit_of(entry);

    return unit * draw_between(shortest(entry) / unit, longest(entry) / unit);
}

static void test_wrong_lengths(const struct reader *entry)
{
    struct board b;
    struct data d;

    group_begin(entry->name, "too long or too short for its size");
    for (size_t w = 1; w <= REF_SIDE_MAX; w++)
        for (size_t h = 1; h <= REF_SIDE_MAX; h++) {
            draw_level(&b, w, h);
            lay(entry, &b, &d);
            if (d.len > shortest(entry))
                check(entry, d.bytes, d.len - unit_of(entry));
            if (d.len < longest(entry))
                check(entry, d.bytes, d.len + unit_of(entry));
            check(entry, d.bytes, draw_other_len(entry));
            check(entry, d.bytes, draw_below(2) ? shortest(entry)
                                                : longest(entry));
        }
    group_end();
}

static void flip(struct data *d, size_t bit)
{
    d->bytes[bit / 8] ^= (uint8_t)(0x80 >> bit % 8);
}

/* Each bit past the tiles by itself: of the last byte, and of filling bytes. */
static void check_filling(const struct reader *entry, const struct board *b)
{
    struct data d;

    lay(entry, b, &d);
    for (size_t bit = d.bits; bit < 8 * d.len; bit++) {
        flip(&d, bit);
        check(entry, d.bytes, d.len);
        flip(&d, bit);
    }
}

static void test_filling(const struct reader *entry)
{
    struct board b;

    group_begin(entry->name, "every filling bit, set alone");
    for (size_t w = 1; w <= REF_SIDE_MAX; w++)
        for (size_t h = draw_between(1, 3); h <= REF_SIDE_MAX;
             h += draw_between(1, 6)) {
            draw_level(&b, w, h);
            check_filling(entry, &b);
        }
    group_end();
}

/* Filling, a code of 7 and wrong counts, each in one case of two. */
static void check_mixture(const struct reader *entry)
{
    struct board b;
    struct data d;

    draw_any_board(&b);
    if (draw_below(2))
        b.tiles[draw_below(b.tiles_len)] = 7;
    if (draw_below(2))
        b.tiles[draw_below(b.tiles_len)] = (uint8_t)draw_below(8);
    lay(entry, &b, &d);
    if (draw_below(2) && d.bits < 8 * d.len)
        flip(&d, draw_between(d.bits, 8 * d.len - 1));
    if (draw_below(4) == 0)
        flip(&d, draw_below(24));
    check(entry, d.bytes, draw_below(4) ? d.len : draw_other_len(entry));
}

static void test_mixtures(const struct reader *entry)
{
    group_begin(entry->name, "refusals 7 to 10, several at once");
    for (size_t k = 0; k < scaled(6000); k++)
        check_mixture(entry);
    group_end();
}

/* Every length, also those that no level has: random bytes; a front that says
   version 1 or 2; and where there is one, the front of a level of that
   length. */
static void check_random(const struct reader *entry, size_t len)
{
    uint8_t bytes[REF_LAID_MAX], level[REF_RECORD_MAX];
    struct board b;

    draw_bytes(bytes, len);
    check(entry, bytes, len);
    bytes[0] = (uint8_t)(draw_between(1, 2) << 4 | (bytes[0] & 0xF));
    check(entry, bytes, len);
    if (draw_level_for(&b, len, unit_of(entry))) {
        record_of(&b, level);
        memcpy(bytes, level, 3);
        check(entry, bytes, len);
    }
}

static void test_random_bytes(const struct reader *entry)
{
    group_begin(entry->name, "random bytes of every length");
    for (size_t len = shortest(entry); len <= longest(entry);
         len += unit_of(entry))
        for (size_t k = 0; k < scaled(unit_of(entry) * 4); k++)
            check_random(entry, len);
    group_end();
}

/* ---- finished boards ---- */

static struct ref_result check_laid(const void *entry, const struct board *b)
{
    return check_board(entry, b);
}

static void test_finished_boards(const struct reader *entry)
{
    const struct judge j = {entry->name, 7, entry->newest, entry, check_laid};

    test_finished(&j);
}

/* ---- the examples of FORMAT 9, 12.5, 12.13, 12.16 and 12.17 ---- */

static void test_worked_records(const struct reader *entry)
{
    static const struct {
        uint8_t record[REF_LANES_MAX]; /* filled with zeros */
        size_t len;
        struct ref_result result;
    } worked[] = {
        {{0x11, 0x04, 0x05, 0x58}, 4,
         {.version = 1, .width = 2, .height = 1, .par = 5}},
        {{0x21, 0x04, 0x05, 0x58}, 4,
         {.version = 2, .width = 2, .height = 1, .par = 5}},
        {{0x21, 0x08, 0x05, 0x59, 0x70}, 5,
         {.version = 2, .width = 2, .height = 2, .par = 5}},
        {{0x11, 0x04, 0x05, 0x94}, 4, {.code = 10}},
        {{0x21, 0x04, 0x05, 0x94}, 4, {.code = 10}},
        {{0x31, 0x04, 0x05, 0x94}, 4, {.code = 7}},
        {{0x11, 0x04, 0x05, 0x95}, 4, {.code = 8}},
        {{0x21, 0x04, 0x05, 0x95}, 4, {.code = 8}},
        {{0x11, 0x04, 0x05, 0xF4}, 4, {.code = 9}},
        {{0x21, 0x04, 0x05, 0xF4}, 4, {.code = 10}},
        {{0x11, 0x08, 0x05, 0x59, 0x70}, 5, {.code = 9}},
        {{0x11, 0x04, 0x05, 0x24}, 4, {.code = 10}},
    };

    group_begin(entry->name, "the records of FORMAT");
    for (size_t k = 0; k < COUNT(worked); k++) {
        const bool taken = worked[k].record[0] >> 4 <= (int)entry->newest;
        struct ref_result due = {.code = 7};

        if (taken)
            due = worked[k].result;
        if (due.code == 0)
            due.lanes = (unsigned)entry->lanes;
        check_number(packed(check(entry, worked[k].record,
                                  filled_len(entry, worked[k].len))),
                     packed(due), "reference");
    }
    group_end();
}

void test_reader(const struct reader *entry)
{
    test_worked_records(entry);
    test_read_back(entry);
    test_every_size(entry);
    test_every_par(entry);
    test_small_boards(entry);
    test_changed_tiles(entry);
    test_fronts(entry);
    test_wrong_lengths(entry);
    test_filling(entry);
    test_mixtures(entry);
    test_random_bytes(entry);
    test_finished_boards(entry);
}
