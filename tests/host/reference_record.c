/* reference_record.c - records as text of zeros and ones. */
#include "reference_record.h"

#include <stdbool.h>
#include <string.h>

/* The bits of a record, as characters, in the order in which they are laid. */
struct text {
    char bits[8 * REF_LAID_MAX];
    size_t len;
};

static void put(struct text *t, size_t value, int bits)
{
    for (int b = bits - 1; b >= 0; b--)
        t->bits[t->len++] = (value & (size_t)1 << b) != 0 ? '1' : '0';
}

static void pack_text(const struct text *t, uint8_t *record)
{
    memset(record, 0, t->len / 8);
    for (size_t p = 0; p < t->len; p++)
        if (t->bits[p] == '1')
            record[p / 8] |= (uint8_t)(0x80 >> p % 8);
}

static void unpack_text(struct text *t, const uint8_t *bytes, size_t len)
{
    t->len = 0;
    for (size_t i = 0; i < len; i++)
        put(t, bytes[i], 8);
}

/* The number spelt by so many bits from place `from` on. */
static unsigned take(const struct text *t, size_t from, int bits)
{
    unsigned value = 0;

    for (int b = 0; b < bits; b++)
        value = 2 * value + (t->bits[from + (size_t)b] == '1');
    return value;
}

static bool is_side(size_t n)
{
    return n != 0 && n <= REF_SIDE_MAX;
}

/* What stands on a tile, by the letters that level editors use. */
static bool stands_on(uint8_t tile, char thing)
{
    static const char *const things[] = {"",   "",  "c",  "g",
                                         "cg", "p", "pg", ""};

    return strchr(things[tile], thing) != NULL;
}

static size_t count(const uint8_t *tiles, size_t len, char thing)
{
    size_t n = 0;

    for (size_t i = 0; i < len; i++)
        n += stands_on(tiles[i], thing);
    return n;
}

/* A crate off its goal stands on a tile on which there is no goal. */
static bool has_crate_off_goal(const uint8_t *tiles, size_t len)
{
    for (size_t i = 0; i < len; i++)
        if (stands_on(tiles[i], 'c') && !stands_on(tiles[i], 'g'))
            return true;
    return false;
}

/* Goals that no crate is for, and crates that no goal is for; pits swallow
   these, and there are pits in version 2. */
static bool has_right_crates(size_t version, size_t crates, size_t goals)
{
    return version == 1 ? crates == goals : crates >= goals;
}

/* 9 or 10, or 0 for tiles that make a level. */
static unsigned refusal_of_tiles(size_t version, const uint8_t *tiles,
                                 size_t len)
{
    const uint8_t most = version == 1 ? 6 : 7;

    for (size_t i = 0; i < len; i++)
        if (tiles[i] > most)
            return 9;
    if (count(tiles, len, 'p') != 1 ||
        !has_right_crates(version, count(tiles, len, 'c'),
                          count(tiles, len, 'g')) ||
        !has_crate_off_goal(tiles, len))
        return 10;
    return 0;
}

static unsigned refusal_of(size_t version, size_t width, size_t height,
                           size_t par, const uint8_t *tiles, size_t tiles_len,
                           size_t record_len)
{
    if (record_len < REF_RECORD_MAX)
        return 4;
    if ((version != 1 && version != 2) || !is_side(width) ||
        !is_side(height) || par > REF_PAR_MAX)
        return 7;
    if (tiles_len != width * height)
        return 8;
    return refusal_of_tiles(version, tiles, tiles_len);
}

static size_t round_up(size_t n, size_t unit)
{
    return (n + unit - 1) / unit * unit;
}

/* Where the fields end and the tiles start, in bits. */
enum { VERSION_AT = 0, WIDTH_AT = 4, HEIGHT_AT = 9, PAR_AT = 14, TILES_AT = 24 };

size_t ref_record_len(size_t tiles)
{
    return round_up(TILES_AT + 3 * tiles, 8) / 8;
}

size_t ref_lay_record(size_t version, size_t width, size_t height, size_t par,
                      const uint8_t *tiles, size_t tiles_len, uint8_t *record)
{
    struct text t = {.len = 0};

    put(&t, version, 4);
    put(&t, width, 5);
    put(&t, height, 5);
    put(&t, par, 10);
    for (size_t i = 0; i < tiles_len; i++)
        put(&t, tiles[i], 3);
    while (t.len % 8 != 0)
        put(&t, 0, 1);
    pack_text(&t, record);
    return t.len / 8;
}

struct ref_result ref_record_write(size_t version, size_t width, size_t height,
                                   size_t par, const uint8_t *tiles,
                                   size_t tiles_len, uint8_t *record,
                                   size_t record_len)
{
    struct ref_result r = {0};

    r.code = refusal_of(version, width, height, par, tiles, tiles_len,
                        record_len);
    if (r.code == 0)
        r.length = (unsigned)ref_lay_record(version, width, height, par, tiles,
                                            tiles_len, record);
    return r;
}

/* ---- reading ---- */

static bool has_filling(const struct text *t, size_t from)
{
    for (size_t p = from; p < t->len; p++)
        if (t->bits[p] == '1')
            return true;
    return false;
}

static bool is_read(unsigned version, enum ref_versions versions)
{
    return version == 1 || (version == 2 && versions == REF_BOTH);
}

struct ref_result ref_level_of(const uint8_t *bytes, size_t len, size_t unit,
                               enum ref_versions versions, uint8_t *tiles)
{
    struct text t;
    uint8_t taken[REF_TILES_MAX];

    unpack_text(&t, bytes, len);

    const struct ref_result level = {.version = take(&t, VERSION_AT, 4),
                                     .width = take(&t, WIDTH_AT, 5),
                                     .height = take(&t, HEIGHT_AT, 5),
                                     .par = take(&t, PAR_AT, 10)};
    const size_t tiles_len = (size_t)level.width * level.height;

    if (!is_read(level.version, versions) || !is_side(level.width) ||
        !is_side(level.height))
        return (struct ref_result){.code = 7};
    if (len != round_up(ref_record_len(tiles_len), unit) ||
        has_filling(&t, TILES_AT + 3 * tiles_len))
        return (struct ref_result){.code = 8};
    for (size_t i = 0; i < tiles_len; i++)
        taken[i] = (uint8_t)take(&t, TILES_AT + 3 * i, 3);

    const unsigned code = refusal_of_tiles(level.version, taken, tiles_len);

    if (code != 0)
        return (struct ref_result){.code = code};
    memcpy(tiles, taken, tiles_len);
    return level;
}

static struct ref_result read_record(const uint8_t *record, size_t record_len,
                                     enum ref_versions versions,
                                     uint8_t *tiles, size_t tiles_len)
{
    if (record_len < REF_RECORD_MIN || record_len > REF_RECORD_MAX)
        return (struct ref_result){.code = 1};
    if (tiles_len < REF_TILES_MAX)
        return (struct ref_result){.code = 4};
    return ref_level_of(record, record_len, 1, versions, tiles);
}

struct ref_result ref_record_read(const uint8_t *record, size_t record_len,
                                  uint8_t *tiles, size_t tiles_len)
{
    return read_record(record, record_len, REF_BOTH, tiles, tiles_len);
}

struct ref_result ref_record_read_v1(const uint8_t *record, size_t record_len,
                                     uint8_t *tiles, size_t tiles_len)
{
    return read_record(record, record_len, REF_FIRST_ONLY, tiles, tiles_len);
}
