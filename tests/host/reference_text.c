/* reference_text.c - texts cut into lines, and the lines into letters. */
#include "reference_text.h"

#include <stdbool.h>
#include <stdio.h>
#include <stdlib.h>
#include <string.h>

/* By tile code; a space is floor too. */
static const char letters[] = {'-', '#', '$', '.', '*', '@', '+'};

/* Texts have no letter for a pit. */
enum { TYPED_VERSION = 1 };

/* 7 to 10, or 0: what is no level as a record is none as a text. */
static unsigned refusal_of(size_t width, size_t height, size_t par,
                           const uint8_t *tiles, size_t tiles_len)
{
    uint8_t record[REF_RECORD_MAX];

    return ref_record_write(TYPED_VERSION, width, height, par, tiles, tiles_len,
                            record, sizeof record).code;
}

/* ---- writing ---- */

static size_t lay_text(size_t width, size_t height, size_t par,
                       const uint8_t *tiles, uint8_t *text)
{
    char first[32];
    size_t len = (size_t)sprintf(first, "par %zu\n", par);

    memcpy(text, first, len);
    for (size_t y = 0; y < height; y++) {
        for (size_t x = 0; x < width; x++)
            text[len++] = (uint8_t)letters[tiles[y * width + x]];
        text[len++] = '\n';
    }
    return len;
}

struct ref_result ref_text_write(size_t version, size_t width, size_t height,
                                 size_t par, const uint8_t *tiles,
                                 size_t tiles_len, uint8_t *text,
                                 size_t text_len)
{
    struct ref_result r = {0};

    if (text_len < REF_TEXT_MAX)
        return (struct ref_result){.code = 4};
    if (version != TYPED_VERSION)
        return (struct ref_result){.code = 7};
    r.code = refusal_of(width, height, par, tiles, tiles_len);
    if (r.code == 0)
        r.length = (unsigned)lay_text(width, height, par, tiles, text);
    return r;
}

/* ---- reading ---- */

/* A line without its line feed. */
struct line {
    const uint8_t *at;
    size_t len;
};

/* A text cut into lines: what its first line says, and the rows. More rows
   than a level has are counted and not kept. */
struct cut {
    size_t par;
    struct line row[REF_SIDE_MAX];
    size_t rows, longest;
};

/* The line in front of these bytes, the last of which is a line feed. */
static struct line first_of(const uint8_t *bytes)
{
    struct line l = {bytes, 0};

    while (bytes[l.len] != '\n')
        l.len++;
    return l;
}

/* There is one way to write a number: as it is printed. So take any number,
   print it, and compare. */
static bool says_par(struct line l, size_t *par)
{
    char typed[16] = "", printed[32];

    if (l.len >= sizeof typed)
        return false;
    memcpy(typed, l.at, l.len);
    *par = strtoul(typed + strlen("par "), NULL, 10);
    sprintf(printed, "par %zu", *par);
    return *par <= REF_PAR_MAX && l.len == strlen(printed) &&
           memcmp(l.at, printed, l.len) == 0;
}

/* False if the letter stands for no tile. */
static bool take_letter(uint8_t letter, uint8_t *tile)
{
    *tile = 0;
    if (letter == ' ')
        return true;
    while (*tile < sizeof letters && letters[*tile] != (char)letter)
        ++*tile;
    return *tile < sizeof letters;
}

static bool is_row(struct line l)
{
    uint8_t tile;

    for (size_t i = 0; i < l.len; i++)
        if (!take_letter(l.at[i], &tile))
            return false;
    return true;
}

static void add_row(struct cut *c, struct line l)
{
    if (c->rows < REF_SIDE_MAX)
        c->row[c->rows] = l;
    c->rows++;
    if (c->longest < l.len)
        c->longest = l.len;
}

/* False if it is no text. */
static bool cut(struct cut *c, const uint8_t *text, size_t len)
{
    if (len == 0 || text[len - 1] != '\n')
        return false;

    struct line l = first_of(text);
    size_t taken = l.len + 1;

    c->rows = c->longest = 0;
    if (!says_par(l, &c->par))
        return false;
    for (; taken < len; taken += l.len + 1) {
        l = first_of(text + taken);
        if (!is_row(l))
            return false;
        add_row(c, l);
    }
    return true;
}

/* Floor everywhere, and then what was typed. */
static void lay_tiles(const struct cut *c, uint8_t tiles[REF_TILES_MAX])
{
    memset(tiles, 0, REF_TILES_MAX);
    for (size_t y = 0; y < c->rows; y++)
        for (size_t x = 0; x < c->row[y].len; x++)
            take_letter(c->row[y].at[x], &tiles[y * c->longest + x]);
}

struct ref_result ref_text_read(const uint8_t *text, size_t text_len,
                                uint8_t *tiles, size_t tiles_len)
{
    uint8_t laid[REF_TILES_MAX];
    struct cut c;

    if (tiles_len < REF_TILES_MAX)
        return (struct ref_result){.code = 4};
    if (!cut(&c, text, text_len))
        return (struct ref_result){.code = 11};
    if (c.rows == 0 || c.rows > REF_SIDE_MAX || c.longest == 0 ||
        c.longest > REF_SIDE_MAX)
        return (struct ref_result){.code = 12};
    lay_tiles(&c, laid);

    const size_t count = c.longest * c.rows;
    const unsigned code = refusal_of(c.longest, c.rows, c.par, laid, count);

    if (code != 0)
        return (struct ref_result){.code = code};
    memcpy(tiles, laid, count);
    return (struct ref_result){.version = TYPED_VERSION,
                               .width = (unsigned)c.longest,
                               .height = (unsigned)c.rows,
                               .par = (unsigned)c.par};
}
