/* test_text.c - the text reader against the second implementation. */
#include "test_text.h"

#include <stdio.h>
#include <string.h>

#include "draw.h"
#include "harness.h"
#include "test_finished.h"
#include "test_reader.h"
#include "typed.h"
#include "zavullimen_texts.h"

static const char name[] = "text reader";

struct ref_result check_text(const uint8_t *text, size_t len, size_t tiles_len)
{
    static const struct bytes_reader entry = {zav_text_read, ref_text_read};

    return check_bytes(&entry, text, len, tiles_len);
}

static struct ref_result check_typed(const struct typed *t)
{
    return check_text(t->bytes, t->len,
                      draw_below(2) ? REF_TILES_MAX : TILES_ROOM);
}

/* ---- buffers ---- */

static void test_tile_buffers(void)
{
    struct board b;

    group_begin(name, "tile buffers of every length");
    for (size_t room = 0; room <= TILES_ROOM; room++) {
        struct typed t = {.len = 0};

        draw_any_level(&b);
        type_par(&t, b.par);
        type_rows(&t, &b);
        check_text(t.bytes, t.len, room);
    }
    group_end();
}

static void check_null(const uint8_t *text, size_t len, uint8_t *tiles,
                       size_t tiles_len, unsigned code)
{
    group_case();
    check_number(zav_text_read(text, len, tiles, tiles_len), code, "NULL");
    check_number(packed(ref_text_read(text, len, tiles, tiles_len)), code,
                 "NULL, reference");
}

static void test_nulls(void)
{
    static const uint8_t right[] = "par 5\n$+\n";
    uint8_t tiles[REF_TILES_MAX];

    group_begin(name, "NULL with length 0");
    check_null(NULL, 0, NULL, 0, 4);
    check_null(NULL, 0, tiles, sizeof tiles, 11);
    check_null(right, sizeof right - 1, NULL, 0, 4);
    group_end();
}

/* ---- levels ---- */

/* What is written is read back: here the board itself says what is right. */
static void check_read_back(const struct board *b, const uint8_t *text,
                            size_t len)
{
    const struct ref_result level = {.version = 1,
                                     .width = (unsigned)b->width,
                                     .height = (unsigned)b->height,
                                     .par = (unsigned)b->par};
    uint8_t tiles[REF_TILES_MAX];
    char what[80];

    group_case();
    sprintf(what, "%zu by %zu, par %zu", b->width, b->height, b->par);
    check_number(zav_text_read(text, len, tiles, sizeof tiles), packed(level),
                 what);
    if (memcmp(tiles, b->tiles, b->tiles_len) != 0)
        group_fail("%s: other tiles were read back", what);
}

/* The length of what the library writes. */
static size_t write_text(const struct board *b, uint8_t text[REF_TEXT_MAX])
{
    return (size_t)(zav_text_write(b->version, b->width, b->height, b->par,
                                   b->tiles, b->tiles_len, text,
                                   REF_TEXT_MAX) >> 48);
}

static void test_read_back(void)
{
    uint8_t text[REF_TEXT_MAX];
    struct board b;

    group_begin(name, "every size, read back by the library alone");
    for (size_t w = 1; w <= REF_SIDE_MAX; w++)
        for (size_t h = 1; h <= REF_SIDE_MAX; h++)
            if (w * h >= 2) {
                draw_level(&b, w, h);
                check_read_back(&b, text, write_text(&b, text));
            }
    group_end();
}

/* Read and written again, by the library alone; the length. */
static size_t rewrite(const struct typed *t, uint8_t text[REF_TEXT_MAX])
{
    struct board b;
    const uint64_t read =
        zav_text_read(t->bytes, t->len, b.tiles, REF_TILES_MAX);

    b.version = zav_level_version(read);
    b.width = zav_width(read);
    b.height = zav_height(read);
    b.par = zav_par(read);
    b.tiles_len = b.width * b.height;
    return write_text(&b, text);
}

/* A level typed in two ways has one text, which is read as that level. */
static void check_two_ways(const struct board *b)
{
    struct typed t = {.len = 0}, u = {.len = 0};
    uint8_t text[REF_TEXT_MAX], other[REF_TEXT_MAX];

    type_par(&t, b->par);
    type_rows(&t, b);
    type_par(&u, b->par);
    type_rows(&u, b);

    const size_t len = rewrite(&t, text);

    if (rewrite(&u, other) != len || memcmp(text, other, len) != 0)
        group_fail("%zu by %zu: two texts of one level", b->width, b->height);
    check_read_back(b, text, len);
    check_typed(&t);
}

static void test_rewriting(void)
{
    struct board b;

    group_begin(name, "a level typed in two ways, and rewritten");
    for (size_t k = 0; k < scaled(4000); k++) {
        draw_any_level(&b);
        check_two_ways(&b);
    }
    group_end();
}

/* All rows of one to four letters: most are no levels. Of two letters 2 are, of
   three 30, of four 300; more than SMALL_LEVELS, as floor has two letters. */
static void test_small_boards(void)
{
    static const char letters[] = "-#$.*@+ ";
    size_t boards = 1, levels = 0;

    group_begin(name, "every row of one to four letters");
    for (size_t n = 1; n <= 4; n++) {
        boards *= 8;
        for (size_t k = 0; k < boards; k++) {
            struct typed t = {.len = 0};

            type_par(&t, 12);
            for (size_t i = 0; i < n; i++)
                type_byte(&t, (uint8_t)letters[k >> 3 * i & 7], 1);
            type_byte(&t, '\n', 1);
            levels += check_typed(&t).code == 0;
        }
    }
    check_number(levels, 2 + 30 + 300, "levels");
    group_end();
}

/* ---- finished boards ---- */

static struct ref_result check_board(const void *entry, const struct board *b)
{
    struct typed t = {.len = 0};

    (void)entry;
    type_par(&t, b->par);
    type_rows(&t, b);
    return check_typed(&t);
}

/* No letter stands for a code above 6. */
static void test_finished_boards(void)
{
    const struct judge j = {name, 6, 1, NULL, check_board};

    test_finished(&j);
}

/* ---- first lines ---- */

/* The number says by itself whether it is a par. */
static void test_every_number(void)
{
    char words[64];

    group_begin(name, "every number to 10999, and with leading zeros");
    for (unsigned n = 0; n < 11000; n++)
        for (int digits = 1; digits <= 5; digits++) {
            struct typed t = {.len = 0};

            sprintf(words, "%0*u", digits, n);
            if (digits > 1 && words[0] != '0')
                continue; /* this one was there already */
            type_words(&t, "par ");
            type_words(&t, words);
            type_words(&t, "\n$+\n");
            check_number(check_typed(&t).code,
                         digits == 1 && n <= REF_PAR_MAX ? 0 : 11, words);
        }
    group_end();
}

static const char *draw_of(const char *const *all, size_t count)
{
    /* The first is the right one. */
    return all[draw_below(2) ? 0 : draw_below(count)];
}

static void test_first_lines(void)
{
    static const char *const words[] = {"par", "Par", "PAR", "pa", "parr", "",
                                        " par", "#par", "\npar", "par par"};
    static const char *const gaps[] = {" ", "", "  ", "\t", "-", ":", "\n"};
    static const char *const numbers[] = {
        "5", "0", "00", "10", "999", "1000", "1023", "1024", "1033", "1123",
        "2000", "9999", "10000", "0005", "-1", "+1", "0x5", "1e2", "12y4",
        "5.0", "", "4294967296", "18446744073709551616"};
    static const char *const ends[] = {"\n", "", " \n", "\r\n", "\t\n", "x\n",
                                       "\n\n", "/", ":\n", "#\n"};

    group_begin(name, "first lines of all kinds");
    for (size_t k = 0; k < scaled(20000); k++) {
        struct typed t = {.len = 0};

        type_words(&t, draw_of(words, COUNT(words)));
        type_words(&t, draw_of(gaps, COUNT(gaps)));
        type_words(&t, numbers[draw_below(COUNT(numbers))]);
        type_words(&t, draw_of(ends, COUNT(ends)));
        if (draw_below(4))
            type_words(&t, "$+\n");
        check_typed(&t);
    }
    group_end();
}

/* ---- texts that are not as they should be ---- */

static void check_each_byte(const struct typed *right, size_t place)
{
    for (unsigned byte = 0; byte < 256; byte++) {
        struct typed t = *right;

        t.bytes[place] = (uint8_t)byte;
        check_typed(&t);
        memcpy(t.bytes + place + 1, right->bytes + place, right->len - place);
        t.len++;
        check_typed(&t);
    }
}

/* A byte changed to each other, each byte put in, one left out, and the text
   cut off: in every place. */
static void test_every_slip(void)
{
    struct typed right = {.len = 0};

    group_begin(name, "every byte in every place of a text");
    type_words(&right, "par 102\n#+ \n-$\n.$*\n");
    check_number(check_typed(&right).code, 0, "without a slip");
    for (size_t place = 0; place < right.len; place++) {
        struct typed t = right;

        check_each_byte(&right, place);
        memmove(t.bytes + place, t.bytes + place + 1, t.len - place - 1);
        t.len--;
        check_typed(&t);
        t = right;
        t.len = place;
        check_typed(&t);
    }
    group_end();
}

/* Rows that are longer and shorter than they were, and up to three slips. */
static void test_slips(void)
{
    struct board b;

    group_begin(name, "ragged texts with up to three slips");
    for (size_t k = 0; k < scaled(15000); k++) {
        struct typed t = {.len = 0};

        draw_any_board(&b);
        type_par(&t, b.par);
        type_ragged_rows(&t, &b);
        for (size_t slips = draw_below(4); slips > 0; slips--)
            mistype(&t);
        check_typed(&t);
    }
    group_end();
}

/* From no row to 40, of up to as many letters, one row the longest. */
static void check_size(size_t rows, size_t longest)
{
    struct typed t = {.len = 0};
    const size_t long_row = rows > 0 ? draw_below(rows) : 0;

    type_par(&t, draw_below(REF_PAR_MAX + 1));
    for (size_t y = 0; y < rows; y++) {
        type_words(&t, y == long_row && longest >= 2 ? "$+" : "");
        type_byte(&t, draw_below(2) ? ' ' : '#',
                  y != long_row ? draw_below(longest + 1)
                                : longest >= 2 ? longest - 2 : longest);
        type_byte(&t, '\n', 1);
    }
    if (draw_below(6) == 0)
        mistype(&t);
    check_typed(&t);
}

static void test_sizes(void)
{
    group_begin(name, "sizes from no row to 40 rows of 40 letters");
    for (size_t rows = 0; rows <= 40; rows++)
        for (size_t longest = 0; longest <= 40; longest++)
            for (size_t k = 0; k < scaled(4); k++)
                check_size(rows, longest);
    group_end();
}

/* Hundreds of rows, or letters in a row, and now and then a slip among them;
   numbers of eight bits would come round to a legal size. */
static void test_long_texts(void)
{
    group_begin(name, "texts of hundreds of rows or letters in a row");
    for (size_t k = 0; k < scaled(3000); k++) {
        struct typed t = {.len = 0};
        const size_t rows = draw_between(1, 400);

        type_par(&t, draw_below(REF_PAR_MAX + 1));
        type_words(&t, "$+\n");
        if (draw_below(2))
            type_letters(&t, rows, draw_below(16));
        else
            type_byte(&t, '#', draw_between(200, 600));
        type_byte(&t, '\n', draw_below(8) ? 1 : 0);
        if (draw_below(3) == 0)
            mistype(&t);
        check_typed(&t);
    }
    group_end();
}

/* "$+" and so many letters more, and so many line feeds after them; longer
   than what can be lent. */
static void check_many(uint8_t *text, size_t letters, size_t feeds)
{
    static const char front[] = "par 5\n$+";
    const size_t len = strlen(front) + letters + feeds;
    uint8_t tiles[REF_TILES_MAX], reference[REF_TILES_MAX];
    char what[80];

    group_case();
    sprintf(what, "%zu letters and %zu line feeds more", letters, feeds);
    memcpy(text, front, strlen(front));
    memset(text + strlen(front), '#', letters);
    memset(text + strlen(front) + letters, '\n', feeds);
    check_number(zav_text_read(text, len, tiles, sizeof tiles),
                 packed(ref_text_read(text, len, reference, sizeof reference)),
                 what);
}

/* Counts that a narrower number would bring round to those of a level. */
static void test_many(void)
{
    static const size_t past[] = {(size_t)1 << 8, (size_t)1 << 9,
                                  (size_t)1 << 16, (size_t)1 << 17};
    const size_t most = (size_t)1 << 19;
    uint8_t *text = map_scratch(most);

    group_begin(name, "rows and letters past 2^8 and 2^16");
    for (size_t k = 0; k < COUNT(past); k++)
        for (size_t more = 0; more < 40; more++) {
            check_many(text, past[k] + more - 2, 1);
            check_many(text, 0, past[k] + more);
            check_many(text, past[k] + more - 2, past[k] + more);
        }
    group_end();
    unmap_long(text, most);
}

/* Letters and line feeds after a good first line; and any bytes at all. */
static void test_noise(void)
{
    static const char likely[] = "-#$.*@+ -- \n";

    group_begin(name, "letters and bytes at random");
    for (size_t k = 0; k < scaled(10000); k++) {
        struct typed t = {.len = 0};

        if (draw_below(4))
            type_par(&t, draw_below(REF_PAR_MAX + 1));
        for (size_t n = draw_below(draw_below(2) ? 12 : 400); n > 0; n--)
            type_byte(&t, draw_below(400) == 0
                              ? draw_byte()
                              : (uint8_t)likely[draw_below(sizeof likely - 1)],
                      1);
        if (draw_below(4))
            type_byte(&t, '\n', 1);
        if (draw_below(8) == 0)
            draw_bytes(t.bytes, t.len);
        check_typed(&t);
    }
    group_end();
}

/* A good text and zeros after it, to past 2^32: no length may be cut to that
   of the text alone. */
static void test_past(void)
{
    static const size_t past[] = {(size_t)1 << 8, (size_t)1 << 16,
                                  (size_t)1 << 31, (size_t)1 << 32};
    static const char right[] = "par 5\n$+\n";
    const size_t len = strlen(right), most = ((size_t)1 << 32) + len;
    uint8_t *text = map_scratch(most), tiles[REF_TILES_MAX];

    group_begin(name, "a text and zeros past 2^8, 2^16, 2^31 and 2^32");
    memcpy(text, right, len);
    check_number(zav_code(zav_text_read(text, len, tiles, sizeof tiles)), 0,
                 "the text alone");
    for (size_t k = 0; k < COUNT(past); k++) {
        group_case();
        check_number(zav_text_read(text, past[k] + len, tiles, sizeof tiles),
                     11, "zeros after it");
    }
    group_end();
    unmap_long(text, most);
}

/* Texts are of version 1, and so are the boards that are typed. */
void test_text(void)
{
    draw_versions(1);
    test_tile_buffers();
    test_nulls();
    test_read_back();
    test_rewriting();
    test_small_boards();
    test_finished_boards();
    test_every_number();
    test_first_lines();
    test_every_slip();
    test_slips();
    test_sizes();
    test_long_texts();
    test_many();
    test_noise();
    test_past();
    draw_versions(REF_NEWEST);
}
