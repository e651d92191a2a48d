/*
 * fuzz_text.c - any bytes, through the text reader and writer and through the
 * second implementation: they must agree in every number and every byte.
 *
 * The first byte of an input says the length of the tile buffer; the others
 * are the text. README.md has the layout.
 */
#include <string.h>

#include "fuzz.h"
#include "harness.h"
#include "test_text.h"
#include "test_writer.h"
#include "zavullimen_texts.h"

/* More than this cannot be lent. */
enum { TEXT_ROOM = 1 << 15 };

/* Rewritten, and the rewritten text read: the same level. */
static void rewrite(const struct board *b)
{
    const struct writer *writer = &writers[TEXT_WRITER];
    uint8_t text[REF_TEXT_MAX], tiles[REF_TILES_MAX];

    check_writing(writer, b, REF_TEXT_MAX);

    const uint64_t written = zav_text_write(b->version, b->width, b->height,
                                            b->par, b->tiles, b->tiles_len,
                                            text, sizeof text);
    const uint64_t level =
        zav_text_read(text, zav_length(written), tiles, sizeof tiles);

    check_number(zav_code(level), ZAV_DONE, "rewritten, code");
    check_number(zav_level_version(level), b->version, "rewritten, version");
    check_number(zav_width(level), b->width, "rewritten, width");
    check_number(zav_height(level), b->height, "rewritten, height");
    check_number(zav_par(level), b->par, "rewritten, par");
    if (memcmp(tiles, b->tiles, b->tiles_len) != 0)
        group_fail("rewritten, other tiles");
}

void try_input(const uint8_t *data, size_t size)
{
    const uint8_t *text = size > 0 ? data + 1 : data;
    const size_t most = size > 0 ? size - 1 : 0;
    const size_t len = most < TEXT_ROOM ? most : TEXT_ROOM;
    struct board b;

    check_text(text, len,
               length_near(REF_TILES_MAX, size > 0 ? data[0] : 0));

    const struct ref_result r =
        ref_text_read(text, len, b.tiles, sizeof b.tiles);

    b.version = r.version;
    b.width = r.width;
    b.height = r.height;
    b.par = r.par;
    b.tiles_len = (size_t)r.width * r.height;
    if (r.code == 0)
        rewrite(&b);
}
