/*
 * stickers.c - what a sticker may cover: one of each width is put on a strip at
 * every cell, and the strip is read, with the covered cells marked and without.
 *
 * From the top folder, with the library built:
 *   gcc -std=c99 -Iinclude examples/stickers.c target/staticlib/libhost.a -o try
 */
#include <stdbool.h>
#include <stdio.h>
#include <string.h>

#include "zavullimen_strips.h"

/* More lanes bear wider stickers: 2, 4, 8 or 16 may stand here. */
enum { LANES = ZAV_STRIP_LANES, WIDTH = 6, HEIGHT = 4, PAR = 12, COLOUR = 0xEE,
       MOST = ZAV_STICKER_MARKED(LANES) + 2 };

/* The level of game.c: 1 wall, 2 crate, 3 goal, 4 crate on goal, 5 player. */
static const uint8_t level[WIDTH * HEIGHT] = {
    1, 1, 1, 1, 1, 1,
    1, 5, 2, 0, 3, 1,
    1, 0, 4, 0, 0, 1,
    1, 1, 1, 1, 1, 1,
};

static bool is_level(uint64_t result, const uint8_t *tiles)
{
    return zav_level_version(result) == ZAV_LEVEL_V1 &&
           zav_width(result) == WIDTH && zav_height(result) == HEIGHT &&
           zav_par(result) == PAR && memcmp(tiles, level, sizeof level) == 0;
}

enum outcome { READ, REFUSED, ANOTHER, OUTCOMES };

/* One sticker, all of one colour. */
static enum outcome try_sticker(const uint8_t *strip, size_t len, size_t start,
                                size_t cells, bool marked)
{
    static uint8_t tiles[ZAV_TILES_MAX], scratch[ZAV_SCRATCH_MIN];
    uint8_t spoilt[ZAV_STRIP_MAX], marks[ZAV_STRIP_MAX] = {0};

    memcpy(spoilt, strip, len);
    memset(spoilt + start, COLOUR, cells);
    memset(marks + start, marked, cells);

    const uint64_t result = zav_strip_read(LANES, spoilt, len, marks, len,
                                           tiles, sizeof tiles, scratch,
                                           sizeof scratch);

    if (zav_code(result) != ZAV_DONE)
        return REFUSED;
    return is_level(result, tiles) ? READ : ANOTHER;
}

/* At every cell at which it fits on the strip. */
static void print_tries(const uint8_t *strip, size_t len, size_t cells,
                        bool marked)
{
    unsigned count[OUTCOMES] = {0};

    for (size_t start = 0; start + cells <= len; start++)
        count[try_sticker(strip, len, start, cells, marked)]++;
    printf("%10u%10u%10u", count[READ], count[REFUSED], count[ANOTHER]);
}

int main(void)
{
    uint8_t strip[ZAV_STRIP_MAX];
    const uint64_t written = zav_strip_write(LANES, ZAV_LEVEL_V1, WIDTH,
                                             HEIGHT, PAR, level, sizeof level,
                                             strip, sizeof strip);

    if (zav_code(written) != ZAV_DONE) {
        printf("refused %u: %s\n", zav_code(written),
               zav_refusal_text(zav_code(written)));
        return 1;
    }

    const size_t len = zav_length(written);

    /* Cells of the sticker's colour would be right under it. */
    if (memchr(strip, COLOUR, len) != NULL) {
        printf("the strip has the sticker's colour: choose another\n");
        return 1;
    }
    printf("%zu cells in %d lanes: up to %d may be covered, %d if marked\n\n",
           len, LANES, ZAV_STICKER_UNMARKED(LANES), ZAV_STICKER_MARKED(LANES));
    printf("             nobody marked it              marked\n");
    printf("cells      read   refused   another      read   refused   another\n");
    for (size_t cells = 1; cells <= MOST; cells++) {
        printf("%5zu", cells);
        print_tries(strip, len, cells, false);
        print_tries(strip, len, cells, true);
        putchar('\n');
    }
    return 0;
}
