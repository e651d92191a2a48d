/*
 * game.c - a level on its way through a picture and back, as a game does it.
 *
 * From the top folder, with the library built:
 *   gcc -std=c99 -Iinclude examples/game.c target/staticlib/libhost.a -o game
 */
#include <stdio.h>
#include <string.h>

#include "zavullimen_strips.h"

/* A strip does not say how many lanes it has: whoever writes it and whoever
 * reads it name the same number, 2, 4, 8 or 16. */
enum { LANES = ZAV_STRIP_LANES, WIDTH = 6, HEIGHT = 4, PAR = 12 };

/* By tile code: floor, wall, crate, goal, crate on goal, player, player on
 * goal, and pit. The level has no pit, so that version 1 is enough for it; one
 * that is read may be of version 2. */
static const char letters[] = "-#$.*@+^";

static const char *const drawn[HEIGHT] = {
    "######",
    "#@$-.#",
    "#-*--#",
    "######",
};

/* Tiles are one byte each, row by row. */
static void type_level(uint8_t tiles[WIDTH * HEIGHT])
{
    for (int y = 0; y < HEIGHT; y++)
        for (int x = 0; x < WIDTH; x++)
            tiles[y * WIDTH + x] =
                (uint8_t)(strchr(letters, drawn[y][x]) - letters);
}

static void print_level(uint64_t result, const uint8_t *tiles)
{
    for (unsigned y = 0; y < zav_height(result); y++) {
        for (unsigned x = 0; x < zav_width(result); x++)
            putchar(letters[tiles[y * zav_width(result) + x]]);
        putchar('\n');
    }
    printf("width %u, height %u, par %u, mended %u, repainted %u, wear %u\n",
           zav_width(result), zav_height(result), zav_par(result),
           zav_mended(result), zav_repainted(result), zav_wear(result));
}

/* Lane p mod LANES is where cell p belongs; only refusal 6 has a lane to
 * tell. */
static void print_refusal(uint64_t result)
{
    printf("refused %u: %s", zav_code(result),
           zav_refusal_text(zav_code(result)));
    if (zav_code(result) == ZAV_BEYOND_REACH)
        printf(" in lane %u", zav_lane(result));
    putchar('\n');
}

/* The buffers are as long as any strip needs, whatever its lanes, so they can
 * be kept. */
static void read_picture(const uint8_t *cells, const uint8_t *marks, size_t len)
{
    static uint8_t tiles[ZAV_TILES_MAX], scratch[ZAV_SCRATCH_MIN];
    const uint64_t result = zav_strip_read(LANES, cells, len, marks, len,
                                           tiles, sizeof tiles, scratch,
                                           sizeof scratch);

    if (zav_code(result) == ZAV_DONE)
        print_level(result, tiles);
    else
        print_refusal(result);
}

int main(void)
{
    uint8_t tiles[WIDTH * HEIGHT], strip[ZAV_STRIP_MAX];
    uint8_t marks[ZAV_STRIP_MAX] = {0};

    type_level(tiles);

    const uint64_t written = zav_strip_write(LANES, ZAV_LEVEL_V1, WIDTH,
                                             HEIGHT, PAR, tiles, sizeof tiles,
                                             strip, sizeof strip);

    if (zav_code(written) != ZAV_DONE) {
        print_refusal(written);
        return 1;
    }

    const size_t len = zav_length(written);

    printf("written: %zu cells\n", len);

    /* A chat site spoils one cell; another cannot be made out at all. */
    strip[9] ^= 0x40;
    strip[14] = 0;
    marks[14] = 1;
    printf("\none cell wrong, one marked:\n");
    read_picture(strip, marks, len);

    /* A sticker of one colour over twelve cells: three in every lane. */
    memset(strip + 16, 0xEE, 12);
    printf("\na sticker over twelve cells:\n");
    read_picture(strip, marks, len);

    /* Whoever knows where the sticker is marks its cells. They count as three
     * in each lane instead of six. */
    memset(marks + 16, 1, 12);
    printf("\nthe same with the sticker marked:\n");
    read_picture(strip, marks, len);

    /* A strip that is cut off is no strip. */
    printf("\nthe last cell cut off:\n");
    read_picture(strip, marks, len - 1);
    return 0;
}
