/*
 * editor.c - a damaged strip drawn as it ought to be, as a picture editor does
 * it: which of its cells were mended, and which were repainted.
 *
 * From the top folder, with the library built:
 *   gcc -std=c99 -Iinclude examples/editor.c target/staticlib/libhost.a -o edit
 */
#include <stdbool.h>
#include <stdio.h>
#include <string.h>

#include "zavullimen_strips.h"

/* A strip does not say how many lanes it has; whoever sends it does. */
enum { LANES = ZAV_STRIP_LANES, WIDTH = 6, HEIGHT = 4, PAR = 12 };

/* The level of game.c: 1 wall, 2 crate, 3 goal, 4 crate on goal, 5 player. */
static const uint8_t tiles[WIDTH * HEIGHT] = {
    1, 1, 1, 1, 1, 1,
    1, 5, 2, 0, 3, 1,
    1, 0, 4, 0, 0, 1,
    1, 1, 1, 1, 1, 1,
};

/* What the editor is given: cells, and marks for those that it cannot trust. */
struct picture {
    uint8_t cells[ZAV_STRIP_MAX];
    uint8_t marks[ZAV_STRIP_MAX];
    size_t len;
};

/* A sticker over six cells, all of them marked; two more cells spoilt, which
 * nobody knows of; and one marked for nothing, as it is right. */
static void damage(struct picture *p)
{
    memset(p->cells + 12, 0xEE, 6);
    memset(p->marks + 12, 1, 6);
    p->cells[9] ^= 0x40;
    p->cells[20] ^= 0x01;
    p->marks[25] = 1;
}

/* The strip within reach is the one that is written for the level read, with
 * the lanes read. True if there is one; the reader's answer says how many cells
 * differ. */
static bool redraw(const struct picture *p, uint8_t drawn[ZAV_STRIP_MAX],
                   uint64_t *answer)
{
    static uint8_t level[ZAV_TILES_MAX], scratch[ZAV_SCRATCH_MIN];

    *answer = zav_strip_read(LANES, p->cells, p->len, p->marks, p->len, level,
                             sizeof level, scratch, sizeof scratch);
    if (zav_code(*answer) != ZAV_DONE)
        return false;

    const size_t width = zav_width(*answer), height = zav_height(*answer);

    zav_strip_write(zav_lanes(*answer), zav_level_version(*answer), width,
                    height, zav_par(*answer), level, width * height, drawn,
                    ZAV_STRIP_MAX);
    return true;
}

/* An editor would highlight them. */
static void print_cell(const struct picture *p, const uint8_t *drawn, size_t i)
{
    if (p->cells[i] != drawn[i])
        printf("cell %2zu: %02X becomes %02X, %s\n", i, p->cells[i], drawn[i],
               p->marks[i] ? "repainted" : "mended");
    else if (p->marks[i])
        printf("cell %2zu: %02X stays, marked and right\n", i, p->cells[i]);
}

static unsigned count(const struct picture *p, const uint8_t *drawn,
                      uint8_t mark)
{
    unsigned n = 0;

    for (size_t i = 0; i < p->len; i++)
        n += p->cells[i] != drawn[i] && p->marks[i] == mark;
    return n;
}

int main(void)
{
    struct picture p = {.len = 0};
    uint8_t drawn[ZAV_STRIP_MAX];
    uint64_t answer;

    p.len = zav_length(zav_strip_write(LANES, ZAV_LEVEL_V1, WIDTH, HEIGHT, PAR,
                                       tiles, sizeof tiles, p.cells,
                                       sizeof p.cells));
    damage(&p);
    if (!redraw(&p, drawn, &answer)) {
        printf("refused %u: %s\n", zav_code(answer),
               zav_refusal_text(zav_code(answer)));
        return 1;
    }

    for (size_t i = 0; i < p.len; i++)
        print_cell(&p, drawn, i);
    printf("told by the reader: mended %u, repainted %u\n", zav_mended(answer),
           zav_repainted(answer));

    const bool agree = count(&p, drawn, 0) == zav_mended(answer) &&
                       count(&p, drawn, 1) == zav_repainted(answer);

    printf("counted cell by cell: %s\n", agree ? "the same" : "not the same");
    return agree ? 0 : 1;
}
