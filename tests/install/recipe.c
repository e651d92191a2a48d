/*
 * recipe.c - the lines of docs/C-INTERFACE.md that draw a mended strip and read
 * two pictures, tried on the level of FORMAT 12.13, and those that go through
 * all boards of a size. recipe.h has them as they stand on the page.
 */
#include "recipe.h"

#include <stdio.h>
#include <string.h>

enum { LEN = 24 };

static uint8_t written[ZAV_STRIP_MAX], strip[LEN], marks[LEN];
static char changed[LEN];

/* How many cells the recipe gave this sign. */
static unsigned count(char sign)
{
    unsigned n = 0;

    for (size_t p = 0; p < LEN; p++)
        n += changed[p] == sign;
    return n;
}

static uint64_t read_strip(void)
{
    static uint8_t tiles[ZAV_TILES_MAX], scratch[ZAV_SCRATCH_MIN];

    return zav_strip_read(ZAV_STRIP_LANES, strip, LEN, marks, LEN, tiles,
                          sizeof tiles, scratch, sizeof scratch);
}

/* Cells 0, 1 and 7 are wrong, and the last two of them marked; cell 2 is marked
 * and right. */
static bool draws(void)
{
    static const char expected[LEN] = {'m', 'r', 0, 0, 0, 0, 0, 'r'};

    strip[0] ^= 1;
    strip[1] ^= 1;
    strip[7] ^= 1;
    marks[1] = marks[2] = marks[7] = 1;

    const uint64_t told = read_strip();

    return redraw(strip, LEN, marks, changed) &&
           memcmp(strip, written, LEN) == 0 &&
           memcmp(changed, expected, LEN) == 0 &&
           count('m') == zav_mended(told) && count('r') == zav_repainted(told);
}

/* Three wrong cells in lane 3: refused, and the strip stays. */
static bool refuses(void)
{
    uint8_t before[LEN];

    memset(marks, 0, LEN);
    for (size_t p = 3; p <= 11; p += 4)
        strip[p] ^= 1;
    memcpy(before, strip, LEN);
    return !redraw(strip, LEN, marks, changed) &&
           memcmp(strip, before, LEN) == 0;
}

/* A picture of the strip in which a whole lane is covered and marked. */
struct covered {
    uint8_t cells[LEN], marks[LEN];
};

static struct covered cover(size_t lane)
{
    struct covered c = {.marks = {0}};

    memcpy(c.cells, written, LEN);
    for (size_t p = lane; p < LEN; p += ZAV_STRIP_LANES) {
        c.cells[p] = 0xEE;
        c.marks[p] = 1;
    }
    return c;
}

static uint64_t read_pair(const struct covered *a, const struct covered *b,
                          size_t b_len, uint8_t tiles[ZAV_TILES_MAX])
{
    return read_both(a->cells, a->marks, LEN, b->cells, b->marks, b_len, tiles);
}

/* One picture with a copy of itself is beyond reach; with one that is covered
 * elsewhere it is read; with one of another length it is not pooled. */
static bool pools(void)
{
    const struct covered a = cover(0), b = cover(1), copy = a;
    uint8_t tiles[ZAV_TILES_MAX];

    return zav_code(read_pair(&a, &copy, LEN, tiles)) == ZAV_BEYOND_REACH &&
           zav_code(read_pair(&a, &b, LEN - 1, tiles)) == ZAV_BAD_LENGTH &&
           zav_code(read_pair(&a, &b, LEN, tiles)) == ZAV_DONE &&
           tiles[0] == 2 && tiles[1] == 6;
}

/* The boards of a walk, as one number after another in base 7. */
struct walked {
    size_t tiles, boards;
    unsigned long last;
    bool rising;
};

static void note(const uint8_t *tiles, void *with)
{
    struct walked *w = with;
    unsigned long number = 0;

    for (size_t i = 0; i < w->tiles; i++)
        number = 7 * number + tiles[i];
    w->rising = w->rising && (w->boards == 0 || number > w->last);
    w->last = number;
    w->boards++;
}

/* Of two tiles there are two boards, and the last has the number 44; of one
 * there is none; seven are too many. */
static bool walks(void)
{
    struct walked two = {2, 0, 0, true}, one = {1, 0, 0, true};

    return each_board(2, 1, note, &two) == ZAV_DONE && two.boards == 2 &&
           two.last == 44 && two.rising &&
           each_board(1, 1, note, &one) == ZAV_DONE && one.boards == 0 &&
           each_board(7, 1, note, &one) == ZAV_NOT_TINY && one.boards == 0;
}

int main(void)
{
    static const uint8_t level[] = {2, 6};

    zav_strip_write(ZAV_STRIP_LANES, ZAV_LEVEL_V1, 2, 1, 5, level, sizeof level,
                    written, sizeof written);
    memcpy(strip, written, LEN);
    if (!draws()) {
        puts("the mended strip or its counts are not as they ought to be");
        return 1;
    }
    if (!refuses()) {
        puts("a strip beyond reach is drawn");
        return 1;
    }
    if (!pools()) {
        puts("two pictures are not read as they ought to be");
        return 1;
    }
    if (!walks()) {
        puts("the boards of a size are not walked as they ought to be");
        return 1;
    }
    return 0;
}
