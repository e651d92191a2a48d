/* typed.c - texts as people type them, right and wrong. */
#include "typed.h"

#include <stdio.h>
#include <stdlib.h>
#include <string.h>

#include "draw.h"

/* By tile code; floor has two. */
static const char letters[] = "-#$.*@+";

void type_byte(struct typed *t, uint8_t byte, size_t times)
{
    if (TYPED_ROOM - t->len < times)
        abort(); /* the test asks for more than there is room for */
    memset(t->bytes + t->len, byte, times);
    t->len += times;
}

void type_words(struct typed *t, const char *words)
{
    for (; *words != '\0'; words++)
        type_byte(t, (uint8_t)*words, 1);
}

void type_par(struct typed *t, size_t par)
{
    char line[32];

    sprintf(line, "par %zu\n", par);
    type_words(t, line);
}

static void type_tile(struct typed *t, uint8_t tile)
{
    const bool space = tile == 0 && draw_below(2);

    type_byte(t, (uint8_t)(space ? ' ' : letters[tile]), 1);
}

static void type_tiles(struct typed *t, const uint8_t *tiles, size_t len)
{
    for (size_t i = 0; i < len; i++)
        type_tile(t, tiles[i]);
}

/* How many tiles of a row are left without some of the floor at its end. */
static size_t without_floor(const uint8_t *row, size_t width)
{
    size_t len = width;

    while (len > 0 && row[len - 1] == 0 && draw_below(4) != 0)
        len--;
    return len;
}

void type_rows(struct typed *t, const struct board *b)
{
    const size_t whole = draw_below(b->height);

    for (size_t y = 0; y < b->height; y++) {
        const uint8_t *row = b->tiles + y * b->width;

        type_tiles(t, row,
                   y == whole ? b->width : without_floor(row, b->width));
        type_byte(t, '\n', 1);
    }
}

void type_ragged_rows(struct typed *t, const struct board *b)
{
    for (size_t y = 0; y < b->height; y++) {
        const uint8_t *row = b->tiles + y * b->width;

        type_tiles(t, row, without_floor(row, b->width));
        if (draw_below(8) == 0)
            type_byte(t, draw_below(2) ? ' ' : '-', draw_below(4));
        type_byte(t, '\n', 1);
    }
    if (draw_below(4) == 0)
        type_byte(t, '\n', draw_below(3));
}

void type_letters(struct typed *t, size_t rows, size_t longest)
{
    for (size_t y = 0; y < rows; y++) {
        for (size_t x = draw_below(longest + 1); x > 0; x--)
            type_tile(t, (uint8_t)draw_below(sizeof letters - 1));
        type_byte(t, '\n', 1);
    }
}

/* Mostly a byte that belongs in some place of a text, or nearly does. */
static uint8_t draw_slip(void)
{
    static const char likely[] = "-#$.*@+ \n\n\r\t0123456789par_xX,/";

    return draw_below(4) == 0 ? draw_byte()
                              : (uint8_t)likely[draw_below(sizeof likely)];
}

void mistype(struct typed *t)
{
    const size_t place = draw_below(t->len + 1);
    const size_t kind = t->len == TYPED_ROOM ? 0 : draw_below(3);

    if (kind == 2) {
        memmove(t->bytes + place + 1, t->bytes + place, t->len - place);
        t->len++;
        t->bytes[place] = draw_slip();
    } else if (place < t->len && kind == 1) {
        memmove(t->bytes + place, t->bytes + place + 1, t->len - place - 1);
        t->len--;
    } else if (place < t->len) {
        t->bytes[place] = draw_slip();
    }
}
