/* draw_pool.c - inputs for fuzz_pool.c: two pictures of a strip, and noise. */
#include <string.h>

#include "boards.h"
#include "draw.h"
#include "fuzz.h"
#include "fuzz_pool.h"

/* The lengths are mostly right, or nothing else would be tried. */
static void draw_head(uint8_t head[HEAD], uint8_t flags)
{
    memset(head, 0, HEAD);
    head[FLAGS_AT] = flags;
    for (size_t i = FIRST_MARKS_AT; i < HEAD; i++)
        if (draw_below(16) == 0)
            head[i] = draw_byte();
}

/* A run of marked cells, or some anywhere; some bytes of either are changed. */
static void cover(uint8_t *cells, uint8_t *marks, size_t len)
{
    const size_t start = draw_below(len), end = draw_between(start, len);

    for (size_t i = start; i < end; i++)
        marks[i] = draw_below(4) > 0;
    for (size_t changed = draw_below(9); changed > 0; changed--)
        cells[draw_below(len)] = draw_byte();
}

size_t draw_input(size_t number, uint8_t input[INPUT_ROOM])
{
    uint8_t data[REF_RECORD_MAX] = {0}, *first = input + HEAD;
    struct board b;

    draw_seed(number);
    draw_head(input, (uint8_t)(number % 2));
    draw_any_board(&b);

    const size_t k = ref_k_of(REF_LANES, record_of(&b, data));
    const size_t cells = ref_lay_strip(REF_LANES, data, k, first);
    uint8_t *second = first + 2 * cells;
    const size_t len = HEAD + 4 * cells;

    memset(first + cells, 0, cells);
    memcpy(second, first, 2 * cells);
    cover(first, first + cells, cells);
    cover(second, second + cells, cells);
    if (draw_below(16) == 0)
        draw_bytes(first, 4 * cells);
    return draw_below(16) == 0 ? draw_below(len + 1) : len;
}
