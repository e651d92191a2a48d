/* draw_strip.c - inputs for fuzz_strip.c: strips with damage, and noise. */
#include <string.h>

#include "boards.h"
#include "draw.h"
#include "fuzz.h"
#include "fuzz_strip.h"

/* The lengths are mostly right, or nothing else would be tried. */
static void draw_head(uint8_t head[HEAD], uint8_t flags)
{
    memset(head, 0, HEAD);
    head[FLAGS_AT] = flags;
    for (size_t i = MARKS_AT; i <= BUFFER_AT; i++)
        if (draw_below(12) == 0)
            head[i] = draw_byte();
    head[WIDTH_AT] = (uint8_t)draw_below(34);
    head[HEIGHT_AT] = (uint8_t)draw_below(34);
    draw_bytes(head + PAR_AT, 2);
    head[PAR_AT + 1] &= 7;
    head[LANES_AT] = draw_below(16) ? (uint8_t)draw_below(ANY_LANES)
                                    : draw_byte();
}

/* The lanes that the head says; where there are no strips of so many, four. */
static size_t lanes_to_lay(const uint8_t head[HEAD])
{
    const size_t lanes = lanes_of(head[LANES_AT]);

    return ref_is_lane_count(lanes) ? lanes : REF_LANES;
}

/* A board's record filled up for a strip, and a few cells to damage. */
static size_t draw_laid(size_t lanes, uint8_t *body)
{
    struct board b;

    draw_any_board(&b);
    memset(body, 0, REF_LAID_MAX);

    const size_t half = lanes * ref_k_of(lanes, record_of(&b, body));

    if (draw_below(4) == 0)
        body[draw_below(half)] ^= draw_nonzero();
    memset(body + half, 0, half);
    for (size_t i = draw_below(2 * lanes + 1); i > 0; i--)
        if (3 * i <= half)
            draw_bytes(body + half + 3 * (i - 1), 3);
    return 2 * half;
}

/* A board's strip with wrong and marked cells, or nothing but noise. */
static size_t draw_halves(size_t lanes, uint8_t *body)
{
    uint8_t data[REF_LAID_MAX] = {0};
    struct board b;

    draw_any_board(&b);

    const size_t k = ref_k_of(lanes, record_of(&b, data));
    const size_t cells = ref_lay_strip(lanes, data, k, body);

    memset(body + cells, 0, cells);
    for (size_t wrong = draw_below(2 * lanes + 1); wrong > 0; wrong--)
        body[draw_below(cells)] = draw_byte();
    for (size_t marked = draw_below(2 * lanes + 1); marked > 0; marked--) {
        const size_t cell = draw_below(cells);

        body[cells + cell] = 1;
        if (draw_below(2))
            body[cell] = draw_byte();
    }
    if (draw_below(16) == 0)
        draw_bytes(body, 2 * cells);
    return 2 * cells;
}

size_t draw_input(size_t number, uint8_t input[INPUT_ROOM])
{
    draw_seed(number);

    const uint8_t flags = (uint8_t)(number % 8 + VERSION * draw_below(8));

    draw_head(input, flags);

    const size_t lanes = lanes_to_lay(input);
    const size_t len = HEAD + (flags & LAID ? draw_laid(lanes, input + HEAD)
                                            : draw_halves(lanes, input + HEAD));

    return draw_below(16) == 0 ? draw_below(len + 1) : len;
}
