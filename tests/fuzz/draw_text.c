/* draw_text.c - inputs for fuzz_text.c: texts with slips, and letters. */
#include <string.h>

#include "draw.h"
#include "fuzz.h"
#include "typed.h"

static void draw_rows(struct typed *t)
{
    struct board b;

    draw_versions(1);
    draw_any_board(&b);
    if (draw_below(4))
        type_ragged_rows(t, &b);
    else
        type_rows(t, &b);
}

size_t draw_input(size_t number, uint8_t input[INPUT_ROOM])
{
    struct typed t = {.len = 0};

    draw_seed(number);
    type_par(&t, draw_below(REF_PAR_MAX + 2));
    if (number % 4)
        draw_rows(&t);
    else
        type_letters(&t, draw_below(40), draw_between(1, 40));
    for (size_t slips = draw_below(4); slips > 0; slips--)
        mistype(&t);
    input[0] = draw_below(8) ? 0 : draw_byte();
    memcpy(input + 1, t.bytes, t.len);
    return t.len + 1;
}
