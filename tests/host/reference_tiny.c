/* reference_tiny.c - tiny boards, listed and looked up. */
#include "reference_tiny.h"

#include <stdbool.h>

/* ---- boards as numbers ---- */

uint32_t ref_tiny_all(size_t tiles)
{
    return tiles == 0 ? 1 : 7 * ref_tiny_all(tiles - 1);
}

void ref_tiny_tiles(uint32_t number, uint8_t *tiles, size_t len)
{
    for (size_t i = 0; i < len; i++)
        tiles[i] = (uint8_t)(number / ref_tiny_all(len - 1 - i) % 7);
}

uint32_t ref_tiny_number(const uint8_t *tiles, size_t len)
{
    uint32_t number = 0;

    for (size_t i = 0; i < len; i++)
        number += tiles[i] * ref_tiny_all(len - 1 - i);
    return number;
}

/* ---- all of a size ---- */

static bool is_level(size_t width, size_t height, const uint8_t *tiles)
{
    uint8_t record[REF_RECORD_MAX];

    return ref_record_write(1, width, height, 0, tiles, width * height, record,
                            sizeof record).code == 0;
}

void ref_tiny_list(struct ref_tiny *list, size_t width, size_t height)
{
    const uint32_t all = ref_tiny_all(width * height);
    uint8_t tiles[REF_TINY_MAX];

    list->count = 0;
    for (uint32_t number = 0; number < all; number++) {
        ref_tiny_tiles(number, tiles, width * height);
        if (is_level(width, height, tiles))
            list->numbers[list->count++] = number;
    }
}

const struct ref_tiny *ref_tiny_of(size_t width, size_t height)
{
    static struct ref_tiny lists[REF_TINY_MAX][REF_TINY_MAX];
    static bool known[REF_TINY_MAX][REF_TINY_MAX];
    struct ref_tiny *list = &lists[width - 1][height - 1];

    if (!known[width - 1][height - 1]) {
        ref_tiny_list(list, width, height);
        known[width - 1][height - 1] = true;
    }
    return list;
}

/* ---- the next ---- */

static bool is_tiny(size_t width, size_t height)
{
    return width != 0 && height != 0 && width <= REF_TINY_MAX / height;
}

static unsigned refusal_of_given(size_t tiles, const uint8_t *given,
                                 size_t given_len)
{
    if (given_len != tiles)
        return 8;
    for (size_t i = 0; i < given_len; i++)
        if (given[i] > 6)
            return 9;
    return 0;
}

static unsigned refusal(size_t width, size_t height, uint32_t start,
                        const uint8_t *given, size_t given_len,
                        size_t tiles_len)
{
    if (tiles_len < REF_TILES_MAX)
        return 4;
    if (!is_tiny(width, height))
        return 14;
    return start != 0 ? 0 : refusal_of_given(width * height, given, given_len);
}

/* How many of the list come before the next: none at the start. */
static size_t passed(const struct ref_tiny *list, uint32_t start,
                     const uint8_t *given, size_t given_len)
{
    size_t k = 0;

    if (start != 0)
        return 0;

    const uint32_t number = ref_tiny_number(given, given_len);

    while (k < list->count && list->numbers[k] <= number)
        k++;
    return k;
}

struct ref_result ref_tiny_next(size_t width, size_t height, uint32_t start,
                                const uint8_t *given, size_t given_len,
                                uint8_t *tiles, size_t tiles_len)
{
    struct ref_result r = {
        .code = refusal(width, height, start, given, given_len, tiles_len)};

    if (r.code != 0)
        return r;

    const struct ref_tiny *list = ref_tiny_of(width, height);
    const size_t k = passed(list, start, given, given_len);

    if (k < list->count) {
        r.length = (unsigned)(width * height);
        ref_tiny_tiles(list->numbers[k], tiles, width * height);
    }
    return r;
}
