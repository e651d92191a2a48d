/* draw.c - random words and random damage, the same in every run. */
#include "draw.h"

#include <string.h>

#include "reference.h"

static uint64_t state;

void draw_seed(uint64_t seed)
{
    state = seed;
}

/* SplitMix64 */
uint64_t draw_u64(void)
{
    uint64_t z = state += 0x9E3779B97F4A7C15u;

    z = (z ^ z >> 30) * 0xBF58476D1CE4E5B9u;
    z = (z ^ z >> 27) * 0x94D049BB133111EBu;
    return z ^ z >> 31;
}

size_t draw_below(size_t limit)
{
    return (size_t)(draw_u64() % limit);
}

size_t draw_between(size_t least, size_t most)
{
    return least + draw_below(most - least + 1);
}

uint8_t draw_byte(void)
{
    return (uint8_t)draw_below(256);
}

uint8_t draw_nonzero(void)
{
    return (uint8_t)draw_between(1, 255);
}

void draw_bytes(uint8_t *bytes, size_t len)
{
    for (size_t i = 0; i < len; i++)
        bytes[i] = draw_byte();
}

static void clear_marks(struct sample *s)
{
    memset(s->marks, 0, sizeof s->marks);
    s->marks_len = s->len;
}

void write_clean(struct sample *s, const uint8_t *data, size_t data_len)
{
    s->len = data_len + REF_CHECK_BYTES;
    ref_word_write(data, data_len, s->word, s->len);
    clear_marks(s);
}

void draw_clean(struct sample *s, size_t len)
{
    uint8_t data[REF_WORD_MAX];

    draw_bytes(data, len - REF_CHECK_BYTES);
    write_clean(s, data, len - REF_CHECK_BYTES);
}

/* Multiply by (t + root): one byte longer, highest power first. */
static void multiply_by_root(uint8_t *word, size_t len, uint8_t root)
{
    word[len] = 0;
    for (size_t i = len; i > 0; i--)
        word[i] ^= ref_product(word[i - 1], root);
}

void draw_all_sums_but(struct sample *s, size_t len, int row)
{
    size_t grown = len - (REF_CHECK_BYTES - 1);

    draw_bytes(s->word, grown);
    for (int other = 0; other < REF_CHECK_BYTES; other++)
        if (other != row)
            multiply_by_root(s->word, grown++, ref_power(other - 2));
    s->len = len;
    clear_marks(s);
}

/* The unmarked cells in random order. */
static void shuffle_unmarked(const struct sample *s, size_t cells[SAMPLE_MAX])
{
    size_t count = 0;

    for (size_t i = 0; i < s->len; i++)
        if (!s->marks[i])
            cells[count++] = i;
    for (size_t left = count; left > 1; left--) {
        const size_t j = draw_below(left);
        const size_t cell = cells[j];

        cells[j] = cells[left - 1];
        cells[left - 1] = cell;
    }
}

enum under_mark draw_under_mark(void)
{
    static const enum under_mark all[] = {RIGHT_BYTE, WRONG_BYTE, ANY_BYTE};

    return all[draw_below(3)];
}

static void change_under_mark(uint8_t *byte, enum under_mark under)
{
    if (under == WRONG_BYTE)
        *byte ^= draw_nonzero();
    if (under == ANY_BYTE)
        *byte = draw_byte();
}

void draw_damage(struct sample *s, size_t wrong, size_t marked,
                 enum under_mark under)
{
    size_t cells[SAMPLE_MAX];

    shuffle_unmarked(s, cells);
    for (size_t k = 0; k < marked; k++) {
        s->marks[cells[k]] = 1;
        change_under_mark(&s->word[cells[k]], under);
    }
    for (size_t k = 0; k < wrong; k++)
        s->word[cells[marked + k]] ^= draw_nonzero();
}
