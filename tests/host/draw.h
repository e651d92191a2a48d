/*
 * draw.h - random words and random damage, the same in every run.
 */
#ifndef DRAW_H
#define DRAW_H

#include <stddef.h>
#include <stdint.h>

/* Long enough for a word that is too long. */
enum { SAMPLE_MAX = 512 };

/* What a repair is given. */
struct sample {
    uint8_t word[SAMPLE_MAX];
    size_t len;
    uint8_t marks[SAMPLE_MAX];
    size_t marks_len;
};

void draw_seed(uint64_t seed);
uint64_t draw_u64(void);
size_t draw_below(size_t limit);
size_t draw_between(size_t least, size_t most);
uint8_t draw_byte(void);
uint8_t draw_nonzero(void);
void draw_bytes(uint8_t *bytes, size_t len);

/* The clean word with this data, and no marks. */
void write_clean(struct sample *s, const uint8_t *data, size_t data_len);

/* A clean word of this length with random data, and no marks. */
void draw_clean(struct sample *s, size_t len);

/*
 * A random word in which every sum but one is zero; that one is S_(row - 2).
 * No marks. A reader that forgets this sum takes the word for a clean one.
 */
void draw_all_sums_but(struct sample *s, size_t len, int row);

enum under_mark { RIGHT_BYTE, WRONG_BYTE, ANY_BYTE };
enum under_mark draw_under_mark(void);

/*
 * Mark `marked` cells and change `wrong` others, chosen among the cells not
 * marked before. The cells must be there.
 */
void draw_damage(struct sample *s, size_t wrong, size_t marked,
                 enum under_mark under);

#endif
