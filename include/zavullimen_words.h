/*
 * zavullimen_words.h - words with five check bytes, as a C host calls them.
 *
 * A word is 1 to 250 data bytes followed by five check bytes. Repair finds
 * the clean word within reach: f marked cells and e wrong unmarked cells,
 * 2e + f at most 5.
 *
 * Every buffer is a pointer followed by its length in bytes. NULL is allowed
 * where the length is 0. The buffers of one call must not overlap. A refused
 * call writes to no buffer.
 *
 * FORMAT.md says exactly what each function does, and its section 9 which
 * refusals it gives, when, and in which order.
 */
#ifndef ZAVULLIMEN_WORDS_H
#define ZAVULLIMEN_WORDS_H

#include <stddef.h>
#include <stdint.h>

#ifdef __cplusplus
extern "C" {
#endif

#define ZAV_CHECK_BYTES 5   /* check bytes at the end of each word */
#define ZAV_DATA_MIN 1      /* data bytes in a word */
#define ZAV_DATA_MAX 250
#define ZAV_WORD_MIN 6      /* bytes in a word */
#define ZAV_WORD_MAX 255
#define ZAV_LANE_MAX 187    /* cells in a lane; at least ZAV_WORD_MIN */

/* The code of a result: ZAV_DONE, or the number of the refusal. */
enum zav_result_code {
    ZAV_DONE = 0,
    ZAV_BAD_LENGTH = 1,
    ZAV_BAD_MARKS_LENGTH = 2,
    ZAV_BAD_MARK = 3,
    ZAV_BAD_BUFFER_LENGTH = 4,
    ZAV_SHORT_SCRATCH = 5,
    ZAV_BEYOND_REACH = 6,
    ZAV_OUT_OF_RANGE = 7,
    ZAV_BAD_SIZE = 8,
    ZAV_BAD_TILE = 9,
    ZAV_NOT_PLAYABLE = 10,
    ZAV_BAD_TEXT = 11,
    ZAV_BAD_ROWS = 12,
    ZAV_UNEQUAL_STRIPS = 13,
    ZAV_NOT_TINY = 14,
    ZAV_BAD_LANES = 15
};

/* What a code says, for people; the text may change, the code does not. */
static inline const char *zav_refusal_text(unsigned code)
{
    switch (code) {
    case ZAV_DONE:
        return "no refusal";
    case ZAV_BAD_LENGTH:
        return "this length is not allowed";
    case ZAV_BAD_MARKS_LENGTH:
        return "there is not one mark for each cell";
    case ZAV_BAD_MARK:
        return "a mark is neither 0 nor 1";
    case ZAV_BAD_BUFFER_LENGTH:
        return "the buffer for the result has the wrong length";
    case ZAV_SHORT_SCRATCH:
        return "the scratch is too short";
    case ZAV_BEYOND_REACH:
        return "too many cells are wrong or marked";
    case ZAV_OUT_OF_RANGE:
        return "the version is not one that is taken here, or the width, "
               "height or par is out of range";
    case ZAV_BAD_SIZE:
        return "the length does not fit the size, or the filling is not zero";
    case ZAV_BAD_TILE:
        return "a tile code is none of this version";
    case ZAV_NOT_PLAYABLE:
        return "not one player, fewer crates than goals (in version 1 also "
               "more), or no crate off its goal";
    case ZAV_BAD_TEXT:
        return "the first line says no par from 0 to 1023, a letter is no "
               "tile, or the last line feed is missing";
    case ZAV_BAD_ROWS:
        return "no row, more than 31 rows, or a longest row of 0 or of more "
               "than 31 tiles";
    case ZAV_UNEQUAL_STRIPS:
        return "the two strips have different lengths";
    case ZAV_NOT_TINY:
        return "the width or the height is 0, or the board has more than 6 "
               "tiles";
    case ZAV_BAD_LANES:
        return "the lane count is none of 2, 4, 8 and 16";
    default:
        return "unknown refusal";
    }
}

/*
 * Results are packed in one number: the code in bits 0 to 4 and, above it, what
 * the function returns. The repairs and the strip reader have mended in bits 31
 * to 36 and repainted in bits 37 to 43; the other fields of readers are in the
 * headers of their readers. The writers, the word test and zav_tiny_next have a
 * length in bits 48 to 63, and nothing else. Pooling has its four counts in
 * bits 5 to 40. They share bits, so take a result apart by what its function
 * returns: zav_length of a reader's result means nothing, nor does a reader's
 * field of a writer's. All other bits are zero. With a refusal everything but
 * the code is zero, and of a strip beyond reach the lane.
 */
static inline unsigned zav_code(uint64_t result)
{
    return (unsigned)(result & 0x1F);
}

static inline unsigned zav_mended(uint64_t result)
{
    return (unsigned)(result >> 31 & 0x3F);
}

static inline unsigned zav_repainted(uint64_t result)
{
    return (unsigned)(result >> 37 & 0x7F);
}

static inline unsigned zav_length(uint64_t result)
{
    return (unsigned)(result >> 48);
}

/*
 * Write the data and its five check bytes to the word, whose length must be
 * data_len + 5, and return the length written. Nothing is written when
 * refused, and the data never is. Data and word must not overlap.
 */
uint64_t zav_word_write(const uint8_t *data, size_t data_len,
                        uint8_t *word, size_t word_len);

/*
 * Return length 1 if the word is clean and 0 if it is not. Nothing is ever
 * written, and there is no second buffer to overlap.
 */
uint64_t zav_word_test(const uint8_t *word, size_t len);

/*
 * Replace the word by the clean word within reach, and return the number of
 * unmarked cells changed as mended, 0 to 2, and that of marked cells changed as
 * repainted, 0 to 5. Nothing is written when refused, and the marks never are.
 * There is one mark for each cell: 0 if it was read, 1 if it was not; the byte
 * under a mark has influence on repainted, and on nothing else. Word and marks
 * must not overlap.
 */
uint64_t zav_word_repair(uint8_t *word, size_t len,
                         const uint8_t *marks, size_t marks_len);

/*
 * The same repair for a lane of 6 to 187 cells: the lane is replaced, and
 * mended and repainted returned. Nothing is written when refused, and the marks
 * never are. Lane and marks must not overlap.
 */
uint64_t zav_lane_repair(uint8_t *lane, size_t len,
                         const uint8_t *marks, size_t marks_len);

/* The product of two field elements. It has no buffers and writes nothing. */
uint8_t zav_product(uint8_t a, uint8_t b);

/* Alpha (02) to the exponent, which may be negative. It has no buffers and
 * writes nothing. */
uint8_t zav_power(int32_t exponent);

/*
 * The five sums of a list of bytes of any length, S_-2 in bits 0 to 7 up to
 * S_2 in bits 32 to 39. Nothing is ever written, and there is no second
 * buffer to overlap.
 */
uint64_t zav_syndrome(const uint8_t *word, size_t len);

#ifdef __cplusplus
}
#endif

#endif
