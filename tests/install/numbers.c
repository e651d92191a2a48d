/*
 * numbers.c - the packed results of the examples in docs/C-INTERFACE.md, one a
 * line, in the order of the page.
 */
#include <inttypes.h>
#include <stdio.h>
#include <string.h>

#include <zavullimen.h>

enum { LANES = ZAV_STRIP_LANES };

static void print(uint64_t result)
{
    printf("0x%" PRIX64 "\n", result);
}

static void print_repairs(void)
{
    static const uint8_t marks[6], fourth[6] = {0, 0, 0, 1};
    uint8_t word[6] = {0x00, 0xCE, 0xE6}, other[6] = {0x01, 0xCE, 0xE6};
    uint8_t covered[6] = {0x01, 0xCE, 0xE6, 0xFF, 0xCE, 0x01};

    print(zav_word_repair(word, sizeof word, marks, sizeof marks));
    print(zav_word_repair(other, sizeof other, marks, sizeof marks));
    print(zav_word_repair(covered, sizeof covered, fourth, sizeof fourth));
}

/* The strip as it was written, with these cells changed and these marks. */
static void print_read(const uint8_t *strip, size_t len, const size_t *wrong,
                       size_t count, const uint8_t *marks, size_t marks_len)
{
    static uint8_t tiles[ZAV_TILES_MAX], scratch[ZAV_SCRATCH_MIN];
    uint8_t read[ZAV_STRIP_MAX];

    memcpy(read, strip, len);
    for (size_t i = 0; i < count; i++)
        read[wrong[i]] ^= 0xFF;
    print(zav_strip_read(LANES, read, len, marks, marks_len, tiles,
                         sizeof tiles, scratch, sizeof scratch));
}

/* FORMAT 12.16, and what refuses it. */
static void print_versions(void)
{
    static const uint8_t pit[] = {2, 6, 2, 7};
    static const uint8_t none[ZAV_STRIP_MAX];
    static uint8_t tiles[ZAV_TILES_MAX], scratch[ZAV_SCRATCH_MIN];
    uint8_t bytes[ZAV_TEXT_MAX];
    const uint64_t written = zav_strip_write(LANES, 2, 2, 2, 5, pit, 4, bytes,
                                             sizeof bytes);
    const size_t len = zav_length(written);

    print(written);
    print(zav_strip_read(LANES, bytes, len, none, len, tiles, sizeof tiles,
                         scratch, sizeof scratch));
    print(zav_strip_read_v1(LANES, bytes, len, none, len, tiles, sizeof tiles,
                            scratch, sizeof scratch));
    print(zav_strip_write(LANES, 1, 2, 2, 5, pit, 4, bytes, sizeof bytes));
    print(zav_text_write(2, 2, 2, 5, pit, 4, bytes, sizeof bytes));
}

/* The level of FORMAT 12.13 with two lanes: read so, as four lanes, for which
 * the strip is too short, and as three, which there are not. */
static void print_lanes(const uint8_t *level)
{
    static const size_t named[] = {2, 4, 3};
    static const uint8_t none[ZAV_STRIP_MAX];
    static uint8_t tiles[ZAV_TILES_MAX], scratch[ZAV_SCRATCH_MIN];
    uint8_t strip[ZAV_STRIP_MAX];
    const uint64_t written = zav_strip_write(2, 1, 2, 1, 5, level, 2, strip,
                                             sizeof strip);
    const size_t len = zav_length(written);

    print(written);
    for (size_t i = 0; i < sizeof named / sizeof *named; i++)
        print(zav_strip_read(named[i], strip, len, none, len, tiles,
                             sizeof tiles, scratch, sizeof scratch));
}

/* FORMAT 15.10; and the same, with a mark buffer or a second strip of another
 * length. */
static void print_pools(const uint8_t *strip)
{
    enum { LEN = 24, LONGER = 28 };
    static const uint8_t marks[LEN] = {1, 1}, other[LONGER] = {0, 1, 0, 0, 0, 1};
    uint8_t first[LEN], second[LONGER] = {0}, cells[LEN], out[LEN + 1];

    memcpy(first, strip, LEN);
    memcpy(second, strip, LEN);
    first[0] = first[1] = 0xFF;
    second[1] = second[5] = 0x00;
    second[3] = 0x59;
    print(zav_strip_pool(first, LEN, marks, LEN, second, LEN, other, LEN,
                         cells, LEN, out, LEN));
    print(zav_strip_pool(first, LEN, marks, LEN, second, LEN, other, LEN,
                         cells, LEN, out, LEN + 1));
    print(zav_strip_pool(first, LEN, marks, LEN, second, LONGER, other, LONGER,
                         cells, LEN, out, LEN));
}

/* FORMAT 16.10: the boards of two tiles; one of three is given, and there are
 * none of seven. */
static void print_walk(uint8_t tiles[ZAV_TILES_MAX])
{
    static const uint8_t first[] = {2, 6, 0}, last[] = {6, 2};

    print(zav_tiny_next(2, 1, ZAV_START, NULL, 0, tiles, ZAV_TILES_MAX));
    print(zav_tiny_next(2, 1, ZAV_AFTER, first, 2, tiles, ZAV_TILES_MAX));
    print(zav_tiny_next(2, 1, ZAV_AFTER, last, 2, tiles, ZAV_TILES_MAX));
    print(zav_tiny_next(2, 1, ZAV_AFTER, first, 3, tiles, ZAV_TILES_MAX));
    print(zav_tiny_next(7, 1, ZAV_START, NULL, 0, tiles, ZAV_TILES_MAX));
}

int main(void)
{
    static const uint8_t level[] = {2, 6}, finished[] = {4, 5};
    static const uint8_t finished_strip[] = {
        0x11, 0x04, 0x05, 0x94, 0xB2, 0x1F, 0xD1, 0xA4,
        0x20, 0xBF, 0x59, 0x07, 0x20, 0xBF, 0x59, 0x07,
        0xB2, 0x1F, 0xD1, 0xA4, 0x11, 0x04, 0x05, 0x94};
    static const size_t front[] = {0, 1}, three[] = {2, 6, 10};
    static const uint8_t none[ZAV_STRIP_MAX], two[ZAV_STRIP_MAX] = {0, 1, 1};
    uint8_t bytes[ZAV_TEXT_MAX], tiles[ZAV_TILES_MAX];
    uint64_t written;

    print_repairs();
    print(written = zav_record_write(1, 2, 1, 5, level, 2, bytes,
                                     sizeof bytes));
    print(zav_record_read(bytes, zav_length(written), tiles, sizeof tiles));
    print(written = zav_text_write(1, 2, 1, 5, level, 2, bytes, sizeof bytes));
    print(zav_text_read(bytes, zav_length(written), tiles, sizeof tiles));
    print(written = zav_strip_write(LANES, 1, 2, 1, 5, level, 2, bytes,
                                    sizeof bytes));

    const size_t len = zav_length(written);

    print_read(bytes, len, front, 0, none, len);
    print_read(bytes, len, front, 1, none, len);
    print_read(bytes, len, front, 2, two, len);
    print_read(bytes, len, three, 3, none, len);
    print_read(bytes, len, front, 0, none, len - 1);
    print(zav_strip_write(LANES, 1, 2, 1, 5, finished, 2, bytes,
                          sizeof bytes));
    print_read(finished_strip, sizeof finished_strip, front, 0, none,
               sizeof finished_strip);
    print_versions();
    print_lanes(level);
    print_pools(bytes);
    print_walk(tiles);
    return 0;
}
