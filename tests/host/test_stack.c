/*
 * test_stack.c - the stack that one call of each entry uses, under the figures
 * of docs/C-INTERFACE.md.
 */
#include "test_stack.h"

#include <stdio.h>
#include <string.h>

#include "draw.h"
#include "harness.h"
#include "pictures.h"
#include "reference_text.h"
#include "stack.h"
#include "typed.h"
#include "zavullimen.h"

/* ---- what the entries are given, here and not on the stack that is painted */

static struct picture picture, other;
static struct board board;
static struct sample word;
static struct typed text;
static uint8_t record[REF_RECORD_MAX];
static size_t record_len, lanes_to_write;
static uint8_t out[REF_TEXT_MAX], scratch[REF_SCRATCH_MIN];
static uint8_t tiles[REF_TILES_MAX];

/* The most that 2e + f comes to here: past reach, and no more cells than the
   shortest word has. */
enum { DAMAGE_MAX = REF_REACH + 1 };

/* Of so many lanes, of any length, within reach and beyond, a level or not. */
static void draw_picture_of(size_t lanes)
{
    if (draw_below(4) > 0) {
        picture_length(&picture, lanes,
                       draw_between(ref_k_min(lanes), ref_k_max(lanes)));
    } else {
        draw_any_board(&board);
        picture_board(&picture, lanes, &board);
    }
    damage_lanes(&picture, draw_below(DAMAGE_MAX + 1));
}

static void draw_picture(void)
{
    draw_picture_of(draw_lane_count());
}

/* Two of one length. */
static void draw_pictures(void)
{
    draw_picture_of(REF_LANES);
    other = picture;
    draw_bytes(other.strip, draw_below(other.strip_len));
}

static void draw_record(void)
{
    lanes_to_write = draw_lane_count();
    draw_any_board(&board);
    record_len = record_of(&board, record);
    if (draw_below(4) == 0)
        record[draw_below(record_len)] ^= draw_nonzero();
}

/* A board of up to seven tiles to step from, or a wish to start. */
static void draw_tiny(void)
{
    draw_level(&board, draw_between(1, 7), draw_between(1, 2));
    board.par = draw_below(4);
    for (size_t i = 0; i < board.tiles_len; i++)
        board.tiles[i] = (uint8_t)draw_below(7);
}

static void draw_text(void)
{
    draw_versions(1);
    draw_any_board(&board);
    draw_versions(REF_NEWEST);
    text.len = 0;
    type_par(&text, board.par);
    type_rows(&text, &board);
    if (draw_below(4) == 0)
        mistype(&text);
}

static void draw_word(size_t most)
{
    const size_t sum = draw_below(DAMAGE_MAX + 1);
    const size_t wrong = draw_below(sum / 2 + 1);

    draw_clean(&word, draw_between(REF_WORD_MIN, most));
    draw_damage(&word, wrong, sum - 2 * wrong, ANY_BYTE);
}

static void draw_any_word(void)
{
    draw_word(REF_WORD_MAX);
}

static void draw_lane(void)
{
    draw_word(REF_LANE_MAX);
}

/* ---- one call of each */

static void call_strip_write(void)
{
    zav_strip_write(lanes_to_write, board.version, board.width, board.height,
                    board.par, board.tiles, board.tiles_len, out, sizeof out);
}

static void call_strip_read(void)
{
    zav_strip_read(picture.lanes, picture.strip, picture.strip_len,
                   picture.marks, picture.marks_len, tiles, sizeof tiles,
                   scratch, sizeof scratch);
}

static void call_strip_read_v1(void)
{
    zav_strip_read_v1(picture.lanes, picture.strip, picture.strip_len,
                      picture.marks, picture.marks_len, tiles, sizeof tiles,
                      scratch, sizeof scratch);
}

static void call_strip_pool(void)
{
    zav_strip_pool(picture.strip, picture.strip_len, picture.marks,
                   picture.marks_len, other.strip, other.strip_len,
                   other.marks, other.marks_len, out, picture.strip_len,
                   tiles, picture.strip_len);
}

static void call_tiny_next(void)
{
    zav_tiny_next(board.width, board.height, board.par == 0, board.tiles,
                  board.tiles_len, tiles, sizeof tiles);
}

static void call_record_write(void)
{
    zav_record_write(board.version, board.width, board.height, board.par,
                     board.tiles, board.tiles_len, out, sizeof out);
}

static void call_record_read(void)
{
    zav_record_read(record, record_len, tiles, sizeof tiles);
}

static void call_record_read_v1(void)
{
    zav_record_read_v1(record, record_len, tiles, sizeof tiles);
}

static void call_text_write(void)
{
    zav_text_write(board.version, board.width, board.height, board.par,
                   board.tiles, board.tiles_len, out, sizeof out);
}

static void call_text_read(void)
{
    zav_text_read(text.bytes, text.len, tiles, sizeof tiles);
}

static void call_word_write(void)
{
    zav_word_write(word.word, word.len - REF_CHECK_BYTES, out, word.len);
}

static void call_word_test(void)
{
    zav_word_test(word.word, word.len);
}

/* A repair is made on a copy, so that the next call has the damage too. */
static void call_word_repair(void)
{
    memcpy(out, word.word, word.len);
    zav_word_repair(out, word.len, word.marks, word.marks_len);
}

static void call_lane_repair(void)
{
    memcpy(out, word.word, word.len);
    zav_lane_repair(out, word.len, word.marks, word.marks_len);
}

static void call_product(void)
{
    out[0] = zav_product(word.word[0], word.word[1]);
}

static void call_power(void)
{
    out[0] = zav_power((int32_t)word.word[0] - word.word[1]);
}

static void call_syndrome(void)
{
    zav_syndrome(word.word, word.len);
}

/* ---- */

struct entry {
    const char *name;
    size_t most; /* bytes of stack, as in docs/C-INTERFACE.md */
    void (*draw)(void);
    void (*call)(void);
};

static const struct entry entries[] = {
    {"zav_strip_write", 600, draw_record, call_strip_write},
    {"zav_strip_read", 1900, draw_picture, call_strip_read},
    {"zav_strip_read_v1", 1900, draw_picture, call_strip_read_v1},
    {"zav_strip_pool", 300, draw_pictures, call_strip_pool},
    {"zav_tiny_next", 300, draw_tiny, call_tiny_next},
    {"zav_record_write", 300, draw_record, call_record_write},
    {"zav_record_read", 300, draw_record, call_record_read},
    {"zav_record_read_v1", 300, draw_record, call_record_read_v1},
    {"zav_text_write", 300, draw_record, call_text_write},
    {"zav_text_read", 1300, draw_text, call_text_read},
    {"zav_word_write", 500, draw_any_word, call_word_write},
    {"zav_word_test", 300, draw_any_word, call_word_test},
    {"zav_word_repair", 1200, draw_any_word, call_word_repair},
    {"zav_lane_repair", 1900, draw_lane, call_lane_repair},
    {"zav_product", 100, draw_any_word, call_product},
    {"zav_power", 100, draw_any_word, call_power},
    {"zav_syndrome", 300, draw_any_word, call_syndrome},
};

/* The most that any of these calls uses. Each is made once before it is looked
   at: the dynamic linker may still have to find memcpy, and uses the stack. */
static size_t most_of(const struct entry *e)
{
    size_t most = 0;

    for (size_t k = 0; k < scaled(1000); k++) {
        e->draw();
        e->call();
        group_case();

        const size_t used = stack_used(e->call);

        if (used > most)
            most = used;
    }
    return most;
}

/* The scratch of the strip reader was once as long as a strip. */
enum { SAVED = REF_STRIP_MAX - REF_SCRATCH_MIN };

/* No more than the figure, and the figure is so close that what was saved of
   the scratch would be too much; a strip or a board is more still. */
static void check_stack(const struct entry *e)
{
    const size_t used = most_of(e);

    printf("   %s uses %zu bytes of stack\n", e->name, used);
    if (used > e->most)
        group_fail("%s uses %zu bytes of stack, more than %zu: look for an "
                   "array that came to stand there", e->name, used, e->most);
    if (used + SAVED <= e->most)
        group_fail("%s uses %zu bytes of stack: lower its figure, %zu, here "
                   "and in docs/C-INTERFACE.md", e->name, used, e->most);
}

/* The sanitizers put functions of their own in the place of memcpy and memset,
   which use more stack than the library does. */
#ifdef __SANITIZE_ADDRESS__
static const bool sanitized = true;
#else
static const bool sanitized = false;
#endif

void test_stack(void)
{
    if (sanitized) {
        puts("left out: the stack that one call uses, for sanitizers use more");
        return;
    }
    group_begin("all entries", "the stack that one call uses");
    for (size_t i = 0; i < COUNT(entries); i++)
        check_stack(&entries[i]);
    group_end();
}
