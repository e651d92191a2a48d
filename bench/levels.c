/*
 * levels.c - the readers and writers of records and texts beside the second
 * implementation, timed in one run.
 *
 * ns per level for both and how many times faster ours is. The second one is
 * that of the tests, written for reading and not for speed: a yardstick that
 * is the same on every machine. Only the ratios travel to another one.
 */
#include <stdbool.h>
#include <stdio.h>
#include <string.h>

#include "beside.h"
#include "boards.h"
#include "draw.h"
#include "harness.h"
#include "reference_text.h"
#include "zavullimen.h"

enum {
    LEVELS = 16, /* levels per pass: few enough for the cache */
    ROUNDS = 64, /* of a run */
    ROOM = REF_TEXT_MAX
};

/* What a level is written as; "for v1" are records again, by the reader for
   version 1. */
struct form {
    const char *name;
    uint64_t (*write)(size_t, size_t, size_t, size_t, const uint8_t *, size_t,
                      uint8_t *, size_t);
    struct ref_result (*ref_write)(size_t, size_t, size_t, size_t,
                                   const uint8_t *, size_t, uint8_t *, size_t);
    uint64_t (*read)(const uint8_t *, size_t, uint8_t *, size_t);
    struct ref_result (*ref_read)(const uint8_t *, size_t, uint8_t *, size_t);
};

static const struct form forms[] = {
    {"record", zav_record_write, ref_record_write, zav_record_read,
     ref_record_read},
    {"for v1", NULL, ref_record_write, zav_record_read_v1, ref_record_read_v1},
    {"text", zav_text_write, ref_text_write, zav_text_read, ref_text_read},
};

/* ---- a batch of levels in one form ---- */

struct batch {
    const struct form *form;
    size_t width, height;
    struct board level[LEVELS];
    uint8_t right[LEVELS][ROOM];
    size_t len[LEVELS];
    uint8_t written[LEVELS][ROOM]; /* what a pass puts out */
    uint8_t tiles[LEVELS][REF_TILES_MAX];
    uint64_t result[LEVELS];
};

static void fill(void *batch)
{
    struct batch *b = batch;

    for (int i = 0; i < LEVELS; i++) {
        struct board *l = &b->level[i];

        draw_level(l, b->width, b->height);
        b->len[i] = b->form->ref_write(l->version, l->width, l->height, l->par,
                                       l->tiles, l->tiles_len, b->right[i],
                                       ROOM).length;
    }
}

static void restore(void *batch)
{
    struct batch *b = batch;

    memset(b->written, 0, sizeof b->written);
    memset(b->tiles, 0, sizeof b->tiles);
}

/* ---- passes over a batch ---- */

static void our_write(void *batch)
{
    struct batch *b = batch;

    for (int i = 0; i < LEVELS; i++) {
        const struct board *l = &b->level[i];

        b->result[i] = b->form->write(l->version, l->width, l->height, l->par,
                                      l->tiles, l->tiles_len, b->written[i],
                                      ROOM);
    }
}

static void ref_write(void *batch)
{
    struct batch *b = batch;

    for (int i = 0; i < LEVELS; i++) {
        const struct board *l = &b->level[i];

        b->result[i] = packed(b->form->ref_write(
            l->version, l->width, l->height, l->par, l->tiles, l->tiles_len,
            b->written[i], ROOM));
    }
}

static void our_read(void *batch)
{
    struct batch *b = batch;

    for (int i = 0; i < LEVELS; i++)
        b->result[i] = b->form->read(b->right[i], b->len[i], b->tiles[i],
                                     REF_TILES_MAX);
}

static void ref_read(void *batch)
{
    struct batch *b = batch;

    for (int i = 0; i < LEVELS; i++)
        b->result[i] = packed(b->form->ref_read(b->right[i], b->len[i],
                                                b->tiles[i], REF_TILES_MAX));
}

/* ---- what a pass must leave ---- */

static void check_written(void *batch)
{
    const struct batch *b = batch;

    for (int i = 0; i < LEVELS; i++)
        require(zav_length(b->result[i]) == b->len[i] &&
                memcmp(b->written[i], b->right[i], b->len[i]) == 0,
                "a level written");
}

static void check_read(void *batch)
{
    const struct batch *b = batch;

    for (int i = 0; i < LEVELS; i++) {
        const struct board *l = &b->level[i];
        const struct ref_result level = {.version = (unsigned)l->version,
                                         .width = (unsigned)l->width,
                                         .height = (unsigned)l->height,
                                         .par = (unsigned)l->par};

        require(b->result[i] == packed(level) &&
                memcmp(b->tiles[i], l->tiles, l->tiles_len) == 0,
                "a level read");
    }
}

/* ---- timing ---- */

static void compare(struct batch *b, const char *name, struct side theirs,
                    struct side ours)
{
    const struct row row = {
        .batch = b, .count = LEVELS, .rounds = ROUNDS, .fill = fill,
        .restore = restore, .theirs = theirs, .ours = ours};

    printf("%2zu x %-2zu  %-6s %-13s", b->width, b->height, b->form->name,
           name);
    print_row(&row);
}

static void time_size(const struct form *form, size_t width, size_t height)
{
    static struct batch b;

    b.form = form;
    b.width = width;
    b.height = height;
    if (form->write != NULL)
        compare(&b, "write", (struct side){ref_write, check_written},
                (struct side){our_write, check_written});
    compare(&b, "read", (struct side){ref_read, check_read},
            (struct side){our_read, check_read});
}

int main(void)
{
    draw_seed(1);
    draw_versions(1);
    printf("ns per level\n");
    printf("%7s  %-20s", "tiles", "");
    print_heads("reference");
    for (size_t f = 0; f < COUNT(forms); f++) {
        time_size(&forms[f], 31, 31);
        time_size(&forms[f], 12, 9);
        time_size(&forms[f], 2, 1);
    }
    return 0;
}
