/*
 * strips.c - the strip reader and writer beside libfec, timed in one run.
 *
 * ns per strip for both and how many times faster ours is. libfec is given
 * what words.c gives it, the lanes already dealt out and copied in, which is
 * not timed, and does nothing but the code. Ours does the whole job: the
 * reader deals, mends, judges the record and puts out the tiles, the writer
 * packs the tiles too. Only the ratios travel to another machine.
 */
#include <fec.h>
#include <stdbool.h>
#include <stdio.h>
#include <stdlib.h>
#include <string.h>

#include "damage.h"
#include "harness.h"
#include "zavullimen_strips.h"

enum {
    STRIPS = 16, /* strips per pass: few enough for the cache */
    ROUNDS = 32  /* of a run */
};

/* ---- a batch of strips with one kind of damage ---- */

struct batch {
    void *fec;
    size_t lanes, width, height, cells;
    const struct damage *damage;
    struct board level[STRIPS];
    struct damaged damaged[STRIPS];
    dealt work[STRIPS]; /* what a pass changes */
    erasures work_marked[STRIPS];
    uint8_t strip[STRIPS][REF_STRIP_MAX];
    uint8_t tiles[STRIPS][REF_TILES_MAX];
    uint8_t scratch[REF_SCRATCH_MIN];
    uint64_t result[STRIPS];
};

static void fill(void *batch)
{
    struct batch *b = batch;

    for (int i = 0; i < STRIPS; i++) {
        draw_level(&b->level[i], b->width, b->height);
        draw_damaged(&b->damaged[i], b->lanes, &b->level[i], b->damage);
    }
}

/* Only the lanes that there are, so that no more of the cache is used. */
static void restore(void *batch)
{
    struct batch *b = batch;

    for (int i = 0; i < STRIPS; i++)
        for (size_t lane = 0; lane < b->lanes; lane++) {
            memcpy(b->work[i][lane], b->damaged[i].lane[lane],
                   b->cells / b->lanes);
            memcpy(b->work_marked[i][lane], b->damaged[i].marked[lane],
                   sizeof b->work_marked[i][lane]);
        }
    memset(b->strip, 0, sizeof b->strip);
    memset(b->tiles, 0, sizeof b->tiles);
}

/* ---- passes over a batch ---- */

static void our_write(void *batch)
{
    struct batch *b = batch;

    for (int i = 0; i < STRIPS; i++) {
        const struct board *l = &b->level[i];

        b->result[i] = zav_strip_write(b->lanes, l->version, l->width,
                                       l->height, l->par, l->tiles,
                                       l->tiles_len, b->strip[i],
                                       REF_STRIP_MAX);
    }
}

static void fec_write(void *batch)
{
    struct batch *b = batch;
    const size_t k = b->cells / b->lanes - REF_CHECK_BYTES;

    for (int i = 0; i < STRIPS; i++)
        for (size_t lane = 0; lane < b->lanes; lane++)
            encode_rs_char(b->fec, b->work[i][lane], b->work[i][lane] + k);
}

static void our_read(void *batch)
{
    struct batch *b = batch;

    for (int i = 0; i < STRIPS; i++) {
        const struct picture *p = &b->damaged[i].picture;

        b->result[i] = zav_strip_read(p->lanes, p->strip, p->strip_len,
                                      p->marks, p->marks_len, b->tiles[i],
                                      REF_TILES_MAX, b->scratch,
                                      REF_SCRATCH_MIN);
    }
}

static void our_read_v1(void *batch)
{
    struct batch *b = batch;

    for (int i = 0; i < STRIPS; i++) {
        const struct picture *p = &b->damaged[i].picture;

        b->result[i] = zav_strip_read_v1(p->lanes, p->strip, p->strip_len,
                                         p->marks, p->marks_len, b->tiles[i],
                                         REF_TILES_MAX, b->scratch,
                                         REF_SCRATCH_MIN);
    }
}

static void fec_read(void *batch)
{
    struct batch *b = batch;

    for (int i = 0; i < STRIPS; i++)
        for (size_t lane = 0; lane < b->lanes; lane++)
            fec_read_lane(b->fec, b->work[i][lane], b->damage, lane,
                          b->work_marked[i][lane]);
}

/* ---- what a pass must leave ---- */

static void check_lanes(void *batch)
{
    const struct batch *b = batch;

    for (int i = 0; i < STRIPS; i++)
        for (size_t lane = 0; lane < b->lanes; lane++)
            require(!is_reached(b->damage) ||
                    memcmp(b->work[i][lane], b->damaged[i].written[lane],
                           b->cells / b->lanes) == 0, "libfec");
}

static void check_strips(void *batch)
{
    const struct batch *b = batch;

    for (int i = 0; i < STRIPS; i++) {
        const struct picture *p = &b->damaged[i].picture;

        require(zav_length(b->result[i]) == p->strip_len &&
                memcmp(b->strip[i], p->strip, p->strip_len) == 0, "ours");
    }
}

/* The level, or a refusal and nothing in the tiles. */
static void check_levels(void *batch)
{
    static const uint8_t nothing[REF_TILES_MAX];
    const struct batch *b = batch;

    for (int i = 0; i < STRIPS; i++) {
        const struct board *l = &b->level[i];

        require(b->result[i] == due_result(l, b->damage, b->lanes,
                                           b->cells) &&
                memcmp(b->tiles[i], is_reached(b->damage) ? l->tiles : nothing,
                       l->tiles_len) == 0, "ours");
    }
}

/* ---- timing ---- */

static void compare(struct batch *b, const struct damage *d, pass *theirs,
                    struct side ours)
{
    const struct row row = {
        .batch = b, .count = STRIPS, .rounds = ROUNDS, .fill = fill,
        .restore = restore, .theirs = {theirs, check_lanes}, .ours = ours};

    b->damage = d;
    printf("%5zu  %-26s", b->cells, d->name);
    print_row(&row);
}

static const struct damage none = {"write", 0, 0, 0};
static const struct damage clean = {"read, clean", 0, 0, 0};
static const struct damage wrong = {"read, 1 wrong a lane", 0, 1, 0};

static const struct side writing = {our_write, check_strips};
static const struct side reading = {our_read, check_levels};
static const struct side reading_v1 = {our_read_v1, check_levels};

/* Levels of this size in strips of so many lanes; free_rs_char when done. */
static void begin(struct batch *b, size_t lanes, size_t width, size_t height)
{
    const size_t k = ref_k_of(lanes, ref_record_len(width * height));

    b->fec = new_fec(k + REF_CHECK_BYTES);
    b->lanes = lanes;
    b->width = width;
    b->height = height;
    b->cells = ref_strip_len(lanes, k);
}

/* Four lanes, every kind of damage. */
static void time_size(struct batch *b, size_t width, size_t height)
{
    static const struct damage first = {"read for v1, clean", 0, 0, 0};
    static const struct damage more[] = {
        {"read, 2 wrong a lane", 0, 2, 0},
        {"read, 5 marked a lane", 0, 0, 5},
        {"read, 3 wrong in lane 3", 3, 3, 0},
    };

    begin(b, REF_LANES, width, height);
    compare(b, &none, fec_write, writing);
    compare(b, &clean, fec_read, reading);
    compare(b, &wrong, fec_read, reading);
    for (size_t k = 0; k < COUNT(more); k++)
        compare(b, &more[k], fec_read, reading);
    compare(b, &first, fec_read, reading_v1);
    free_rs_char(b->fec);
}

/* The largest level in strips of so many lanes. */
static void time_lanes(struct batch *b, size_t lanes)
{
    printf("of %zu lanes\n", lanes);
    begin(b, lanes, REF_SIDE_MAX, REF_SIDE_MAX);
    compare(b, &none, fec_write, writing);
    compare(b, &clean, fec_read, reading);
    compare(b, &wrong, fec_read, reading);
    free_rs_char(b->fec);
}

static void print_title(const char *title)
{
    printf("%s\n%5s  %-26s", title, "cells", "");
    print_heads("libfec");
}

int main(void)
{
    static struct batch b;

    draw_seed(1);
    draw_versions(1);
    print_title("ns per strip, and for libfec per four lanes");
    time_size(&b, REF_SIDE_MAX, REF_SIDE_MAX);
    time_size(&b, 2, 1);
    printf("Three wrong cells in lane 3 are refused (6).\n\n");
    print_title("ns per strip, and for libfec per its lanes, by lane count");
    for (size_t i = 0; i < LANE_COUNTS; i++)
        time_lanes(&b, lane_counts[i]);
    return 0;
}
