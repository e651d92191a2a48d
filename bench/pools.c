/*
 * pools.c - pooling beside the second implementation, timed in one run.
 *
 * ns per pair of pictures for both and how many times faster ours is. The
 * second one is that of the tests, written for reading and not for speed: a
 * yardstick that is the same on every machine. Only the ratios travel to
 * another one.
 */
#include <stdbool.h>
#include <stdio.h>
#include <string.h>

#include "beside.h"
#include "draw.h"
#include "harness.h"
#include "pictures.h"
#include "reference_pool.h"
#include "zavullimen_pools.h"

enum {
    PAIRS = 16, /* pairs per pass: few enough for the cache */
    ROUNDS = 64 /* of a run */
};

/* ---- a batch of pairs with one kind of marks ---- */

typedef void marking(struct picture *p);

struct batch {
    size_t k;
    marking *mark;
    struct picture first[PAIRS], second[PAIRS];
    uint8_t cells[PAIRS][REF_POOL_MAX], marks[PAIRS][REF_POOL_MAX];
    uint64_t result[PAIRS];
};

static void mark_none(struct picture *p)
{
    (void)p;
}

/* One run of marked cells, a third of the strip. */
static void mark_third(struct picture *p)
{
    const size_t cells = p->strip_len / 3;
    const size_t start = draw_below(p->strip_len - cells + 1);

    memset(p->marks + start, 1, cells);
    memset(p->strip + start, 0xEE, cells);
}

/* Marks that nothing foretells, at every third cell or so. */
static void mark_any(struct picture *p)
{
    for (size_t i = 0; i < p->strip_len; i++)
        if (draw_below(3) == 0) {
            p->marks[i] = 1;
            p->strip[i] = draw_byte();
        }
}

/* Two pictures of one strip, with some cells wrong as well. */
static void fill(void *batch)
{
    struct batch *b = batch;

    for (int i = 0; i < PAIRS; i++) {
        picture_length(&b->first[i], REF_LANES, b->k);
        b->second[i] = b->first[i];
        b->mark(&b->first[i]);
        b->mark(&b->second[i]);
        b->second[i].strip[draw_below(b->second[i].strip_len)] ^= 1;
    }
}

static void restore(void *batch)
{
    struct batch *b = batch;

    memset(b->cells, 0xFF, sizeof b->cells);
    memset(b->marks, 0xFF, sizeof b->marks);
}

/* ---- passes over a batch ---- */

static void our_pool(void *batch)
{
    struct batch *b = batch;

    for (int i = 0; i < PAIRS; i++) {
        const struct picture *p = &b->first[i], *q = &b->second[i];

        b->result[i] = zav_strip_pool(p->strip, p->strip_len, p->marks,
                                      p->marks_len, q->strip, q->strip_len,
                                      q->marks, q->marks_len, b->cells[i],
                                      p->strip_len, b->marks[i], p->strip_len);
    }
}

static struct ref_picture view(const struct picture *p)
{
    return (struct ref_picture){p->strip, p->strip_len, p->marks,
                                p->marks_len};
}

static void ref_pool(void *batch)
{
    struct batch *b = batch;

    for (int i = 0; i < PAIRS; i++) {
        const struct ref_picture p = view(&b->first[i]);
        const struct ref_picture q = view(&b->second[i]);

        b->result[i] = packed_pooling(ref_strip_pool(
            &p, &q, b->cells[i], p.cells_len, b->marks[i], p.cells_len));
    }
}

/* ---- what a pass must leave ---- */

/* The byte of a cell that is shown by both or by one, or -1. */
static int shown(const struct picture *p, const struct picture *q, size_t cell)
{
    if (p->marks[cell])
        return q->marks[cell] ? -1 : q->strip[cell];
    if (!q->marks[cell] && p->strip[cell] != q->strip[cell])
        return -1;
    return p->strip[cell];
}

static bool is_right(const struct batch *b, int i)
{
    const struct picture *p = &b->first[i], *q = &b->second[i];
    unsigned hidden = 0;

    for (size_t cell = 0; cell < p->strip_len; cell++) {
        const int byte = shown(p, q, cell);

        if (b->marks[i][cell] != (byte < 0) ||
            b->cells[i][cell] != (byte < 0 ? 0 : byte))
            return false;
        hidden += byte < 0;
    }
    return zav_code(b->result[i]) == ZAV_DONE &&
           zav_in_conflict(b->result[i]) + zav_marked_in_both(b->result[i]) ==
               hidden &&
           zav_agreed(b->result[i]) + zav_taken(b->result[i]) + hidden ==
               p->strip_len;
}

static void check(void *batch)
{
    for (int i = 0; i < PAIRS; i++)
        require(is_right(batch, i), "two pictures pooled");
}

/* ---- timing ---- */

static void time_length(size_t k)
{
    static const struct {
        const char *name;
        marking *mark;
    } markings[] = {{"none", mark_none}, {"a third in a run", mark_third},
                    {"a third anywhere", mark_any}};
    static struct batch b;
    const struct row row = {
        .batch = &b, .count = PAIRS, .rounds = ROUNDS, .fill = fill,
        .restore = restore, .theirs = {ref_pool, check},
        .ours = {our_pool, check}};

    b.k = k;
    for (size_t m = 0; m < COUNT(markings); m++) {
        b.mark = markings[m].mark;
        printf("%5zu  %-26s", ref_strip_len(REF_LANES, k), markings[m].name);
        print_row(&row);
    }
}

int main(void)
{
    draw_seed(1);
    printf("ns per pair of pictures pooled\n");
    printf("%5s  %-26s", "cells", "marked in each");
    print_heads("reference");
    time_length(ref_k_max(REF_LANES));
    time_length(ref_k_min(REF_LANES));
    return 0;
}
