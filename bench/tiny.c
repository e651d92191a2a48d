/*
 * tiny.c - all legal boards of six tiles in order, beside the second
 * implementation, timed in one run.
 *
 * Boards a second for both and how many times faster ours is. Ours is asked for
 * one board after the other, each with the one before it; the second one lists
 * all boards of the size, in order, and keeps those that are levels. Only the
 * ratio travels to another machine.
 */
#include <stdio.h>
#include <string.h>

#include "beside.h"
#include "reference_tiny.h"
#include "zavullimen.h"

enum {
    WIDTH = 3,
    HEIGHT = 2,
    TILES = WIDTH * HEIGHT,
    ROUNDS = 32 /* of a run */
};

/* What a pass finds, by the boards' numbers. */
struct batch {
    struct ref_tiny right, found;
};

static void restore(void *batch)
{
    struct batch *b = batch;

    memset(&b->found, 0, sizeof b->found);
}

/* ---- passes over the size ---- */

/* Base 7, by a fold: a number costs little beside a step. */
static void note(struct ref_tiny *found, const uint8_t *tiles)
{
    uint32_t number = 0;

    for (int i = 0; i < TILES; i++)
        number = 7 * number + tiles[i];
    found->numbers[found->count++] = number;
}

static void our_walk(void *batch)
{
    struct batch *b = batch;
    uint8_t given[TILES], tiles[ZAV_TILES_MAX];
    uint64_t r = zav_tiny_next(WIDTH, HEIGHT, ZAV_START, NULL, 0, tiles,
                               sizeof tiles);

    while (zav_length(r) != 0) {
        note(&b->found, tiles);
        memcpy(given, tiles, sizeof given);
        r = zav_tiny_next(WIDTH, HEIGHT, ZAV_AFTER, given, sizeof given, tiles,
                          sizeof tiles);
    }
}

static void ref_walk(void *batch)
{
    struct batch *b = batch;

    ref_tiny_list(&b->found, WIDTH, HEIGHT);
}

/* ---- what a pass must leave ---- */

static void check(void *batch)
{
    const struct batch *b = batch;

    require(b->found.count == b->right.count &&
                memcmp(b->found.numbers, b->right.numbers,
                       b->right.count * sizeof *b->right.numbers) == 0,
            "a walk");
}

int main(void)
{
    static struct batch b;
    char name[64];

    ref_tiny_list(&b.right, WIDTH, HEIGHT);

    const struct row row = {
        .batch = &b, .count = (int)b.right.count, .rounds = ROUNDS,
        .restore = restore, .theirs = {ref_walk, check},
        .ours = {our_walk, check}};

    printf("%-33s", "legal boards a second");
    print_heads("reference");
    sprintf(name, "all %zu of %d by %d", b.right.count, WIDTH, HEIGHT);
    printf("%-33s", name);
    print_rates(&row);
    return 0;
}
