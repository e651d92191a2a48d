/*
 * archive.c - a whole archive scanned, beside libfec, timed in one run.
 *
 * 100,000 strips of four lanes, of levels of any size, stand in memory one
 * behind the other: most clean, some damaged, some beyond reach. Ours reads
 * them in turn, each to the same tile buffer. libfec is given the same strips
 * dealt out to lanes beforehand, as in strips.c, and called four times a strip.
 * Strips a second for both and how many times faster ours is; only the ratio
 * travels.
 */
#include <fec.h>
#include <stdio.h>
#include <stdlib.h>
#include <string.h>

#include "damage.h"
#include "harness.h"
#include "zavullimen_strips.h"

enum {
    STRIPS = 100000,
    ROUNDS = 2, /* of a run */
    LONGEST = ZAV_STRIP_LONGEST(REF_LANES),
    LANE_MAX = LONGEST / REF_LANES,
    ROOM = STRIPS * LONGEST
};

/* ---- the mix, 100 % in all ---- */

static const struct share {
    size_t percent;
    struct damage damage;
} mix[] = {
    {90, {"clean", 0, 0, 0}},
    {4, {"with a cell wrong", 3, 1, 0}},
    {2, {"with 2 wrong in each lane", 0, 2, 0}},
    {2, {"with 5 marked in each lane", 0, 0, 5}},
    {2, {"beyond reach, 3 wrong in lane 3", 3, 3, 0}},
};

static const struct damage *draw_share(void)
{
    const struct share *s = mix;

    for (size_t lot = draw_below(100); lot >= s->percent; s++)
        lot -= s->percent;
    return &s->damage;
}

static void print_mix(void)
{
    for (size_t k = 0; k < COUNT(mix); k++)
        printf("%4zu %% %s\n", mix[k].percent, mix[k].damage.name);
}

/* ---- the archive ---- */

struct entry {
    size_t at, cells; /* where its cells are, and how many */
    const struct damage *damage;
    uint64_t due; /* what ours must say of it */
};

struct archive {
    void *fec[LANE_MAX + 1]; /* by the length of a lane */
    struct entry entry[STRIPS];
    uint8_t strips[ROOM];
    uint8_t marks[ROOM];
    uint8_t written[ROOM]; /* lanes, one behind the other */
    uint8_t lanes[ROOM];
    uint8_t work[ROOM]; /* what a pass changes */
    int marked[STRIPS][REF_LANES][REF_CHECK_BYTES];
    int work_marked[STRIPS][REF_LANES][REF_CHECK_BYTES];
    uint8_t tiles[REF_TILES_MAX];
    uint8_t scratch[REF_SCRATCH_MIN];
    uint64_t result[STRIPS];
};

/* Put strip i behind the last; returns where the next one goes. */
static size_t put_strip(struct archive *a, int i, size_t at)
{
    struct entry *e = &a->entry[i];
    struct board level;
    struct damaged s;

    draw_any_level(&level);
    e->damage = draw_share();
    draw_damaged(&s, REF_LANES, &level, e->damage);
    e->at = at;
    e->cells = s.picture.strip_len;
    e->due = due_result(&level, e->damage, REF_LANES, e->cells);

    const size_t len = lane_len(&s.picture);

    memcpy(a->strips + at, s.picture.strip, e->cells);
    memcpy(a->marks + at, s.picture.marks, e->cells);
    for (size_t lane = 0; lane < REF_LANES; lane++) {
        memcpy(a->written + at + lane * len, s.written[lane], len);
        memcpy(a->lanes + at + lane * len, s.lane[lane], len);
    }
    memcpy(a->marked[i], s.marked, sizeof a->marked[i]);
    return at + e->cells;
}

/* Returns how many cells there are. */
static size_t fill(struct archive *a)
{
    size_t end = 0;

    for (int i = 0; i < STRIPS; i++)
        end = put_strip(a, i, end);
    return end;
}

static void restore(void *batch)
{
    struct archive *a = batch;

    memcpy(a->work, a->lanes, sizeof a->work);
    memcpy(a->work_marked, a->marked, sizeof a->work_marked);
}

/* ---- passes over the archive ---- */

static void our_scan(void *batch)
{
    struct archive *a = batch;

    for (int i = 0; i < STRIPS; i++) {
        const struct entry *e = &a->entry[i];

        a->result[i] = zav_strip_read(REF_LANES, a->strips + e->at, e->cells,
                                      a->marks + e->at, e->cells, a->tiles,
                                      REF_TILES_MAX, a->scratch,
                                      REF_SCRATCH_MIN);
    }
}

static void fec_scan(void *batch)
{
    struct archive *a = batch;

    for (int i = 0; i < STRIPS; i++) {
        const struct entry *e = &a->entry[i];
        const size_t len = e->cells / REF_LANES;

        for (size_t lane = 0; lane < REF_LANES; lane++)
            fec_read_lane(a->fec[len], a->work + e->at + lane * len,
                          e->damage, lane, a->work_marked[i][lane]);
    }
}

/* ---- what a pass must leave ---- */

/* The tiles are compared in strips.c; here they are only the last strip's. */
static void check_answers(void *batch)
{
    const struct archive *a = batch;

    for (int i = 0; i < STRIPS; i++)
        require(a->result[i] == a->entry[i].due, "ours");
}

static void check_lanes(void *batch)
{
    const struct archive *a = batch;

    for (int i = 0; i < STRIPS; i++) {
        const struct entry *e = &a->entry[i];

        require(!is_reached(e->damage) ||
                memcmp(a->work + e->at, a->written + e->at, e->cells) == 0,
                "libfec");
    }
}

/* ---- timing ---- */

static void compare(struct archive *a)
{
    const struct row row = {
        .batch = a, .count = STRIPS, .rounds = ROUNDS, .restore = restore,
        .theirs = {fec_scan, check_lanes}, .ours = {our_scan, check_answers}};

    print_rates(&row);
}

int main(void)
{
    static struct archive a;

    for (size_t len = REF_WORD_MIN; len <= LANE_MAX; len++)
        a.fec[len] = new_fec(len);
    draw_seed(1);
    printf("an archive of %d strips, %zu cells in all\n", STRIPS, fill(&a));
    print_mix();
    printf("%-33s", "strips a second");
    print_heads("libfec");
    printf("%-33s", "scan");
    compare(&a);
    for (size_t len = REF_WORD_MIN; len <= LANE_MAX; len++)
        free_rs_char(a.fec[len]);
    return 0;
}
