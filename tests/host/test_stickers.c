/*
 * test_stickers.c - stickers of one colour over neighbouring cells of a strip,
 * at every start and every legal length, for every lane count: FORMAT 14.
 *
 * The cells that a sticker really changes say what must come out, so that there
 * can be many cases; some are put to the second implementation as well.
 */
#include "test_stickers.h"

#include <string.h>

#include "draw.h"
#include "harness.h"
#include "pictures.h"
#include "zavullimen_strips.h"

static const char subject[] = "stickers";

/* Neighbouring cells that may be changed, and that may be marked, a lane. */
enum { CHANGED = 2, MARKED = 5 };

/* A level, its strip, and the picture of the strip that is spoilt. */
struct scene {
    size_t lanes;
    struct board board;
    struct picture clean, spoilt;
};

static size_t changed(const struct scene *s)
{
    return CHANGED * s->lanes;
}

static size_t marked(const struct scene *s)
{
    return MARKED * s->lanes;
}

/* The picture as it was before anything was put on it. */
static void take_off(struct scene *s)
{
    s->spoilt = s->clean;
}

/* The strip is the one that the library writes. */
static void scene_board(struct scene *s)
{
    const struct board *b = &s->board;

    picture_board(&s->clean, s->lanes, b);

    const uint64_t written =
        zav_strip_write(s->lanes, b->version, b->width, b->height, b->par,
                        b->tiles, b->tiles_len, s->clean.strip,
                        sizeof s->clean.strip);

    check_number(zav_code(written), ZAV_DONE, "the writer's code");
    check_number(zav_length(written), s->clean.strip_len, "its length");
    take_off(s);
}

/* A level with k data bytes in each lane; false if there is none. */
static bool scene_length(struct scene *s, size_t lanes, size_t k)
{
    s->lanes = lanes;
    if (!draw_level_for(&s->board, lanes * k, lanes))
        return false;
    scene_board(s);
    return true;
}

/* ---- covering ---- */

/* The cells of a run that the strip has: a run ends with the strip. */
static size_t covered(const struct scene *s, size_t start, size_t cells)
{
    const size_t left = s->clean.strip_len - start;

    return cells < left ? cells : left;
}

/* One colour over a run of cells; what was there is taken off first. */
static void put_sticker(struct scene *s, size_t start, size_t cells,
                        uint8_t colour)
{
    take_off(s);
    memset(s->spoilt.strip + start, colour, covered(s, start, cells));
}

static void put_marks(struct scene *s, size_t start, size_t cells)
{
    memset(s->spoilt.marks + start, 1, covered(s, start, cells));
}

/* Every cell of the run is changed: each by the same difference. */
static void change_all(struct scene *s, size_t start, size_t cells,
                       uint8_t difference)
{
    take_off(s);
    for (size_t i = start; i < start + cells; i++)
        s->spoilt.strip[i] ^= difference;
}

/* ---- what must come out ---- */

struct damage {
    unsigned wrong[REF_LANES_MAX], marked[REF_LANES_MAX], repainted;
};

static struct damage damage_of(const struct scene *s)
{
    struct damage d = {.repainted = 0};

    for (size_t i = 0; i < s->clean.strip_len; i++) {
        const bool differs = s->spoilt.strip[i] != s->clean.strip[i];

        if (s->spoilt.marks[i]) {
            d.marked[i % s->lanes]++;
            d.repainted += differs;
        } else {
            d.wrong[i % s->lanes] += differs;
        }
    }
    return d;
}

/* The lowest lane beyond reach of the strip that was written, or past them. */
static size_t lowest_beyond(const struct scene *s, const struct damage *d)
{
    size_t lane = 0;

    while (lane < s->lanes && 2 * d->wrong[lane] + d->marked[lane] <= REF_REACH)
        lane++;
    return lane;
}

static unsigned mended_of(const struct damage *d)
{
    unsigned mended = 0;

    for (size_t lane = 0; lane < REF_LANES_MAX; lane++)
        mended += d->wrong[lane];
    return mended;
}

/* The second implementation is asked seldom, as it takes long. */
static void check_sometimes(const struct scene *s)
{
    if (draw_below(64) == 0)
        check_picture(&s->spoilt);
}

/* The level comes back, and what the sticker changed is told. */
static void check_read_back(const struct scene *s)
{
    const struct damage d = damage_of(s);

    check_counts(&s->spoilt, &s->board, mended_of(&d), d.repainted);
    check_sometimes(s);
}

/* Some lane is beyond reach, and the lowest such is told. */
static void check_beyond(const struct scene *s)
{
    const struct damage d = damage_of(s);

    check_refused(&s->spoilt, 6, (unsigned)lowest_beyond(s, &d));
    check_sometimes(s);
}

/* The one or the other; true if it is the level. */
static bool check_either(const struct scene *s)
{
    const struct damage d = damage_of(s);
    const bool within = lowest_beyond(s, &d) == s->lanes;

    if (within)
        check_read_back(s);
    else
        check_beyond(s);
    return within;
}

/* ---- every start and length ---- */

/* At every start that leaves this cell and so many others a lane. */
static void at_starts(void (*check)(struct scene *s, size_t start),
                      struct scene *s, size_t others)
{
    for (size_t start = 0; start + others * s->lanes < s->clean.strip_len;
         start++)
        check(s, start);
}

/* The same in every length of a level, for every lane count; in a run of fewer
   cases in every fifth, the shortest among them. */
static void at_every_start(void (*check)(struct scene *s, size_t start),
                           size_t others)
{
    const size_t step = 5 / scaled(5);
    struct scene s;

    for (size_t i = 0; i < LANE_COUNTS; i++) {
        const size_t lanes = lane_counts[i];

        for (size_t k = ref_k_min(lanes); k <= ref_k_max(lanes); k += step)
            if (scene_length(&s, lanes, k))
                at_starts(check, &s, others);
    }
}

/* A colour that the strip has near by, so that it may leave cells right. */
static uint8_t near_colour(const struct scene *s, size_t start)
{
    const size_t i = start + draw_below(marked(s));

    return s->clean.strip[i % s->clean.strip_len];
}

static void check_changed(struct scene *s, size_t start)
{
    put_sticker(s, start, changed(s), draw_byte());
    check_read_back(s);
    put_sticker(s, start, changed(s), near_colour(s, start));
    check_read_back(s);
}

static void test_changed(void)
{
    group_begin(subject, "2 cells a lane of one colour, at every start");
    at_every_start(check_changed, 0);
    group_end();
}

static void check_marked(struct scene *s, size_t start)
{
    put_sticker(s, start, marked(s), draw_byte());
    put_marks(s, start, marked(s));
    check_read_back(s);
    take_off(s);
    put_marks(s, start, marked(s));
    check_read_back(s);
}

static void test_marked(void)
{
    group_begin(subject, "5 cells a lane marked, at every start");
    at_every_start(check_marked, 0);
    group_end();
}

/* Where no level has the length, the clean strip is refused, and so it is with
   the sticker. */
static void check_refused_too(struct scene *s)
{
    const struct ref_result r = check_picture(&s->clean);

    for (size_t start = 0; start < s->clean.strip_len; start++) {
        put_sticker(s, start, changed(s), draw_byte());
        check_refused(&s->spoilt, r.code, 0);
        put_sticker(s, start, marked(s), draw_byte());
        put_marks(s, start, marked(s));
        check_refused(&s->spoilt, r.code, 0);
    }
}

/* Returns how many lengths these are. */
static size_t check_without_levels(size_t lanes)
{
    struct scene s = {.lanes = lanes};
    size_t lengths = 0;

    for (size_t k = ref_k_min(lanes); k <= ref_k_max(lanes); k++)
        if (!picture_length(&s.clean, lanes, k)) {
            lengths++;
            check_refused_too(&s);
        }
    return lengths;
}

/* So many for each lane count: FORMAT 7.18. */
static void test_lengths_without_levels(void)
{
    static const size_t lengths[LANE_COUNTS] = {35, 11, 2, 0};

    group_begin(subject, "2 changed or 5 marked a lane where no level is");
    for (size_t i = 0; i < LANE_COUNTS; i++)
        check_number(check_without_levels(lane_counts[i]), lengths[i],
                     "lengths without a level");
    group_end();
}

/* ---- every colour ---- */

/* For four lanes the least k, the largest, and some between, of boards of
   several shapes; for the others the least. */
static const struct {
    size_t lanes, k;
} sampled[] = {{4, 1}, {4, 2}, {4, 3}, {4, 11}, {4, 28}, {4, 91}, {2, 2},
               {8, 1}, {16, 1}};

static void at_every_colour(void (*check)(struct scene *s, size_t start,
                                          uint8_t colour))
{
    const unsigned step = 256 / (unsigned)scaled(256);
    struct scene s;

    for (size_t i = 0; i < COUNT(sampled); i++) {
        if (!scene_length(&s, sampled[i].lanes, sampled[i].k))
            group_fail("no level has %zu data cells in a lane", sampled[i].k);
        for (size_t start = 0; start < s.clean.strip_len; start++)
            for (unsigned colour = 0; colour < 256; colour += step)
                check(&s, start, (uint8_t)colour);
    }
}

static void check_changed_colour(struct scene *s, size_t start, uint8_t colour)
{
    put_sticker(s, start, changed(s), colour);
    check_read_back(s);
}

static void check_marked_colour(struct scene *s, size_t start, uint8_t colour)
{
    put_sticker(s, start, marked(s), colour);
    put_marks(s, start, marked(s));
    check_read_back(s);
}

static void test_colours(void)
{
    group_begin(subject, "2 cells a lane in each of 256 colours, every start");
    at_every_colour(check_changed_colour);
    group_end();
    group_begin(subject, "5 marked a lane in each of 256 colours, every start");
    at_every_colour(check_marked_colour);
    group_end();
}

/* ---- shorter runs, and two of them ---- */

/* Bytes of any kind over a run. */
static void change_any(struct scene *s, size_t start, size_t cells)
{
    draw_bytes(s->spoilt.strip + start, covered(s, start, cells));
}

static void draw_scene(struct scene *s)
{
    s->lanes = draw_lane_count();
    draw_any_level(&s->board);
    scene_board(s);
}

/*
 * One run of up to c cells a lane changed and one of up to d a lane marked,
 * where 2c + d is at most 5, anywhere: apart, side by side or over one another.
 */
static void check_two_runs(size_t c, size_t d)
{
    struct scene s;

    draw_scene(&s);

    const size_t start = draw_below(s.clean.strip_len);
    const size_t cells = draw_below(s.lanes * d + 1);

    change_any(&s, draw_below(s.clean.strip_len), draw_below(s.lanes * c + 1));
    put_marks(&s, start, cells);
    if (draw_below(2))
        change_any(&s, start, cells);
    check_read_back(&s);
}

static void test_two_runs(void)
{
    group_begin(subject, "a changed and a marked run, 2c + d at most 5");
    for (size_t c = 0; 2 * c <= REF_REACH; c++)
        for (size_t d = 0; 2 * c + d <= REF_REACH; d++)
            for (size_t k = 0; k < scaled(600); k++)
                check_two_runs(c, d);
    group_end();
}

/* ---- one cell more ---- */

/* Of 2 and up to 4 lanes every number of cells is tried, of more lanes some. */
static size_t draw_step(const struct scene *s)
{
    return s->lanes > REF_LANES ? draw_between(1, s->lanes / 2) : 1;
}

/* One cell more and up to as many as there are lanes, each of them changed, are
   three in some lane. */
static void check_changed_more(struct scene *s, size_t start)
{
    for (size_t more = 1; more <= s->lanes; more += draw_step(s))
        if (start + changed(s) + more <= s->clean.strip_len) {
            change_all(s, start, changed(s) + more, draw_nonzero());
            check_beyond(s);
        }
}

static void test_changed_more(void)
{
    group_begin(subject, "a cell more and up to 3 a lane changed are refused");
    at_every_start(check_changed_more, CHANGED);
    group_end();
}

/* One cell more or all that are left: six in the lane of the first, right or
   wrong. */
static void check_marked_more(struct scene *s, size_t start)
{
    const size_t least = marked(s) + 1, left = s->clean.strip_len - start;

    take_off(s);
    put_marks(s, start, least);
    check_beyond(s);
    put_sticker(s, start, least, draw_byte());
    put_marks(s, start, draw_between(least, left));
    check_beyond(s);
}

static void test_marked_more(void)
{
    group_begin(subject, "a cell more than 5 a lane marked is refused");
    at_every_start(check_marked_more, MARKED);
    group_end();
}

/* Up to 3 cells a lane, some of which the sticker leaves right: the level or
   refusal 6, and never another level. */
static void test_changed_or_refused(void)
{
    struct scene s;
    size_t read = 0, refused = 0;

    group_begin(subject, "up to 3 a lane, some right: the level, or refused");
    for (size_t k = 0; k < scaled(6000); k++) {
        draw_scene(&s);

        const size_t cells = draw_between(changed(&s) + 1,
                                          changed(&s) + s.lanes);
        const size_t start = draw_below(s.clean.strip_len - cells + 1);

        put_sticker(&s, start, cells, draw_byte());
        for (size_t same = draw_below(cells); same > 0; same--) {
            const size_t i = start + draw_below(cells);

            s.spoilt.strip[i] = s.clean.strip[i];
        }
        if (check_either(&s))
            read++;
        else
            refused++;
    }
    if (read == 0 || refused == 0)
        group_fail("%zu levels and %zu refusals: both are due", read, refused);
    group_end();
}

void test_stickers(void)
{
    test_changed();
    test_marked();
    test_lengths_without_levels();
    test_colours();
    test_two_runs();
    test_changed_more();
    test_marked_more();
    test_changed_or_refused();
}
