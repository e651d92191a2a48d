/* pictures.c - strips as the reader is given them, and the check of one call. */
#include "pictures.h"

#include <stdio.h>
#include <string.h>

#include "harness.h"
#include "zavullimen_strips.h"

/* ---- making ---- */

const size_t lane_counts[LANE_COUNTS] = {2, 4, 8, 16};

size_t draw_lane_count(void)
{
    return lane_counts[draw_below(LANE_COUNTS)];
}

void picture_data(struct picture *p, size_t lanes, const uint8_t *data,
                  size_t k)
{
    p->lanes = lanes;
    p->strip_len = p->marks_len = ref_lay_strip(lanes, data, k, p->strip);
    memset(p->marks, 0, sizeof p->marks);
    p->tiles_len = draw_below(2) ? REF_TILES_MAX : TILES_ROOM;
    p->scratch_len = draw_below(2) ? REF_SCRATCH_MIN : SCRATCH_ROOM;
}

void picture_board(struct picture *p, size_t lanes, const struct board *b)
{
    uint8_t data[REF_LAID_MAX] = {0};

    picture_data(p, lanes, data, ref_k_of(lanes, record_of(b, data)));
}

bool picture_length(struct picture *p, size_t lanes, size_t k)
{
    uint8_t data[REF_LAID_MAX];
    struct board b;

    if (draw_level_for(&b, lanes * k, lanes)) {
        picture_board(p, lanes, &b);
        return true;
    }
    draw_bytes(data, lanes * k);
    data[0] = (uint8_t)(draw_between(1, 2) << 4 | draw_below(16));
    picture_data(p, lanes, data, k);
    return false;
}

void picture_any_level(struct picture *p, size_t lanes, struct board *b)
{
    draw_any_level(b);
    picture_board(p, lanes, b);
}

void picture_worked(struct picture *p, const struct worked *w)
{
    *p = (struct picture){.lanes = REF_LANES,
                          .strip_len = w->strip_len,
                          .marks_len = w->strip_len,
                          .tiles_len = REF_TILES_MAX,
                          .scratch_len = REF_SCRATCH_MIN};
    memcpy(p->strip, w->strip, w->strip_len);
}

size_t lane_len(const struct picture *p)
{
    return p->strip_len / p->lanes;
}

void take_lane(const struct picture *p, size_t lane, struct sample *s)
{
    s->len = s->marks_len = lane_len(p);
    for (size_t i = 0; i < s->len; i++) {
        s->word[i] = p->strip[p->lanes * i + lane];
        s->marks[i] = p->marks[p->lanes * i + lane];
    }
}

void put_lane(struct picture *p, size_t lane, const struct sample *s)
{
    for (size_t i = 0; i < s->len; i++) {
        p->strip[p->lanes * i + lane] = s->word[i];
        p->marks[p->lanes * i + lane] = s->marks[i];
    }
}

void damage_lane(struct picture *p, size_t lane, size_t wrong, size_t marked,
                 enum under_mark under)
{
    struct sample s;

    take_lane(p, lane, &s);
    draw_damage(&s, wrong, marked, under);
    put_lane(p, lane, &s);
}

void damage_lanes(struct picture *p, size_t most)
{
    for (size_t lane = 0; lane < p->lanes; lane++) {
        const size_t wrong = draw_below(most / 2 + 1);

        damage_lane(p, lane, wrong, draw_below(most - 2 * wrong + 1),
                    draw_under_mark());
    }
}

/* ---- checking ---- */

static struct {
    struct lent strip, marks, tiles, scratch;
} lent;

/* What the buffers that are written to must hold. */
struct expected {
    uint8_t tiles[TILES_ROOM];
    uint8_t scratch[SCRATCH_ROOM];
};

static bool was_judged(struct ref_result r)
{
    return r.code == 0 || (r.code >= 6 && r.code <= 10);
}

/* Lend all four, and seal what this result does not let be written. */
static void lend_picture(const struct picture *p, struct ref_result r,
                         struct expected *e)
{
    draw_bytes(e->tiles, p->tiles_len);
    draw_bytes(e->scratch, p->scratch_len);
    lend(&lent.strip, p->strip, p->strip_len);
    lend(&lent.marks, p->marks, p->marks_len);
    lend(&lent.tiles, e->tiles, p->tiles_len);
    lend(&lent.scratch, e->scratch, p->scratch_len);
    seal(&lent.strip);
    seal(&lent.marks);
    if (r.code != 0)
        seal(&lent.tiles);
    if (!was_judged(r))
        seal(&lent.scratch);
}

static bool all_kept(const struct picture *p, const struct expected *e)
{
    return is_kept(&lent.tiles, e->tiles) &&
           is_kept(&lent.scratch, e->scratch) &&
           is_kept(&lent.strip, p->strip) && is_kept(&lent.marks, p->marks);
}

static void describe(char *what, const struct picture *p)
{
    char strip[HEX_TEXT], marks[HEX_TEXT];

    sprintf(what,
            "strip of %zu lanes and %zu cells %s with %zu marks %s, tiles "
            "%zu, scratch %zu",
            p->lanes, p->strip_len, hex(strip, p->strip, p->strip_len),
            p->marks_len, hex(marks, p->marks, p->marks_len), p->tiles_len,
            p->scratch_len);
}

/* A strip reader of the library, and its second implementation. */
struct strip_reader {
    uint64_t (*read)(size_t lanes, const uint8_t *strip, size_t strip_len,
                     const uint8_t *marks, size_t marks_len, uint8_t *tiles,
                     size_t tiles_len, uint8_t *scratch, size_t scratch_len);
    struct ref_result (*ref_read)(size_t lanes, const uint8_t *strip,
                                  size_t strip_len, const uint8_t *marks,
                                  size_t marks_len, uint8_t *tiles,
                                  size_t tiles_len, size_t scratch_len);
};

static const struct strip_reader both = {zav_strip_read, ref_strip_read};
static const struct strip_reader first = {zav_strip_read_v1,
                                          ref_strip_read_v1};

/* What the call leaves must be as expected; `level` is what the tiles hold.
   Once cells are looked at, the scratch is free as far as it is needed. */
static void check_read(const struct strip_reader *entry,
                       const struct picture *p, struct ref_result r,
                       const uint8_t *level)
{
    struct expected e;
    char what[2 * HEX_TEXT + 160];

    group_case();
    lend_picture(p, r, &e);

    const uint64_t got =
        entry->read(p->lanes, lent.strip.bytes, p->strip_len,
                    lent.marks.bytes, p->marks_len, lent.tiles.bytes,
                    p->tiles_len, lent.scratch.bytes, p->scratch_len);

    memcpy(e.tiles, level, (size_t)r.width * r.height);
    if (was_judged(r))
        memcpy(e.scratch, lent.scratch.bytes, REF_SCRATCH_MIN);
    if (got == packed(r) && all_kept(p, &e))
        return;
    describe(what, p);
    check_number(got, packed(r), what);
    check_buffer(&lent.tiles, e.tiles, what);
    check_buffer(&lent.scratch, e.scratch, what);
    check_buffer(&lent.strip, p->strip, what);
    check_buffer(&lent.marks, p->marks, what);
}

static struct ref_result check_by(const struct strip_reader *entry,
                                  const struct picture *p)
{
    uint8_t level[REF_TILES_MAX] = {0};
    const struct ref_result r =
        entry->ref_read(p->lanes, p->strip, p->strip_len, p->marks,
                        p->marks_len, level, p->tiles_len, p->scratch_len);

    check_read(entry, p, r, level);
    return r;
}

struct ref_result check_picture(const struct picture *p)
{
    return check_by(&both, p);
}

struct ref_result check_picture_v1(const struct picture *p)
{
    return check_by(&first, p);
}

void check_counts(const struct picture *p, const struct board *b,
                  unsigned mended, unsigned repainted)
{
    const struct ref_result r = {.version = (unsigned)b->version,
                                 .width = (unsigned)b->width,
                                 .height = (unsigned)b->height,
                                 .par = (unsigned)b->par,
                                 .mended = mended,
                                 .repainted = repainted,
                                 .wear = ref_wear(mended, p->strip_len),
                                 .lanes = (unsigned)p->lanes};

    check_read(&both, p, r, b->tiles);
}

/* Cells with this mark in which the picture and a strip differ. */
static unsigned differing(const struct picture *p, const uint8_t *strip,
                          uint8_t mark)
{
    unsigned count = 0;

    for (size_t i = 0; i < p->strip_len; i++)
        count += p->marks[i] == mark && p->strip[i] != strip[i];
    return count;
}

/* Marked cells with another byte than the board's strip has there. */
static unsigned repainted_in(const struct picture *p, const struct board *b)
{
    uint8_t strip[REF_STRIP_MAX];

    ref_strip_write(p->lanes, b->version, b->width, b->height, b->par,
                    b->tiles, b->tiles_len, strip, sizeof strip);
    return differing(p, strip, 1);
}

void check_level(const struct picture *p, const struct board *b,
                 unsigned mended)
{
    check_counts(p, b, mended, repainted_in(p, b));
}

void check_refused(const struct picture *p, unsigned code, unsigned lane)
{
    static const uint8_t no_tiles[1];

    check_read(&both, p, (struct ref_result){.code = code, .lane = lane},
               no_tiles);
}

/* ---- redrawing ---- */

bool check_redrawn(const struct picture *p)
{
    uint8_t tiles[REF_TILES_MAX], scratch[REF_SCRATCH_MIN];
    uint8_t strip[REF_STRIP_MAX];
    char what[2 * HEX_TEXT + 160];

    group_case();

    const uint64_t read = zav_strip_read(p->lanes, p->strip, p->strip_len,
                                         p->marks, p->marks_len, tiles,
                                         sizeof tiles, scratch,
                                         sizeof scratch);

    if (zav_code(read) != ZAV_DONE)
        return false;

    const size_t width = zav_width(read), height = zav_height(read);
    const uint64_t written = zav_strip_write(zav_lanes(read),
                                             zav_level_version(read), width,
                                             height, zav_par(read), tiles,
                                             width * height, strip,
                                             sizeof strip);

    describe(what, p);
    check_number(zav_lanes(read), p->lanes, what);
    check_number(zav_length(written), p->strip_len, what);
    check_number(zav_mended(read), differing(p, strip, 0), what);
    check_number(zav_repainted(read), differing(p, strip, 1), what);
    return true;
}
