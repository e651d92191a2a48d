/* reference_strip.c - strips cell by cell, each from its place. */
#include "reference_strip.h"

#include <string.h>

/* ---- lengths ---- */

/* FORMAT 7.9: each lane count there is, with its shortest and longest strip. */
static const struct ends {
    size_t lanes, shortest, longest;
} ends[] = {{2, 14, 374}, {4, 24, 384}, {8, 48, 408}, {16, 96, 448}};

/* NULL if there are no strips of so many lanes. */
static const struct ends *ends_of(size_t lanes)
{
    for (size_t i = 0; i < sizeof ends / sizeof *ends; i++)
        if (ends[i].lanes == lanes)
            return &ends[i];
    return NULL;
}

bool ref_is_lane_count(size_t lanes)
{
    return ends_of(lanes) != NULL;
}

bool ref_is_strip_len(size_t lanes, size_t len)
{
    const struct ends *e = ends_of(lanes);

    return e != NULL && len >= e->shortest && len <= e->longest &&
           len % lanes == 0;
}

size_t ref_k_of(size_t lanes, size_t record_len)
{
    size_t k = 0;

    while (lanes * k < record_len)
        k++;
    return k;
}

size_t ref_k_min(size_t lanes)
{
    return ref_k_of(lanes, REF_RECORD_MIN);
}

size_t ref_k_max(size_t lanes)
{
    return ref_k_of(lanes, REF_RECORD_MAX);
}

size_t ref_strip_len(size_t lanes, size_t k)
{
    return lanes * (k + REF_CHECK_BYTES);
}

/* ---- lanes ---- */

typedef uint8_t dealt[REF_LANES_MAX][REF_LANE_MAX];

/* Record byte q is data byte q div R of lane q mod R, and strip cell p is
   byte p div R of lane p mod R, of R lanes. */
static void deal(size_t lanes, const uint8_t *bytes, size_t len, dealt out)
{
    for (size_t p = 0; p < len; p++)
        out[p % lanes][p / lanes] = bytes[p];
}

static void collect(size_t lanes, uint8_t *bytes, size_t len, dealt in)
{
    for (size_t p = 0; p < len; p++)
        bytes[p] = in[p % lanes][p / lanes];
}

size_t ref_lay_strip(size_t lanes, const uint8_t *data, size_t k,
                     uint8_t *strip)
{
    const size_t len = ref_strip_len(lanes, k);
    dealt in, words;

    deal(lanes, data, lanes * k, in);
    for (size_t lane = 0; lane < lanes; lane++)
        ref_word_write(in[lane], k, words[lane], k + REF_CHECK_BYTES);
    collect(lanes, strip, len, words);
    return len;
}

/* ---- wear ---- */

/* How far wear is from 100 * mended / len, times len. */
static unsigned wear_error(unsigned wear, unsigned mended, size_t len)
{
    const unsigned asked = 100 * mended, told = wear * (unsigned)len;

    return asked > told ? asked - told : told - asked;
}

/* Every percentage is tried. */
unsigned ref_wear(unsigned mended, size_t len)
{
    unsigned best = 0;

    for (unsigned wear = 1; wear <= 100; wear++) {
        const unsigned error = wear_error(wear, mended, len);
        const unsigned least = wear_error(best, mended, len);

        if (error < least || (error == least && wear % 2 == 0))
            best = wear;
    }
    return best;
}

/* ---- entries ---- */

struct ref_result ref_strip_write(size_t lanes, size_t version, size_t width,
                                  size_t height, size_t par,
                                  const uint8_t *tiles, size_t tiles_len,
                                  uint8_t *strip, size_t strip_len)
{
    uint8_t data[REF_LAID_MAX] = {0};

    if (!ref_is_lane_count(lanes))
        return (struct ref_result){.code = 15};
    if (strip_len < REF_STRIP_MAX)
        return (struct ref_result){.code = 4};

    struct ref_result r = ref_record_write(version, width, height, par, tiles,
                                           tiles_len, data, sizeof data);

    if (r.code == 0)
        r.length = (unsigned)ref_lay_strip(lanes, data,
                                           ref_k_of(lanes, r.length), strip);
    return r;
}

bool ref_has_bad_mark(const uint8_t *marks, size_t len)
{
    for (size_t p = 0; p < len; p++)
        if (marks[p] != 0 && marks[p] != 1)
            return true;
    return false;
}

/* Refusals 15 and 1 to 5, before any cell is looked at. */
static unsigned refusal_at_entry(size_t lanes, size_t strip_len,
                                 const uint8_t *marks, size_t marks_len,
                                 size_t tiles_len, size_t scratch_len)
{
    if (!ref_is_lane_count(lanes))
        return 15;
    if (!ref_is_strip_len(lanes, strip_len))
        return 1;
    if (marks_len != strip_len)
        return 2;
    if (ref_has_bad_mark(marks, marks_len))
        return 3;
    if (tiles_len < REF_TILES_MAX)
        return 4;
    if (scratch_len < REF_SCRATCH_MIN)
        return 5;
    return 0;
}

static struct ref_result read_cells(size_t lanes, const uint8_t *strip,
                                    const uint8_t *strip_marks, size_t len,
                                    enum ref_versions versions, uint8_t *tiles)
{
    const size_t word_len = len / lanes;
    const size_t record_len = lanes * (word_len - REF_CHECK_BYTES);
    uint8_t record[REF_LAID_MAX];
    unsigned mended = 0, repainted = 0;
    dealt words, marks;

    deal(lanes, strip, len, words);
    deal(lanes, strip_marks, len, marks);
    for (unsigned lane = 0; lane < lanes; lane++) {
        const struct ref_result r =
            ref_lane_repair(words[lane], word_len, marks[lane], word_len);

        if (r.code != 0)
            return (struct ref_result){.code = 6, .lane = lane};
        mended += r.mended;
        repainted += r.repainted;
    }
    collect(lanes, record, record_len, words);

    struct ref_result level = ref_level_of(record, record_len, lanes, versions,
                                           tiles);

    if (level.code != 0)
        return level;
    level.mended = mended;
    level.repainted = repainted;
    level.wear = ref_wear(mended, len);
    level.lanes = (unsigned)lanes;
    return level;
}

static struct ref_result read_strip(size_t lanes, const uint8_t *strip,
                                    size_t strip_len, const uint8_t *marks,
                                    size_t marks_len,
                                    enum ref_versions versions, uint8_t *tiles,
                                    size_t tiles_len, size_t scratch_len)
{
    const unsigned code = refusal_at_entry(lanes, strip_len, marks, marks_len,
                                           tiles_len, scratch_len);

    if (code != 0)
        return (struct ref_result){.code = code};
    return read_cells(lanes, strip, marks, strip_len, versions, tiles);
}

struct ref_result ref_strip_read(size_t lanes, const uint8_t *strip,
                                 size_t strip_len, const uint8_t *marks,
                                 size_t marks_len, uint8_t *tiles,
                                 size_t tiles_len, size_t scratch_len)
{
    return read_strip(lanes, strip, strip_len, marks, marks_len, REF_BOTH,
                      tiles, tiles_len, scratch_len);
}

struct ref_result ref_strip_read_v1(size_t lanes, const uint8_t *strip,
                                    size_t strip_len, const uint8_t *marks,
                                    size_t marks_len, uint8_t *tiles,
                                    size_t tiles_len, size_t scratch_len)
{
    return read_strip(lanes, strip, strip_len, marks, marks_len,
                      REF_FIRST_ONLY, tiles, tiles_len, scratch_len);
}
