/* tries.c - a strip read with the lane count that was named, or with each that
 * fits its length. */
#include "tries.h"

/* ---- trying ---- */

/* The refusals that a file can get are asked in the order of their numbers. */
static void add(struct tries *t, size_t lanes, uint64_t result)
{
    const bool level = zav_code(result) == ZAV_DONE;

    t->lanes[t->count] = lanes;
    t->results[t->count++] = result;
    if (level || (t->levels == 0 && zav_code(result) > zav_code(t->result)))
        t->result = result;
    t->levels += level;
}

static bool fits(size_t lanes, const struct cells *c)
{
    return c->len % 2 == 0 && zav_strip_fits(lanes, c->len / 2);
}

/* A mark that is none is refused whatever the lanes. */
static bool fits_others(const struct tries *t, const struct cells *c)
{
    if (t->levels > 0 || zav_code(t->result) == ZAV_BAD_MARK)
        return false;
    for (size_t i = 0; i < LANE_COUNTS; i++)
        if (lane_counts[i] != t->asked && fits(lane_counts[i], c))
            return true;
    return false;
}

void try_lanes(struct tries *t, const struct lanes *l, const struct cells *c,
               uint8_t tiles[ZAV_TILES_MAX])
{
    *t = (struct tries){.asked = l->count, .result = ZAV_BAD_LENGTH};
    for (size_t i = 0; i < LANE_COUNTS; i++) {
        const size_t lanes = lane_counts[i];

        if (l->count == ANY_LANES ? fits(lanes, c) : l->count == lanes)
            add(t, lanes, read_cells(lanes, c, tiles));
    }
    t->fits_others = !l->given && fits_others(t, c);
}

/* ---- words ---- */

static void print_levels(FILE *out, const struct tries *t)
{
    const char *before = "refused: a level";

    for (size_t i = 0; i < t->count; i++)
        if (zav_code(t->results[i]) == ZAV_DONE) {
            fprintf(out, "%s with %zu lanes", before, t->lanes[i]);
            before = " and another";
        }
    fputs("; the sender must say which, and --lanes names it\n", out);
}

/* " 6 lane 0 of 2, lane 3 of 8" for the counts that were refused so; how many
 * they are. */
static size_t print_code(FILE *out, const struct tries *t, unsigned code,
                         const char *before)
{
    size_t said = 0;

    for (size_t i = 0; i < t->count; i++) {
        if (zav_code(t->results[i]) != code)
            continue;
        if (said++ == 0)
            fprintf(out, "%s %u", before, code);
        else
            putc(',', out);
        fprintf(out, " lane %u of %zu", zav_lane(t->results[i]), t->lanes[i]);
    }
    return said;
}

/* Each count's, those with one number together. */
static void print_each(FILE *out, const struct tries *t)
{
    const char *before = "refused";

    for (unsigned code = 1; code <= zav_code(t->result); code++)
        if (print_code(out, t, code, before) > 0) {
            fputs(": ", out);
            print_words(out, t->asked, code);
            before = ";";
        }
    putc('\n', out);
}

void print_refusals(FILE *out, const struct tries *t)
{
    if (t->levels > 1)
        print_levels(out, t);
    else if (t->asked == ANY_LANES && t->count > 0)
        print_each(out, t);
    else
        print_refusal(out, t->asked, t->result);
}

void hint_lanes(const char *tool, const char *whose_length)
{
    fflush(stdout);
    fprintf(stderr, "%s: this was with %d lanes, and other counts fit %s: "
            "--lanes names one, --lanes any tries each that fits\n", tool,
            ZAV_STRIP_LANES, whose_length);
}
