/* test_header.c - what the headers themselves do: fields and texts. */
#include "test_header.h"

#include <stdio.h>
#include <string.h>

#include "draw.h"
#include "harness.h"
#include "pictures.h"
#include "reference_pool.h"
#include "reference_text.h"
#include "reference_tiny.h"
#include "zavullimen.h"

/* Readers, writers and pooling share bits, so each is unpacked by its own
   fields. In all the bits of no field are first set and then clear, to see that
   the unpackers leave them out. */

static const struct ref_result reader_set = {
    .code = 31, .mended = 63, .repainted = 127, .lane = 15, .version = 3,
    .width = 31, .height = 31, .par = 1023, .wear = 63, .lanes = 31};

static struct ref_result draw_reader_result(void)
{
    return (struct ref_result){.code = (unsigned)draw_below(32),
                               .mended = (unsigned)draw_below(64),
                               .repainted = (unsigned)draw_below(128),
                               .lane = (unsigned)draw_below(16),
                               .version = (unsigned)draw_below(4),
                               .width = (unsigned)draw_below(32),
                               .height = (unsigned)draw_below(32),
                               .par = (unsigned)draw_below(1024),
                               .wear = (unsigned)draw_below(64),
                               .lanes = (unsigned)draw_below(32)};
}

static void check_reader_result(struct ref_result r, uint64_t result)
{
    group_case();
    check_number(zav_code(result), r.code, "code");
    check_number(zav_mended(result), r.mended, "mended");
    check_number(zav_repainted(result), r.repainted, "repainted");
    check_number(zav_lane(result), r.lane, "lane");
    check_number(zav_level_version(result), r.version, "version");
    check_number(zav_width(result), r.width, "width");
    check_number(zav_height(result), r.height, "height");
    check_number(zav_par(result), r.par, "par");
    check_number(zav_wear(result), r.wear, "wear");
    check_number(zav_lanes(result), r.lanes, "lanes");
}

static void test_reader_fields(void)
{
    group_begin("header", "unpackers of a reader's fields");
    for (size_t k = 0; k < scaled(30000); k++) {
        const struct ref_result r = draw_reader_result();

        check_reader_result(r, packed(r) | ~packed(reader_set));
        check_reader_result(r, packed(r));
    }
    group_end();
}

static const struct ref_result writer_set = {.code = 31, .length = 65535};

static void check_writer_result(struct ref_result r, uint64_t result)
{
    group_case();
    check_number(zav_code(result), r.code, "code");
    check_number(zav_length(result), r.length, "length");
}

/* Every length that there is room for. */
static void test_writer_fields(void)
{
    group_begin("header", "unpackers of a writer's fields");
    for (unsigned length = 0; length <= writer_set.length; length++) {
        const struct ref_result r = {.code = (unsigned)draw_below(32),
                                     .length = length};

        check_writer_result(r, packed(r) | ~packed(writer_set));
        check_writer_result(r, packed(r));
    }
    group_end();
}

static const struct ref_pooling pool_set = {31, 511, 511, 511, 511};

static struct ref_pooling draw_pooling(void)
{
    return (struct ref_pooling){.code = (unsigned)draw_below(32),
                                .agreed = (unsigned)draw_below(512),
                                .taken = (unsigned)draw_below(512),
                                .in_conflict = (unsigned)draw_below(512),
                                .marked_in_both = (unsigned)draw_below(512)};
}

static void check_pooling(struct ref_pooling r, uint64_t result)
{
    group_case();
    check_number(zav_code(result), r.code, "code");
    check_number(zav_agreed(result), r.agreed, "agreed");
    check_number(zav_taken(result), r.taken, "taken");
    check_number(zav_in_conflict(result), r.in_conflict, "in conflict");
    check_number(zav_marked_in_both(result), r.marked_in_both,
                 "marked in both");
}

static void test_pool_fields(void)
{
    group_begin("header", "unpackers of the counts of pooling");
    for (size_t k = 0; k < scaled(30000); k++) {
        const struct ref_pooling r = draw_pooling();

        check_pooling(r, packed_pooling(r) | ~packed_pooling(pool_set));
        check_pooling(r, packed_pooling(r));
    }
    group_end();
}

/* Each refusal has words of its own, and no other number has any. */
static void test_texts(void)
{
    static const char unknown[] = "unknown refusal";

    group_begin("header", "refusals in words");
    for (unsigned code = 0; code <= ZAV_BAD_LANES; code++)
        for (unsigned other = 0; other <= 300; other++) {
            const bool same = strcmp(zav_refusal_text(code),
                                     zav_refusal_text(other)) == 0;

            group_case();
            if (same != (code == other))
                group_fail("%u and %u: the same words or not", code, other);
        }
    for (unsigned code = ZAV_BAD_LANES + 1; code <= 300; code++)
        if (strcmp(zav_refusal_text(code), unknown) != 0)
            group_fail("%u is no refusal, and has words", code);
    if (strcmp(zav_refusal_text(0), "no refusal") != 0)
        group_fail("0 is a refusal");
    check_number(ZAV_BAD_LANES, 15, "the last refusal");
    group_end();
}

/* The string is written out beside the numbers it is made of. */
static void test_version(void)
{
    char text[64];

    group_begin("header", "version");
    group_case();
    sprintf(text, "%d.%d.%d", ZAV_VERSION_MAJOR, ZAV_VERSION_MINOR,
            ZAV_VERSION_PATCH);
    if (strcmp(text, ZAV_VERSION_STRING) != 0)
        group_fail("%s, and the numbers say %s", ZAV_VERSION_STRING, text);
    group_end();
}

/* What callers lay out their buffers by, and the versions. */
static void test_sizes(void)
{
    static const struct {
        const char *name;
        size_t header, reference;
    } sizes[] = {
        {"ZAV_CHECK_BYTES", ZAV_CHECK_BYTES, REF_CHECK_BYTES},
        {"ZAV_WORD_MIN", ZAV_WORD_MIN, REF_WORD_MIN},
        {"ZAV_WORD_MAX", ZAV_WORD_MAX, REF_WORD_MAX},
        {"ZAV_LANE_MAX", ZAV_LANE_MAX, REF_LANE_MAX},
        {"ZAV_RECORD_MIN", ZAV_RECORD_MIN, REF_RECORD_MIN},
        {"ZAV_RECORD_MAX", ZAV_RECORD_MAX, REF_RECORD_MAX},
        {"ZAV_TILES_MAX", ZAV_TILES_MAX, REF_TILES_MAX},
        {"ZAV_STRIP_LANES", ZAV_STRIP_LANES, REF_LANES},
        {"ZAV_LANES_MAX", ZAV_LANES_MAX, REF_LANES_MAX},
        {"ZAV_STRIP_MAX", ZAV_STRIP_MAX, REF_STRIP_MAX},
        {"ZAV_SCRATCH_MIN", ZAV_SCRATCH_MIN, REF_SCRATCH_MIN},
        {"ZAV_TEXT_MIN", ZAV_TEXT_MIN, REF_TEXT_MIN},
        {"ZAV_TEXT_MAX", ZAV_TEXT_MAX, REF_TEXT_MAX},
        {"ZAV_TINY_MAX", ZAV_TINY_MAX, REF_TINY_MAX},
        {"ZAV_LEVEL_V1", ZAV_LEVEL_V1, 1},
        {"ZAV_LEVEL_V2", ZAV_LEVEL_V2, REF_NEWEST},
    };

    group_begin("header", "sizes");
    for (size_t i = 0; i < COUNT(sizes); i++) {
        group_case();
        check_number(sizes[i].header, sizes[i].reference, sizes[i].name);
    }
    group_end();
}

/* ---- what depends on the lane count ---- */

/* Whoever has a sum of lanes need not put brackets around it. */
static void check_lanes(size_t lanes)
{
    const size_t one_less = lanes - 1;

    group_case();
    check_number(ZAV_STRIP_SHORTEST(one_less + 1),
                 ref_strip_len(lanes, ref_k_min(lanes)), "shortest strip");
    check_number(ZAV_STRIP_LONGEST(one_less + 1),
                 ref_strip_len(lanes, ref_k_max(lanes)), "longest strip");
    check_number(ZAV_STICKER_UNMARKED(one_less + 1), 2 * lanes,
                 "sticker, unmarked");
    check_number(ZAV_STICKER_MARKED(one_less + 1), 5 * lanes,
                 "sticker, marked");
    if (ZAV_STRIP_LONGEST(lanes) > ZAV_STRIP_MAX)
        group_fail("no buffer is long enough for %zu lanes", lanes);
}

/* The figures of FORMAT 7.9. */
static void check_ends(size_t lanes, size_t shortest, size_t longest)
{
    check_number(ZAV_STRIP_SHORTEST(lanes), shortest, "shortest");
    check_number(ZAV_STRIP_LONGEST(lanes), longest, "longest");
}

static void test_lanes(void)
{
    group_begin("header", "sizes for each lane count");
    for (size_t i = 0; i < LANE_COUNTS; i++)
        check_lanes(lane_counts[i]);
    check_ends(2, 14, 374);
    check_ends(4, 24, 384);
    check_ends(8, 48, 408);
    check_ends(16, 96, 448);
    group_end();
}

static void check_fits(size_t lanes, size_t length)
{
    char what[80];

    group_case();
    sprintf(what, "%zu lanes, %zu cells", lanes, length);
    check_number((uint64_t)zav_strip_fits(lanes, length),
                 ref_is_strip_len(lanes, length), what);
}

/* Also where a narrower number would be cut to one that is legal. */
static void test_fits(void)
{
    group_begin("header", "lengths that strips can have");
    for (size_t lanes = 0; lanes <= 40; lanes++)
        for (size_t length = 0; length <= 500; length++)
            check_fits(lanes, length);
    for (int bit = 9; bit < 64; bit++) {
        const size_t past = (size_t)1 << bit;

        for (size_t i = 0; i < LANE_COUNTS; i++) {
            check_fits(past + lane_counts[i], 96);
            check_fits(lane_counts[i], past + 96);
        }
    }
    check_fits(SIZE_MAX, SIZE_MAX);
    group_end();
}

void test_header(void)
{
    test_version();
    test_sizes();
    test_lanes();
    test_fits();
    test_reader_fields();
    test_writer_fields();
    test_pool_fields();
    test_texts();
}
