/*
 * fuzz_strip.c - any bytes, through the readers of records and strips, through
 * the writers and through the second implementation: they must agree in every
 * number and every byte. A level that was read from a strip is also written
 * again, and the strips compared.
 */
#include "fuzz_strip.h"

#include <string.h>

#include "fuzz.h"
#include "harness.h"
#include "pictures.h"
#include "test_record.h"
#include "test_writer.h"

struct input {
    uint8_t head[HEAD];
    const uint8_t *body;
    size_t len;
};

/* What is missing of the head is zero. */
static struct input split(const uint8_t *data, size_t size)
{
    struct input in = {.body = data, .len = 0};
    const size_t head = size < HEAD ? size : HEAD;

    if (head > 0)
        memcpy(in.head, data, head);
    if (size > HEAD) {
        in.body = data + HEAD;
        in.len = size - HEAD;
    }
    return in;
}

static size_t least(size_t a, size_t b)
{
    return a < b ? a : b;
}

/* The body's byte at this place, or zero. */
static uint8_t at(const struct input *in, size_t place)
{
    return place < in->len ? in->body[place] : 0;
}

/* ---- strips ---- */

size_t lanes_of(uint8_t byte)
{
    static const size_t counts[LANE_COUNTS] = {4, 2, 8, 16};

    return byte < ANY_LANES ? counts[byte % LANE_COUNTS]
                            : (size_t)byte - ANY_LANES;
}

static void take_halves(const struct input *in, struct picture *p)
{
    const size_t half = in->len / 2;
    const uint8_t bits = in->head[FLAGS_AT] & RAW_MARKS ? 0xFF : 1;

    p->strip_len = least(half, STRIP_ROOM);
    memcpy(p->strip, in->body, p->strip_len);
    for (size_t i = 0; i < STRIP_ROOM; i++)
        p->marks[i] = at(in, half + i) & bits;
}

/* Three bytes of damage: a place of two bytes, whose top bit says to mark it,
   and what to change. */
static void damage(struct picture *p, const uint8_t *bytes)
{
    const size_t place = (bytes[0] | (bytes[1] & 0x7Fu) << 8) % p->strip_len;

    p->strip[place] ^= bytes[2];
    p->marks[place] |= bytes[1] >> 7;
}

/* Past the check bytes, where a change at random hardly ever gets: lanes that
   are clean but for a few cells. */
static void lay_and_damage(const struct input *in, struct picture *p)
{
    const size_t half = in->len / 2;
    const size_t k = least(half / p->lanes, ref_k_max(p->lanes));

    p->strip_len = ref_lay_strip(p->lanes, in->body, k, p->strip);
    memset(p->marks, 0, sizeof p->marks);
    for (size_t i = half; i + 3 <= in->len; i += 3)
        damage(p, in->body + i);
}

static void try_strip(const struct input *in)
{
    struct picture p = {.lanes = lanes_of(in->head[LANES_AT])};

    if (in->head[FLAGS_AT] & LAID && ref_is_lane_count(p.lanes) &&
        in->len >= 2 * p.lanes)
        lay_and_damage(in, &p);
    else
        take_halves(in, &p);

    p.marks_len = least(length_near(p.strip_len, in->head[MARKS_AT]),
                        STRIP_ROOM);
    p.tiles_len = length_near(REF_TILES_MAX, in->head[TILES_AT]);
    p.scratch_len = length_near(REF_SCRATCH_MIN, in->head[SCRATCH_AT]);
    if (in->head[FLAGS_AT] & FIRST_ONLY)
        check_picture_v1(&p);
    else if (check_picture(&p).code == 0 && !check_redrawn(&p))
        group_fail("refused when it was read again");
}

/* ---- records ---- */

static void write_by(const struct writer *entry, const struct input *in,
                     const struct board *b)
{
    check_writing(entry, b,
                  least(length_near(entry->room, in->head[BUFFER_AT]),
                        BUFFER_ROOM));
}

/* The strip has the lanes that the head says, whether or not they are right. */
static void write_all(const struct input *in, const struct board *b)
{
    struct writer strip = writers[STRIP_WRITER];

    strip.lanes = lanes_of(in->head[LANES_AT]);
    write_by(&writers[RECORD_WRITER], in, b);
    write_by(&writers[TEXT_WRITER], in, b);
    write_by(&strip, in, b);
}

/* A level that was read is written again. */
static void try_record(const struct input *in)
{
    const size_t len = least(in->len / 2, RECORD_ROOM);
    struct board b;

    (in->head[FLAGS_AT] & FIRST_ONLY ? check_record_v1 : check_record)(
        in->body, len, length_near(REF_TILES_MAX, in->head[TILES_AT]));

    const struct ref_result r =
        ref_record_read(in->body, len, b.tiles, sizeof b.tiles);

    b.version = r.version;
    b.width = r.width;
    b.height = r.height;
    b.par = r.par;
    b.tiles_len = (size_t)r.width * r.height;
    if (r.code == 0)
        write_all(in, &b);
}

static void try_writers(const struct input *in)
{
    struct board b = {.version = 1 + in->head[FLAGS_AT] / VERSION % 4,
                      .width = in->head[WIDTH_AT],
                      .height = in->head[HEIGHT_AT],
                      .par = in->head[PAR_AT] |
                             (size_t)in->head[PAR_AT + 1] << 8};

    b.tiles_len = least(in->head[FLAGS_AT] & RAW_TILES ? in->len
                                                       : b.width * b.height,
                        TILES_ROOM);
    for (size_t i = 0; i < b.tiles_len; i++)
        b.tiles[i] = at(in, i) & 7;
    write_all(in, &b);
}

void try_input(const uint8_t *data, size_t size)
{
    const struct input in = split(data, size);

    try_strip(&in);
    try_record(&in);
    try_writers(&in);
}
