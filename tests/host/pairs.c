/* pairs.c - two pictures of a strip as pooling is given them, and the check of
   one call. */
#include "pairs.h"

#include <stdio.h>

#include "harness.h"
#include "zavullimen_pools.h"

void fit_buffers(struct pair *p)
{
    p->cells_len = p->marks_len = p->first.strip_len;
}

static struct {
    struct lent first, first_marks, second, second_marks, cells, marks;
} lent;

struct outcome {
    struct ref_pooling result;
    uint8_t cells[STRIP_ROOM], marks[STRIP_ROOM];
};

static struct ref_picture view(const struct picture *p)
{
    return (struct ref_picture){p->strip, p->strip_len, p->marks,
                                p->marks_len};
}

/* What must come out, over buffers that hold anything. */
static void expect(const struct pair *p, struct outcome *o)
{
    const struct ref_picture first = view(&p->first);
    const struct ref_picture second = view(&p->second);

    draw_bytes(o->cells, sizeof o->cells);
    draw_bytes(o->marks, sizeof o->marks);
    lend(&lent.cells, o->cells, p->cells_len);
    lend(&lent.marks, o->marks, p->marks_len);
    o->result = ref_strip_pool(&first, &second, o->cells, p->cells_len,
                               o->marks, p->marks_len);
    if (o->result.code != 0) {
        seal(&lent.cells);
        seal(&lent.marks);
    }
}

static void lend_sealed(struct lent *b, const uint8_t *bytes, size_t len)
{
    lend(b, bytes, len);
    seal(b);
}

static void lend_pictures(const struct pair *p)
{
    lend_sealed(&lent.first, p->first.strip, p->first.strip_len);
    lend_sealed(&lent.first_marks, p->first.marks, p->first.marks_len);
    lend_sealed(&lent.second, p->second.strip, p->second.strip_len);
    lend_sealed(&lent.second_marks, p->second.marks, p->second.marks_len);
}

static void describe(char *what, const struct pair *p)
{
    char first[HEX_TEXT], first_marks[HEX_TEXT];
    char second[HEX_TEXT], second_marks[HEX_TEXT];

    sprintf(what, "%s, marks %s, and %s, marks %s, to %zu and %zu",
            hex(first, p->first.strip, p->first.strip_len),
            hex(first_marks, p->first.marks, p->first.marks_len),
            hex(second, p->second.strip, p->second.strip_len),
            hex(second_marks, p->second.marks, p->second.marks_len),
            p->cells_len, p->marks_len);
}

static uint64_t pool_lent(void)
{
    return zav_strip_pool(lent.first.bytes, lent.first.len,
                          lent.first_marks.bytes, lent.first_marks.len,
                          lent.second.bytes, lent.second.len,
                          lent.second_marks.bytes, lent.second_marks.len,
                          lent.cells.bytes, lent.cells.len, lent.marks.bytes,
                          lent.marks.len);
}

static bool all_kept(const struct pair *p, const struct outcome *o)
{
    return is_kept(&lent.cells, o->cells) && is_kept(&lent.marks, o->marks) &&
           is_kept(&lent.first, p->first.strip) &&
           is_kept(&lent.first_marks, p->first.marks) &&
           is_kept(&lent.second, p->second.strip) &&
           is_kept(&lent.second_marks, p->second.marks);
}

struct ref_pooling check_pair(const struct pair *p)
{
    char what[4 * HEX_TEXT + 64];
    struct outcome o;

    group_case();
    expect(p, &o);
    lend_pictures(p);

    const uint64_t got = pool_lent();

    if (got == packed_pooling(o.result) && all_kept(p, &o))
        return o.result;
    describe(what, p);
    check_number(got, packed_pooling(o.result), what);
    check_buffer(&lent.cells, o.cells, what);
    check_buffer(&lent.marks, o.marks, what);
    check_buffer(&lent.first, p->first.strip, what);
    check_buffer(&lent.first_marks, p->first.marks, what);
    check_buffer(&lent.second, p->second.strip, what);
    check_buffer(&lent.second_marks, p->second.marks, what);
    return o.result;
}
