/* reference_pool.c - pooling, by asking of each cell who shows it. */
#include "reference_pool.h"

/* ---- refusals ---- */

static unsigned refusal(const struct ref_picture *first,
                        const struct ref_picture *second, size_t cells_len,
                        size_t marks_len)
{
    if (!ref_is_strip_len(REF_LANES, first->cells_len) ||
        !ref_is_strip_len(REF_LANES, second->cells_len))
        return 1;
    if (first->cells_len != second->cells_len)
        return 13;
    if (first->marks_len != first->cells_len ||
        second->marks_len != second->cells_len)
        return 2;
    if (ref_has_bad_mark(first->marks, first->marks_len) ||
        ref_has_bad_mark(second->marks, second->marks_len))
        return 3;
    if (cells_len != first->cells_len || marks_len != first->cells_len)
        return 4;
    return 0;
}

/* ---- cells ---- */

/* The bytes that are shown of a cell, by one picture, by both or by none. */
struct shown {
    uint8_t bytes[2];
    unsigned count;
};

static void look(struct shown *s, const struct ref_picture *p, size_t cell)
{
    if (p->marks[cell] == 0)
        s->bytes[s->count++] = p->cells[cell];
}

/* One cell; the count that it belongs to is returned. */
static unsigned *pool_cell(const struct shown *s, struct ref_pooling *r,
                           uint8_t *cell, uint8_t *mark)
{
    const bool agree = s->count == 2 && s->bytes[0] == s->bytes[1];
    const bool known = s->count == 1 || agree;

    *cell = known ? s->bytes[0] : 0;
    *mark = !known;
    if (s->count == 0)
        return &r->marked_in_both;
    if (s->count == 1)
        return &r->taken;
    return agree ? &r->agreed : &r->in_conflict;
}

/* ---- */

uint64_t packed_pooling(struct ref_pooling r)
{
    return r.code + 32 * (r.agreed + 512 * (r.taken + 512 * (r.in_conflict +
           512 * (uint64_t)r.marked_in_both)));
}

struct ref_pooling ref_strip_pool(const struct ref_picture *first,
                                  const struct ref_picture *second,
                                  uint8_t *cells, size_t cells_len,
                                  uint8_t *marks, size_t marks_len)
{
    struct ref_pooling r = {
        .code = refusal(first, second, cells_len, marks_len)};

    for (size_t i = 0; r.code == 0 && i < cells_len; i++) {
        struct shown s = {.count = 0};

        look(&s, first, i);
        look(&s, second, i);
        ++*pool_cell(&s, &r, &cells[i], &marks[i]);
    }
    return r;
}
