/* damage.c - damaged strips, as both sides are given them. */
#include "damage.h"

#include <fec.h>
#include <string.h>

#include "harness.h"

bool is_reached(const struct damage *d)
{
    return 2 * d->wrong + d->marked <= REF_REACH;
}

void draw_damaged(struct damaged *s, size_t lanes, const struct board *level,
                  const struct damage *d)
{
    picture_board(&s->picture, lanes, level);
    for (size_t lane = 0; lane < lanes; lane++) {
        struct sample l;

        take_lane(&s->picture, lane, &l);
        memcpy(s->written[lane], l.word, l.len);
        if (lane >= d->first_lane)
            draw_damage(&l, d->wrong, d->marked, WRONG_BYTE);
        put_lane(&s->picture, lane, &l);
        memcpy(s->lane[lane], l.word, l.len);
        find_erasures(l.marks, l.len, s->marked[lane]);
    }
}

uint64_t due_result(const struct board *level, const struct damage *d,
                    size_t lanes, size_t cells)
{
    const size_t damaged = lanes - d->first_lane;
    const unsigned mended = (unsigned)(damaged * d->wrong);

    if (!is_reached(d))
        return packed((struct ref_result){.code = 6,
                                          .lane = (unsigned)d->first_lane});
    return packed((struct ref_result){
        .version = (unsigned)level->version, .width = (unsigned)level->width,
        .height = (unsigned)level->height, .par = (unsigned)level->par,
        .mended = mended,
        .repainted = (unsigned)(damaged * d->marked),
        .wear = ref_wear(mended, cells), .lanes = (unsigned)lanes});
}

void fec_read_lane(void *fec, uint8_t *word, const struct damage *d,
                   size_t lane, int marked[REF_CHECK_BYTES])
{
    const int count = lane < d->first_lane ? 0 : (int)d->marked;

    decode_rs_char(fec, word, count > 0 ? marked : NULL, count);
}
