/*
 * words.c - the word library beside libfec, timed in one run.
 *
 * First ns per word for both and how many times faster ours is, then what
 * each accepts of damage beyond reach. Only the ratios travel to another
 * machine.
 */
#include <fec.h>
#include <stdbool.h>
#include <stdio.h>
#include <stdlib.h>
#include <string.h>

#include "beside.h"
#include "draw.h"
#include "harness.h"
#include "reference.h"
#include "zavullimen_words.h"

enum {
    WORDS = 64,    /* words per pass: few enough for the cache */
    ROUNDS = 24,   /* of a run */
    DRAWN = 20000, /* damaged words per line of the second table */
    FULL = REF_WORD_MAX
};

struct damage {
    const char *name;
    int wrong;
    int marked;
};

/* ---- a batch of words with one kind of damage ---- */

struct batch {
    void *fec;
    size_t len;
    const struct damage *damage;
    uint8_t written[WORDS][FULL];
    uint8_t damaged[WORDS][FULL];
    uint8_t marks[WORDS][FULL];
    uint8_t work[WORDS][FULL];             /* what a pass changes */
    int erasures[WORDS][REF_CHECK_BYTES];
    int work_erasures[WORDS][REF_CHECK_BYTES];
    uint64_t result[WORDS];
};

static void fill(void *batch)
{
    struct batch *b = batch;
    const struct damage *d = b->damage;

    for (int i = 0; i < WORDS; i++) {
        struct sample s;

        draw_clean(&s, b->len);
        memcpy(b->written[i], s.word, b->len);
        draw_damage(&s, (size_t)d->wrong, (size_t)d->marked, WRONG_BYTE);
        memcpy(b->damaged[i], s.word, b->len);
        memcpy(b->marks[i], s.marks, b->len);
        find_erasures(s.marks, b->len, b->erasures[i]);
    }
}

static void restore(void *batch)
{
    struct batch *b = batch;

    memcpy(b->work, b->damaged, sizeof b->work);
    memcpy(b->work_erasures, b->erasures, sizeof b->work_erasures);
}

/* ---- passes over a batch ---- */

static void our_write(void *batch)
{
    struct batch *b = batch;

    for (int i = 0; i < WORDS; i++)
        b->result[i] = zav_word_write(b->written[i], b->len - REF_CHECK_BYTES,
                                      b->work[i], b->len);
}

static void fec_write(void *batch)
{
    struct batch *b = batch;

    for (int i = 0; i < WORDS; i++)
        encode_rs_char(b->fec, b->work[i],
                       b->work[i] + b->len - REF_CHECK_BYTES);
}

static void our_test(void *batch)
{
    struct batch *b = batch;

    for (int i = 0; i < WORDS; i++)
        b->result[i] = zav_word_test(b->work[i], b->len);
}

static void our_repair(void *batch)
{
    struct batch *b = batch;

    for (int i = 0; i < WORDS; i++)
        b->result[i] =
            zav_word_repair(b->work[i], b->len, b->marks[i], b->len);
}

static void fec_repair(void *batch)
{
    struct batch *b = batch;
    const int marked = b->damage->marked;

    for (int i = 0; i < WORDS; i++)
        b->result[i] = (uint64_t)decode_rs_char(
            b->fec, b->work[i], marked > 0 ? b->work_erasures[i] : NULL,
            marked);
}

/* ---- what a pass must leave ---- */

static bool is_reached(const struct damage *d)
{
    return 2 * d->wrong + d->marked <= REF_REACH;
}

static void check_fec(void *batch)
{
    const struct batch *b = batch;

    for (int i = 0; i < WORDS; i++)
        require(!is_reached(b->damage) ||
                memcmp(b->work[i], b->written[i], b->len) == 0, "libfec");
}

static void check_ours(void *batch)
{
    const struct batch *b = batch;
    const bool reached = is_reached(b->damage);

    for (int i = 0; i < WORDS; i++) {
        const uint8_t *expected = reached ? b->written[i] : b->damaged[i];

        require(memcmp(b->work[i], expected, b->len) == 0, "ours");
        require(zav_code(b->result[i]) ==
                (reached ? ZAV_DONE : ZAV_BEYOND_REACH), "ours");
    }
}

/* ---- timing ---- */

static void compare(struct batch *b, const struct damage *d, pass *ours,
                    pass *theirs)
{
    const struct row row = {
        .batch = b, .count = WORDS, .rounds = ROUNDS, .fill = fill,
        .restore = restore, .theirs = {theirs, check_fec},
        .ours = {ours, check_ours}};

    b->damage = d;
    printf("%5zu  %-20s", b->len, d->name);
    print_row(&row);
}

static void time_length(size_t len)
{
    static const struct damage none_written = {"encode", 0, 0};
    static const struct damage none_tested = {"clean test", 0, 0};
    static const struct damage damages[] = {
        {"1 wrong", 1, 0},
        {"2 wrong", 2, 0},
        {"5 marked", 0, 5},
        {"1 marked + 2 wrong", 2, 1},
        {"3 wrong, refused", 3, 0},
    };
    static struct batch b;

    b.fec = new_fec(len);
    b.len = len;
    compare(&b, &none_written, our_write, fec_write);
    compare(&b, &none_tested, our_test, fec_repair);
    for (size_t k = 0; k < COUNT(damages); k++)
        compare(&b, &damages[k], our_repair, fec_repair);
    free_rs_char(b.fec);
}

/* ---- damage beyond reach ---- */

/* How often a library accepted, and how often not as the definition says. */
struct verdict {
    int accepted;
    int amiss;
};

/* At 6 the definition refuses, always; above 6 the reference decides. */
static bool define(const struct damage *d, const struct sample *s,
                   uint8_t expected[FULL])
{
    memcpy(expected, s->word, s->len);
    if (2 * d->wrong + d->marked == REF_REACH + 1)
        return false;
    return ref_word_repair(expected, s->len, s->marks, s->len).code == 0;
}

static void judge(struct verdict *v, bool accepted, bool defined, bool same)
{
    v->accepted += accepted;
    v->amiss += accepted != defined || (accepted && !same);
}

static void judge_both(void *fec, const struct damage *d,
                       const struct sample *s, struct verdict *theirs,
                       struct verdict *ours)
{
    uint8_t expected[FULL], word[FULL];
    int erasures[REF_CHECK_BYTES] = {0};
    const bool defined = define(d, s, expected);
    bool accepted;

    find_erasures(s->marks, s->len, erasures);
    memcpy(word, s->word, s->len);
    accepted = decode_rs_char(fec, word, erasures, d->marked) >= 0;
    judge(theirs, accepted, defined, memcmp(word, expected, s->len) == 0);

    memcpy(word, s->word, s->len);
    accepted = zav_code(zav_word_repair(word, s->len, s->marks, s->len)) == 0;
    judge(ours, accepted, defined, memcmp(word, expected, s->len) == 0);
}

/* Returns how often ours was amiss, which must be never. */
static int accept_beyond(void *fec, size_t len, const struct damage *d)
{
    struct verdict theirs = {0, 0}, ours = {0, 0};

    for (int k = 0; k < DRAWN; k++) {
        struct sample s;

        draw_clean(&s, len);
        draw_damage(&s, (size_t)d->wrong, (size_t)d->marked, ANY_BYTE);
        judge_both(fec, d, &s, &theirs, &ours);
    }
    printf("%5zu  %-20s %8d %8d %8d %8d\n", len, d->name, theirs.accepted,
           theirs.amiss, ours.accepted, ours.amiss);
    return ours.amiss;
}

static int accept_length(size_t len)
{
    static const struct damage damages[] = {
        {"3 wrong", 3, 0},
        {"2 marked + 2 wrong", 2, 2},
        {"4 marked + 1 wrong", 1, 4},
        {"5 marked + 1 wrong", 1, 5},
    };
    void *fec = new_fec(len);
    int amiss = 0;

    for (size_t k = 0; k < COUNT(damages); k++)
        amiss += accept_beyond(fec, len, &damages[k]);
    free_rs_char(fec);
    return amiss;
}

int main(void)
{
    static const size_t lengths[] = {96, 255};
    int amiss = 0;

    draw_seed(1);
    printf("ns per word\n");
    printf("%5s  %-20s", "n", "");
    print_heads("libfec");
    for (size_t k = 0; k < COUNT(lengths); k++)
        time_length(lengths[k]);

    printf("\ndamage beyond reach, %d words each\n", DRAWN);
    printf("%5s  %-20s %17s %17s\n", "", "", "libfec", "ours");
    printf("%5s  %-20s %8s %8s %8s %8s\n", "n", "", "accepted", "amiss",
           "accepted", "amiss");
    for (size_t k = 0; k < COUNT(lengths); k++)
        amiss += accept_length(lengths[k]);
    printf("amiss: not what the definition says. With 5 marks a clean word is\n"
           "always within reach, so there it is right to accept.\n");
    return amiss == 0 ? 0 : 1;
}
