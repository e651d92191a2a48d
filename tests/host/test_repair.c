/* test_repair.c - word and lane repair against the second implementation. */
#include "test_repair.h"

#include <stdio.h>
#include <string.h>

#include "harness.h"
#include "zavullimen_words.h"

/* 28, 51, 96 and 187 are the longest lanes of strips of 16 to 2 lanes. */
static const size_t lengths[] = {6, 7, 10, 28, 51, 96, 187, 255};

const struct repair repairs[REPAIRS] = {
    {"word repair", zav_word_repair, ref_word_repair, REF_WORD_MAX},
    {"lane repair", zav_lane_repair, ref_lane_repair, REF_LANE_MAX},
};

void check_result(const struct repair *entry, const struct sample *s,
                  struct ref_result expected, const uint8_t *expected_word)
{
    static struct lent word, marks;
    char what[2 * HEX_TEXT + 80];
    char word_text[HEX_TEXT], marks_text[HEX_TEXT];

    group_case();
    lend(&word, s->word, s->len);
    lend(&marks, s->marks, s->marks_len);
    seal(&marks);
    if (expected.code != 0)
        seal(&word);

    const uint64_t got =
        entry->run(word.bytes, s->len, marks.bytes, s->marks_len);

    if (got == packed(expected) && is_kept(&word, expected_word) &&
        is_kept(&marks, s->marks))
        return;
    sprintf(what, "%zu bytes %s with %zu marks %s", s->len,
            hex(word_text, s->word, s->len), s->marks_len,
            hex(marks_text, s->marks, s->marks_len));
    check_number(got, packed(expected), what);
    check_buffer(&word, expected_word, what);
    check_buffer(&marks, s->marks, what);
}

static void check_repair(const struct repair *entry, const struct sample *s)
{
    uint8_t expected[SAMPLE_MAX];

    if (group_failed())
        return;
    memcpy(expected, s->word, s->len);

    const struct ref_result r =
        entry->reference(expected, s->len, s->marks, s->marks_len);

    check_result(entry, s, r, expected);
}

static size_t smaller(size_t a, size_t b)
{
    return a < b ? a : b;
}

/* The named lengths in turn, and a random one after them. */
static size_t pick_length(const struct repair *entry, size_t turn)
{
    const size_t k = turn % (COUNT(lengths) + 1);

    if (k < COUNT(lengths) && lengths[k] <= entry->longest)
        return lengths[k];
    return draw_between(REF_WORD_MIN, entry->longest);
}

static void check_damage(const struct repair *entry, size_t len, size_t wrong,
                         size_t marked, enum under_mark under)
{
    struct sample s;

    draw_clean(&s, len);
    draw_damage(&s, wrong, marked, under);
    check_repair(entry, &s);
}

/* Every split with 2e + f from least to most, at every length. */
static void test_splits(const struct repair *entry, const char *name,
                        size_t least, size_t most, size_t cases)
{
    group_begin(entry->name, name);
    for (size_t wrong = 0; 2 * wrong <= most; wrong++)
        for (size_t marked = 0; 2 * wrong + marked <= most; marked++)
            for (size_t k = 0; k < scaled(cases); k++)
                if (2 * wrong + marked >= least)
                    check_damage(entry, pick_length(entry, k), wrong, marked,
                                 draw_under_mark());
    group_end();
}

static void test_beyond(const struct repair *entry)
{
    group_begin(entry->name, "damage of 7 and more");
    for (size_t k = 0; k < scaled(2000); k++) {
        const size_t len = pick_length(entry, k);
        const size_t marked = draw_below(6);
        const size_t least = (8 - marked) / 2; /* so that 2e + f is 7 or 8 */
        const size_t most = smaller(len - marked, 12);

        if (least <= most)
            check_damage(entry, len, draw_between(least, most), marked,
                         ANY_BYTE);
    }
    group_end();
}

/* A sticker: one colour over a run of cells, some of them perhaps marked. */
static void put_sticker(struct sample *s, size_t cells)
{
    const size_t start = draw_below(s->len - cells + 1);

    memset(s->word + start, draw_byte(), cells);
    for (size_t marked = draw_below(7); marked > 0; marked--)
        s->marks[start + draw_below(cells)] = draw_below(2) != 0;
}

static void test_stickers(const struct repair *entry)
{
    group_begin(entry->name, "runs of 3 to 30 cells of one colour");
    for (size_t cells = 3; cells <= 30; cells++)
        for (size_t k = 0; k < scaled(100); k++) {
            const size_t len = pick_length(entry, k);
            struct sample s;

            draw_clean(&s, len);
            put_sticker(&s, smaller(cells, len));
            check_repair(entry, &s);
        }
    group_end();
}

/* Stickers on a board of one colour leave most cells right. */
static void test_plain_boards(const struct repair *entry)
{
    group_begin(entry->name, "runs of one colour over data of one colour");
    for (size_t k = 0; k < scaled(2000); k++) {
        const size_t len = pick_length(entry, k);
        uint8_t data[REF_WORD_MAX];
        struct sample s;

        memset(data, draw_byte(), len);
        write_clean(&s, data, len - REF_CHECK_BYTES);
        put_sticker(&s, smaller(draw_between(3, 30), len));
        check_repair(entry, &s);
    }
    group_end();
}

static void test_marked_bytes(const struct repair *entry, const char *name,
                              enum under_mark under)
{
    group_begin(entry->name, name);
    for (size_t marked = 1; marked <= 5; marked++)
        for (size_t wrong = 0; wrong <= 3; wrong++)
            for (size_t k = 0; k < scaled(70); k++) {
                const size_t len = pick_length(entry, k);

                if (marked + wrong <= len)
                    check_damage(entry, len, wrong, marked, under);
            }
    group_end();
}

/* Six marks are too many, even where every byte is right. */
static void test_many_marks(const struct repair *entry)
{
    group_begin(entry->name, "six marks and more, up to all cells");
    for (size_t k = 0; k < scaled(2000); k++) {
        const size_t len = pick_length(entry, k);
        const size_t marked = draw_between(6, len);

        check_damage(entry, len, 0, 6, draw_under_mark());
        check_damage(entry, len, 0, len, draw_under_mark());
        check_damage(entry, len, draw_between(0, len - marked), marked,
                     ANY_BYTE);
    }
    group_end();
}

static void test_garbage(const struct repair *entry)
{
    group_begin(entry->name, "random bytes with up to six marks");
    for (size_t k = 0; k < scaled(3000); k++) {
        const size_t len = pick_length(entry, k);
        struct sample s;

        draw_clean(&s, len);
        draw_bytes(s.word, len);
        draw_damage(&s, 0, draw_below(7), ANY_BYTE);
        check_repair(entry, &s);
    }
    group_end();
}

/* The owner's slip: the places fit four of the sums, and the fifth is off. */
static void check_forgotten(const struct repair *entry, size_t len, int row)
{
    for (size_t wrong = 0; wrong <= 2; wrong++)
        for (size_t marked = 0; marked <= 3; marked++) {
            struct sample s;

            draw_all_sums_but(&s, len, row);
            draw_damage(&s, wrong, marked, ANY_BYTE);
            check_repair(entry, &s);
        }
}

static void test_forgotten_sums(const struct repair *entry)
{
    group_begin(entry->name, "all sums zero but one, and damage on top");
    for (int row = 0; row < REF_CHECK_BYTES; row++)
        for (size_t k = 0; k < scaled(35); k++)
            check_forgotten(entry, pick_length(entry, k), row);
    group_end();
}

/* Without its first cells a word may seem wrong in a place before its front,
   which is no place to mend. */
static void cut_front(struct sample *s, size_t cells)
{
    s->len -= cells;
    s->marks_len -= cells;
    memmove(s->word, s->word + cells, s->len);
    memmove(s->marks, s->marks + cells, s->marks_len);
}

static void test_cut_words(const struct repair *entry)
{
    group_begin(entry->name, "words without their first cells");
    for (size_t k = 0; k < scaled(2000); k++) {
        const size_t cut = draw_between(1, 3);
        const size_t len = smaller(pick_length(entry, k), REF_WORD_MAX - cut);
        struct sample s;

        draw_clean(&s, len + cut);
        cut_front(&s, cut);
        draw_damage(&s, draw_below(3), draw_below(3), ANY_BYTE);
        check_repair(entry, &s);
    }
    group_end();
}

static void test_single_changes(const struct repair *entry)
{
    group_begin(entry->name, "every change of one cell in short words");
    for (size_t len = 6; len <= 10; len++)
        for (size_t cell = 0; cell < len; cell++)
            for (unsigned change = 0; change < 256; change++) {
                struct sample s;

                draw_clean(&s, len);
                s.word[cell] ^= (uint8_t)change;
                check_repair(entry, &s);
            }
    group_end();
}

/* ---- repair, where the written word says what must come out ---- */

/* Marked cells with another byte than what was written. */
static unsigned repainted_in(const struct sample *s,
                             const struct sample *written)
{
    unsigned count = 0;

    for (size_t i = 0; i < s->len; i++)
        count += s->marks[i] && s->word[i] != written->word[i];
    return count;
}

static void check_counts(const struct repair *entry, const struct sample *s,
                         const struct sample *written, size_t wrong,
                         size_t repainted)
{
    check_result(entry, s,
                 (struct ref_result){.mended = (unsigned)wrong,
                                     .repainted = (unsigned)repainted},
                 written->word);
}

static void check_mended(const struct repair *entry, const struct sample *s,
                         const struct sample *written, size_t wrong)
{
    check_counts(entry, s, written, wrong, repainted_in(s, written));
}

static void check_pair(const struct repair *entry, const struct sample *written,
                       size_t a, size_t b)
{
    struct sample s = *written;

    s.word[a] ^= draw_nonzero();
    s.word[b] ^= draw_nonzero();
    check_mended(entry, &s, written, 2);

    const size_t marked = draw_below(s.len);

    if (marked == a || marked == b)
        return;
    s.marks[marked] = 1;
    s.word[marked] = draw_byte();
    check_mended(entry, &s, written, 2);
}

static void test_every_pair(const struct repair *entry)
{
    const size_t len = entry->longest;
    struct sample written;

    group_begin(entry->name, "every pair of wrong cells in the longest word");
    for (size_t a = 0; a < len; a++) {
        draw_clean(&written, len);
        for (size_t b = a + 1; b < len; b++)
            check_pair(entry, &written, a, b);
    }
    group_end();
}

static void test_known_damage(const struct repair *entry)
{
    group_begin(entry->name, "damage within 5 gives back what was written");
    for (size_t k = 0; k < scaled(40000); k++) {
        const size_t wrong = draw_below(3);
        const size_t marked = draw_below(6 - 2 * wrong);
        struct sample written;

        draw_clean(&written, pick_length(entry, k));

        struct sample s = written;

        draw_damage(&s, wrong, marked, draw_under_mark());
        check_mended(entry, &s, &written, wrong);
    }
    group_end();
}

/* So many marked cells right and so many not, and others wrong. The right
   ones are marked first, so that no wrong cell gets such a mark. */
static void check_marked(const struct repair *entry, size_t len, size_t wrong,
                         size_t right, size_t repainted)
{
    struct sample written, s;

    draw_clean(&written, len);
    s = written;
    draw_damage(&s, 0, right, RIGHT_BYTE);
    draw_damage(&s, wrong, repainted, WRONG_BYTE);
    check_counts(entry, &s, &written, wrong, repainted);
}

static void test_repainted(const struct repair *entry)
{
    group_begin(entry->name, "so many marked cells right, so many repainted");
    for (size_t wrong = 0; wrong <= 2; wrong++)
        for (size_t marked = 0; 2 * wrong + marked <= REF_REACH; marked++)
            for (size_t repainted = 0; repainted <= marked; repainted++)
                for (size_t k = 0; k < scaled(200); k++)
                    check_marked(entry, pick_length(entry, k), wrong,
                                 marked - repainted, repainted);
    group_end();
}

/* A clean word in which one cell is marked, as it was and changed. */
static void test_single_marks(const struct repair *entry)
{
    const size_t len = entry->longest;
    struct sample written, s;

    group_begin(entry->name, "every cell marked by itself, right and wrong");
    draw_clean(&written, len);
    for (size_t cell = 0; cell < len; cell++) {
        s = written;
        s.marks[cell] = 1;
        check_counts(entry, &s, &written, 0, 0);
        s.word[cell] ^= draw_nonzero();
        check_counts(entry, &s, &written, 0, 1);
    }
    group_end();
}

/* Other bytes under the marks. */
static void redraw_marked(struct sample *s)
{
    for (size_t i = 0; i < s->len; i++)
        if (s->marks[i])
            s->word[i] = draw_byte();
}

/* The same answer but for repainted, and the same word: both are what was
   written, or both are refused. */
static void test_under_marks(const struct repair *entry)
{
    group_begin(entry->name, "other bytes under the same marks");
    for (size_t k = 0; k < scaled(4000); k++) {
        const size_t wrong = draw_below(3), most = 6 - 2 * wrong;
        const size_t marked = draw_between(1, most);
        struct sample written, s;

        draw_clean(&written, pick_length(entry, k));
        s = written;
        draw_damage(&s, wrong, marked, draw_under_mark());
        for (int twice = 0; twice < 2; twice++) {
            if (marked < most)
                check_mended(entry, &s, &written, wrong);
            else
                check_result(entry, &s, (struct ref_result){.code = 6},
                             s.word);
            redraw_marked(&s);
        }
    }
    group_end();
}

static void test_known_refusals(const struct repair *entry)
{
    group_begin(entry->name, "damage of exactly 6 is refused");
    for (size_t k = 0; k < scaled(40000); k++) {
        const size_t wrong = draw_below(4);
        struct sample s;

        draw_clean(&s, pick_length(entry, k));
        draw_damage(&s, wrong, 6 - 2 * wrong, draw_under_mark());
        check_result(entry, &s, (struct ref_result){.code = 6}, s.word);
    }
    group_end();
}

/* ---- repair, refused at the entry ---- */

static void draw_any(struct sample *s, size_t len, size_t marks_len)
{
    s->len = len;
    s->marks_len = marks_len;
    draw_bytes(s->word, len);
    memset(s->marks, 0, sizeof s->marks);
}

/* Zeros without marks are clean, so that only a length can refuse them. */
static void check_zeros(const struct repair *entry, size_t len,
                        size_t marks_len)
{
    struct sample s;

    draw_any(&s, len, marks_len);
    memset(s.word, 0, len);
    check_repair(entry, &s);
}

static void test_repair_lengths(const struct repair *entry)
{
    group_begin(entry->name, "lengths of every kind, right and wrong");
    for (size_t len = 0; len <= SAMPLE_MAX; len++) {
        struct sample s;

        draw_any(&s, len, len);
        check_repair(entry, &s);
        check_zeros(entry, len, len);
    }
    group_end();
}

static void test_marks_lengths(const struct repair *entry)
{
    group_begin(entry->name, "marks of another length than the word");
    for (size_t len = 0; len <= 300; len++) {
        for (size_t more = 1; more <= 3; more++) {
            check_zeros(entry, len, len + more);
            check_zeros(entry, len + more, len);
        }
        check_zeros(entry, len, 0);
        check_zeros(entry, len, draw_below(SAMPLE_MAX));
    }
    group_end();
}

static void test_mark_values(const struct repair *entry)
{
    group_begin(entry->name, "marks of every value, at the ends and between");
    for (size_t k = 0; k <= COUNT(lengths); k++)
        for (unsigned value = 0; value < 256; value++) {
            const size_t len = pick_length(entry, k);
            const size_t cells[] = {0, len - 1, draw_below(len)};

            for (size_t c = 0; c < COUNT(cells); c++) {
                struct sample s;

                draw_clean(&s, len);
                s.marks[cells[c]] = (uint8_t)value;
                check_repair(entry, &s);
            }
        }
    group_end();
}

/* Bad length, bad count of marks, bad mark and bad word, in all mixtures. */
static void check_mixture(const struct repair *entry, size_t len,
                          size_t marks_len, uint8_t mark)
{
    struct sample s;

    draw_any(&s, len, marks_len);
    memset(s.marks, mark, marks_len);
    check_repair(entry, &s);
    memset(s.marks, 0, marks_len);
    if (marks_len > 0)
        s.marks[draw_below(marks_len)] = mark;
    check_repair(entry, &s);
}

static void test_order(const struct repair *entry)
{
    static const size_t lens[] = {0,   5,   6,   7,   95,  96, 97,
                                  186, 187, 188, 254, 255, 256, 300};
    static const uint8_t marks[] = {0, 1, 2, 255};

    group_begin(entry->name, "several refusals at once");
    for (size_t a = 0; a < COUNT(lens); a++)
        for (size_t b = 0; b < COUNT(lens); b++)
            for (size_t c = 0; c < COUNT(marks); c++)
                check_mixture(entry, lens[a], lens[b], marks[c]);
    group_end();
}

static void check_null(const struct repair *entry, uint8_t *word, size_t len,
                       const uint8_t *marks, size_t marks_len)
{
    const struct ref_result r = entry->reference(word, len, marks, marks_len);

    group_case();
    check_number(entry->run(word, len, marks, marks_len), packed(r), "NULL");
}

static void test_nulls(const struct repair *entry)
{
    uint8_t word[10] = {0};
    const uint8_t marks[10] = {0};

    group_begin(entry->name, "NULL with length 0");
    check_null(entry, NULL, 0, NULL, 0);
    check_null(entry, word, sizeof word, NULL, 0);
    check_null(entry, NULL, 0, marks, sizeof marks);
    group_end();
}

void test_repair(const struct repair *entry)
{
    test_splits(entry, "every split of 2e + f from 0 to 5", 0, 5, 700);
    test_splits(entry, "every split of 2e + f = 6", 6, 6, 1400);
    test_beyond(entry);
    test_stickers(entry);
    test_plain_boards(entry);
    test_marked_bytes(entry, "marks over right bytes", RIGHT_BYTE);
    test_marked_bytes(entry, "marks over wrong bytes", WRONG_BYTE);
    test_many_marks(entry);
    test_garbage(entry);
    test_forgotten_sums(entry);
    test_cut_words(entry);
    test_single_changes(entry);
    test_every_pair(entry);
    test_known_damage(entry);
    test_repainted(entry);
    test_single_marks(entry);
    test_under_marks(entry);
    test_known_refusals(entry);
    test_repair_lengths(entry);
    test_marks_lengths(entry);
    test_mark_values(entry);
    test_order(entry);
    test_nulls(entry);
}
