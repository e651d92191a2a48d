/*
 * test_words.c - the library against the second implementation: words here,
 * and the main program, which runs all subjects.
 *
 * Usage: test_words [PERCENT]. PERCENT scales the number of random cases.
 */
#include <inttypes.h>
#include <stdio.h>
#include <stdlib.h>
#include <string.h>

#include "draw.h"
#include "harness.h"
#include "reference.h"
#include "test_header.h"
#include "test_huge.h"
#include "test_lanes.h"
#include "test_pool.h"
#include "test_record.h"
#include "test_repair.h"
#include "test_stack.h"
#include "test_stickers.h"
#include "test_strip.h"
#include "test_text.h"
#include "test_tiny.h"
#include "test_versions.h"
#include "test_writer.h"
#include "zavullimen_words.h"

/* ---- the field ---- */

static void test_products(void)
{
    group_begin("product", "every pair of bytes");
    for (unsigned a = 0; a < 256; a++)
        for (unsigned b = 0; b < 256; b++) {
            char what[40];

            group_case();
            sprintf(what, "%02X times %02X", a, b);
            check_number(zav_product((uint8_t)a, (uint8_t)b),
                         ref_product((uint8_t)a, (uint8_t)b), what);
        }
    group_end();
}

static void check_power(int32_t exponent)
{
    char what[40];

    group_case();
    sprintf(what, "exponent %" PRId32, exponent);
    check_number(zav_power(exponent), ref_power(exponent), what);
}

static void test_powers(void)
{
    group_begin("power", "exponents from -600 to 600, large and random ones");
    for (int32_t exponent = -600; exponent <= 600; exponent++)
        check_power(exponent);
    for (int32_t k = 0; k < 300; k++) {
        check_power(INT32_MIN + k);
        check_power(INT32_MAX - k);
    }
    for (size_t k = 0; k < scaled(2000); k++)
        check_power((int32_t)((int64_t)(draw_u64() >> 32) + INT32_MIN));
    group_end();
}

/* FORMAT 1.11: a byte other than zero has one logarithm. */
static void test_logarithms(void)
{
    unsigned met[256] = {0};

    group_begin("power", "each byte other than 0 is one of the 255 powers");
    for (int32_t i = 0; i < 255; i++)
        met[zav_power(i)]++;
    for (unsigned a = 0; a < 256; a++) {
        char what[40];

        group_case();
        sprintf(what, "powers that are %02X", a);
        check_number(met[a], a != 0, what);
    }
    group_end();
}

/* FORMAT 1.12. */
static void test_sums_of_logarithms(void)
{
    group_begin("product", "every two powers by the sum of their exponents");
    for (int32_t i = 0; i < 255; i++)
        for (int32_t j = 0; j < 255; j++) {
            char what[60];

            group_case();
            sprintf(what, "exponents %" PRId32 " and %" PRId32, i, j);
            check_number(zav_product(zav_power(i), zav_power(j)),
                         zav_power((i + j) % 255), what);
        }
    group_end();
}

/* ---- the syndrome ---- */

static void check_syndrome(const uint8_t *word, size_t len)
{
    static struct lent lent;
    uint8_t sums[REF_CHECK_BYTES];
    uint64_t expected = 0;
    char what[40];

    group_case();
    lend(&lent, word, len);
    seal(&lent);
    ref_sums(word, len, sums);
    for (int row = 0; row < REF_CHECK_BYTES; row++)
        expected |= (uint64_t)sums[row] << 8 * row;
    sprintf(what, "list of %zu", len);
    check_number(zav_syndrome(lent.bytes, len), expected, what);
    if (word != NULL)
        check_buffer(&lent, word, what);
}

static void test_syndromes(void)
{
    uint8_t list[5000];

    group_begin("syndrome", "random lists of any length");
    check_syndrome(NULL, 0);
    for (size_t len = 0; len <= 300; len++)
        for (size_t k = 0; k < scaled(20); k++) {
            draw_bytes(list, len);
            check_syndrome(list, len);
        }
    for (size_t k = 0; k < scaled(100); k++) {
        const size_t len = draw_between(301, sizeof list);

        draw_bytes(list, len);
        check_syndrome(list, len);
    }
    group_end();
}

static void test_single_sums(void)
{
    struct sample s;

    group_begin("syndrome", "clean words, and all sums zero but one");
    for (size_t len = REF_WORD_MIN; len <= REF_WORD_MAX; len++) {
        draw_clean(&s, len);
        check_syndrome(s.word, len);
        for (int row = 0; row < REF_CHECK_BYTES; row++) {
            draw_all_sums_but(&s, len, row);
            check_syndrome(s.word, len);
        }
    }
    group_end();
}

/* ---- writing ---- */

static void check_write(const uint8_t *data, size_t data_len, size_t word_len)
{
    static struct lent lent_data, lent_word;
    uint8_t before[SAMPLE_MAX], expected[SAMPLE_MAX];
    char what[80];

    group_case();
    draw_bytes(before, sizeof before);
    memcpy(expected, before, sizeof before);
    lend(&lent_data, data, data_len);
    lend(&lent_word, before, word_len);
    sprintf(what, "data %zu, buffer %zu", data_len, word_len);

    const struct ref_result r =
        ref_word_write(data, data_len, expected, word_len);

    seal(&lent_data);
    if (r.code != 0)
        seal(&lent_word);
    check_number(zav_word_write(lent_data.bytes, data_len, lent_word.bytes,
                                word_len), packed(r), what);
    check_buffer(&lent_word, expected, what);
    if (data != NULL)
        check_buffer(&lent_data, data, what);
}

static void test_writing(void)
{
    uint8_t data[SAMPLE_MAX];

    group_begin("write", "data of every length");
    for (size_t len = 1; len <= 250; len++) {
        memset(data, 0, len);
        check_write(data, len, len + REF_CHECK_BYTES);
        memset(data, 0xFF, len);
        check_write(data, len, len + REF_CHECK_BYTES);
        for (size_t k = 0; k < scaled(20); k++) {
            draw_bytes(data, len);
            check_write(data, len, len + REF_CHECK_BYTES);
        }
    }
    group_end();
}

static void test_single_data_bytes(void)
{
    uint8_t data[250];

    group_begin("write", "a single byte that is not zero, at each place");
    for (size_t place = 0; place < sizeof data; place++)
        for (size_t k = 0; k < scaled(20); k++) {
            memset(data, 0, sizeof data);
            data[place] = draw_nonzero();
            check_write(data, sizeof data, sizeof data + REF_CHECK_BYTES);
        }
    group_end();
}

/* Both lengths run over the limits, so that the order of refusals shows. */
static void test_write_refusals(void)
{
    uint8_t data[SAMPLE_MAX];

    group_begin("write", "lengths of every kind, right and wrong");
    draw_bytes(data, sizeof data);
    for (size_t len = 0; len <= 300; len++) {
        for (size_t word_len = len; word_len <= len + 10; word_len++)
            check_write(data, len, word_len);
        check_write(data, len, 0);
        check_write(data, len, 5);
        check_write(data, len, 255);
        check_write(data, len, 256);
        check_write(data, len, draw_below(SAMPLE_MAX));
    }
    for (size_t word_len = 0; word_len < 10; word_len++)
        check_write(NULL, 0, word_len);
    group_end();
}

/* ---- testing ---- */

static void check_test(const uint8_t *word, size_t len)
{
    static struct lent lent;
    char what[40];

    group_case();
    lend(&lent, word, len);
    seal(&lent);
    sprintf(what, "word of %zu", len);
    check_number(zav_word_test(lent.bytes, len),
                 packed(ref_word_test(word, len)), what);
    if (word != NULL)
        check_buffer(&lent, word, what);
}

static void test_clean_words(void)
{
    struct sample s;

    group_begin("test", "clean words, and clean words with one byte changed");
    for (size_t len = REF_WORD_MIN; len <= REF_WORD_MAX; len++) {
        draw_clean(&s, len);
        check_test(s.word, len);
        for (size_t k = 0; k < scaled(20); k++) {
            draw_clean(&s, len);
            draw_damage(&s, 1, 0, ANY_BYTE);
            check_test(s.word, len);
        }
    }
    group_end();
}

static void test_unclean_words(void)
{
    struct sample s;

    group_begin("test", "random words, and all sums zero but one");
    for (size_t len = REF_WORD_MIN; len <= REF_WORD_MAX; len++) {
        draw_bytes(s.word, len);
        check_test(s.word, len);
        for (int row = 0; row < REF_CHECK_BYTES; row++)
            for (size_t k = 0; k < scaled(10); k++) {
                draw_all_sums_but(&s, len, row);
                check_test(s.word, len);
            }
    }
    group_end();
}

/* Zeros have zero sums at any length, so that only the length can refuse. */
static void test_test_lengths(void)
{
    uint8_t word[SAMPLE_MAX] = {0};

    group_begin("test", "lengths of every kind, right and wrong");
    check_test(NULL, 0);
    for (size_t len = 0; len <= SAMPLE_MAX; len++)
        check_test(word, len);
    group_end();
}

/* ---- the worked examples of FORMAT 12 ---- */

static void check_worked_product(uint8_t a, uint8_t b, uint8_t product)
{
    group_case();
    check_number(zav_product(a, b), product, "library, product");
    check_number(ref_product(a, b), product, "reference, product");
}

static void check_worked_write(const uint8_t *word, size_t len)
{
    uint8_t got[10] = {0}, reference[10] = {0};
    const size_t data_len = len - REF_CHECK_BYTES;
    const struct ref_result expected = {.length = (unsigned)len};

    group_case();
    check_number(zav_word_write(word, data_len, got, len), packed(expected),
                 "library, write");
    check_number(packed(ref_word_write(word, data_len, reference, len)),
                 packed(expected), "reference, write");
    if (memcmp(got, word, len) != 0)
        group_fail("library, write: wrong check bytes");
    if (memcmp(reference, word, len) != 0)
        group_fail("reference, write: wrong check bytes");
    check_number(zav_length(zav_word_test(word, len)), 1, "library, test");
}

struct worked_repair {
    uint8_t word[7];
    uint8_t marks[7];
    size_t len;
    struct ref_result result;
    uint8_t mended[7];
};

static void check_worked_repair(const struct worked_repair *w)
{
    struct sample s = {.len = w->len, .marks_len = w->len};
    uint8_t reference[7];

    memcpy(s.word, w->word, w->len);
    memcpy(s.marks, w->marks, w->len);
    for (size_t e = 0; e < REPAIRS; e++)
        check_result(&repairs[e], &s, w->result, w->mended);

    memcpy(reference, w->word, sizeof reference);
    check_number(packed(ref_word_repair(reference, w->len, w->marks, w->len)),
                 packed(w->result), "reference, repair");
    if (memcmp(reference, w->mended, w->len) != 0)
        group_fail("reference, repair: another word");
}

static const struct worked_repair worked_repairs[] = {
    {{0x00, 0xCE, 0xE6}, {0}, 6, {.mended = 2}, {0}},
    {{0x01, 0xCE, 0xE6}, {0}, 6, {.code = 6}, {0x01, 0xCE, 0xE6}},
    {{0x01, 0xCE, 0xE6}, {0, 0, 0, 1}, 6, {.mended = 2, .repainted = 1},
     {0x01, 0xCE, 0xE6, 0xE6, 0xCE, 0x01}},
    {{0x02}, {0, 1, 1, 1, 1, 1}, 6, {.mended = 0, .repainted = 5},
     {0x02, 0x81, 0xD1, 0xD1, 0x81, 0x02}},
    {{0x02}, {1, 1, 1, 1, 1, 1}, 6, {.code = 6}, {0x02}},
    {{0x00, 0x00, 0x6C, 0xAA, 0x82, 0x8B, 0xCE}, {0}, 7, {.mended = 1},
     {0x01, 0x00, 0x6C, 0xAA, 0x82, 0x8B, 0xCE}},
    {{0x00, 0x6C, 0xAA, 0x82, 0x8B, 0xCE}, {0}, 6, {.code = 6},
     {0x00, 0x6C, 0xAA, 0x82, 0x8B, 0xCE}},
    {{0x01, 0xCE, 0xE6, 0xE6, 0xCE, 0x01}, {0, 0, 0, 1}, 6, {.repainted = 0},
     {0x01, 0xCE, 0xE6, 0xE6, 0xCE, 0x01}},
    {{0x01, 0xCE, 0xE6, 0xFF, 0xCE, 0x01}, {0, 0, 0, 1}, 6, {.repainted = 1},
     {0x01, 0xCE, 0xE6, 0xE6, 0xCE, 0x01}},
    {{0x02, 0x81, 0x00, 0x00, 0x00, 0x02}, {0, 1, 1, 1, 1, 1}, 6,
     {.repainted = 3}, {0x02, 0x81, 0xD1, 0xD1, 0x81, 0x02}},
    {{0x02, 0x81, 0x00, 0x00, 0x00, 0x02}, {1, 1, 1, 1, 1, 1}, 6,
     {.code = 6}, {0x02, 0x81, 0x00, 0x00, 0x00, 0x02}},
};

static void test_worked_cells(void)
{
    static const uint8_t one[] = {0x01, 0xCE, 0xE6, 0xE6, 0xCE, 0x01};
    static const uint8_t two[] = {0x02, 0x81, 0xD1, 0xD1, 0x81, 0x02};
    static const uint8_t one_zero[] = {0x01, 0x00, 0x6C, 0xAA,
                                       0x82, 0x8B, 0xCE};

    group_begin("worked cells", "as in FORMAT, library and reference");
    check_worked_product(0x02, 0x8E, 0x01);
    check_worked_product(0xCE, 0xCE, 0x8A);
    check_worked_product(0xCE, 0xE6, 0x4C);
    check_worked_write(one, sizeof one);
    check_worked_write(two, sizeof two);
    check_worked_write(one_zero, sizeof one_zero);
    for (size_t k = 0; k < COUNT(worked_repairs); k++)
        check_worked_repair(&worked_repairs[k]);
    group_end();
}

int main(int argc, char **argv)
{
    groups_start(argc > 1 ? (unsigned)strtoul(argv[1], NULL, 10) : 100);
    test_header();
    test_worked_cells();
    test_products();
    test_powers();
    test_logarithms();
    test_sums_of_logarithms();
    test_syndromes();
    test_single_sums();
    test_writing();
    test_single_data_bytes();
    test_write_refusals();
    test_clean_words();
    test_unclean_words();
    test_test_lengths();
    for (size_t e = 0; e < REPAIRS; e++)
        test_repair(&repairs[e]);
    for (size_t e = 0; e < WRITERS; e++)
        test_writer(&writers[e]);
    test_record();
    test_text_picked();
    test_text();
    test_strip();
    test_versions();
    test_strip_entry();
    test_strip_damage();
    test_strip_wild();
    test_lanes();
    test_stickers();
    test_pool();
    test_tiny();
    test_stack();
    test_huge();
    return groups_finish();
}
