/* reference.c - the second implementation: words by their definition. */
#include "reference.h"

#include <stdbool.h>
#include <string.h>

enum {
    ALPHA = 0x02,
    POLYNOMIAL = 0x11D, /* t^8 + t^4 + t^3 + t^2 + 1 */
    SUMS = REF_CHECK_BYTES,
    FIRST_EXPONENT = -2
};

/* ---- the field ---- */

uint8_t ref_product(uint8_t a, uint8_t b)
{
    unsigned sum = 0;
    unsigned shifted = a;

    for (int bit = 0; bit < 8; bit++) {
        if (b >> bit & 1)
            sum ^= shifted;
        shifted <<= 1;
        if (shifted & 0x100)
            shifted ^= POLYNOMIAL;
    }
    return (uint8_t)sum;
}

/* The inverse is the byte whose product with a is 1; a is not zero. */
static uint8_t inverse(uint8_t a)
{
    unsigned b = 1;

    while (ref_product(a, (uint8_t)b) != 1)
        b++;
    return (uint8_t)b;
}

uint8_t ref_power(int32_t exponent)
{
    uint8_t factor = exponent < 0 ? inverse(ALPHA) : ALPHA;
    uint32_t left = exponent < 0 ? 0 - (uint32_t)exponent : (uint32_t)exponent;
    uint8_t result = 1;

    for (; left != 0; left >>= 1) {
        if (left & 1)
            result = ref_product(result, factor);
        factor = ref_product(factor, factor);
    }
    return result;
}

/* All products and inverses, worked out once: the search needs millions. So are
   the powers of alpha that the five sums go by. */
static uint8_t times[256][256];
static uint8_t inverse_of[256];
static uint8_t step_of[SUMS];

static void prepare_tables(void)
{
    if (times[1][1] == 1)
        return;
    for (int a = 0; a < 256; a++)
        for (int b = 0; b < 256; b++)
            times[a][b] = ref_product((uint8_t)a, (uint8_t)b);
    for (int a = 1; a < 256; a++)
        inverse_of[a] = inverse((uint8_t)a);
    for (int row = 0; row < SUMS; row++)
        step_of[row] = ref_power(FIRST_EXPONENT + row);
}

/* ---- sums and check bytes ---- */

void ref_sums(const uint8_t *word, size_t len, uint8_t sums[SUMS])
{
    prepare_tables();
    for (int row = 0; row < SUMS; row++) {
        const uint8_t step = step_of[row];
        uint8_t power = 1; /* of the last byte, which has power 0 */

        sums[row] = 0;
        for (size_t i = 0; i < len; i++) {
            sums[row] ^= times[word[len - 1 - i]][power];
            power = times[power][step];
        }
    }
}

static bool all_zero(const uint8_t *bytes, size_t len)
{
    for (size_t i = 0; i < len; i++)
        if (bytes[i] != 0)
            return false;
    return true;
}

static bool is_clean(const uint8_t *word, size_t len)
{
    uint8_t sums[SUMS];

    ref_sums(word, len, sums);
    return all_zero(sums, SUMS);
}

/* The product of (t + alpha^j) over the five exponents, highest power first. */
static void make_generator(uint8_t generator[SUMS + 1])
{
    memset(generator, 0, SUMS + 1);
    generator[0] = 1;
    for (int row = 0; row < SUMS; row++) {
        const uint8_t root = step_of[row];

        for (int k = row + 1; k > 0; k--)
            generator[k] ^= ref_product(generator[k - 1], root);
    }
}

/* Long division: what the data leaves, five places up, is the check bytes. */
static void find_check_bytes(const uint8_t *data, size_t data_len,
                             uint8_t check[SUMS])
{
    uint8_t generator[SUMS + 1];
    uint8_t rest[REF_WORD_MAX] = {0};

    prepare_tables();
    make_generator(generator);
    memcpy(rest, data, data_len);
    for (size_t i = 0; i < data_len; i++) {
        const uint8_t factor = rest[i];

        for (int k = 0; k <= SUMS; k++)
            rest[i + k] ^= ref_product(factor, generator[k]);
    }
    memcpy(check, rest + data_len, SUMS);
}

/* ---- search for a clean word within reach ---- */

enum { CHOSEN_MAX = SUMS, ENTRIES = SUMS + CHOSEN_MAX };

/*
 * A vector of the elimination. Its first five entries are what it adds to
 * the five sums; the others, how much of each chosen cell it is made of.
 */
typedef uint8_t vector[ENTRIES];

struct search {
    const uint8_t *word;
    const uint8_t *marks;
    size_t len;
    uint8_t place[REF_WORD_MAX][SUMS]; /* what a 1 in a cell adds to the sums */
    int chosen;                        /* cells whose values are solved for */
    size_t cell[CHOSEN_MAX];
    vector reduced[CHOSEN_MAX];        /* their vectors, 1 in the pivot row */
    int pivot[CHOSEN_MAX];
    uint8_t candidate[REF_WORD_MAX];
};

static void find_places(struct search *s)
{
    for (int row = 0; row < SUMS; row++) {
        const uint8_t step = step_of[row];
        uint8_t power = 1;

        for (size_t i = 0; i < s->len; i++) {
            s->place[s->len - 1 - i][row] = power;
            power = times[power][step];
        }
    }
}

/* Take off the k-th chosen vector, so that v is zero in its pivot row. */
static void eliminate(const struct search *s, int k, vector v)
{
    const uint8_t *row = times[v[s->pivot[k]]];

    for (int i = 0; i < ENTRIES; i++)
        v[i] ^= row[s->reduced[k][i]];
}

/* Add a cell to the unknowns; false if it would add nothing new. */
static bool choose(struct search *s, size_t cell)
{
    const int k = s->chosen;
    uint8_t *v = s->reduced[k];
    int pivot = 0;

    memset(v, 0, ENTRIES);
    memcpy(v, s->place[cell], SUMS);
    v[SUMS + k] = 1;
    for (int earlier = 0; earlier < k; earlier++)
        eliminate(s, earlier, v);
    while (pivot < SUMS && v[pivot] == 0)
        pivot++;
    if (pivot == SUMS)
        return false;

    const uint8_t *scaled = times[inverse_of[v[pivot]]];

    for (int i = 0; i < ENTRIES; i++)
        v[i] = scaled[v[i]];
    s->pivot[k] = pivot;
    s->cell[k] = cell;
    s->chosen++;
    return true;
}

/* Take the values that were found, but only if the five sums come to zero. */
static bool accept(struct search *s, const vector rest)
{
    if (!all_zero(rest, SUMS))
        return false;
    memcpy(s->candidate, s->word, s->len);
    for (int k = 0; k < s->chosen; k++)
        s->candidate[s->cell[k]] ^= rest[SUMS + k];
    return is_clean(s->candidate, s->len);
}

/* Try every set of this many more unmarked cells, none before cell `from`. */
static bool try_sets(struct search *s, const vector rest, int more, size_t from)
{
    if (more == 0)
        return accept(s, rest);
    for (size_t cell = from; cell < s->len; cell++) {
        vector next;

        if (s->marks[cell] || !choose(s, cell))
            continue;
        memcpy(next, rest, ENTRIES);
        eliminate(s, s->chosen - 1, next);
        if (try_sets(s, next, more - 1, cell + 1))
            return true;
        s->chosen--;
    }
    return false;
}

/* Solve with the marked cells and `wrong` others unknown. */
static bool find_clean(struct search *s, int wrong)
{
    vector rest = {0};

    s->chosen = 0;
    ref_sums(s->word, s->len, rest);
    for (size_t cell = 0; cell < s->len; cell++)
        if (s->marks[cell] && choose(s, cell))
            eliminate(s, s->chosen - 1, rest);
    return try_sets(s, rest, wrong, 0);
}

static int count_marked(const uint8_t *marks, size_t len)
{
    int count = 0;

    for (size_t i = 0; i < len; i++)
        count += marks[i];
    return count;
}

/* Cells with this mark in which the word read was another. */
static unsigned count_changed(const struct search *s, uint8_t mark)
{
    unsigned count = 0;

    for (size_t i = 0; i < s->len; i++)
        if (s->marks[i] == mark && s->candidate[i] != s->word[i])
            count++;
    return count;
}

/* ---- entries ---- */

static struct ref_result refusal(unsigned code)
{
    return (struct ref_result){.code = code};
}

static bool has_bad_mark(const uint8_t *marks, size_t len)
{
    for (size_t i = 0; i < len; i++)
        if (marks[i] > 1)
            return true;
    return false;
}

static struct ref_result repair(uint8_t *word, size_t len, const uint8_t *marks,
                                size_t marks_len, size_t longest)
{
    if (len < REF_WORD_MIN || len > longest)
        return refusal(1);
    if (marks_len != len)
        return refusal(2);
    if (has_bad_mark(marks, len))
        return refusal(3);

    struct search s = {.word = word, .marks = marks, .len = len};
    const int marked = count_marked(marks, len);

    prepare_tables();
    find_places(&s);
    for (int wrong = 0; 2 * wrong + marked <= REF_REACH; wrong++) {
        if (find_clean(&s, wrong)) {
            const struct ref_result r = {.mended = count_changed(&s, 0),
                                         .repainted = count_changed(&s, 1)};

            memcpy(word, s.candidate, len);
            return r;
        }
    }
    return refusal(6);
}

struct ref_result ref_word_write(const uint8_t *data, size_t data_len,
                                 uint8_t *word, size_t word_len)
{
    if (data_len < 1 || data_len > REF_WORD_MAX - SUMS)
        return refusal(1);
    if (word_len != data_len + SUMS)
        return refusal(4);
    memcpy(word, data, data_len);
    find_check_bytes(data, data_len, word + data_len);
    return (struct ref_result){.length = (unsigned)word_len};
}

struct ref_result ref_word_test(const uint8_t *word, size_t len)
{
    if (len < REF_WORD_MIN || len > REF_WORD_MAX)
        return refusal(1);
    return (struct ref_result){.length = is_clean(word, len)};
}

struct ref_result ref_word_repair(uint8_t *word, size_t len,
                                  const uint8_t *marks, size_t marks_len)
{
    return repair(word, len, marks, marks_len, REF_WORD_MAX);
}

struct ref_result ref_lane_repair(uint8_t *lane, size_t len,
                                  const uint8_t *marks, size_t marks_len)
{
    return repair(lane, len, marks, marks_len, REF_LANE_MAX);
}
