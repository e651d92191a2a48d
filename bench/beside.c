/* beside.c - libfec for the same code, and two sides timed in turn. */
#define _POSIX_C_SOURCE 199309L /* for clock_gettime */
#include "beside.h"

#include <fec.h>
#include <stdio.h>
#include <stdlib.h>
#include <time.h>

enum { RUNS = 9 }; /* of a row; odd, so that one ratio is the median */

/* ---- libfec ---- */

/* The same code: field 0x11D, first root alpha^253 = alpha^-2, five roots. */
void *new_fec(size_t len)
{
    void *fec = init_rs_char(8, 0x11D, 253, 1, REF_CHECK_BYTES,
                             REF_WORD_MAX - (int)len);

    if (fec == NULL) {
        fprintf(stderr, "libfec did not accept the code\n");
        exit(1);
    }
    return fec;
}

/*
 * libfec takes the places of the marks, counted in the shortened word. (Other
 * copies of this decoder count the leading pad too; with them the benchmarks
 * stop, as the words are not mended.)
 */
void find_erasures(const uint8_t *marks, size_t len,
                   int erasures[REF_CHECK_BYTES])
{
    int count = 0;

    for (size_t i = 0; i < len; i++)
        if (marks[i])
            erasures[count++] = (int)i;
}

/* ---- timing ---- */

void require(bool right, const char *who)
{
    if (!right) {
        fprintf(stderr, "%s: a result is not as it must be\n", who);
        exit(1);
    }
}

/* In ns. */
static double now(void)
{
    struct timespec t;

    clock_gettime(CLOCK_MONOTONIC, &t);
    return (double)t.tv_sec * 1e9 + (double)t.tv_nsec;
}

static void keep_least(double *least, double ns)
{
    if (ns < *least)
        *least = ns;
}

static void time_side(const struct row *r, const struct side *s, double *least)
{
    r->restore(r->batch);

    const double start = now();

    s->run(r->batch);
    keep_least(least, (now() - start) / r->count);
    s->check(r->batch);
}

struct times {
    double theirs, ours;
};

static struct times run_row(const struct row *r)
{
    struct times t = {1e18, 1e18};

    for (int round = 0; round < r->rounds; round++) {
        if (r->fill != NULL)
            r->fill(r->batch);
        time_side(r, &r->theirs, &t.theirs);
        time_side(r, &r->ours, &t.ours);
    }
    return t;
}

static int by_size(const void *a, const void *b)
{
    const double x = *(const double *)a, y = *(const double *)b;

    return (x > y) - (x < y);
}

void print_heads(const char *theirs)
{
    printf(" %9s %8s %9s  (least to greatest of %d runs)\n", theirs, "ours",
           "median", RUNS);
}

/* What the runs of a row came to. */
struct figures {
    struct times least;
    double ratio[RUNS]; /* by size */
};

static struct figures run_all(const struct row *r)
{
    struct figures f = {.least = {1e18, 1e18}};

    for (int run = 0; run < RUNS; run++) {
        const struct times t = run_row(r);

        keep_least(&f.least.theirs, t.theirs);
        keep_least(&f.least.ours, t.ours);
        f.ratio[run] = t.theirs / t.ours;
    }
    qsort(f.ratio, RUNS, sizeof f.ratio[0], by_size);
    return f;
}

static void print_figures(double theirs, double ours, const double ratio[RUNS])
{
    printf(" %9.0f %8.0f %7.1f x  (%.1f to %.1f)\n", theirs, ours,
           ratio[RUNS / 2], ratio[0], ratio[RUNS - 1]);
    fflush(stdout);
}

void print_row(const struct row *r)
{
    const struct figures f = run_all(r);

    print_figures(f.least.theirs, f.least.ours, f.ratio);
}

void print_rates(const struct row *r)
{
    const struct figures f = run_all(r);

    print_figures(1e9 / f.least.theirs, 1e9 / f.least.ours, f.ratio);
}
