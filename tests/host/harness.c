/* harness.c - groups of cases, and buffers that show any stray access. */
#define _DEFAULT_SOURCE /* for mmap with MAP_ANONYMOUS */
#include "harness.h"

#include <inttypes.h>
#include <signal.h>
#include <stdarg.h>
#include <stdio.h>
#include <stdlib.h>
#include <string.h>
#include <sys/mman.h>
#include <unistd.h>

#include "draw.h"

/* ---- groups ---- */

static const uint64_t seed = 20240229;

static struct {
    const char *subject;
    const char *name;
    long cases;
    bool failed;
    char first[4096]; /* the first case that differs */
} group;

static unsigned percent;
static int passed;
static int failed;

/* The library left its buffers: report that, as there is no way back. */
static void on_fault(int number)
{
    (void)number;
    group_fail("memory was touched that was not lent, or not to be written");
    group_end();
    groups_finish();
    fflush(stdout);
    _exit(1);
}

void groups_start(unsigned scale)
{
    percent = scale;
    signal(SIGSEGV, on_fault);
    signal(SIGBUS, on_fault);
    printf("seed %" PRIu64 ", %u percent of the random cases\n", seed, percent);
}

int groups_finish(void)
{
    printf("%d passed, %d failed\n", passed, failed);
    return failed == 0 ? 0 : 1;
}

void group_begin(const char *subject, const char *name)
{
    draw_seed(seed + (uint64_t)(passed + failed));
    group.subject = subject;
    group.name = name;
    group.cases = 0;
    group.failed = false;
}

void group_case(void)
{
    group.cases++;
}

bool group_failed(void)
{
    return group.failed;
}

void group_fail(const char *format, ...)
{
    va_list arguments;

    if (group.failed)
        return;
    group.failed = true;
    va_start(arguments, format);
    vsnprintf(group.first, sizeof group.first, format, arguments);
    va_end(arguments);
}

void group_end(void)
{
    if (group.cases == 0)
        group_fail("no case was run");
    if (group.failed) {
        failed++;
        printf("FAILED %s: %s: %s\n", group.subject, group.name, group.first);
    } else {
        passed++;
        printf("ok %s: %s (%ld cases)\n", group.subject, group.name,
               group.cases);
    }
}

size_t scaled(size_t cases)
{
    const size_t some = cases * percent / 100;

    return some > 0 ? some : 1;
}

/* ---- lent buffers ---- */

enum { LENT_MAX = 1 << 16, GUARD_LEN = 64 };

static void stop(const char *why)
{
    perror(why);
    exit(1);
}

static uint8_t *map(size_t len, int protection)
{
    void *memory = mmap(NULL, len, protection,
                        MAP_PRIVATE | MAP_ANONYMOUS | MAP_NORESERVE, -1, 0);

    if (memory == MAP_FAILED)
        stop("mmap");
    return memory;
}

/* Make LENT_MAX usable bytes between two pages that may not be touched. */
static uint8_t *map_between_fences(void)
{
    const size_t page = (size_t)sysconf(_SC_PAGESIZE);
    uint8_t *fenced = map(LENT_MAX + 2 * page, PROT_NONE);

    if (mprotect(fenced + page, LENT_MAX, PROT_READ | PROT_WRITE) != 0)
        stop("mprotect");
    return fenced + page;
}

static uint8_t guard_byte(size_t i)
{
    return (uint8_t)(0xA5 ^ i);
}

/* Where the guard bytes lie: on the side away from the fence. */
static uint8_t *guards_of(const struct lent *b)
{
    return b->bytes == b->memory ? b->bytes + b->len : b->bytes - GUARD_LEN;
}

static void protect(struct lent *b, int protection)
{
    if (mprotect(b->memory, LENT_MAX, protection) != 0)
        stop("mprotect");
    b->sealed = protection == PROT_READ;
}

void seal(struct lent *b)
{
    protect(b, PROT_READ);
}

void lend(struct lent *b, const uint8_t *content, size_t len)
{
    if (b->memory == NULL)
        b->memory = map_between_fences();
    if (b->sealed)
        protect(b, PROT_READ | PROT_WRITE);
    b->len = len;
    b->bytes = NULL;
    if (content == NULL)
        return;

    b->bytes = draw_below(2) ? b->memory : b->memory + LENT_MAX - len;
    memcpy(b->bytes, content, len);
    for (size_t i = 0; i < GUARD_LEN; i++)
        guards_of(b)[i] = guard_byte(i);
}

static bool guards_kept(const struct lent *b)
{
    for (size_t i = 0; i < GUARD_LEN; i++)
        if (guards_of(b)[i] != guard_byte(i))
            return false;
    return true;
}

bool is_kept(const struct lent *b, const uint8_t *expected)
{
    return b->bytes == NULL ||
           (guards_kept(b) && memcmp(b->bytes, expected, b->len) == 0);
}

uint8_t *map_zeros(size_t len)
{
    return map(len, PROT_READ);
}

uint8_t *map_scratch(size_t len)
{
    return map(len, PROT_READ | PROT_WRITE);
}

void unmap_long(uint8_t *bytes, size_t len)
{
    munmap(bytes, len);
}

/* ---- checks ---- */

uint64_t packed(struct ref_result r)
{
    return (uint64_t)r.code | (uint64_t)r.lane << 5 |
           (uint64_t)r.version << 9 | (uint64_t)r.width << 11 |
           (uint64_t)r.height << 16 | (uint64_t)r.par << 21 |
           (uint64_t)r.mended << 31 | (uint64_t)r.repainted << 37 |
           (uint64_t)r.wear << 44 | (uint64_t)r.lanes << 50 |
           (uint64_t)r.length << 48;
}

const char *hex(char text[HEX_TEXT], const uint8_t *bytes, size_t len)
{
    text[0] = '\0';
    for (size_t i = 0; i < len && i < HEX_MAX; i++)
        sprintf(text + 2 * i, "%02X", bytes[i]);
    return text;
}

void check_number(uint64_t got, uint64_t expected, const char *what)
{
    if (got != expected)
        group_fail("%s: got %016" PRIX64 ", expected %016" PRIX64, what, got,
                   expected);
}

void check_buffer(const struct lent *b, const uint8_t *expected,
                  const char *what)
{
    char got_text[HEX_TEXT], expected_text[HEX_TEXT];

    if (is_kept(b, expected))
        return;
    if (!guards_kept(b))
        group_fail("%s: a byte outside the buffer was written", what);
    group_fail("%s: buffer holds %s, expected %s", what,
               hex(got_text, b->bytes, b->len),
               hex(expected_text, expected, b->len));
}
