/* common.c - what the tools share: lanes, input, strips, refusals,
 * progress. */
#define _POSIX_C_SOURCE 200809L /* for isatty */
#include "common.h"

#include <errno.h>
#include <string.h>
#include <unistd.h>

const char letters[] = " #$.*@+^";

bool wants_help(int argc, char **argv)
{
    return argc == 2 && (strcmp(argv[1], "--help") == 0 ||
                         strcmp(argv[1], "-h") == 0);
}

/* ---- lanes ---- */

const size_t lane_counts[LANE_COUNTS] = {2, 4, 8, 16};

/* The word as it must be: no sign, no zero in front. */
static bool set_lanes(struct lanes *l, const char *word, bool or_any)
{
    static const char *const words[LANE_COUNTS] = {"2", "4", "8", "16"};

    l->given = true;
    l->count = ANY_LANES;
    for (size_t i = 0; i < LANE_COUNTS; i++)
        if (strcmp(word, words[i]) == 0)
            l->count = lane_counts[i];
    return l->count != ANY_LANES || (or_any && strcmp(word, "any") == 0);
}

/* The word is NULL where there is none. */
static bool refuse_lanes(const char *tool, const char *word, const char *why,
                         bool or_any)
{
    fprintf(stderr, "%s: --lanes", tool);
    if (word != NULL) {
        putc(' ', stderr);
        print_name(stderr, word);
    }
    fprintf(stderr, ": %s 2, 4, 8 or 16%s\n", why,
            or_any ? ", or any to try each that fits" : "");
    return false;
}

/* A name may start with a dash if it stands after "--", and be a dash. */
static bool is_option(const char *word)
{
    return word[0] == '-' && word[1] != '\0' && strcmp(word, "--") != 0;
}

/* Leave out two arguments, and keep the NULL after the last. */
static void leave_out_two(int *argc, char **argv, int from)
{
    *argc -= 2;
    for (int i = from; i <= *argc; i++)
        argv[i] = argv[i + 2];
}

bool take_lanes(struct lanes *l, const char *tool, bool or_any, int *argc,
                char **argv)
{
    int i = 1;

    *l = (struct lanes){ZAV_STRIP_LANES, false};
    while (i < *argc && is_option(argv[i])) {
        const char *word = argv[i + 1];

        if (strcmp(argv[i], "--lanes") != 0) {
            i++;
            continue;
        }
        if (word == NULL)
            return refuse_lanes(tool, word, "a lane count must follow,",
                                or_any);
        if (l->given)
            return refuse_lanes(tool, word, "it is there twice; name one of",
                                or_any);
        if (!set_lanes(l, word, or_any))
            return refuse_lanes(tool, word, "a lane count is", or_any);
        leave_out_two(argc, argv, i);
    }
    return true;
}

/* ---- cells ---- */

bool take_cells(struct cells *c, FILE *file)
{
    c->len = fread(c->bytes, 1, sizeof c->bytes, file);
    return !ferror(file);
}

bool take_cells_of(struct cells *c, const char *path)
{
    FILE *file = fopen(path, "rb");

    if (file == NULL)
        return false;

    const bool taken = take_cells(c, file);
    const int why = errno;

    fclose(file);
    errno = why;
    return taken;
}

uint64_t read_cells(size_t lanes, const struct cells *c,
                    uint8_t tiles[ZAV_TILES_MAX])
{
    uint8_t scratch[ZAV_SCRATCH_MIN];
    const size_t len = c->len / 2;

    if (c->len % 2 != 0 || c->len > CELLS_MAX)
        return ZAV_BAD_LENGTH;
    return zav_strip_read(lanes, c->bytes, len, c->bytes + len, len, tiles,
                          ZAV_TILES_MAX, scratch, sizeof scratch);
}

uint64_t put_cells(FILE *out, size_t lanes, size_t version, size_t width,
                   size_t height, size_t par, const uint8_t *tiles)
{
    uint8_t strip[ZAV_STRIP_MAX];
    static const uint8_t marks[ZAV_STRIP_MAX];
    const uint64_t result = zav_strip_write(lanes, version, width, height, par,
                                            tiles, width * height, strip,
                                            sizeof strip);

    if (zav_code(result) == ZAV_DONE) {
        fwrite(strip, 1, zav_length(result), out);
        fwrite(marks, 1, zav_length(result), out);
    }
    return result;
}

/* ---- words ---- */

void print_words(FILE *out, size_t lanes, unsigned code)
{
    if (code != ZAV_BAD_LENGTH)
        fputs(zav_refusal_text(code), out);
    else if (lanes == ANY_LANES)
        fputs("not as long as a strip of 2, 4, 8 or 16 lanes followed by as "
              "many marks", out);
    else
        fprintf(out, "not a strip of %zu to %zu cells, a multiple of %zu, "
                "followed by as many marks", ZAV_STRIP_SHORTEST(lanes),
                ZAV_STRIP_LONGEST(lanes), lanes);
}

void print_refusal(FILE *out, size_t lanes, uint64_t result)
{
    fprintf(out, "refused %u lane %u: ", zav_code(result), zav_lane(result));
    print_words(out, lanes, zav_code(result));
    putc('\n', out);
}

/* The character in front of a text in UTF-8; its length is returned, or 0 if
 * the bytes there spell none. */
static size_t first_character(const char *text, unsigned long *character)
{
    static const unsigned long least[] = {0, 0, 0x80, 0x800, 0x10000};
    const unsigned char *byte = (const unsigned char *)text;
    const size_t len = byte[0] < 0x80 ? 1 : byte[0] < 0xC0 ? 0 :
                       byte[0] < 0xE0 ? 2 : byte[0] < 0xF0 ? 3 :
                       byte[0] < 0xF8 ? 4 : 0;
    unsigned long c = len == 1 ? byte[0] : byte[0] & (0x7Fu >> len);

    for (size_t i = 1; i < len; i++) {
        if ((byte[i] & 0xC0) != 0x80)
            return 0;
        c = c << 6 | (byte[i] & 0x3F);
    }
    *character = c;
    return c < least[len] || c > 0x10FFFF || (c >= 0xD800 && c <= 0xDFFF)
               ? 0 : len;
}

/* Whether a terminal just shows it. */
static bool is_plain(unsigned long character)
{
    static const unsigned long other[][2] = {
        {0, 0x1F}, {0x7F, 0x9F},              /* controls */
        {0x2028, 0x2029},                     /* ends of line */
        {0x61C, 0x61C}, {0x200E, 0x200F},     /* directions */
        {0x202A, 0x202E}, {0x2066, 0x2069}};

    for (size_t i = 0; i < sizeof other / sizeof *other; i++)
        if (other[i][0] <= character && character <= other[i][1])
            return false;
    return true;
}

void print_name(FILE *out, const char *name)
{
    while (*name != '\0') {
        unsigned long character;
        const size_t len = first_character(name, &character);

        if (len > 0 && is_plain(character))
            fwrite(name, 1, len, out);
        else
            putc('?', out);
        name += len > 0 ? len : 1;
    }
}

void begin_complaint(const char *tool, const char *name)
{
    fprintf(stderr, "%s: ", tool);
    print_name(stderr, name);
    fputs(": ", stderr);
}

int complain(const char *tool, const char *name, const char *why)
{
    begin_complaint(tool, name);
    fprintf(stderr, "%s\n", why);
    return NOT_RUN;
}

/* ---- progress, and the end ---- */

static struct {
    bool shown;
    size_t total;
} progress;

void begin_progress(size_t total)
{
    progress.shown = total > 0 && isatty(STDERR_FILENO);
    progress.total = total;
}

void show_progress(size_t done)
{
    const size_t total = progress.total;

    /* Once for each hundredth: a terminal is slower than the work. */
    if (progress.shown && (done == 0 ||
                           done * 100 / total != (done - 1) * 100 / total)) {
        fprintf(stderr, "\r%zu of %zu", done, total);
        fflush(stderr);
    }
}

void hide_progress(void)
{
    if (progress.shown)
        fprintf(stderr, "\r\033[K");
}

int finish(const char *tool, int status)
{
    errno = 0;
    /* What was refused before may leave nothing to be flushed now. */
    if (fflush(stdout) != 0 || ferror(stdout))
        return complain(tool, "standard output",
                        errno != 0 ? strerror(errno) : "not all was written");
    return status;
}
