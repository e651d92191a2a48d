/*
 * zavshow.c - show the level of a strip as a picture or as its text, or the
 * strip as it was mended.
 *
 * zavshow [--text | --strip] [--lanes N] [FILE] reads a strip, of four lanes or
 * of N, followed by as many marks, raw bytes, from the file or from standard
 * input. With --text the level is printed as the text that zavmake reads, and
 * nothing else, and refused if it is of version 2; with --strip the strip's
 * cells are, as they ought to be, with a sign at those that were not. A refusal
 * is given with its number, lane and meaning. The help below says what --lanes
 * any does, and how it ends.
 */
#include <errno.h>
#include <string.h>

#include "tries.h"

static const char tool[] = "zavshow";

static const char help[] =
    "usage: zavshow [--text | --strip] [--lanes N] [FILE]\n"
    "Shows the level of a strip. FILE is a strip followed by as many marks, "
    "raw bytes;\n"
    "without FILE it comes from standard input. --text: the level as text, to "
    "be changed in\n"
    "an editor and made a strip by zavmake. --strip: the cells of the mended "
    "strip in\n"
    "hexadecimal, lane by lane, with * before a cell that was wrong and is "
    "mended, + before\n"
    "one that was marked and wrong and is repainted, = before one that was "
    "marked and right.\n"
    "The last line of a drawing begins with the level's version. One of "
    "version 2 may have\n"
    "pits, drawn as ^, and has no text.\n"
    "--lanes: the strip has N lanes, 2, 4, 8 or 16; without it four. A strip "
    "does not say how\n"
    "many. --lanes any tries each count that fits the length: a level is shown "
    "only if just\n"
    "one of them gives a level, and the last line ends with that count (with "
    "--text it is said\n"
    "on standard error). If several do, none is shown: the sender must say "
    "which it is.\n"
    "Exit status: 0 a level was shown; 1 the strip was refused, or with --text "
    "the level is\n"
    "of version 2; 2 the input could not be read, the output not be written, "
    "or the command\n"
    "makes no sense.\n";

/* Four need not be said to whoever meant four. */
static void print_lanes(const struct tries *t)
{
    if (t->asked != ZAV_STRIP_LANES)
        printf(", lanes %u", zav_lanes(t->result));
    putchar('\n');
}

static void print_level(const struct tries *t, const uint8_t *tiles)
{
    const uint64_t result = t->result;

    for (unsigned y = 0; y < zav_height(result); y++) {
        for (unsigned x = 0; x < zav_width(result); x++)
            putchar(letters[*tiles++]);
        putchar('\n');
    }
    printf("version %u, width %u, height %u, par %u, mended %u, repainted %u, "
           "wear %u", zav_level_version(result), zav_width(result),
           zav_height(result), zav_par(result), zav_mended(result),
           zav_repainted(result), zav_wear(result));
    print_lanes(t);
}

/* The level was read, so its version is all that the text writer refuses. What
 * is said of lanes is not to get into the text. */
static int print_text(const struct tries *t, const uint8_t *tiles)
{
    const uint64_t result = t->result;
    const size_t version = zav_level_version(result);
    const size_t width = zav_width(result), height = zav_height(result);
    uint8_t text[ZAV_TEXT_MAX];
    const uint64_t written =
        zav_text_write(version, width, height, zav_par(result), tiles,
                       width * height, text, sizeof text);

    if (zav_code(written) != ZAV_DONE) {
        fprintf(stderr, "%s: refused %u lane 0: the level is of version %zu, "
                "and texts are for version 1, where there are no pits; zavshow "
                "without --text draws it\n", tool, zav_code(written), version);
        return REFUSED;
    }
    fwrite(text, 1, zav_length(written), stdout);
    if (t->asked == ANY_LANES)
        fprintf(stderr, "%s: read with %u lanes\n", tool, zav_lanes(result));
    return FINE;
}

/* ---- the mended strip ---- */

/* A strip as it was read, and as it ought to be. */
struct drawing {
    const uint8_t *read, *marks;
    uint8_t mended[ZAV_STRIP_MAX];
    size_t len, lanes;
};

static bool is_right(const struct drawing *d, size_t cell)
{
    return d->read[cell] == d->mended[cell];
}

static char sign_of(const struct drawing *d, size_t cell)
{
    if (d->marks[cell])
        return is_right(d, cell) ? '=' : '+';
    return is_right(d, cell) ? ' ' : '*';
}

/* Sixteen cells of a lane fit a line. */
static size_t block_of(const struct drawing *d)
{
    return 16 * d->lanes;
}

static void print_block(const struct drawing *d, size_t from)
{
    const size_t left = d->len - from, block = block_of(d);
    const size_t end = from + (left < block ? left : block);
    const int digits = d->lanes > 10 ? 2 : 1; /* of the highest lane */

    printf("cells %zu to %zu\n", from, end - 1);
    for (size_t lane = 0; lane < d->lanes; lane++) {
        printf("lane %*zu", digits, lane);
        for (size_t cell = from + lane; cell < end; cell += d->lanes)
            printf(" %c%02X", sign_of(d, cell), d->mended[cell]);
        putchar('\n');
    }
}

/* The strip within reach is the one that is written for the level read, with
 * the same lanes. */
static void print_strip(const struct cells *c, const struct tries *t,
                        const uint8_t *tiles)
{
    const uint64_t result = t->result;
    const size_t width = zav_width(result), height = zav_height(result);
    struct drawing d = {.read = c->bytes, .marks = c->bytes + c->len / 2,
                        .len = c->len / 2, .lanes = zav_lanes(result)};
    size_t marked_right = 0;

    zav_strip_write(d.lanes, zav_level_version(result), width, height,
                    zav_par(result), tiles, width * height, d.mended,
                    sizeof d.mended);
    for (size_t from = 0; from < d.len; from += block_of(&d))
        print_block(&d, from);
    for (size_t cell = 0; cell < d.len; cell++)
        marked_right += sign_of(&d, cell) == '=';
    printf("* mended %u, + repainted %u, = marked and right %zu",
           zav_mended(result), zav_repainted(result), marked_right);
    print_lanes(t);
}

/* ---- */

enum form { AS_LEVEL, AS_TEXT, AS_STRIP };

/* Where a text is wanted, a refusal is not to get into it. */
static int refuse(const struct tries *t, enum form form)
{
    if (form == AS_TEXT)
        fprintf(stderr, "%s: ", tool);
    print_refusals(form == AS_TEXT ? stderr : stdout, t);
    if (t->fits_others)
        hint_lanes(tool, "its length");
    return REFUSED;
}

static int show(const struct cells *c, const struct lanes *l, enum form form)
{
    uint8_t tiles[ZAV_TILES_MAX];
    struct tries t;

    try_lanes(&t, l, c, tiles);
    if (t.levels != 1)
        return refuse(&t, form);
    if (form == AS_TEXT)
        return print_text(&t, tiles);
    if (form == AS_STRIP)
        print_strip(c, &t, tiles);
    else
        print_level(&t, tiles);
    return FINE;
}

/* The first argument may say the form. */
static enum form form_of(int argc, char **argv)
{
    if (argc > 1 && strcmp(argv[1], "--text") == 0)
        return AS_TEXT;
    if (argc > 1 && strcmp(argv[1], "--strip") == 0)
        return AS_STRIP;
    return AS_LEVEL;
}

int main(int argc, char **argv)
{
    struct lanes lanes;
    struct cells c;

    if (!take_lanes(&lanes, tool, true, &argc, argv))
        return NOT_RUN;

    const enum form form = form_of(argc, argv);
    const int first = form == AS_LEVEL ? 1 : 2; /* where a file's name is */
    const bool named = argc == first + 1;
    const char *name = named ? argv[first] : "standard input";

    if (wants_help(argc, argv)) {
        fputs(help, stdout);
        return finish(tool, FINE);
    }
    if (argc > first + 1 || (named && name[0] == '-')) {
        fputs(help, stderr);
        return NOT_RUN;
    }
    if (!(named ? take_cells_of(&c, name) : take_cells(&c, stdin)))
        return complain(tool, name, strerror(errno));
    return finish(tool, show(&c, &lanes, form));
}
