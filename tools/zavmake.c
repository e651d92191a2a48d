/*
 * zavmake.c - make the strip of a level that was typed as text.
 *
 * zavmake [--lanes N] [FILE] reads a text from the file or from standard input,
 * and writes the level's strip, of four lanes or of N, followed by as many zero
 * marks to standard output: what zavshow reads. Nothing is written but whole
 * strips. The help below says what a text is, and how it ends.
 */
#include <errno.h>
#include <stdlib.h>
#include <string.h>

#include "common.h"
#include "slips.h"

static const char tool[] = "zavmake";

static const char help[] =
    "usage: zavmake [--lanes N] [FILE] > CELLS\n"
    "Writes the strip of a level, followed by as many zero marks. FILE is the "
    "level as text;\n"
    "without FILE it comes from standard input. The first line is 'par', one "
    "space and the\n"
    "par, 0 to 1023; each further line is a row of letters:\n"
    "  # wall   $ crate   . goal   * crate on goal   @ player   + player on "
    "goal\n"
    "  - or space for floor; short rows are filled up with it\n"
    "A level has one player, as many crates as goals, and a crate off its "
    "goal. Texts are\n"
    "levels of version 1: a pit cannot be typed.\n"
    "--lanes: the strip has N lanes, 2, 4, 8 or 16; without it four. It does "
    "not say how many:\n"
    "whoever is to read it must be told, if it is not four.\n"
    "Exit status: 0 a strip was written; 1 the text is no level; 2 the input "
    "could not be\n"
    "read, the output not be written, or the command makes no sense.\n";

/* ---- the text ---- */

struct text {
    uint8_t *bytes;
    size_t len, room;
};

/* False if there is no more memory; errno says so. */
static bool make_room(struct text *t)
{
    if (t->len < t->room)
        return true;
    if (t->room > SIZE_MAX / 2) {
        errno = ENOMEM;
        return false;
    }

    const size_t room = t->room > 0 ? 2 * t->room : 4096;
    uint8_t *bytes = realloc(t->bytes, room);

    if (bytes == NULL)
        return false;
    t->bytes = bytes;
    t->room = room;
    return true;
}

/* The whole of it, however long. False if it cannot be read; errno says why. */
static bool take_text(struct text *t, FILE *file)
{
    do {
        if (!make_room(t))
            return false;
        t->len += fread(t->bytes + t->len, 1, t->room - t->len, file);
    } while (!feof(file) && !ferror(file));
    return !ferror(file);
}

static bool take_text_of(struct text *t, const char *path)
{
    FILE *file = fopen(path, "rb");

    if (file == NULL)
        return false;

    const bool taken = take_text(t, file);
    const int why = errno;

    fclose(file);
    errno = why;
    return taken;
}

/* ---- the strip ---- */

/* Texts are levels of version 1. */
static int write_strip(size_t lanes, uint64_t level, const uint8_t *tiles)
{
    const uint64_t result = put_cells(stdout, lanes, ZAV_LEVEL_V1,
                                      zav_width(level), zav_height(level),
                                      zav_par(level), tiles);

    if (zav_code(result) != ZAV_DONE) {
        fprintf(stderr, "%s: ", tool);
        print_refusal(stderr, lanes, result);
        return REFUSED;
    }
    return FINE;
}

/* Whether the text is a level is the library's to say; where it went wrong is
 * looked for only then. */
static int make(size_t lanes, const struct text *t, const char *name)
{
    uint8_t tiles[ZAV_TILES_MAX];
    const uint64_t level =
        zav_text_read(t->bytes, t->len, tiles, sizeof tiles);

    if (zav_code(level) == ZAV_DONE)
        return write_strip(lanes, level, tiles);
    begin_complaint(tool, name);
    print_slip(stderr, t->bytes, t->len, zav_code(level));
    return REFUSED;
}

int main(int argc, char **argv)
{
    struct lanes lanes;
    struct text t = {NULL, 0, 0};
    int status;

    if (!take_lanes(&lanes, tool, false, &argc, argv))
        return NOT_RUN;
    if (wants_help(argc, argv)) {
        fputs(help, stdout);
        return finish(tool, FINE);
    }

    const bool named = argc == 2;
    const char *name = named ? argv[1] : "standard input";

    if (argc > 2 || (named && argv[1][0] == '-')) {
        fputs(help, stderr);
        return NOT_RUN;
    }
    if (named ? take_text_of(&t, name) : take_text(&t, stdin))
        status = finish(tool, make(lanes.count, &t, name));
    else
        status = complain(tool, name, strerror(errno));
    free(t.bytes);
    return status;
}
