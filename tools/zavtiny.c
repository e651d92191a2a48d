/*
 * zavtiny.c - all legal boards of a tiny size, in order.
 *
 * zavtiny WIDTH HEIGHT prints each as a text with par 0, one after the other;
 * zavtiny [--lanes N] WIDTH HEIGHT FOLDER writes each as a strip, of four lanes
 * or of N, followed by as many zero marks to a file of its own. No file that is
 * there is written over, and if one cannot be written, none is left behind.
 * Their number is said on standard error; on a terminal that also shows how far
 * it is. The help below says how it ends.
 */
#define _POSIX_C_SOURCE 200809L /* for folders and isatty */
#include <errno.h>
#include <stdlib.h>
#include <string.h>
#include <sys/stat.h>
#include <unistd.h>

#include "common.h"

static const char tool[] = "zavtiny";

static const char help[] =
    "usage: zavtiny WIDTH HEIGHT\n"
    "       zavtiny [--lanes N] WIDTH HEIGHT FOLDER\n"
    "All legal boards of a size of at most 6 tiles, in the order of their tile "
    "codes. They are\n"
    "levels of version 1, and printed as texts with par 0, each starting with "
    "its line 'par 0'.\n"
    "With FOLDER, which is made if it is not there, each is written as a strip "
    "followed by as\n"
    "many zero marks: the third of 4 by 1 to 4x1-0003.cells. Files that are "
    "there are not\n"
    "written over. --lanes: the strips have N lanes, 2, 4, 8 or 16; without it "
    "four.\n"
    "The number of boards is said on standard error.\n"
    "Exit status: 0 all boards were written; 1 there is no such size; 2 the "
    "output could not\n"
    "be written, or the command makes no sense.\n";

/* ---- the boards of a size ---- */

struct walk {
    size_t width, height;
    uint8_t tiles[ZAV_TILES_MAX];
    size_t count; /* so many boards so far */
};

/* On to the first board, or to the next; the length of the answer is 0 when
 * none is left. */
static uint64_t step(struct walk *w)
{
    uint8_t given[ZAV_TINY_MAX];
    const bool start = w->count == 0;
    const size_t len = start ? 0 : w->width * w->height;

    memcpy(given, w->tiles, len);

    const uint64_t result =
        zav_tiny_next(w->width, w->height, start ? ZAV_START : ZAV_AFTER,
                      given, len, w->tiles, sizeof w->tiles);

    w->count += zav_length(result) != 0;
    return result;
}

/* How many there are. What ends the walk is returned: that none is left, or a
 * refusal of the size. */
static uint64_t count_boards(size_t width, size_t height, size_t *count)
{
    struct walk w = {.width = width, .height = height, .count = 0};
    uint64_t result;

    do {
        result = step(&w);
    } while (zav_length(result) != 0);
    *count = w.count;
    return result;
}

/* ---- as texts ---- */

static int print_texts(size_t width, size_t height)
{
    struct walk w = {.width = width, .height = height, .count = 0};
    uint8_t text[ZAV_TEXT_MAX];

    while (zav_length(step(&w)) != 0 && !ferror(stdout)) {
        const uint64_t result =
            zav_text_write(ZAV_LEVEL_V1, width, height, 0, w.tiles,
                           width * height, text, sizeof text);

        show_progress(w.count - 1);
        fwrite(text, 1, zav_length(result), stdout);
    }
    hide_progress();
    return finish(tool, FINE);
}

/* ---- as strips ---- */

/* A folder, and the room for a name in it. */
struct folder {
    const char *path;
    char *name;
    bool made;    /* it was not there before */
    size_t lanes; /* of the strips in it */
};

/* False if there is no folder and none can be made; errno says why. */
static bool enter_folder(struct folder *f, const char *path)
{
    struct stat about;

    f->path = path;
    f->name = malloc(strlen(path) + 64);
    f->made = f->name != NULL && mkdir(path, 0777) == 0;
    if (f->name == NULL || f->made)
        return f->made;
    if (errno == EEXIST && stat(path, &about) == 0 && !S_ISDIR(about.st_mode))
        errno = ENOTDIR;
    return errno == EEXIST;
}

static const char *name_board(struct folder *f, const struct walk *w)
{
    sprintf(f->name, "%s/%zux%zu-%04zu.cells", f->path, w->width, w->height,
            w->count);
    return f->name;
}

/* False if the file was there or could not be written; errno says why, and of
 * a file that was begun nothing is left. */
static bool write_board(struct folder *f, const struct walk *w)
{
    const char *path = name_board(f, w);
    FILE *file = fopen(path, "wbx"); /* x: it must be new */

    if (file == NULL)
        return false;
    put_cells(file, f->lanes, ZAV_LEVEL_V1, w->width, w->height, 0, w->tiles);

    bool written = fflush(file) == 0;
    int why = errno;

    if (fclose(file) != 0 && written) {
        written = false;
        why = errno;
    }
    if (!written)
        unlink(path);
    errno = why;
    return written;
}

/* Take back what was written before this board, and the folder if we made
 * it. */
static void undo(struct folder *f, struct walk *w)
{
    while (w->count > 1) {
        w->count--;
        unlink(name_board(f, w));
    }
    if (f->made)
        rmdir(f->path);
}

static int write_strips(size_t width, size_t height, struct folder *f)
{
    struct walk w = {.width = width, .height = height, .count = 0};

    while (zav_length(step(&w)) != 0) {
        show_progress(w.count - 1);
        if (!write_board(f, &w)) {
            const int why = errno;

            hide_progress();
            complain(tool, f->name, strerror(why));
            undo(f, &w);
            return NOT_RUN;
        }
    }
    hide_progress();
    return FINE;
}

static int fill_folder(size_t width, size_t height, size_t lanes,
                       const char *path)
{
    struct folder f = {.lanes = lanes};
    int status;

    if (enter_folder(&f, path))
        status = write_strips(width, height, &f);
    else
        status = complain(tool, path, strerror(errno));
    free(f.name);
    return status;
}

/* ---- the command ---- */

/* A whole number; one that is too large for us becomes the largest. */
static bool take_number(const char *word, size_t *number)
{
    *number = 0;
    for (const char *c = word; *c != '\0'; c++) {
        if (*c < '0' || *c > '9')
            return false;
        *number = *number > SIZE_MAX / 16 ? SIZE_MAX
                                          : 10 * *number + (size_t)(*c - '0');
    }
    return *word != '\0';
}

static int refuse(char **sides, unsigned code)
{
    fprintf(stderr, "%s: %s by %s: refused %u: %s\n", tool, sides[0],
            sides[1], code, zav_refusal_text(code));
    return REFUSED;
}

static int list(size_t width, size_t height, size_t count, size_t lanes,
                const char *folder)
{
    int status = FINE;

    if (folder != NULL || !isatty(STDOUT_FILENO))
        begin_progress(count);
    if (folder == NULL)
        status = print_texts(width, height);
    else if (count > 0)
        status = fill_folder(width, height, lanes, folder);
    if (status == FINE)
        fprintf(stderr, "%zu boards of %zu by %zu\n", count, width, height);
    return status;
}

int main(int argc, char **argv)
{
    struct lanes lanes;
    size_t side[2], count;

    if (!take_lanes(&lanes, tool, false, &argc, argv))
        return NOT_RUN;
    if (wants_help(argc, argv)) {
        fputs(help, stdout);
        return finish(tool, FINE);
    }
    if (argc < 3 || argc > 4 || (argc == 4 && argv[3][0] == '-')) {
        fputs(help, stderr);
        return NOT_RUN;
    }
    if (lanes.given && argc == 3)
        return complain(tool, "--lanes",
                        "texts have no lanes; name a folder for strips");
    for (int i = 0; i < 2; i++)
        if (!take_number(argv[1 + i], &side[i]))
            return complain(tool, argv[1 + i],
                            "a width or a height is a whole number in digits");

    const uint64_t end = count_boards(side[0], side[1], &count);

    if (zav_code(end) != ZAV_DONE)
        return refuse(argv + 1, zav_code(end));
    return list(side[0], side[1], count, lanes.count,
                argc == 4 ? argv[3] : NULL);
}
