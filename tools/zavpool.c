/*
 * zavpool.c - pool two or more pictures of one strip.
 *
 * zavpool FILE FILE... reads strips of four lanes, each followed by as many
 * marks, raw bytes, and writes the pooled strip and its marks to standard
 * output: what zavshow reads. The counts go to standard error, a line for each
 * picture that is added, and so does a line for each that gives a level by
 * itself. Nothing is written unless all of them were pooled. The help below
 * says how it ends.
 */
#include <errno.h>
#include <string.h>

#include "common.h"

static const char tool[] = "zavpool";

static const char help[] =
    "usage: zavpool FILE FILE... > CELLS\n"
    "Pools pictures of one strip that are covered in different places. Each "
    "FILE is a strip\n"
    "followed by as many marks, raw bytes, and so is what is written. A cell "
    "that both\n"
    "pictures show alike is kept (agreed), one that is marked in just one is "
    "taken from the\n"
    "other (taken from one). One that they show differently (in conflict) "
    "becomes marked, and\n"
    "one that is marked in both stays so. The counts are said on standard "
    "error, and which\n"
    "pictures give a level by themselves: those need no pooling, and cells that "
    "are wrong in\n"
    "another can make it worse.\n"
    "Of three pictures the first two are pooled, and then the outcome with the "
    "third: a cell\n"
    "in which the first two are in conflict is then the third's alone to say.\n"
    "The strips have four lanes, 24 to 384 cells; other lane counts cannot be "
    "named.\n"
    "Exit status: 0 a pooled strip was written; 1 a file is no strip with "
    "marks, or they have\n"
    "different lengths; 2 a file could not be read, the output not be written, "
    "or the command\n"
    "makes no sense.\n";

/* One picture more is pooled with what there is; the packed answer. */
static uint64_t pool(struct cells *all, const struct cells *one)
{
    const size_t len = all->len / 2, other = one->len / 2;
    struct cells out = {.len = all->len};
    const uint64_t counts =
        zav_strip_pool(all->bytes, len, all->bytes + len, len, one->bytes,
                       other, one->bytes + other, other, out.bytes, len,
                       out.bytes + len, len);

    if (zav_code(counts) == ZAV_DONE)
        *all = out;
    return counts;
}

static int refuse(const char *name, unsigned code)
{
    begin_complaint(tool, name);
    fprintf(stderr, "refused %u: ", code);
    print_words(stderr, ZAV_STRIP_LANES, code);
    putc('\n', stderr);
    return REFUSED;
}

/* The file has a strip of another length than the ones before it. */
static int refuse_length(const char *name, size_t cells, size_t before)
{
    begin_complaint(tool, name);
    fprintf(stderr, "refused %u: a strip of %zu cells, and of %zu before; pool "
            "pictures of one strip\n", ZAV_UNEQUAL_STRIPS, cells, before);
    return REFUSED;
}

/* The file's picture, or why there is none. It need not be one that is read;
 * but one that is needs no pooling, and that is said. */
static int take(struct cells *c, const char *name)
{
    uint8_t tiles[ZAV_TILES_MAX];

    if (!take_cells_of(c, name))
        return complain(tool, name, strerror(errno));

    const unsigned code = zav_code(read_cells(ZAV_STRIP_LANES, c, tiles));

    if (code == ZAV_BAD_LENGTH || code == ZAV_BAD_MARK)
        return refuse(name, code);
    if (code == ZAV_DONE) {
        print_name(stderr, name);
        fputs(": gives a level by itself\n", stderr);
    }
    return FINE;
}

static void say_counts(const char *before, const char *name, uint64_t counts)
{
    print_name(stderr, before);
    fputs(" with ", stderr);
    print_name(stderr, name);
    fprintf(stderr,
            ": %u cells agreed, %u taken from one, %u in conflict, %u marked "
            "in both\n",
            zav_agreed(counts), zav_taken(counts), zav_in_conflict(counts),
            zav_marked_in_both(counts));
    if (zav_in_conflict(counts) > zav_agreed(counts))
        fputs("more cells are in conflict than agreed: are these pictures of "
              "one strip?\n", stderr);
}

/* The file's picture, pooled with what there is. */
static int add(struct cells *all, const char *before, const char *name)
{
    struct cells one;
    const int status = take(&one, name);

    if (status != FINE)
        return status;

    const uint64_t counts = pool(all, &one);

    if (zav_code(counts) == ZAV_UNEQUAL_STRIPS)
        return refuse_length(name, one.len / 2, all->len / 2);
    if (zav_code(counts) != ZAV_DONE)
        return refuse(name, zav_code(counts));
    say_counts(before, name, counts);
    return FINE;
}

static int pool_files(int count, char **names)
{
    struct cells all;
    int status = take(&all, names[0]);

    for (int i = 1; i < count && status == FINE; i++)
        status = add(&all, i == 1 ? names[0] : "pooled", names[i]);
    if (status == FINE)
        fwrite(all.bytes, 1, all.len, stdout);
    return status;
}

static bool has_option(int argc, char **argv)
{
    for (int i = 1; i < argc; i++)
        if (argv[i][0] == '-')
            return true;
    return false;
}

int main(int argc, char **argv)
{
    if (wants_help(argc, argv)) {
        fputs(help, stdout);
        return finish(tool, FINE);
    }
    if (argc < 3 || has_option(argc, argv)) {
        fputs(help, stderr);
        return NOT_RUN;
    }
    return finish(tool, pool_files(argc - 1, argv + 1));
}
