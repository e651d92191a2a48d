/*
 * zavscan.c - check many strips in one go.
 *
 * zavscan [-q] [--lanes N] PATH... reads every file named and every file in the
 * folders named, each a strip, of four lanes or of N, followed by as many
 * marks, in name order. Folders inside folders are passed over. A line is
 * printed for each file that is refused or cannot be read and for each folder
 * passed over, with --lanes any also for each that is read, and a summary at
 * the end; with -q the summary alone. On a terminal, standard error shows how
 * far it is. The help below says what --lanes any does, and how it ends.
 */
#define _POSIX_C_SOURCE 200809L /* for folders and strdup */
#include <dirent.h>
#include <errno.h>
#include <stdlib.h>
#include <string.h>
#include <sys/stat.h>
#include <unistd.h>

#include "tries.h"

static const char tool[] = "zavscan";

static const char help[] =
    "usage: zavscan [-q] [--lanes N] FOLDER-OR-FILE...\n"
    "Checks the files named and the files in the folders named, each a strip "
    "followed by as\n"
    "many marks, raw bytes. Folders inside folders are passed over; name them "
    "to have them\n"
    "checked. -q: the summary only.\n"
    "--lanes: the strips have N lanes, 2, 4, 8 or 16; without it four. A strip "
    "does not say\n"
    "how many. --lanes any tries each count that fits the length: a file is "
    "read only if just\n"
    "one of them gives a level, and its line says which. If several do, it is "
    "refused: the\n"
    "sender must say which it is. A file that each count refuses is summed up "
    "under the\n"
    "highest of its numbers.\n"
    "Exit status: 0 every file was read as a level; 1 some were refused; 2 "
    "some files could\n"
    "not be read or folders were passed over, the output could not be "
    "written, or the\n"
    "command makes no sense.\n";

/* ---- names ---- */

/* What stands under a name: a file, a folder inside a folder, or a folder
 * whose list could not be had, with errno's number for why. */
enum kind { PLAIN, INSIDE, UNLISTED };

struct name {
    char *path;
    enum kind kind;
    int why;
};

struct names {
    struct name *at;
    size_t count, room;
};

static void *or_stop(void *memory)
{
    if (memory == NULL) {
        complain(tool, "memory", "there is no more");
        exit(NOT_RUN);
    }
    return memory;
}

/* Takes the path over. */
static void add_name(struct names *n, char *path, enum kind kind, int why)
{
    if (n->count == n->room) {
        n->room = 2 * n->room + 64;
        n->at = or_stop(realloc(n->at, n->room * sizeof *n->at));
    }
    n->at[n->count++] = (struct name){path, kind, why};
}

static int by_name(const void *a, const void *b)
{
    return strcmp(((const struct name *)a)->path,
                  ((const struct name *)b)->path);
}

static char *join(const char *folder, const char *name)
{
    const size_t len = strlen(folder);
    const char *slash = len > 0 && folder[len - 1] == '/' ? "" : "/";
    char *path = or_stop(malloc(len + strlen(name) + 2));

    sprintf(path, "%s%s%s", folder, slash, name);
    return path;
}

static bool is_folder(const char *path)
{
    struct stat about;

    return stat(path, &about) == 0 && S_ISDIR(about.st_mode);
}

/* NULL at the end of the list and where it breaks off; errno is then 0 or
 * says why. */
static const char *next_in(DIR *dir)
{
    struct dirent *e;

    do {
        errno = 0;
        e = readdir(dir);
    } while (e != NULL &&
             (strcmp(e->d_name, ".") == 0 || strcmp(e->d_name, "..") == 0));
    return e == NULL ? NULL : e->d_name;
}

/* 0, or errno's number where the folder cannot be listed to its end. */
static int add_folder(struct names *n, const char *folder)
{
    DIR *dir = opendir(folder);
    const char *name;

    if (dir == NULL)
        return errno;
    while ((name = next_in(dir)) != NULL) {
        char *path = join(folder, name);

        add_name(n, path, is_folder(path) ? INSIDE : PLAIN, 0);
    }

    const int why = errno;

    closedir(dir);
    return why;
}

static void add_path(struct names *n, const char *path)
{
    if (!is_folder(path)) {
        add_name(n, or_stop(strdup(path)), PLAIN, 0);
        return;
    }

    const int why = add_folder(n, path);

    if (why != 0)
        add_name(n, or_stop(strdup(path)), UNLISTED, why);
}

/* ---- counts ---- */

enum { CODES = 32 }; /* as many as the code's bits can say */

struct counts {
    size_t files, read, mended, of_version_2, unreadable, passed_over;
    size_t read_with[ZAV_LANES_MAX + 1];
    size_t refused, refused_by[CODES];
    size_t several;  /* refused, for several lane counts give a level */
    bool fit_others; /* some were refused with four lanes, and fit others */
};

/* What is asked for, and what was found. */
struct job {
    struct lanes lanes;
    bool quiet;
    struct counts found;
};

/* ---- files ---- */

/* NULL, or why it cannot be read. A pipe or a device in a folder could keep us
 * waiting for ever. */
static const char *take_file(struct cells *c, const char *path)
{
    struct stat about;

    if (stat(path, &about) != 0)
        return strerror(errno);
    if (!S_ISREG(about.st_mode))
        return "not a plain file";
    return take_cells_of(c, path) ? NULL : strerror(errno);
}

static void begin_line(const char *path)
{
    hide_progress();
    print_name(stdout, path);
    printf(": ");
}

/* Its lanes are said where nobody named them. */
static void count_level(const char *path, uint64_t result, struct job *j)
{
    j->found.read++;
    j->found.mended += zav_mended(result) > 0;
    j->found.of_version_2 += zav_level_version(result) == ZAV_LEVEL_V2;
    j->found.read_with[zav_lanes(result)]++;
    if (j->lanes.count == ANY_LANES && !j->quiet) {
        begin_line(path);
        printf("read with %u lanes\n", zav_lanes(result));
    }
}

static void judge(const char *path, const struct cells *c, struct job *j)
{
    uint8_t tiles[ZAV_TILES_MAX];
    struct tries t;

    try_lanes(&t, &j->lanes, c, tiles);
    if (t.levels == 1) {
        count_level(path, t.result, j);
        return;
    }
    j->found.refused++;
    if (t.levels > 1)
        j->found.several++;
    else
        j->found.refused_by[zav_code(t.result)]++;
    j->found.fit_others |= t.fits_others;
    if (!j->quiet) {
        begin_line(path);
        print_refusals(stdout, &t);
    }
}

static void scan_file(const char *path, struct job *j)
{
    struct cells c;
    const char *why = take_file(&c, path);

    j->found.files++;
    if (why == NULL) {
        judge(path, &c, j);
        return;
    }
    j->found.unreadable++;
    if (!j->quiet) {
        begin_line(path);
        printf("unreadable: %s\n", why);
    }
}

static void scan_name(const struct name *n, struct job *j)
{
    if (n->kind == PLAIN) {
        scan_file(n->path, j);
        return;
    }
    if (n->kind == INSIDE) {
        j->found.passed_over++;
    } else {
        j->found.files++;
        j->found.unreadable++;
    }
    if (j->quiet)
        return;
    begin_line(n->path);
    if (n->kind == INSIDE)
        printf("passed over: a folder in a folder; name it to have it "
               "checked\n");
    else
        printf("unreadable: the folder cannot be listed: %s\n",
               strerror(n->why));
}

static void scan(struct names *n, struct job *j)
{
    if (n->count > 0)
        qsort(n->at, n->count, sizeof *n->at, by_name);
    begin_progress(n->count);
    for (size_t i = 0; i < n->count; i++) {
        show_progress(i);
        scan_name(&n->at[i], j);
        free(n->at[i].path);
    }
    free(n->at);
    hide_progress();
}

static void print_lanes(const struct counts *of)
{
    for (size_t i = 0; i < LANE_COUNTS; i++)
        if (of->read_with[lane_counts[i]] > 0)
            printf("  %zu with %zu lanes\n", of->read_with[lane_counts[i]],
                   lane_counts[i]);
}

static void print_codes(const struct counts *of, size_t lanes)
{
    for (unsigned code = 1; code < CODES; code++)
        if (of->refused_by[code] > 0) {
            printf("  %zu by refusal %u: ", of->refused_by[code], code);
            print_words(stdout, lanes, code);
            putchar('\n');
        }
    if (of->several > 0)
        printf("  %zu for several lane counts that give a level: the sender "
               "must say which\n", of->several);
}

static void print_summary(const struct counts *of, size_t lanes)
{
    printf("files %zu\n", of->files);
    printf("read %zu, of them mended %zu, of version 2 %zu\n", of->read,
           of->mended, of->of_version_2);
    if (lanes == ANY_LANES)
        print_lanes(of);
    printf("refused %zu\n", of->refused);
    print_codes(of, lanes);
    printf("unreadable %zu\n", of->unreadable);
    printf("folders passed over %zu\n", of->passed_over);
}

/* Nothing is fine if something was left unchecked. */
static int status_of(const struct counts *of)
{
    if (of->unreadable > 0 || of->passed_over > 0)
        return NOT_RUN;
    return of->refused > 0 ? REFUSED : FINE;
}

int main(int argc, char **argv)
{
    struct names n = {NULL, 0, 0};
    struct job j = {.quiet = false};
    int option;

    if (!take_lanes(&j.lanes, tool, true, &argc, argv))
        return NOT_RUN;
    if (wants_help(argc, argv)) {
        fputs(help, stdout);
        return finish(tool, FINE);
    }
    opterr = 0; /* getopt would print the letter as it is */
    while ((option = getopt(argc, argv, "q")) == 'q')
        j.quiet = true;
    if (option != -1)
        complain(tool, (char[]){'-', (char)optopt, '\0'},
                 "there is no such option");
    if (option != -1 || optind == argc) {
        fputs(help, stderr);
        return NOT_RUN;
    }
    for (int i = optind; i < argc; i++)
        add_path(&n, argv[i]);
    scan(&n, &j);
    print_summary(&j.found, j.lanes.count);
    if (j.found.fit_others)
        hint_lanes(tool, "the length of what was refused");
    return finish(tool, status_of(&j.found));
}
