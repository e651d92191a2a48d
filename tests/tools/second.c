/*
 * second.c - what the tools must say, from the second implementation.
 *
 * second show FILE prints what zavshow must print, with what must be said on
 * standard error, and ends as it must; second text FILE the same for zavshow
 * --text, second strip FILE for zavshow --strip, and second make FILE for
 * zavmake. second scan FILE... prints what zavscan must print.
 * second pool FILE FILE... writes what zavpool must write, and says the counts
 * on standard error.
 * second list WIDTH HEIGHT prints what zavtiny must print, and with FOLDER puts
 * there the files that zavtiny must put.
 * second draw FOLDER COUNT writes so many files for zavshow and zavscan to
 * read, second type FOLDER COUNT so many texts for zavmake, and second cover
 * FOLDER COUNT so many times three pictures of a strip for zavpool.
 *
 * second --lanes N before all that is for strips of N lanes, or of any: files
 * are then drawn of all lane counts.
 */
#include <stdio.h>
#include <stdlib.h>
#include <string.h>

#include "boards.h"
#include "draw.h"
#include "reference_pool.h"
#include "reference_text.h"
#include "reference_tiny.h"
#include "typed.h"

enum { BYTES_ROOM = 2 * REF_STRIP_MAX + 1 };

/* ---- files ---- */

static FILE *open_or_stop(const char *path, const char *how)
{
    FILE *file = fopen(path, how);

    if (file == NULL) {
        perror(path);
        exit(3);
    }
    return file;
}

static size_t take(const char *path, uint8_t *bytes, size_t room)
{
    FILE *file = open_or_stop(path, "rb");
    const size_t len = fread(bytes, 1, room, file);

    fclose(file);
    return len;
}

static int put(const char *folder, size_t number, const char *end,
               const uint8_t *bytes, size_t len)
{
    char path[4096];

    snprintf(path, sizeof path, "%s/%zu.%s", folder, number, end);

    FILE *file = open_or_stop(path, "wb");

    fwrite(bytes, 1, len, file);
    return fclose(file) != 0;
}

/* ---- lanes ---- */

enum { ANY = 0, COUNTS = 4 };

static const size_t counts[COUNTS] = {2, 4, 8, 16};

/* What --lanes said, if it was there. */
static size_t asked = REF_LANES;
static bool named;

/* What came of a file with each count that it was read with, in the order of
   `counts`. With a level, `level` is the last of those that gave one. */
struct reading {
    bool tried[COUNTS];
    struct ref_result with[COUNTS], level;
    size_t tries, levels;
    uint8_t tiles[REF_TILES_MAX];
};

static struct ref_result read_as(size_t lanes, const uint8_t *bytes, size_t len,
                                 uint8_t *tiles)
{
    if (len % 2 != 0)
        return (struct ref_result){.code = 1};
    return ref_strip_read(lanes, bytes, len / 2, bytes + len / 2, len / 2,
                          tiles, REF_TILES_MAX, REF_SCRATCH_MIN);
}

static bool fits(size_t lanes, size_t len)
{
    return len % 2 == 0 && ref_is_strip_len(lanes, len / 2);
}

static struct reading judge(const uint8_t *bytes, size_t len)
{
    struct reading r = {.tries = 0};

    for (size_t i = 0; i < COUNTS; i++) {
        r.tried[i] = asked == counts[i] ||
                     (asked == ANY && fits(counts[i], len));
        if (!r.tried[i])
            continue;
        r.tries++;
        r.with[i] = read_as(counts[i], bytes, len, r.tiles);
        if (r.with[i].code == 0) {
            r.levels++;
            r.level = r.with[i];
        }
    }
    return r;
}

/* ---- refusals ---- */

/* Refusal 1, by the lane count that was asked for. */
static const char *const lengths[] = {
    [ANY] = "not as long as a strip of 2, 4, 8 or 16 lanes followed by as many "
            "marks",
    [2] = "not a strip of 14 to 374 cells, a multiple of 2, followed by as "
          "many marks",
    [4] = "not a strip of 24 to 384 cells, a multiple of 4, followed by as "
          "many marks",
    [8] = "not a strip of 48 to 408 cells, a multiple of 8, followed by as "
          "many marks",
    [16] = "not a strip of 96 to 448 cells, a multiple of 16, followed by as "
           "many marks",
};

enum { CODE_MAX = 10 };

/* 2, 4 and 5 are for callers; no file brings them about. */
static const char *const words[CODE_MAX + 1] = {
    [3] = "a mark is neither 0 nor 1",
    [6] = "too many cells are wrong or marked",
    [7] = "the version is not one that is taken here, or the width, height or "
          "par is out of range",
    [8] = "the length does not fit the size, or the filling is not zero",
    [9] = "a tile code is none of this version",
    [10] = "not one player, fewer crates than goals (in version 1 also more), "
           "or no crate off its goal",
};

static const char *words_of(unsigned code)
{
    return code == 1 ? lengths[asked] : words[code];
}

/* The number by which zavscan sums a refused file up: the highest. */
static unsigned code_of(const struct reading *r)
{
    unsigned code = 1;

    for (size_t i = 0; i < COUNTS; i++)
        if (r->tried[i] && r->with[i].code > code)
            code = r->with[i].code;
    return code;
}

/* More than one gave a level. */
static void say_levels(FILE *out, const struct reading *r)
{
    size_t said = 0;

    fputs("refused: a level", out);
    for (size_t i = 0; i < COUNTS; i++)
        if (r->tried[i] && r->with[i].code == 0)
            fprintf(out, "%s with %zu lanes", said++ > 0 ? " and another" : "",
                    counts[i]);
    fputs("; the sender must say which, and --lanes names it\n", out);
}

/* For each number the counts that got it, then its words. */
static void say_each(FILE *out, const struct reading *r)
{
    size_t said = 0;

    for (unsigned code = 1; code <= CODE_MAX; code++) {
        char who[100] = "";
        size_t len = 0;

        for (size_t i = 0; i < COUNTS; i++)
            if (r->tried[i] && r->with[i].code == code)
                len += (size_t)sprintf(who + len, "%s lane %u of %zu",
                                       len > 0 ? "," : "", r->with[i].lane,
                                       counts[i]);
        if (len > 0)
            fprintf(out, "%s %u%s: %s", said++ > 0 ? ";" : "refused", code,
                    who, words_of(code));
    }
    fputs("\n", out);
}

/* The lane told of the one count that was read with, 0 if there was none. */
static unsigned lane_of(const struct reading *r)
{
    unsigned lane = 0;

    for (size_t i = 0; i < COUNTS; i++)
        if (r->tried[i])
            lane = r->with[i].lane;
    return lane;
}

static void say_refused(FILE *out, const struct reading *r)
{
    if (r->levels > 1)
        say_levels(out, r);
    else if (asked == ANY && r->tries > 0)
        say_each(out, r);
    else
        fprintf(out, "refused %u lane %u: %s\n", code_of(r), lane_of(r),
                words_of(code_of(r)));
}

/* Whoever named no lanes is told that there are others, if they could help. */
static bool needs_hint(const struct reading *r, size_t len)
{
    return !named && r->levels == 0 && code_of(r) != 3 &&
           (fits(2, len) || fits(8, len) || fits(16, len));
}

static void say_hint(const char *tool, const char *whose)
{
    fprintf(stderr, "%s: this was with 4 lanes, and other counts fit %s: "
            "--lanes names one, --lanes any tries each that fits\n", tool,
            whose);
}

static int refuse(FILE *out, const struct reading *r, size_t len)
{
    say_refused(out, r);
    if (needs_hint(r, len))
        say_hint("zavshow", "its length");
    return 1;
}

/* ---- show ---- */

static char letter_of(uint8_t tile)
{
    static const char pairs[] = "0 1#2$3.4*5@6+7^";

    return *(strchr(pairs, '0' + tile) + 1);
}

/* The end of a last line: the lanes, unless they were known to be four. */
static void say_lanes(const struct reading *r)
{
    if (asked == REF_LANES)
        puts("");
    else
        printf(", lanes %u\n", r->level.lanes);
}

static int show(const char *path)
{
    uint8_t bytes[BYTES_ROOM];
    const size_t len = take(path, bytes, sizeof bytes);
    const struct reading all = judge(bytes, len);
    const struct ref_result r = all.level;

    if (all.levels != 1)
        return refuse(stdout, &all, len);
    for (size_t i = 0; i < (size_t)r.width * r.height; i++)
        printf("%c%s", letter_of(all.tiles[i]),
               (i + 1) % r.width == 0 ? "\n" : "");
    printf("version %u, width %u, height %u, par %u, mended %u, repainted %u, "
           "wear %u", r.version, r.width, r.height, r.par, r.mended,
           r.repainted, r.wear);
    say_lanes(&all);
    return 0;
}

/* By mark, and by whether the cell was wrong. */
static const char signs[2][2] = {{' ', '*'}, {'=', '+'}};

/* The cells as they come, each put down in the row of its lane; rows are
   printed when they are full, or the strip is at its end. The cells are
   counted here, and not by the reader. */
static int show_strip(const char *path)
{
    uint8_t bytes[BYTES_ROOM], strip[REF_STRIP_MAX];
    const size_t len = take(path, bytes, sizeof bytes), cells = len / 2;
    const struct reading all = judge(bytes, len);
    const struct ref_result r = all.level;
    const size_t lanes = r.lanes, block = 16 * lanes;
    char rows[REF_LANES_MAX][16 * 4 + 1];
    size_t kinds[2][2] = {{0}};

    if (all.levels != 1)
        return refuse(stdout, &all, len);
    ref_strip_write(lanes, r.version, r.width, r.height, r.par, all.tiles,
                    (size_t)r.width * r.height, strip, sizeof strip);
    for (size_t p = 0; p < cells; p++) {
        const size_t marked = bytes[cells + p], wrong = strip[p] != bytes[p];

        if (p % block == 0)
            printf("cells %zu to %zu\n", p,
                   p + block < cells ? p + block - 1 : cells - 1);
        sprintf(rows[p % lanes] + p % block / lanes * 4, " %c%02X",
                signs[marked][wrong], strip[p]);
        kinds[marked][wrong]++;
        if ((p + 1) % block == 0 || p + 1 == cells)
            for (size_t lane = 0; lane < lanes; lane++)
                printf(lanes == 16 ? "lane %2zu%s\n" : "lane %zu%s\n", lane,
                       rows[lane]);
    }
    printf("* mended %zu, + repainted %zu, = marked and right %zu",
           kinds[0][1], kinds[1][1], kinds[1][0]);
    say_lanes(&all);
    return 0;
}

/* A level of version 2 has no text. */
static int refuse_text(unsigned code)
{
    fprintf(stderr, "zavshow: refused %u lane 0: the level is of version 2, "
            "and texts are for version 1, where there are no pits; zavshow "
            "without --text draws it\n", code);
    return 1;
}

static int show_text(const char *path)
{
    uint8_t bytes[BYTES_ROOM], text[REF_TEXT_MAX];
    const size_t len = take(path, bytes, sizeof bytes);
    const struct reading all = judge(bytes, len);
    const struct ref_result r = all.level;

    if (all.levels != 1) {
        fputs("zavshow: ", stderr);
        return refuse(stderr, &all, len);
    }

    const struct ref_result written =
        ref_text_write(r.version, r.width, r.height, r.par, all.tiles,
                       (size_t)r.width * r.height, text, sizeof text);

    if (written.code != 0)
        return refuse_text(written.code);
    fwrite(text, 1, written.length, stdout);
    if (asked == ANY)
        fprintf(stderr, "zavshow: read with %u lanes\n", r.lanes);
    return 0;
}

/* ---- scan ---- */

struct sums {
    size_t read, mended, second, with[COUNTS];
    size_t refused, by[CODE_MAX + 1], several;
    bool hint;
};

static void add_level(struct sums *s, const char *path, struct ref_result r)
{
    s->read++;
    s->mended += r.mended != 0;
    s->second += r.version == 2;
    for (size_t i = 0; i < COUNTS; i++)
        s->with[i] += counts[i] == r.lanes;
    if (asked == ANY)
        printf("%s: read with %u lanes\n", path, r.lanes);
}

static void add_refused(struct sums *s, const char *path,
                        const struct reading *r)
{
    s->refused++;
    *(r->levels > 1 ? &s->several : &s->by[code_of(r)]) += 1;
    printf("%s: ", path);
    say_refused(stdout, r);
}

static void add_file(struct sums *s, const char *path)
{
    uint8_t bytes[BYTES_ROOM];
    const size_t len = take(path, bytes, sizeof bytes);
    const struct reading r = judge(bytes, len);

    if (r.levels == 1)
        add_level(s, path, r.level);
    else
        add_refused(s, path, &r);
    s->hint = s->hint || needs_hint(&r, len);
}

static void say_sums(const struct sums *s)
{
    printf("read %zu, of them mended %zu, of version 2 %zu\n", s->read,
           s->mended, s->second);
    for (size_t i = 0; i < COUNTS; i++)
        if (asked == ANY && s->with[i] > 0)
            printf("  %zu with %zu lanes\n", s->with[i], counts[i]);
    printf("refused %zu\n", s->refused);
    for (unsigned code = 1; code <= CODE_MAX; code++)
        if (s->by[code] > 0)
            printf("  %zu by refusal %u: %s\n", s->by[code], code,
                   words_of(code));
    if (s->several > 0)
        printf("  %zu for several lane counts that give a level: the sender "
               "must say which\n", s->several);
}

static int scan(int count, char **paths)
{
    struct sums s = {.read = 0};

    for (int i = 0; i < count; i++)
        add_file(&s, paths[i]);
    printf("files %d\n", count);
    say_sums(&s);
    printf("unreadable 0\nfolders passed over 0\n");
    if (s.hint)
        say_hint("zavscan", "the length of what was refused");
    return s.refused > 0;
}

/* ---- make ---- */

static int make(const char *path)
{
    struct typed t;
    uint8_t tiles[REF_TILES_MAX], strip[2 * REF_STRIP_MAX] = {0};

    t.len = take(path, t.bytes, sizeof t.bytes);

    const struct ref_result r =
        ref_text_read(t.bytes, t.len, tiles, sizeof tiles);

    if (r.code != 0)
        return 1;
    fwrite(strip, 1, 2 * ref_strip_write(asked, r.version, r.width, r.height,
                                         r.par, tiles,
                                         (size_t)r.width * r.height, strip,
                                         REF_STRIP_MAX).length, stdout);
    return 0;
}

/* Pits cannot be typed, so it is one of version 1. Half of them without a slip,
   the others with one or two. */
static int type_file(const char *folder, size_t number)
{
    struct typed t = {.len = 0};
    struct board b;

    do {
        draw_any_board(&b);
    } while (b.version != 1);
    type_par(&t, b.par);
    type_ragged_rows(&t, &b);
    for (size_t slips = number % 2 * draw_between(1, 2); slips > 0; slips--)
        mistype(&t);
    return put(folder, number, "txt", t.bytes, t.len);
}

/* ---- draw ---- */

/* A strip and its marks, one after the other. */
struct file {
    uint8_t bytes[BYTES_ROOM];
    size_t len, lanes;
};

/* Tiles that may make no level, in clean lanes; the record is filled up with
   zero bytes. */
static void draw_strip(struct file *f)
{
    uint8_t data[REF_RECORD_MAX + REF_LANES_MAX] = {0};
    struct board b;

    draw_any_board(&b);
    if (draw_below(4) == 0)
        b.tiles[draw_below(b.tiles_len)] = (uint8_t)draw_below(8);

    const size_t record_len = record_of(&b, data);

    if (draw_below(8) == 0)
        data[draw_below(record_len)] ^= draw_nonzero();
    memset(f->bytes, 0, sizeof f->bytes);
    f->lanes = asked == ANY ? counts[draw_below(COUNTS)] : asked;
    f->len = 2 * ref_lay_strip(f->lanes, data, ref_k_of(f->lanes, record_len),
                               f->bytes);
}

/* The more lanes, the more damage they bear. */
static void damage(struct file *f)
{
    const size_t cells = f->len / 2, most = f->lanes + 3;

    for (size_t wrong = draw_below(most); wrong > 0; wrong--)
        f->bytes[draw_below(cells)] = draw_byte();
    for (size_t marked = draw_below(most); marked > 0; marked--) {
        const size_t cell = draw_below(cells);

        f->bytes[cells + cell] = 1;
        if (draw_below(2))
            f->bytes[cell] = draw_byte();
    }
    if (draw_below(12) == 0)
        f->bytes[cells + draw_below(cells)] = draw_byte();
    if (draw_below(12) == 0)
        f->len -= draw_below(f->len + 1);
}

static int draw_file(const char *folder, size_t number)
{
    struct file f;

    draw_strip(&f);
    if (number % 4 != 0)
        damage(&f);
    return put(folder, number, "cells", f.bytes, f.len);
}

/* ---- pool ---- */

static struct ref_picture picture_of(const struct file *f)
{
    const size_t cells = f->len / 2;

    return (struct ref_picture){f->bytes, cells, f->bytes + cells, cells};
}

/* A picture; that it gives a level by itself is said. */
static void take_picture(struct file *f, const char *path)
{
    f->len = take(path, f->bytes, sizeof f->bytes);
    if (judge(f->bytes, f->len).levels == 1)
        fprintf(stderr, "%s: gives a level by itself\n", path);
}

/* The file takes in the next; false if that is refused. */
static bool pool_with(struct file *all, const char *before, const char *path)
{
    struct file next, out = {.len = all->len};

    take_picture(&next, path);

    const struct ref_picture a = picture_of(all), b = picture_of(&next);
    const size_t cells = all->len / 2;
    const struct ref_pooling r =
        ref_strip_pool(&a, &b, out.bytes, cells, out.bytes + cells, cells);

    if (next.len % 2 != 0 || r.code != 0)
        return false;
    *all = out;
    fprintf(stderr, "%s with %s: %u cells agreed, %u taken from one, %u in "
            "conflict, %u marked in both\n", before, path, r.agreed, r.taken,
            r.in_conflict, r.marked_in_both);
    return true;
}

static int pool(int count, char **paths)
{
    struct file all;

    take_picture(&all, paths[0]);
    if (all.len % 2 != 0)
        return 1;
    for (int i = 1; i < count; i++)
        if (!pool_with(&all, i == 1 ? paths[0] : "pooled", paths[i]))
            return 1;
    fwrite(all.bytes, 1, all.len, stdout);
    return 0;
}

/* Three pictures of one strip, each with damage of its own. */
static int cover_strip(const char *folder, size_t number)
{
    static const char *const ends[] = {"a.cells", "b.cells", "c.cells"};
    struct file strip;
    int failed = 0;

    draw_strip(&strip);
    for (size_t i = 0; i < 3; i++) {
        struct file f = strip;

        damage(&f);
        failed |= put(folder, number, ends[i], f.bytes, f.len);
    }
    return failed;
}

/* ---- */

static int draw_files(const char *folder, size_t count,
                      int (*draw)(const char *folder, size_t number))
{
    int failed = 0;

    draw_seed(20240229);
    for (size_t k = count; k > 0; k--)
        failed |= draw(folder, k);
    return failed;
}

/* ---- list ---- */

static void list_text(size_t width, size_t height, const uint8_t *tiles)
{
    uint8_t text[REF_TEXT_MAX];

    fwrite(text, 1, ref_text_write(1, width, height, 0, tiles, width * height,
                                   text, sizeof text).length, stdout);
}

static void list_strip(size_t width, size_t height, const uint8_t *tiles,
                       const char *folder, size_t number)
{
    uint8_t cells[BYTES_ROOM] = {0};
    char path[4096];
    const size_t len = ref_strip_write(asked, 1, width, height, 0, tiles,
                                       width * height, cells,
                                       REF_STRIP_MAX).length;

    snprintf(path, sizeof path, "%s/%zux%zu-%04zu.cells", folder, width,
             height, number);

    FILE *file = open_or_stop(path, "wb");

    fwrite(cells, 1, 2 * len, file);
    fclose(file);
}

static int list(size_t width, size_t height, const char *folder)
{
    const struct ref_tiny *all = ref_tiny_of(width, height);
    uint8_t tiles[REF_TINY_MAX];

    for (size_t k = 0; k < all->count; k++) {
        ref_tiny_tiles(all->numbers[k], tiles, width * height);
        if (folder == NULL)
            list_text(width, height, tiles);
        else
            list_strip(width, height, tiles, folder, k + 1);
    }
    return 0;
}

/* The word after --lanes, which is a count or any. */
static void ask(const char *word)
{
    named = true;
    asked = strcmp(word, "any") == 0 ? ANY : strtoul(word, NULL, 10);
}

int main(int argc, char **argv)
{
    static const struct {
        const char *name;
        int (*say)(const char *path);
    } sayings[] = {{"show", show}, {"text", show_text},
                   {"strip", show_strip}, {"make", make}};
    static const struct {
        const char *name;
        int (*draw)(const char *folder, size_t number);
    } drawings[] = {{"draw", draw_file}, {"type", type_file},
                    {"cover", cover_strip}};

    if (argc > 2 && strcmp(argv[1], "--lanes") == 0) {
        ask(argv[2]);
        argc -= 2;
        argv += 2;
    }
    for (size_t i = 0; i < 4; i++)
        if (argc == 3 && strcmp(argv[1], sayings[i].name) == 0)
            return sayings[i].say(argv[2]);
    if (argc > 3 && strcmp(argv[1], "list") == 0)
        return list(strtoul(argv[2], NULL, 10), strtoul(argv[3], NULL, 10),
                    argv[4]);
    if (argc > 3 && strcmp(argv[1], "pool") == 0)
        return pool(argc - 2, argv + 2);
    if (argc > 2 && strcmp(argv[1], "scan") == 0)
        return scan(argc - 2, argv + 2);
    for (size_t i = 0; i < 3; i++)
        if (argc == 4 && strcmp(argv[1], drawings[i].name) == 0)
            return draw_files(argv[2], strtoul(argv[3], NULL, 10),
                              drawings[i].draw);
    return 2;
}
