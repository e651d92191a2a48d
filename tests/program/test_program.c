/*
 * test_program.c - runs the program that reads a strip of four lanes, and
 * compares its line with what the second implementation says.
 *
 * Usage: test_program PROGRAM
 */
#define _POSIX_C_SOURCE 200809L

#include <stdio.h>
#include <stdlib.h>
#include <string.h>
#include <sys/wait.h>
#include <unistd.h>

#include "harness.h"
#include "pictures.h"

/* FORMAT 8.20: twice the longest strip of four lanes. */
enum { INPUT_MOST = 768, LINE_ROOM = 200 };

static const char *program;

static void must(bool good, const char *what)
{
    if (!good) {
        perror(what);
        exit(1);
    }
}

/* A file without a name that holds these bytes, to be read from its start. */
static FILE *file_of(const uint8_t *bytes, size_t len)
{
    FILE *file = tmpfile();

    must(file != NULL, "tmpfile");
    must(fwrite(bytes, 1, len, file) == len, "fwrite");
    must(fflush(file) == 0, "fflush");
    rewind(file);
    return file;
}

/* Run the program with the file as its standard input; what it prints. */
static void run(int input, char printed[LINE_ROOM])
{
    int ends[2];
    size_t len = 0;
    ssize_t got;

    must(pipe(ends) == 0, "pipe");
    pid_t child = fork();
    must(child >= 0, "fork");
    if (child == 0) {
        dup2(input, 0);
        dup2(ends[1], 1);
        close(ends[0]);
        close(ends[1]);
        execl(program, program, (char *)NULL);
        _exit(127);
    }
    close(ends[1]);
    while (len < LINE_ROOM - 1 &&
           (got = read(ends[0], printed + len, LINE_ROOM - 1 - len)) > 0)
        len += (size_t)got;
    printed[len] = '\0';
    close(ends[0]);
    must(waitpid(child, NULL, 0) == child, "waitpid");
}

/* The line for this result: FORMAT 8.21 to 8.23. */
static void line_of(struct ref_result r, char line[LINE_ROOM])
{
    if (r.code != 0)
        snprintf(line, LINE_ROOM, "refused %u lane %u\n", r.code, r.lane);
    else
        snprintf(line, LINE_ROOM, "level %u %u par %u mended %u wear %u\n",
                 r.width, r.height, r.par, r.mended, r.wear);
}

/* What the program must answer: FORMAT 8.19 and 8.20. */
static struct ref_result expected(const uint8_t *bytes, size_t len)
{
    uint8_t tiles[REF_TILES_MAX];
    size_t half = len / 2;
    struct ref_result refused;

    memset(&refused, 0, sizeof refused);
    refused.code = 1;
    if (len > INPUT_MOST || len % 2 == 1)
        return refused;
    return ref_strip_read(REF_LANES, bytes, half, bytes + half, half, tiles,
                          sizeof tiles, REF_SCRATCH_MIN);
}

/* Returns what the second implementation says. */
static struct ref_result check_input(const uint8_t *bytes, size_t len)
{
    char line[LINE_ROOM], printed[LINE_ROOM];
    const struct ref_result r = expected(bytes, len);
    FILE *input = file_of(bytes, len);

    run(fileno(input), printed);
    fclose(input);
    line_of(r, line);
    if (strcmp(line, printed) != 0)
        group_fail("%zu bytes: printed '%s', expected '%s'", len, printed,
                   line);
    group_case();
    return r;
}

static struct ref_result check_strip(const struct picture *p)
{
    uint8_t bytes[2 * STRIP_ROOM];

    memcpy(bytes, p->strip, p->strip_len);
    memcpy(bytes + p->strip_len, p->marks, p->marks_len);
    return check_input(bytes, p->strip_len + p->marks_len);
}

/* The same where this line must come out. */
static void check_line(const struct picture *p, const char *line)
{
    char said[LINE_ROOM];

    line_of(check_strip(p), said);
    if (strcmp(line, said) != 0)
        group_fail("the reference says '%s', expected '%s'", said, line);
}

static const char finished[] = "refused 10 lane 0\n";

/* The strip as it is, and with each cell wrong by itself. */
static void check_cells(const struct worked *w, const char *whole,
                        const char *changed)
{
    struct picture p;

    picture_worked(&p, w);
    check_line(&p, whole);
    for (size_t cell = 0; cell < p.strip_len; cell++) {
        const uint8_t right = p.strip[cell];

        p.strip[cell] ^= draw_nonzero();
        check_line(&p, changed);
        p.strip[cell] = right;
    }
}

/* FORMAT 12.8 to 12.10, 12.15 and 12.16. */
static void test_worked(void)
{
    struct picture p;

    group_begin("program", "the lines of FORMAT");
    check_cells(&worked_level, "level 2 1 par 5 mended 0 wear 0\n",
                "level 2 1 par 5 mended 1 wear 4\n");
    check_cells(&worked_finished, finished, finished);
    check_cells(&worked_pit, "level 2 2 par 5 mended 0 wear 0\n",
                "level 2 2 par 5 mended 1 wear 4\n");
    for (size_t i = 0; i < scaled(20); i++) {
        picture_worked(&p, &worked_level);
        damage_lane(&p, 2, 3, 0, ANY_BYTE);
        check_line(&p, "refused 6 lane 2\n");
    }
    group_end();
}

static void test_finished(void)
{
    struct picture p;
    struct board b;

    group_begin("program", "finished boards, with damage within reach");
    for (size_t i = 0; i < scaled(100); i++) {
        draw_any_finished(&b);
        picture_board(&p, REF_LANES, &b);
        for (size_t lane = 0; lane < REF_LANES; lane++)
            damage_lane(&p, lane, draw_below(3), draw_below(2), ANY_BYTE);
        check_line(&p, finished);
    }
    group_end();
}

static void test_damage(void)
{
    struct picture p;
    struct board b;

    group_begin("program", "levels, with damage within reach and beyond");
    for (size_t i = 0; i < scaled(400); i++) {
        picture_any_level(&p, REF_LANES, &b);
        for (size_t lane = 0; lane < REF_LANES; lane++) {
            size_t marked = draw_below(6);
            damage_lane(&p, lane, draw_below((5 - marked) / 2 + 2),
                        marked, draw_under_mark());
        }
        check_strip(&p);
    }
    group_end();
}

static void test_lengths(void)
{
    uint8_t bytes[1024];

    group_begin("program", "inputs of every length to 1024, of random bytes");
    for (size_t len = 0; len <= sizeof bytes; len++) {
        draw_bytes(bytes, sizeof bytes);
        memset(bytes + len / 2, 0, sizeof bytes - len / 2);
        check_input(bytes, len);
    }
    group_end();
}

static void test_records(void)
{
    struct picture p;
    struct board b;
    uint8_t data[REF_LAID_MAX];

    group_begin("program", "clean lanes that are no level's");
    for (size_t i = 0; i < scaled(200); i++) {
        size_t k = draw_between(1, ref_k_max(REF_LANES));
        draw_any_level(&b);
        memset(data, 0, sizeof data);
        record_of(&b, data);
        data[draw_below(REF_LANES * k)] ^= (uint8_t)(1u << draw_below(8));
        picture_data(&p, REF_LANES, data, k);
        check_strip(&p);
    }
    group_end();
}

/* The program is not told the lanes of a strip, and takes four. */
static void test_other_lanes(void)
{
    struct picture p;
    struct board b;

    group_begin("program", "strips of 2, 8 and 16 lanes are read as of four");
    for (size_t i = 0; i < scaled(150); i++) {
        do
            picture_any_level(&p, draw_lane_count(), &b);
        while (p.lanes == REF_LANES);
        check_strip(&p);
    }
    group_end();
}

static void test_marks(void)
{
    struct picture p;
    struct board b;

    group_begin("program", "marks that are neither 0 nor 1");
    for (size_t i = 0; i < scaled(100); i++) {
        picture_any_level(&p, REF_LANES, &b);
        p.marks[draw_below(p.marks_len)] = (uint8_t)draw_between(2, 255);
        check_strip(&p);
    }
    group_end();
}

int main(int argc, char **argv)
{
    if (argc != 2) {
        fprintf(stderr, "usage: %s PROGRAM\n", argv[0]);
        return 2;
    }
    program = argv[1];
    groups_start(100);
    test_worked();
    test_finished();
    test_damage();
    test_lengths();
    test_records();
    test_other_lanes();
    test_marks();
    return groups_finish();
}
