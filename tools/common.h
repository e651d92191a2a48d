/*
 * common.h - what the tools share: lanes, input, strips, refusals, progress.
 */
#ifndef COMMON_H
#define COMMON_H

#include <stdbool.h>
#include <stdio.h>

#include "zavullimen.h"

/* How a tool ends. */
enum { FINE = 0, REFUSED = 1, NOT_RUN = 2 };

/* Whether help is all that is asked for: --help or -h. */
bool wants_help(int argc, char **argv);

/* The lane counts that there are, fewest lanes first. */
enum { LANE_COUNTS = 4 };
extern const size_t lane_counts[LANE_COUNTS];

/* What --lanes said. For those who read strips it may be any count that fits;
 * four is meant where it was not given. */
enum { ANY_LANES = 0 };

struct lanes {
    size_t count;
    bool given;
};

/* Take --lanes and its word out of the options, which stand before all other
 * arguments. False if there is no such lane count, or a second one; a
 * complaint says so. */
bool take_lanes(struct lanes *l, const char *tool, bool or_any, int *argc,
                char **argv);

/* By tile code, as they are shown: floor, wall, crate, goal, crate on goal,
 * player, player on goal, and pit. A text has the first seven, not the pit, and
 * in it - is floor too. */
extern const char letters[];
enum { TEXT_CODES = 7 };

/* A strip of any lanes followed by as many marks. One byte more than the
 * longest is kept, to see that there was more. */
enum { CELLS_MAX = 2 * ZAV_STRIP_MAX };

struct cells {
    uint8_t bytes[CELLS_MAX + 1];
    size_t len;
};

/* False if it cannot be read; errno says why. */
bool take_cells(struct cells *c, FILE *file);

/* The same from the file of this name. */
bool take_cells_of(struct cells *c, const char *path);

/* The strip reader's packed answer; an odd count, or more than two strips'
 * worth, is refusal 1. */
uint64_t read_cells(size_t lanes, const struct cells *c,
                    uint8_t tiles[ZAV_TILES_MAX]);

/* Write the strip of a level, followed by as many zero marks; the strip
 * writer's packed answer. Nothing is written when refused. */
uint64_t put_cells(FILE *out, size_t lanes, size_t version, size_t width,
                   size_t height, size_t par, const uint8_t *tiles);

/* A refusal in words that fit cells and marks in a file, of so many lanes or
 * of ANY_LANES. */
void print_words(FILE *out, size_t lanes, unsigned code);

/* "refused 6 lane 2: words", and the end of the line. */
void print_refusal(FILE *out, size_t lanes, uint64_t result);

/* A name from outside. Control characters, those that turn the direction of a
 * line, and bytes that are no UTF-8 become '?'. */
void print_name(FILE *out, const char *name);

/* "tool: name: " on standard error. */
void begin_complaint(const char *tool, const char *name);

/* "tool: name: why" on standard error; returns NOT_RUN. */
int complain(const char *tool, const char *name, const char *why);

/* Long work shows how far it is, on standard error where that is a terminal:
 * begin, show for each of the total, and hide before a line is printed. */
void begin_progress(size_t total);
void show_progress(size_t done);
void hide_progress(void);

/* Nothing is fine if standard output did not take it. */
int finish(const char *tool, int status);

#endif
