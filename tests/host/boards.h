/*
 * boards.h - random levels and finished boards, the same in every run.
 */
#ifndef BOARDS_H
#define BOARDS_H

#include <stdbool.h>

#include "reference_strip.h"

enum { TILES_ROOM = REF_TILES_MAX + 64 };

struct board {
    size_t version;
    size_t width, height, par;
    uint8_t tiles[TILES_ROOM];
    size_t tiles_len;
};

/* How many boards of one to four tiles in a row are levels: of two tiles 2, of
   three 24, of four 192; in version 2 of two tiles 4, of three 60, of four
   608. */
enum { SMALL_LEVELS = 2 + 24 + 192, SMALL_LEVELS_V2 = 4 + 60 + 608 };

/* From here on boards are drawn of the versions 1 to this one; at first of 1
   and 2. */
void draw_versions(size_t newest);

/* A level of this size; of less than two tiles there is none, and the board
   has the player alone. */
void draw_level(struct board *b, size_t width, size_t height);

/*
 * A finished board of this size: all is as in a level but that every crate is
 * on a goal, FORMAT 5.13. Of less than two tiles there is none, and the board
 * has the player alone.
 */
void draw_finished(struct board *b, size_t width, size_t height);

/* A level of this size, two tiles or more, in which one crate is off its goal,
   that in this place; the others, if there are any, are on goals. */
void draw_last_crate(struct board *b, size_t width, size_t height,
                     size_t place);

/* The same of a random size: a level, a finished board, or either, a level in
   seven cases of eight. */
void draw_any_level(struct board *b);
void draw_any_finished(struct board *b);
void draw_any_board(struct board *b);

/*
 * A level whose record comes to this length when it is filled up to a multiple
 * of `unit`. False if no size does.
 */
bool draw_level_for(struct board *b, size_t len, size_t unit);

/*
 * Put a crate of a level that is off its goal on a goal that is free or the
 * player's, or that goal under the crate; in version 2, where no such goal is
 * left, the crate is gone. True if another crate is off its goal, so that it is
 * still a level; otherwise the board is finished.
 */
bool settle_crate(struct board *b);

/* Its record, whether or not it is a level; returns the length. */
size_t record_of(const struct board *b, uint8_t record[REF_RECORD_MAX]);

#endif
