/*
 * typed.h - texts as people type them, right and wrong, the same in every run.
 */
#ifndef TYPED_H
#define TYPED_H

#include "boards.h"
#include "reference_text.h"

/* Room for texts that are much too long. */
enum { TYPED_ROOM = 1 << 13 };

struct typed {
    uint8_t bytes[TYPED_ROOM];
    size_t len;
};

/* All of these add to the end of a text. */
void type_byte(struct typed *t, uint8_t byte, size_t times);
void type_words(struct typed *t, const char *words);

/* "par", a space and the number, with its line feed. */
void type_par(struct typed *t, size_t par);

/*
 * The level's rows, as free as they may be: floor is - or a space, and floor
 * at the end of a row is there or not, but in one row, which keeps the width.
 */
void type_rows(struct typed *t, const struct board *b);

/* The rows of a board with more or less floor at the end of each, and a few
   empty rows after them: it may say another width and height. */
void type_ragged_rows(struct typed *t, const struct board *b);

/* So many rows of random letters, none longer than `longest`. */
void type_letters(struct typed *t, size_t rows, size_t longest);

/* Insert, leave out or change one byte, anywhere. */
void mistype(struct typed *t);

#endif
