/*
 * test_finished.h - boards on which every crate is on a goal, and boards close
 * to these, at any entry that takes a board.
 */
#ifndef TEST_FINISHED_H
#define TEST_FINISHED_H

#include "boards.h"

/* A writer, or a reader that is given what the board would be written as. */
struct judge {
    const char *name;
    uint8_t code_most; /* the largest tile code that can be put to it */
    size_t newest;     /* the newest version that it takes */
    const void *entry;

    /* Put the board to the entry, and compare with the second implementation,
       buffers included. Returns what that one says. */
    struct ref_result (*check)(const void *entry, const struct board *b);
};

/* All groups on finished boards at one entry. */
void test_finished(const struct judge *j);

#endif
