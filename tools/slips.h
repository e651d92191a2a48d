/*
 * slips.h - where a text went wrong, for whoever typed it.
 */
#ifndef SLIPS_H
#define SLIPS_H

#include <stdio.h>

#include "zavullimen.h"

/*
 * Of a text that the library refused with this code: "line 3, column 7: why",
 * and the end of the line. Lines and columns count from 1, as in editors.
 * Nothing is judged here: if no slip is found, the refusal is said in words.
 */
void print_slip(FILE *out, const uint8_t *text, size_t len, unsigned code);

#endif
