/*
 * fuzz.h - what the fuzz entries share, and what each of them brings.
 */
#ifndef FUZZ_H
#define FUZZ_H

#include <stddef.h>
#include <stdint.h>

/* Tries one input, and aborts if it shows a difference. */
int LLVMFuzzerTestOneInput(const uint8_t *data, size_t size);

/* A length up to 64 to either side of the usual one, as this byte says with
   its sign. */
size_t length_near(size_t usual, uint8_t byte);

/* ---- of each entry ---- */

/* Compares the library with the second implementation on this input. */
void try_input(const uint8_t *data, size_t size);

/* An input, the same for the same number; returns its length. */
enum { INPUT_ROOM = 1 << 14 };
size_t draw_input(size_t number, uint8_t input[INPUT_ROOM]);

#endif
