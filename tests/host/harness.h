/*
 * harness.h - groups of cases, and buffers that show any stray access.
 */
#ifndef HARNESS_H
#define HARNESS_H

#include <stdbool.h>
#include <stddef.h>
#include <stdint.h>

#include "reference.h"

#define COUNT(array) (sizeof(array) / sizeof *(array))

/* ---- groups: each counts as one test ---- */

/* Start; `percent` scales the number of random cases. */
void groups_start(unsigned percent);

/* Print the last line; returns the exit status. */
int groups_finish(void);

/* Each group draws its own random numbers, whatever ran before it. */
void group_begin(const char *subject, const char *name);
void group_case(void);
void group_fail(const char *format, ...);
bool group_failed(void);
void group_end(void);

/* The number of random cases to run, at least one. */
size_t scaled(size_t cases);

/* ---- lent buffers ---- */

/*
 * A buffer lent to the library. Its memory lies between two pages that may
 * not be touched; the bytes start at the one or end at the other, by chance,
 * and the side left open has guard bytes.
 */
struct lent {
    uint8_t *memory;
    uint8_t *bytes;
    size_t len;
    bool sealed;
};

/* Lend a copy of these bytes. NULL is lent as NULL. */
void lend(struct lent *b, const uint8_t *content, size_t len);

/* From here until it is lent again, storing to it fails the group: also where
 * the byte stored is the one that is there. */
void seal(struct lent *b);

/* The bytes are as expected, and the guard bytes are untouched. */
bool is_kept(const struct lent *b, const uint8_t *expected);

/* A stretch of zero bytes for lengths past 2^32, read-only or to be written. */
uint8_t *map_zeros(size_t len);
uint8_t *map_scratch(size_t len);
void unmap_long(uint8_t *bytes, size_t len);

/* ---- checks: a difference fails the group ---- */

/* The layout written down a second time: the header's is under test. */
uint64_t packed(struct ref_result r);

/* `what` says which case it is. */
void check_number(uint64_t got, uint64_t expected, const char *what);
void check_buffer(const struct lent *b, const uint8_t *expected,
                  const char *what);

/* Bytes as hexadecimal text, at most HEX_MAX of them. */
enum { HEX_MAX = 512, HEX_TEXT = 2 * HEX_MAX + 1 };
const char *hex(char text[HEX_TEXT], const uint8_t *bytes, size_t len);

#endif
