/*
 * test_repair.h - the two repairs, and the check of a single call.
 */
#ifndef TEST_REPAIR_H
#define TEST_REPAIR_H

#include "draw.h"
#include "reference.h"

/* The two repairs differ only in the longest word they take. */
struct repair {
    const char *name;
    uint64_t (*run)(uint8_t *, size_t, const uint8_t *, size_t);
    struct ref_result (*reference)(uint8_t *, size_t, const uint8_t *, size_t);
    size_t longest;
};

enum { REPAIRS = 2 };
extern const struct repair repairs[REPAIRS];

/* Run the repair on the sample; result and buffers must be as expected. */
void check_result(const struct repair *entry, const struct sample *s,
                  struct ref_result expected, const uint8_t *expected_word);

/* All groups of one repair. */
void test_repair(const struct repair *entry);

#endif
