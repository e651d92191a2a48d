/* test_strip.h - the strip reader against the second implementation. */
#ifndef TEST_STRIP_H
#define TEST_STRIP_H

/* Whole strips: their records, their lengths. */
void test_strip(void);

/* Lengths, marks, buffers, and the order in which they are judged. */
void test_strip_entry(void);

/* Damage, lane by lane. */
void test_strip_damage(void);

/* Damage as it comes: stickers, cuts, other levels close by. */
void test_strip_wild(void);

#endif
