/* test_huge.h - lengths that a narrower number would cut, at all entries. */
#ifndef TEST_HUGE_H
#define TEST_HUGE_H

void test_huge(void);

#endif
