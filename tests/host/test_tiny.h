/*
 * test_tiny.h - the legal boards of tiny sizes, one after another.
 */
#ifndef TEST_TINY_H
#define TEST_TINY_H

void test_tiny(void);

#endif
