/*
 * test_pool.h - two pictures of a strip, pooled, and the pooled one read.
 */
#ifndef TEST_POOL_H
#define TEST_POOL_H

void test_pool(void);

#endif
