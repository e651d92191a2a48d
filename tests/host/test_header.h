/* test_header.h - what the headers themselves do. */
#ifndef TEST_HEADER_H
#define TEST_HEADER_H

void test_header(void);

#endif
