/* test_stack.h - the stack that one call of each entry uses. */
#ifndef TEST_STACK_H
#define TEST_STACK_H

void test_stack(void);

#endif
