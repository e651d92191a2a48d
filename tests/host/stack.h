/*
 * stack.h - the stack that a call uses.
 */
#ifndef STACK_H
#define STACK_H

#include <stddef.h>

/*
 * Make the call on a painted stack of its own, and return how many bytes of
 * it are used, from the top down to the lowest byte that was stored to. What
 * it takes to get there, with a call that does nothing, is not counted.
 */
size_t stack_used(void (*call)(void));

#endif
