/* stack.c - the stack that a call uses, by looking what is left of the paint. */
#define _XOPEN_SOURCE 700 /* for makecontext */
#include "stack.h"

#include <stdint.h>
#include <stdio.h>
#include <stdlib.h>
#include <string.h>
#include <ucontext.h>

enum { STACK_LEN = 1 << 16 };

static void make(void (*call)(void), uint8_t *stack)
{
    ucontext_t here, there;

    if (getcontext(&there) != 0) {
        perror("getcontext");
        exit(1);
    }
    there.uc_stack.ss_sp = stack;
    there.uc_stack.ss_size = STACK_LEN;
    there.uc_link = &here;
    makecontext(&there, call, 0);
    if (swapcontext(&here, &there) != 0) {
        perror("swapcontext");
        exit(1);
    }
}

/* Stacks grow down: the paint is left at the low end. */
static size_t used_over(uint8_t paint, void (*call)(void))
{
    static uint8_t stack[STACK_LEN];
    size_t left = 0;

    memset(stack, paint, sizeof stack);
    make(call, stack);
    while (left < sizeof stack && stack[left] == paint)
        left++;
    return sizeof stack - left;
}

/* A byte that is stored in the colour of the paint is not seen, so there are
   two colours. */
static size_t most_used(void (*call)(void))
{
    const size_t light = used_over(0xA5, call), dark = used_over(0x5A, call);

    return light > dark ? light : dark;
}

static void nothing(void)
{
}

size_t stack_used(void (*call)(void))
{
    return most_used(call) - most_used(nothing);
}
