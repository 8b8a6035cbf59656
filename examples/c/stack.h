/* How much stack a call uses: it runs on a stack of its own that was filled with one byte, and the deepest byte that differs afterwards is taken. Needs
 * ucontext (glibc): _XOPEN_SOURCE 700 before the first header. */
#ifndef STACK_H
#define STACK_H

#include <stdint.h>
#include <stdio.h>
#include <string.h>
#include <ucontext.h>

static ucontext_t stack_here, stack_there;

/* The bytes of stack that the call used. */
static size_t stack_used(void (*call)(void))
{
    static unsigned char stack[65536];
    memset(stack, 0xA5, sizeof stack);
    getcontext(&stack_there);
    stack_there.uc_stack.ss_sp = stack;
    stack_there.uc_stack.ss_size = sizeof stack;
    stack_there.uc_link = &stack_here;
    makecontext(&stack_there, call, 0);
    swapcontext(&stack_here, &stack_there);
    size_t untouched = 0;
    while (untouched < sizeof stack && stack[untouched] == 0xA5)
        untouched++;
    return sizeof stack - untouched;
}

/* A number below the bound, the same ones on every run. */
static uint32_t below(uint32_t bound)
{
    static uint64_t seed = 0x9e3779b97f4a7c15;
    seed ^= seed << 13;
    seed ^= seed >> 7;
    seed ^= seed << 17;
    return (uint32_t)((seed >> 32) * bound >> 32);
}

#endif
