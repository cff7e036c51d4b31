/*
 * A stack that is painted before a function runs on it, so that it shows how deep that went. In a header, so that
 * whoever must not call the C library can say so to the compiler for all of it.
 */
#ifndef PAINTED_H
#define PAINTED_H

#include <stddef.h>
#include <ucontext.h>

enum { PAINTED = 1 << 20 };

static unsigned char painted_stack[PAINTED];

static void paint_stack(const unsigned char paint[PAINTED])
{
    for (size_t i = 0; i < PAINTED; i++)
        painted_stack[i] = paint[i];
}

/* A stack grows downwards: the first byte of it that is not as it was painted is the deepest. */
static size_t depth_of_stack(const unsigned char paint[PAINTED])
{
    size_t i = 0;
    while (i < PAINTED && painted_stack[i] == paint[i])
        i++;
    return PAINTED - i;
}

/* Runs the function on a stack with this paint. Returns how deep it went; all of it where the stack cannot be used. */
static size_t run_painted(void (*run)(void), const unsigned char paint[PAINTED])
{
    static ucontext_t here, there;
    getcontext(&there);
    paint_stack(paint);
    there.uc_stack.ss_sp = painted_stack;
    there.uc_stack.ss_size = PAINTED;
    there.uc_link = &here;
    makecontext(&there, run, 0);
    return swapcontext(&here, &there) == 0 ? depth_of_stack(paint) : PAINTED;
}

#endif
