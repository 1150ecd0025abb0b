/* stack WHICH LINES short|long|scp|older|plan accepted|refused
   Makes the call on a stack of its own that was filled beforehand, and prints how many bytes of it lie above the deepest one changed. */
#include <stdio.h>
#include <string.h>
#include <ucontext.h>

#include "calls.h"
#include "input.h"

enum { STACK_BYTES = 1 << 18 };

static _Alignas(64) unsigned char stack[STACK_BYTES];
static ucontext_t home, away;
static call chosen;
static input in;

static void body(void)
{
    chosen(in.bytes, in.len, ROOM);
}

static size_t used(unsigned char pattern)
{
    memset(stack, pattern, STACK_BYTES);
    getcontext(&away);
    away.uc_stack.ss_sp = stack;
    away.uc_stack.ss_size = STACK_BYTES;
    away.uc_link = &home;
    makecontext(&away, body, 0);
    swapcontext(&home, &away);
    size_t deepest = 0;
    while (deepest < STACK_BYTES && stack[deepest] == pattern)
        deepest++;
    return STACK_BYTES - deepest;
}

int main(int argc, char **argv)
{
    if (argc < 5) {
        fprintf(stderr, "stack WHICH LINES short|long|scp|older|plan accepted|refused\n");
        return 2;
    }
    chosen = call_named(argv[1]);
    in = input_make(argv[2], argv[3], argv[4]);
    /* a byte written with the pattern's own value is seen under the other pattern */
    size_t a = used(0xa5), b = used(0x5a);
    printf("%zu\n", a > b ? a : b);
    return 0;
}
