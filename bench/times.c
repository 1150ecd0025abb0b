/* times ROUNDS LINES short|long|scp|older|plan accepted|refused WHICH...
   Makes the file and times the named calls on it, and prints for each its name and the nanoseconds of the quickest.
   They are made in rounds, one after another, so that what else the machine does meets all of them alike. */
#define _POSIX_C_SOURCE 199309L
#include <inttypes.h>
#include <stdio.h>
#include <stdlib.h>
#include <time.h>

#include "calls.h"
#include "input.h"

enum { MOST_CALLS = 8, WORDS = 5 };

static int64_t now(void)
{
    struct timespec t;
    clock_gettime(CLOCK_MONOTONIC, &t);
    return (int64_t)t.tv_sec * 1000000000 + t.tv_nsec;
}

static int64_t time_of(call chosen, input in)
{
    int64_t before = now();
    chosen(in.bytes, in.len, ROOM);
    return now() - before;
}

int main(int argc, char **argv)
{
    int count = argc - WORDS;
    if (count < 1 || count > MOST_CALLS) {
        fprintf(stderr, "times ROUNDS LINES short|long|scp|older|plan accepted|refused WHICH...\n");
        return 2;
    }
    input in = input_make(argv[2], argv[3], argv[4]);
    call calls[MOST_CALLS];
    int64_t least[MOST_CALLS];
    for (int i = 0; i < count; i++) {
        calls[i] = call_named(argv[WORDS + i]);
        least[i] = INT64_MAX;
    }
    for (unsigned long left = strtoul(argv[1], NULL, 10); left > 0; left--)
        for (int i = 0; i < count; i++) {
            int64_t took = time_of(calls[i], in);
            /* the quickest, since the machine can only add to it */
            least[i] = took < least[i] ? took : least[i];
        }
    for (int i = 0; i < count; i++)
        printf("%s %" PRId64 "\n", argv[WORDS + i], least[i]);
    return 0;
}
