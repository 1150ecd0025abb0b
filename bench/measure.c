/* measure WHICH LINES short|long|scp|older|plan accepted|refused
   Makes the file, makes the one call and prints what it answered: the same on every run, so that its instructions can be counted. */
#include <inttypes.h>
#include <stdio.h>

#include "calls.h"
#include "input.h"

int main(int argc, char **argv)
{
    if (argc < 5) {
        fprintf(stderr, "measure WHICH LINES short|long|scp|older|plan accepted|refused\n");
        return 2;
    }
    call chosen = call_named(argv[1]);
    input in = input_make(argv[2], argv[3], argv[4]);
    printf("%" PRIu32 "\n", chosen(in.bytes, in.len, ROOM));
    return 0;
}
