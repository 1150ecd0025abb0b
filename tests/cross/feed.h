/* Feeds the program replay: a file of cases, and one of the lines that it has to print for them. */
#ifndef FEED_H
#define FEED_H

#include <stddef.h>
#include <stdint.h>
#include <stdio.h>

/* The folder for the files, the command that runs replay, and what each printed line is turned into before it is looked at, to see that a
   wrong one is found; NULL where it is left. */
typedef struct {
    const char *folder, *command;
    void (*spoil)(char *line);
} feeder;

/* The two files while they are written, a line demanded for each case. */
typedef struct { FILE *cases, *demanded; } feeding;

/* A number and a byte string as replay reads them. */
void put_number(FILE *out, uint64_t n);
void put_string(FILE *out, const uint8_t *bytes, size_t len);

feeding begin_feeding(const feeder *f);

/* Closes the files and runs replay on them; gives the first case that differs, or -1. */
long end_feeding(const feeder *f, feeding to);

/* The lines of the last case that was looked at, each with its LF. */
const char *printed_line(void);
const char *demanded_line(void);

#endif
