/* The measured figures, and what is worked out from them. */
#ifndef FIGURES_H
#define FIGURES_H

#include <stdint.h>
#include <stdio.h>

enum measure { INSTRUCTIONS, NANOSECONDS, STACK, BYTES, MEASURES };
/* Those from the floor to the archive are timed; of ONE_TOTAL there is the stack alone. */
enum which { NOTHING, FLOOR, TUNED, PLAIN, ARCHIVE, PLAIN_TOTALS, TOTALS, ONE_TOTAL, WHICHES };
enum { TIMED = ARCHIVE - FLOOR + 1 };
enum size { SIZE_600, SIZE_6000, SIZE_60000, SIZES };
/* short, long, scp, older and plan, each accepted and refused */
enum { INPUTS = 10 };

/* The seconds are those of the quickest of so many calls that were timed; emulated ones are only ratios. */
typedef struct {
    uint64_t value[MEASURES][INPUTS][SIZES][WHICHES];
    unsigned timed;
    int emulated;
} figures;

extern const char *const input_names[INPUTS];
extern const char *const which_names[WHICHES];
extern const unsigned size_lines[SIZES];

/* Reads lines of six words: measure, shape, accepted or refused, lines, which, value. Of a figure that comes more than once the least
   counts. 0 where one is wrong or missing. */
int figures_read(figures *f, FILE *from);

/* Instructions of one call: a run with it less a run without it. */
uint64_t instructions(const figures *f, int input, enum size size, enum which which);
double per_line(const figures *f, int input, enum size size, enum which which);

/* One call's instructions over another's, and the archive's over another's. */
double over(const figures *f, int input, enum size size, enum which which, enum which other);
double ratio(const figures *f, int input, enum size size, enum which other);

/* Instructions per line at 60,000 lines over those at 6,000. */
double growth(const figures *f, int input, enum which which);

/* The archive's seconds over another call's. */
double seconds_ratio(const figures *f, int input, enum size size, enum which other);

/* The most that any input took, less what an empty call takes. */
uint64_t peak_stack(const figures *f, enum which which);

#endif
