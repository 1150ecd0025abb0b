/* Cases for the program replay (docs/REPLAY.md), and the line that the plain checker demands of each. */
#ifndef FED_H
#define FED_H

#include <stdint.h>
#include <stdio.h>

#include "met.h"

enum { MOST_TABLE = 20003, MOST_ROOM = 4096, MOST_STRING = 65536, MOST_LENGTHS = 32 };

/* One case. `judged` is how many of its bytes the demanded answer is worked out from: all, or the part that a tail follows. */
typedef struct {
    char letter;
    plain_edition edition;      /* that the line writer is told, by `E`; `W` is that of 2025 */
    uint64_t number, room;
    size_t len, judged, count;
    int cut_totals;             /* whether of the demanded totals only the low 32 bits are, to see that it is found */
    unsigned broken;            /* 19 or 26 where that alone was broken in a line; else 0 */
    uint64_t lengths[MOST_LENGTHS];
    uint8_t bytes[MOST_FILE];
} fed;

/* Whether it is a case of the line writer. */
int is_line(const fed *c);

/* Makes the case of this seed; counts what it meets. */
void make_fed(uint64_t seed, fed *c, met *m);

/* The case as replay reads it. */
void write_fed(FILE *out, const fed *c);

/* The line that is demanded, with its LF; gives the number in it and, of a file or a line, the field. */
fault demand_line(FILE *out, const fed *c);

#endif
