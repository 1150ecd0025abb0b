/* What is measured: one call each, with the same arguments. */
#ifndef CALLS_H
#define CALLS_H

#include <stddef.h>
#include <stdint.h>

/* the most lines that a file may have, so that room is never short */
enum { ROOM = 65536 };

/* a total for each kind of docs/KINDS.md, and place 0; and the kind that is asked for alone */
enum { TOTAL_PLACES = 74, RTRT = 7 };

typedef uint32_t (*call)(const uint8_t *file, size_t len, size_t room);

/* "nothing", "floor", "tuned", "plain" or "archive"; "plain+totals" or "totals", the checks of the last two that also give all totals;
   "one-total", the archive's check for one of them. Exits at another name. */
call call_named(const char *name);

/* How many line ends a file has: the least that any check has to look for. */
uint32_t count_line_ends(const uint8_t *file, size_t len);

#endif
