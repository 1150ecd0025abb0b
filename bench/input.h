/* The files that are measured: a company's pay records in short or long lines, the partners of one SCP, the short lines in a file of the
   older edition, or pay records with pension, alimony and a health plan; accepted or refused at the last line. */
#ifndef INPUT_H
#define INPUT_H

#include <stddef.h>
#include <stdint.h>

typedef struct { uint8_t *bytes; size_t len; } input;

/* A file of so many lines, at least 5, as its words say: "short", "long", "scp", "older" or "plan", "accepted" or "refused".
   Exits where a word or the count is none of these. */
input input_make(const char *lines, const char *shape, const char *end);

#endif
