/* A checker written for speed, as an anchor for the bench: it answers as the plain checker does, in as little work as portable C allows. */
#ifndef TUNED_H
#define TUNED_H

#include <stddef.h>
#include <stdint.h>

/* The number, line and field of document 01, and the edition that line 1 picks, 2025 or 2022. */
typedef struct { uint32_t number, line, field, edition; } tuned_answer;

/* The check with a room in entries; no table is written. The file may be NULL where it has no byte. */
tuned_answer tuned_check_room(const uint8_t *file, size_t len, size_t room);

#endif
