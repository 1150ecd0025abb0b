/* What the makers of searches share with each other and with nobody else. */
#ifndef ASKED_INNER_H
#define ASKED_INNER_H

#include "asked.h"

/* A file, and its table by the plain checker. */
typedef struct {
    file_text text;
    plain_answer checked;
    uint32_t table[MOST_TABLE];
} based;

/* An accepted file with its table; one of three with more people. */
void sound_base(based *b);

static inline part file_of(const based *b)
{
    return (part){b->text.bytes, b->text.len};
}

static inline uint32_t entries_of(const based *b)
{
    return (uint32_t)b->checked.entries;
}

/* The next line that stands directly below this one, behind `from`; 0 where there is none. By the parents, not by the last lines. */
uint32_t next_below(const based *b, uint32_t line, uint32_t from);

/* The next IDREC behind a line, or 0. */
uint32_t next_idrec(const based *b, uint32_t from);

void set_key(asked *a, const void *bytes, size_t len);

/* Searches with tables that are given. */
void ask_tables(const based *b, taker take);

#endif
