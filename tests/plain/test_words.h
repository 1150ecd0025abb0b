/* The words of change A6 once more, and what the tests of the search share; for tests alone. */
#ifndef TEST_WORDS_H
#define TEST_WORDS_H

#include "test_help.h"

/* A file and a table, which need not be each other's. */
typedef struct { const uint8_t *file; size_t file_len; const uint32_t *table; size_t table_len; } both;
typedef struct { const uint8_t *bytes; size_t len; } key;
key key_text(const char *s);

void is_found(plain_found got, plain_found wanted, const char *what, uint32_t line);
int named_in(const char *names, uint32_t kind);

/* The search's answer, which is that of the words. */
plain_found ask(const both *b, uint32_t line, key k);

/* What it means: the entries of all lines that the check took, with no thought of their order. */
plain_found meaning(const both *b, size_t entries, uint32_t line, key k);

/* A key itself, which is the first, and others that stand near it or far from it. */
enum { NEIGHBOURS = 16 };
key neighbour(key k, unsigned which, uint8_t out[64]);

/* Field 2 of the record of a line, whatever record it is; empty where the table is another file's and points past this one. */
key key_at(const both *b, uint32_t line);

/* One of the two at the end of readable memory, the other a copy of its own. */
both lend(const text *t, const uint32_t *table, size_t table_len);

/* Takes back what was lent, of which not a byte may have changed. */
void take_back(both *b, const text *t, const uint32_t *table);

#endif
