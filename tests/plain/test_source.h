/* Document 000's field tables and its lists 2.1 and 2.2, transcribed a second time; for tests alone. */
#ifndef TEST_SOURCE_H
#define TEST_SOURCE_H

/* A row as printed; format 0 where 000 has no such base record or field. Values are joined by a comma, "" for none. */
typedef struct { char format, values[32]; int fixed, obligatory; unsigned size; } source_line;
source_line source_row(const char *name, unsigned f);

/* Whether the list of the declarant, DECPF or DECPJ, puts the child directly below the parent, in one place of
   the list at least; base records only. */
int source_below(const char *declarant, const char *parent, const char *child);

/* Whether the word stands in a list of words with one blank between. */
int source_holds(const char *words, const char *word);

#endif
