/* Searches for the program replay (docs/REPLAY.md), and what the plain checker answers each. */
#ifndef ASKED_H
#define ASKED_H

#include "fed.h"

enum { NO_WAY = 27, MOST_KEY = 32 };

/* The table: the file's own, written by its check into room enough or not; or given: the own with one number changed, with some, cut, or
   with numbers behind its entries, or that of another file. */
typedef enum { OWN_TABLE, CHANGED, CHANGED_MORE, CUT, LONGER, OF_ANOTHER, TABLES } table_way;

/* Where one number was changed, the entry, and what it was put to, of VALUES. */
enum { OF_IDREC, OF_BENEFICIARY, OF_ANY_LINE, CHANGED_ENTRIES };
enum { VALUES = 14 };
typedef struct { unsigned entry, number, value; } change;

/* One search: by `S`, with the entries that the check writes into a table of so many numbers, or by `T`, with so many numbers given. */
typedef struct {
    table_way way;
    part file;
    size_t numbers;
    const uint32_t *table;      /* of `T` alone */
    change changed;             /* of a table with one number changed */
    uint32_t line;
    uint8_t key[MOST_KEY];
    size_t key_len;
} asked;

/* What was searched: the answer of the check, by `S` alone, and the numbers lent. */
typedef struct {
    plain_answer checked;
    const uint32_t *table;
    size_t numbers;
} lent_table;

/* Makes the searches of this seed, each handed on in its turn. */
typedef void (*taker)(const asked *a);
void make_searches(uint64_t seed, taker take);

/* The case as replay reads it. */
void write_asked(FILE *out, const asked *a);

/* By the plain checker; tells what was searched, which holds until the next one. */
plain_found answer_asked(const asked *a, lent_table *lent);

/* Whether the answer has to be that of reading every line: the file is accepted and the table is its own. */
int can_be_read(const asked *a, const lent_table *lent);

/* The number of an entry, whose line is from 1. */
static inline uint32_t number_at(const uint32_t *table, size_t line, unsigned which)
{
    return table[TABLE_NUMBERS * (line - 1) + which];
}

/* The beneficiaries, by kind. */
static inline int is_company(uint32_t kind)
{
    return kind == BPJDEC || kind == BPJFCI || kind == BPJPROC || kind == BPJSCP;
}

static inline int is_person(uint32_t kind)
{
    return kind == BPFDEC || kind == BPFFCI || kind == BPFPROC || kind == BPFRRA || kind == BPFSCP;
}

/* Field 2 of the line of an entry that lies within the file. */
part key_at(part file, const uint32_t *table, size_t line);

#endif
