/* Makers of the people in the test data that is meant to be right, and a look for wrong ones; for tests alone. */
#ifndef TEST_PEOPLE_H
#define TEST_PEOPLE_H

#include "plain.h"

enum { DECPF = 3, DECPJ = 4 };
enum { PEOPLE_NONE, PEOPLE_PERSON, PEOPLE_OFFICE };     /* what a lawyer is; field 4 of PROC and RRA is empty, 1 or 2 */
enum { PEOPLE_SCP = 1, PEOPLE_PSE = 2 };        /* the blocks that a flag of the declarant tells of */
enum { PEOPLE_ID = 16, PEOPLE_LINE = 512 };     /* room for a CPF or a CNPJ, and for a declarant's line */

/* Serials below 1,000,000,000 for a CPF and 100,000,000 for a CNPJ; a greater serial gives a greater number. */
void people_cpf(uint32_t serial, char *out);
void people_cnpj(uint32_t serial, char *out);

/* Where {cpf 7} or {cnpj 7} stands at s, its number goes into out; gives the bytes passed over, else 0. */
size_t people_stand_in(const char *s, char *out);

/* Which of these blocks are among lines, or names of records, joined by the sign between. */
unsigned people_blocks(const char *records, char between);

/* The SCP or health plan flag, if field f of the kind is one, else NULL. */
const char *people_flag(unsigned kind, unsigned f, unsigned blocks);

/* A declarant's line; rest is fields 8 to 15 of DECPF or 11 to 14 of DECPJ, NULL for usual ones. */
void people_declarant(unsigned kind, unsigned blocks, const char *rest, char *out);

/* Field 4, 5 or 6 of PROC and RRA, filled where the lawyer lets it be, and the longest name that the lawyer lets stand in 6. */
void people_lawyer(unsigned lawyer, unsigned f, uint32_t serial, char *out);
unsigned people_longest(unsigned lawyer);

/* Whether field f of the record is one of these three. */
int people_is_lawyer(const char *name, unsigned f);

/* Whether field f of the record holds a CPF or a CNPJ where it is filled. */
int people_is_id(const char *name, unsigned f);

/* Whether it is a CPF or a CNPJ with right check digits. */
int people_right(const uint8_t *id, size_t len);

/* The first wrong number, lawyer or flag in what the answer takes for right; line 0 where there is none. */
typedef struct { uint32_t line, field; } people_spot;
people_spot people_wrong(const uint8_t *file, size_t len, plain_answer a);

#endif
