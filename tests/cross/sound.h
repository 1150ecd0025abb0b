/* Sound lines: fields as documents 01 and 02 have them, check digits right too. */
#ifndef SOUND_H
#define SOUND_H

#include "declaration.h"

/* Contents that the row allows; gives their length. */
unsigned sound_field(const plain_row *row, uint8_t *out);

/* Whether a field of this row holds a CPF or a CNPJ. */
int holds_identity(const plain_row *row);

/* The CPF or the CNPJ that such a row holds, with right check digits; gives its length. */
unsigned sound_identity(const plain_row *row, uint8_t *out);

/* So many digits, and so many of which the first is no zero. */
unsigned some_digits(unsigned count, uint8_t *out);
unsigned sound_digits(unsigned count, uint8_t *out);

/* A date, eight digits. */
enum { DATE_SIZE = 8 };
unsigned some_date(uint8_t *out);

/* The field of DECPF that says whether the situation is a special one: its conditions hang on it. */
enum { DECPF_SPECIAL = 8 };

/* A lawyer, fields 4 to 6 of PROC and RRA: of each kind in field 4 its number's digits and the most bytes of its name. */
enum { LAWYER_KIND = 4, LAWYER_NUMBER, LAWYER_NAME };
enum { LAWYERS = 3, LONGEST_NAME = 150 };
typedef struct {
    const char *kind;
    unsigned digits, most;
} lawyer;
extern const lawyer lawyers[LAWYERS];

/* Whether a record has one. */
int has_lawyer(unsigned kind);

/* Puts a lawyer in, right or wrong: this kind, a number of 11 or 14 digits or, with 0, none, and a name of so many bytes, at most one more
   than the longest. */
void set_lawyer(text_line *line, const char *kind, unsigned digits, unsigned name);

/* How long a name is that this one may have, 0 where it has none. */
unsigned sound_name(const lawyer *l);

/* A line of one of the edition's base kinds with sound contents, which keep the conditions of 19. */
void sound_line(text_line *line, plain_edition edition, unsigned kind);

#endif
