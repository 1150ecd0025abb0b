/* Dirf: the check of a file, the field reader, the readers and writers of
   amounts and month counts, and the line writer, as document 01 sets them for
   2025 and change A4 of document 02 for the older edition. In both, the check
   and the line writer ask the check digits of every filled CPF and CNPJ, as
   change A1 has it: 26, after 18 of the same field; and they ask of PROC and RRA
   that the lawyer's number and name follow the lawyer's kind, as change A2 has
   it: 19, at field 5, then 6. Both take in INFPC, INFPA, the PSE block and what
   stands below them, as change A3 has it. The table tells of each record where
   its group ends, and the search for one CPF under one IDREC goes by that, as
   change A6 has it: 27 where the table or the line asked for is no help. Beside
   the table the check gives, where it is asked for, the total of the amounts of
   each kind of value record, as change A7 has it.
   Every function takes every input; a pointer may be NULL where its length or
   room is 0. An output never overlaps an input or another output. An edition is
   one of the two. */
#ifndef PLAIN_H
#define PLAIN_H

#include <stddef.h>
#include <stdint.h>

/* The two editions of the layout. 2022 is document 000's, with its own line 1
   and without RTDS and ESDS. */
typedef enum { PLAIN_2025, PLAIN_2022 } plain_edition;

/* The edition by which a file is judged: field 6 of its line 1, with its bar,
   picks it. Line 1 is here all bytes before the first CR LF, or all that there
   are, however many; a lone CR or LF does not end it. No byte past that CR LF
   is looked at, and none past the sixth bar. */
plain_edition plain_edition_of(const uint8_t *file, size_t file_len);

/* number 0: accepted, line is the last line. Else the first breach. */
typedef struct { uint32_t number, line, field; size_t entries; } plain_answer;

/* The check, by the file's own edition. The table has table_len numbers, five
   an entry: kind, start, length without the line end, parent's line number,
   last line of the record's group. The group is the record and all lines below
   it, as far as they were taken; of a record with nothing below it, itself.
   Room is table_len / 5. Numbers that are no part of an entry of the answer
   stay untouched. */
plain_answer plain_check(const uint8_t *file, size_t file_len,
                         uint32_t *table, size_t table_len);

/* The same with a room in entries and no table. */
plain_answer plain_check_room(const uint8_t *file, size_t file_len, size_t room);

/* The check with a table, and totals beside it: the answer and the table are
   those of plain_check. At place k of totals is the total in centavos of kind k
   over the lines read: all of them on acceptance, those before the bad one on
   refusal. Value records alone have one, the sum of their amounts; month counts
   are none. Place 0 and the place of a kind without a total are 0. Any number of
   places may be lent; those past the last kind's, 73, stay untouched. */
plain_answer plain_check_totals(const uint8_t *file, size_t file_len,
                                uint32_t *table, size_t table_len,
                                uint64_t *totals, size_t totals_len);

/* The same with a room in entries and no table. */
plain_answer plain_check_room_totals(const uint8_t *file, size_t file_len, size_t room,
                                     uint64_t *totals, size_t totals_len);

/* The total of one kind over the first lines of a file, or over all where there
   are fewer, by reading them once more without the check. A line is here what a
   CR LF ends. A field that is missing or no amount adds nothing, and a kind that
   has no total is 0. For the lines that a check has read it is the check's total;
   of other lines it is the sum, modulo 2^64. */
uint64_t plain_total_reading(const uint8_t *file, size_t file_len, size_t lines, uint32_t kind);

/* number 0, the line of the CPF or 0, and the beneficiary entries looked at, the
   stopping one included; or 27 with 0 and 0. */
typedef struct { uint32_t number, line, count; } plain_found;

/* The search by the table: the bytes of a key below the IDREC of a line. It goes
   from one beneficiary to the next by the last lines and stops at the first
   company, at the first other whose field 2 is not smaller than the key, or
   behind the IDREC's last line. Any file, table, line and key are taken. */
plain_found plain_search(const uint8_t *file, size_t file_len,
                         const uint32_t *table, size_t table_len,
                         uint32_t line, const uint8_t *key, size_t key_len);

/* The same question by reading every line of an accepted file, without a table;
   27 where that line is no IDREC. Of another file it only ends. */
plain_found plain_search_reading(const uint8_t *file, size_t file_len,
                                 uint32_t line, const uint8_t *key, size_t key_len);

/* Field k of a line, from 1. Gives 1, or 0 with the line's end and length 0. */
int plain_field(const uint8_t *line, size_t line_len, size_t k,
                size_t *start, size_t *length);

/* number 0, or 14, 15 or 16 with value 0. */
typedef struct { uint32_t number; uint64_t value; } plain_number;
plain_number plain_read_amount(const uint8_t *field, size_t len);
plain_number plain_read_months(const uint8_t *field, size_t len);

/* number 0 and the bytes written, or the refusal and count 0. */
typedef struct { uint32_t number, field; size_t count; } plain_written;
plain_written plain_write_amount(uint64_t value, uint8_t *out, size_t room);
plain_written plain_write_months(uint64_t value, uint8_t *out, size_t room);

/* The line writer: an edition, a kind, the contents of all fields one after
   another, their lengths, and an output. */
plain_written plain_write_line(plain_edition edition, uint32_t kind,
                               const uint8_t *contents, size_t contents_len,
                               const size_t *lengths, size_t lengths_len,
                               uint8_t *out, size_t room);

/* Kinds run from 1 to plain_kinds(), with one number and name in both editions;
   NULL and 0 stand for "no such kind". A kind that the edition lacks is no base
   kind there, has no fields and no rows, and stands below nothing. */
unsigned plain_kinds(void);
const char *plain_name(unsigned kind);
int plain_is_base(plain_edition edition, unsigned kind);
unsigned plain_fields(plain_edition edition, unsigned kind);

/* The row of field f, from 1, of a base kind; all zero where there is none. */
typedef struct {
    char format;            /* 'C', 'N' or 'D' */
    int fixed;
    unsigned size;
    int obligatory;
    const char *values;     /* printed values joined by a comma, or NULL */
    int amount;             /* of 13 digits, or of 9 in a health plan: size tells */
    int months, ddd, telephone, cpf_or_cnpj;
    int cpf, cnpj;          /* at most one of cpf_or_cnpj, cpf and cnpj; A1 asks each */
} plain_row;
plain_row plain_field_row(plain_edition edition, unsigned kind, unsigned f);

/* 1 if the child kind may stand directly below the parent kind under the
   declarant kind (3 DECPF, 4 DECPJ) in one place at least. What the two kinds
   cannot tell, the check asks besides: below IDREC stand only the beneficiaries
   of its own block; below INFPA, ESPA only where the INFPA stands below BPFDEC;
   blocks, BPF and BPJ kinds, RTPSE and DTPSE each in their order; PSE once. */
int plain_below(plain_edition edition, unsigned declarant, unsigned parent, unsigned child);

#endif
