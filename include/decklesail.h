/* decklesail.h: the Dirf check, by the editions of 2025 and 2022, the field reader's place and the amount reader, for C.
 *
 * Build: `tools/build suite` writes target/staticlib/libsuite.a. The archive is for x86-64 and needs memcpy and memset
 * (any C library has them). It needs nothing else, keeps no state between calls, allocates nothing and starts no thread, so
 * calls may run at the same time.
 *
 * What a caller must supply, for every call:
 *   - a valid pointer that is not null, also where the length is 0, to at least as many readable bytes as the length says;
 *   - bytes that nobody writes while the call runs.
 * Nothing else is asked: every content and every length is answered, and no call writes to the bytes. Each function is proved
 * to give, for all bytes and numbers, what the scope document's definitions give (crates/suite/src/lib.rt has each contract).
 * What a C caller passes is checked by nothing. As the kit rattle-kit-13f builds it, 15,840 bytes of stack were measured for a check, and
 * 16,480 for decklesail_total, which has the totals of all kinds there (docs/BENCH.md).
 *
 * Each call answers one number of the answer, decklesail_totals the number and all totals. For several numbers of one answer make several
 * calls with the same arguments.
 */
#ifndef DECKLESAIL_H
#define DECKLESAIL_H

#include <stddef.h>
#include <stdint.h>

#ifdef __cplusplus
extern "C" {
#endif

/* The edition by which a file is judged: 2025 or 2022. Line 1 says it: 2022 where its field 6 is XJFSFHB, byte for byte and ended by its
 * bar, and 2025 where field 6 is anything else or there is none. Line 1 is here all bytes before the first CR LF, or all that there are,
 * however many; its record may be any, right or wrong. By the edition of 2022, fields 2 and 3 of line 1 are 2022 and 2021 or 2022, and
 * RTDS and ESDS are unknown identifiers; nothing else differs. */
uint32_t decklesail_edition(const uint8_t *file, size_t file_len);

/* The check of a file by its own edition, with room for so many entries of the record table. No table is written; the answer is that of
 * the check with a table of `room` entries, five numbers each, of which C sees none: room counts entries and not numbers. A caller who
 * wants no limit passes 65536, the most lines that a file may have, or more.
 *
 * The number: 0 for an accepted file, else that of the first breach, tried line by line and for each line in this order:
 *
 *    1  no bytes are left and FIMDirf was not read          field 0
 *    2  bytes follow FIMDirf                                field 0
 *    3  line 65,537 would begin                             field 0
 *    4  over 1,024 bytes before a CR, LF or the end         field 0
 *    5  the input ends before any CR or LF, or right after the first CR   field 0
 *    6  a CR or LF that is not CR LF                        field 0
 *    8  the line is empty or its last byte is no bar        field 0
 *    9  identifier unknown                                  field 1
 *   10  identifier known, left for later: VPEIM, RIMUN, RISEN, RPDE, BRPDE, VRPDE, INF   field 1
 *   12  the record may not stand here                       field 1
 *   11  wrong number of fields                              field 0
 *   13  obligatory field empty                              its own field
 *   14  a byte of the wrong kind                            its own field
 *   15  wrong size, the 8 or 9 and 11 or 14 rules included  its own field
 *   16  a zero in front in an amount, month count or DDD    its own field
 *   17  no such date                                        its own field
 *   18  not one of the valid values                         its own field
 *   26  a check digit of a CPF or CNPJ is wrong             its own field
 *   19  a condition is broken (below)                       field 5, 6, 9, 10, 11 or 13, the lowest
 *   21  a value record repeated under its own parent: a beneficiary, INFPC or INFPA   field 1
 *   20  key not greater                                     field 2
 *    7  the table holds fewer entries than the line's number  field 0
 *
 * 13 to 18 and 26 run field by field, lowest field first, 26 after 18 of the same field; all fields before 19.
 *
 * 19 in DECPF, where field 8 is S: 9 or 10 is empty; 11 is not S although 10 is 1; 13 is filled. 19 in PROC and RRA: with 1 in field 4, the
 * lawyer being a person, 5 is filled and no CPF, or 6 has over 60 bytes; with 2, a firm, 5 is filled and no CNPJ; with 4 empty, 5 or 6 is
 * filled. */
uint32_t decklesail_check_number(const uint8_t *file, size_t file_len, size_t room);

/* The line of that answer, counted from 1: on acceptance the last line of the file, on refusal the line refused; number 1 names the
 * line that would come next. The table of such an answer has an entry for each line on acceptance, and for each line before the one named
 * on refusal. */
uint32_t decklesail_check_line(const uint8_t *file, size_t file_len, size_t room);

/* The field of that answer, counted from 1, as the table above says; 0 on acceptance. */
uint32_t decklesail_check_field(const uint8_t *file, size_t file_len, size_t room);

/* The totals of that answer, by kind of value record and in centavos: the sum of the amounts of all lines of a kind, on acceptance of all
 * lines, on refusal of the lines before the one named. 40 kinds have one: the monthly records (fields 2 to 14, the thirteenth among them),
 * RIL96, RIPTS, RIJMRE, RIRSR and RIO (field 2), RTPSE and RDTPSE (fields 4 and 5). Month counts (QTMESES) are no money, and the amounts of
 * PROC, RRA, TPSE and DTPSE stand in no value record: they enter no total. No total passes 64 bits, at the most lines and the largest
 * amounts. docs/KINDS.md has the number of each kind.
 *
 * The total of one kind; 0 for a kind that has none, and for a number that is no kind's. Each call is a check of the whole file. */
uint64_t decklesail_total(const uint8_t *file, size_t file_len, size_t room, uint32_t kind);

/* All of them by one check: gives the check's number, and puts the total of kind k at totals[k], 0 where a kind has none, for the places
 * that are lent: 74 have them all, fewer are filled as far as they go. What stood there before counts for nothing, and nothing past
 * totals[73] is touched. Here, and only here, a call writes: totals has to be valid and not null, also where totals_len is 0, room for that
 * many numbers, apart from the file's bytes, and nobody else's while the call runs. */
uint32_t decklesail_totals(const uint8_t *file, size_t file_len, size_t room, uint64_t *totals, size_t totals_len);

/* The field reader's place. A field ends with the bar, byte 124; fields count from 1, the first begins where the line begins, and bytes
 * after the last bar are no field. The line is given without its CR LF. Any bytes may stand in it, and k may be any number.
 *
 * 1 where the line has a field k, else 0. */
uint32_t decklesail_field_there(const uint8_t *line, size_t line_len, size_t k);

/* Where field k starts in the line, from 0; line_len where there is no such field. */
size_t decklesail_field_start(const uint8_t *line, size_t line_len, size_t k);

/* How many bytes field k has, its bar not counted; 0 where there is no such field. start + length is never more than line_len. */
size_t decklesail_field_length(const uint8_t *line, size_t line_len, size_t k);

/* The amount reader. 0 for an amount that is read, and for the empty field, which is zero; else the first of
 *   14  a byte that is no digit
 *   15  over 13 digits
 *   16  a zero in front. */
uint32_t decklesail_amount_number(const uint8_t *field, size_t field_len);

/* The amount in centavos, 0 to 9,999,999,999,999; 0 for the empty field and for every refused one. */
uint64_t decklesail_amount_value(const uint8_t *field, size_t field_len);

#ifdef __cplusplus
}
#endif

#endif
