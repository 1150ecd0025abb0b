/* What the tests share; for tests alone. */
#ifndef TEST_HELP_H
#define TEST_HELP_H

#include "plain.h"
#include "test_people.h"

extern unsigned long cases, wrong;
extern unsigned long given[32];         /* how often each number was seen */
extern plain_edition edition;           /* the one that the tests are run in */

void is_true(int ok, const char *what, unsigned long a, unsigned long b);

/* Random numbers, the same on every run. */
extern uint64_t rng;
uint32_t below_n(uint32_t n);

/* A text that grows. */
typedef struct { uint8_t *bytes; size_t len, room; } text;
void add_bytes(text *t, const void *bytes, size_t len);
void add(text *t, const char *s);
void drop(text *t);
void splice(text *t, size_t start, size_t end, const void *with, size_t len);

/* A test's own text; {cpf 7} and {cnpj 7} in it stand for the numbers of serial 7, {year} and the like for the edition's. */
void add_text(text *t, const char *s);
void add_line(text *t, const char *s);

#define DIRF_LINE "Dirf|{year}|{calendar}|N||{mark}|"
#define LINE_2025 "Dirf|2025|2024|N||R6GP3ZA|"
#define LINE_2022 "Dirf|2022|2021|N||XJFSFHB|"
#define RESPO_LINE "RESPO|11144477735|ANA LIMA|11|33334444||||"
#define DESK_DECPF_LINE "DECPF|11144477735|ANA LIMA|N|N|N|S|N|||N|||||"
#define FOURTEEN(id) id "|1||||||||||||9999999999999|"
#define BPF "IDREC|0561|~BPFDEC|11144477735|A||N|N|"
#define BAD_CPF "11144477753"           /* A1's own, with its last two digits swapped */
#define BAD_CNPJ "11222333000118"

void *exact_copy(const void *bytes, size_t len);
uint8_t *edge_copy(const void *bytes, size_t len);
uint8_t *far_area(size_t len);          /* zeros, as many as asked for, or NULL */
void far_drop(uint8_t *area, size_t len);
int equal(plain_answer a, plain_answer b);
size_t count_lf(const uint8_t *bytes, size_t len);

/* The check alone, with and without a table, and the same beside the slow reading. */
plain_answer run_plain(const uint8_t *bytes, size_t len, size_t room, uint32_t *entries);
plain_answer run(const uint8_t *bytes, size_t len, size_t room);

/* The answer to a text, in every way that there is; what the answer takes for right is looked over as well. */
void is_right(const char *what, const text *t, plain_answer wanted);
void expect_room(const char *what, const text *t, size_t room, uint32_t number, uint32_t line, uint32_t field);
void expect(const char *what, const text *t, uint32_t number, uint32_t line, uint32_t field);

/* Lines 1 to 3 of a declaration that has the blocks, which the flags tell. */
void add_declarant(text *t, unsigned kind, unsigned blocks, const char *rest);
text head(unsigned declarant, unsigned blocks);

/* Document 01's file; then lines joined by ~ after a head, and other short files. */
text desk_changed(unsigned n, const char *line);
text desk_example(void);
void expect_desk(const char *what, unsigned n, const char *changed, uint32_t number, uint32_t line, uint32_t field);
void expect_after(const char *what, unsigned declarant, const char *lines, uint32_t number, uint32_t line, uint32_t field);
void expect_short(const char *what, const char *l1, const char *l2, unsigned kind, const char *rest, plain_answer wanted);
void expect_head(const char *what, const char *l1, const char *l2, uint32_t number, uint32_t line, uint32_t field);
void expect_declarant(const char *what, unsigned kind, const char *rest, uint32_t number, uint32_t line, uint32_t field);
void expect_bytes(const char *what, const char *s, uint32_t number, uint32_t line, uint32_t field);

/* Good contents, and a line given to the writer. */
void good_id(size_t len, unsigned serial, char *out);
int id_right(const char *id);
char *many(char c, size_t n);
void good_field(unsigned kind, unsigned f, unsigned serial, char *out);
void good_line(unsigned kind, unsigned serial, char *out);
plain_written write_fields(unsigned kind, const char *joined, uint8_t *out, size_t room);
void expect_written(const char *what, unsigned kind, const char *fields, uint32_t number, uint32_t field);

unsigned named(const char *name);
text path_file(unsigned declarant, const char *path, const char *next, uint32_t *lines);
int lacking(const char *name);

#endif
