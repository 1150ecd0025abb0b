/* What the tests share: counting, texts, one run of the check compared in every way, and good records. */
#define _DEFAULT_SOURCE                 /* for mmap, which C itself does not have */
#include <stdio.h>
#include <stdlib.h>
#include <string.h>
#include <sys/mman.h>

#include "test_help.h"
#include "test_naive.h"
#include "test_source.h"

#define UNTOUCHED 0xA5A5A5A5u

unsigned long cases, wrong, given[32];
plain_edition edition;

void is_true(int ok, const char *what, unsigned long a, unsigned long b)
{
    cases++;
    if (!ok && wrong++ < 40)
        printf("WRONG %s (%lu, %lu)\n", what, a, b);
}

/* ---- random numbers, the same on every run ---- */

uint64_t rng = 88172645463325252u;

uint32_t below_n(uint32_t n)
{
    rng ^= rng << 13;
    rng ^= rng >> 7;
    rng ^= rng << 17;
    return (uint32_t)((rng >> 20) % n);
}

/* ---- a text that grows ---- */

void add_bytes(text *t, const void *bytes, size_t len)
{
    if (t->len + len > t->room) {
        t->room = 2 * (t->len + len) + 64;
        t->bytes = realloc(t->bytes, t->room);
        if (t->bytes == NULL)
            abort();
    }
    if (len > 0)
        memcpy(t->bytes + t->len, bytes, len);
    t->len += len;
}

void add(text *t, const char *s)
{
    add_bytes(t, s, strlen(s));
}

/* Where {year}, {calendar} or {mark} stands at s, the edition's own goes into out; gives the bytes passed over, else 0. */
static size_t edition_stand_in(const char *s, char *out)
{
    static const char *const names[] = {"{year}", "{calendar}", "{mark}"};
    static const char *const own[][3] = {
        [PLAIN_2025] = {"2025", "2024", "R6GP3ZA"}, [PLAIN_2022] = {"2022", "2021", "XJFSFHB"}};
    for (unsigned i = 0; *s == '{' && i < 3; i++)
        if (strncmp(s, names[i], strlen(names[i])) == 0) {
            strcpy(out, own[edition][i]);
            return strlen(names[i]);
        }
    return 0;
}

/* A test's own text; {cpf 7} and {cnpj 7} in it stand for the numbers of serial 7, {year} and the like for the edition's. */
void add_text(text *t, const char *s)
{
    while (*s) {
        char word[PEOPLE_ID];
        size_t used = people_stand_in(s, word);
        if (used == 0)
            used = edition_stand_in(s, word);
        if (used > 0)
            add(t, word);
        else
            add_bytes(t, s, 1);
        s += used ? used : 1;
    }
}

void add_line(text *t, const char *s)
{
    add_text(t, s);
    add(t, "\r\n");
}

void drop(text *t)
{
    free(t->bytes);
    *t = (text){0};
}

void splice(text *t, size_t start, size_t end, const void *with, size_t len)
{
    text out = {0};
    add_bytes(&out, t->bytes, start);
    add_bytes(&out, with, len);
    add_bytes(&out, t->bytes + end, t->len - end);
    drop(t);
    *t = out;
}

/* ---- one run of the check, compared in every way ---- */

void *exact_copy(const void *bytes, size_t len)
{
    void *copy = malloc(len ? len : 1);
    if (copy == NULL)
        abort();
    if (len > 0)
        memcpy(copy, bytes, len);
    return copy;
}

/* Bytes that end where readable memory ends: a look at the byte after them stops the tests. The next copy takes their place. */
uint8_t *edge_copy(const void *bytes, size_t len)
{
    enum { HALF = 1 << 17 };            /* whole pages on every usual machine */
    static uint8_t *area;
    if (area == NULL) {
        area = mmap(NULL, 2 * HALF, PROT_READ | PROT_WRITE, MAP_PRIVATE | MAP_ANONYMOUS, -1, 0);
        if (area == MAP_FAILED || mprotect(area + HALF, HALF, PROT_NONE) != 0)
            abort();
    }
    if (len > HALF)
        abort();
    if (len > 0)
        memcpy(area + HALF - len, bytes, len);
    return area + HALF - len;
}

/* Pages that are not written cost nothing, so this may be more than there is memory. */
uint8_t *far_area(size_t len)
{
    void *area = mmap(NULL, len, PROT_READ | PROT_WRITE, MAP_PRIVATE | MAP_ANONYMOUS | MAP_NORESERVE, -1, 0);
    return area == MAP_FAILED ? NULL : area;
}

void far_drop(uint8_t *area, size_t len)
{
    munmap(area, len);
}

int equal(plain_answer a, plain_answer b)
{
    return a.number == b.number && a.line == b.line && a.field == b.field
        && a.entries == b.entries;
}

size_t count_lf(const uint8_t *bytes, size_t len)
{
    size_t n = 0;
    for (size_t i = 0; i < len; i++)
        n += bytes[i] == '\n';
    return n;
}

/* Answers alike with and without a table, with nothing else touched. */
plain_answer run_plain(const uint8_t *bytes, size_t len, size_t room,
                       uint32_t *entries)
{
    size_t numbers = 5 * room + below_n(5);
    uint8_t *file = exact_copy(bytes, len);
    uint32_t *table = malloc(numbers * 4 + 1);
    for (size_t i = 0; i < numbers; i++)
        table[i] = UNTOUCHED;
    plain_answer a = plain_check(file, len, table, numbers);
    is_true(equal(a, plain_check_room(file, len, room)), "room alike", a.number, a.line);
    is_true(a.number ? a.entries + 1 == a.line : a.entries == a.line,
            "entries", a.number, a.entries);
    is_true(a.entries <= room, "entries within room", a.entries, room);
    int kept = len == 0 || memcmp(file, bytes, len) == 0;
    for (size_t i = 5 * a.entries; i < numbers; i++)
        kept = kept && table[i] == UNTOUCHED;
    is_true(kept, "nothing else touched", a.number, a.line);
    if (entries != NULL && a.entries <= room && a.entries > 0)
        memcpy(entries, table, 20 * a.entries);
    if (a.number < 32)
        given[a.number]++;
    free(table);
    free(file);
    return a;
}

plain_answer run(const uint8_t *bytes, size_t len, size_t room)
{
    size_t lines = count_lf(bytes, len) + 2;
    uint32_t *slow = calloc(lines, 20), *quick = calloc(lines, 20);
    plain_answer a = run_plain(bytes, len, room < lines ? room : lines, quick);
    plain_answer b = naive_check(bytes, len, slow, room);
    is_true(plain_edition_of(bytes, len) == naive_edition(bytes, len), "edition as the slow reading", a.number, a.line);
    is_true(equal(a, b), "as the slow reading", a.number * 100000ul + a.line,
            b.number * 100000ul + b.line);
    is_true(memcmp(slow, quick, 20 * (a.entries < lines ? a.entries : 0)) == 0,
            "table as the slow reading", a.entries, a.line);
    free(slow);
    free(quick);
    return a;
}

/* All that a test takes for right is so in its numbers, lawyers and flags too, else another rule would speak first, now or later. */
void is_right(const char *what, const text *t, plain_answer wanted)
{
    people_spot spot = people_wrong(t->bytes, t->len, wanted);
    is_true(spot.line == 0, "check digits, lawyers and flags", spot.line, spot.field);
    if (spot.line != 0 && wrong <= 40)
        printf("   in %s, line and field above\n", what);
}

void expect_room(const char *what, const text *t, size_t room, uint32_t number,
                 uint32_t line, uint32_t field)
{
    plain_answer a = run(t->bytes, t->len, room);
    size_t entries = number ? line - 1 : line;
    int ok = equal(a, (plain_answer){number, line, field, entries});
    is_right(what, t, (plain_answer){number, line, field, entries});
    is_true(ok, what, number, line);
    if (!ok)
        printf("   got %u %u %u %zu, wanted %u %u %u %zu\n", a.number, a.line,
               a.field, a.entries, number, line, field, entries);
}

void expect(const char *what, const text *t, uint32_t number, uint32_t line,
            uint32_t field)
{
    expect_room(what, t, 3000, number, line, field);
}

/* ---- parts of files ---- */

void add_declarant(text *t, unsigned kind, unsigned blocks, const char *rest)
{
    char line[PEOPLE_LINE];
    people_declarant(kind, blocks, rest, line);
    add_line(t, line);
}

text head(unsigned declarant, unsigned blocks)
{
    text t = {0};
    add_line(&t, DIRF_LINE);
    add_line(&t, RESPO_LINE);
    add_declarant(&t, declarant, blocks, NULL);
    return t;
}

/* Document 01's file as printed, by no maker, with line n changed where n is not 0; the older edition has its own line 1. */
text desk_changed(unsigned n, const char *line)
{
    const char *const printed[] = {edition == PLAIN_2025 ? LINE_2025 : LINE_2022, RESPO_LINE, DESK_DECPF_LINE,
        "SCP|11222333000181|SCP SERRA|", "BPFSCP|11144477735|ANA LIMA||", "FIMDirf|"};
    text t = {0};
    for (unsigned i = 1; i <= 6; i++)
        add_line(&t, i == n ? line : printed[i - 1]);
    return t;
}

text desk_example(void)
{
    return desk_changed(0, NULL);
}

void expect_desk(const char *what, unsigned n, const char *changed, uint32_t number,
                 uint32_t line, uint32_t field)
{
    text t = desk_changed(n, changed);
    expect(what, &t, number, line, field);
    drop(&t);
}

/* Lines joined by a line feed sign ~ after a head; each gets its CR LF. */
void expect_after(const char *what, unsigned declarant, const char *lines,
                  uint32_t number, uint32_t line, uint32_t field)
{
    text t = head(declarant, people_blocks(lines, '~'));
    for (const char *s = lines; *s; s += strcspn(s, "~") + (s[strcspn(s, "~")] != 0)) {
        char one[PEOPLE_LINE];
        snprintf(one, sizeof one, "%.*s", (int)strcspn(s, "~"), s);
        add_line(&t, one);
    }
    expect(what, &t, number, line, field);
    drop(&t);
}

/* A declaration without a block: lines 1 and 2, or the declarant's last fields, may be given. */
void expect_short(const char *what, const char *l1, const char *l2, unsigned kind, const char *rest,
                  plain_answer wanted)
{
    text t = {0};
    add_line(&t, l1 ? l1 : DIRF_LINE);
    add_line(&t, l2 ? l2 : RESPO_LINE);
    add_declarant(&t, kind, 0, rest);
    add_line(&t, "FIMDirf|");
    expect(what, &t, wanted.number, wanted.line, wanted.field);
    drop(&t);
}

void expect_head(const char *what, const char *l1, const char *l2, uint32_t number,
                 uint32_t line, uint32_t field)
{
    expect_short(what, l1, l2, DECPF, NULL, (plain_answer){number, line, field, 0});
}

void expect_declarant(const char *what, unsigned kind, const char *rest, uint32_t number,
                      uint32_t line, uint32_t field)
{
    expect_short(what, NULL, NULL, kind, rest, (plain_answer){number, line, field, 0});
}

void expect_bytes(const char *what, const char *s, uint32_t number, uint32_t line,
                  uint32_t field)
{
    text t = {0};
    add_text(&t, s);
    expect(what, &t, number, line, field);
    drop(&t);
}

/* ---- good contents for every field ---- */

void good_id(size_t len, unsigned serial, char *out)
{
    if (len == 14)
        people_cnpj(serial, out);
    else
        people_cpf(serial, out);
}

int id_right(const char *id)
{
    return people_right((const uint8_t *)id, strlen(id));
}

char *many(char c, size_t n)
{
    static char out[512];
    memset(out, c, n);
    out[n] = 0;
    return out;
}

/* A good content of field f, with room for 150 bytes and a 0; a declarant without an SCP block. */
void good_field(unsigned kind, unsigned f, unsigned serial, char *out)
{
    plain_row r = plain_field_row(edition, kind, f);
    const char *name = plain_name(kind), *flag = people_flag(kind, f, 0);
    if (flag != NULL)
        strcpy(out, flag);
    else if (people_is_id(name, f))
        good_id(r.fixed ? r.size : 11, serial, out);
    else if (kind == DECPF && f == 8)
        strcpy(out, "N");
    else if ((strcmp(name, "PROC") == 0 || strcmp(name, "RRA") == 0) && f == 3)
        sprintf(out, "%08u", serial);
    else if (r.values != NULL)
        sprintf(out, "%.*s", (int)strcspn(r.values, ","), r.values);
    else if (r.format == 'D')
        strcpy(out, "20240229");
    else if (r.ddd)
        strcpy(out, "11");
    else if (r.telephone)
        strcpy(out, "33334444");
    else if (r.format == 'N' && r.fixed)
        sprintf(out, "%0*u", (int)r.size, serial);
    else
        strcpy(out, r.format == 'N' ? "1" : "A");
}

void good_line(unsigned kind, unsigned serial, char *out)
{
    out[0] = 0;
    for (unsigned f = 1; f <= plain_fields(edition, kind); f++) {
        char field[160];
        good_field(kind, f, serial, field);
        strcat(out, field);
        strcat(out, "|");
    }
}

/* Cuts a text at its bars and gives it to the line writer. */
plain_written write_fields(unsigned kind, const char *joined, uint8_t *out, size_t room)
{
    uint8_t contents[2048];
    size_t lengths[64], fields = 0, len = 0;
    for (const char *s = joined; *s; s += strcspn(s, "|") + 1) {
        lengths[fields] = strcspn(s, "|");
        memcpy(contents + len, s, lengths[fields]);
        len += lengths[fields++];
    }
    uint8_t *c = exact_copy(contents, len);
    size_t *l = exact_copy(lengths, fields * sizeof *lengths);
    plain_written w = plain_write_line(edition, kind, c, len, l, fields, out, room);
    free(c);
    free(l);
    if (w.number < 32)
        given[w.number]++;
    return w;
}

unsigned named(const char *name)
{
    for (unsigned k = 1; k <= plain_kinds(); k++)
        if (strcmp(plain_name(k), name) == 0)
            return k;
    return 0;
}

/* A file that runs down a path of names, serial 1 for each of them; next is what the test will add. */
text path_file(unsigned declarant, const char *path, const char *next, uint32_t *lines)
{
    text t = head(declarant, people_blocks(path, ' ') | people_blocks(next, ' '));
    char line[512], name[16];
    int used;
    *lines = 3;
    for (const char *s = path; sscanf(s, "%15s%n", name, &used) == 1; s += used) {
        good_line(named(name), 1, line);
        add_line(&t, line);
        ++*lines;
    }
    return t;
}

/* The two records that the older edition does not know. */
int lacking(const char *name)
{
    return edition == PLAIN_2022 && source_holds("RTDS ESDS", name);
}

void expect_written(const char *what, unsigned kind, const char *fields, uint32_t number,
                    uint32_t field)
{
    uint8_t out[512];
    memset(out, 0xEE, sizeof out);
    plain_written w = write_fields(kind, fields, out, sizeof out);
    is_true(w.number == number && w.field == field, what, w.number, w.field);
    int kept = 1;
    for (size_t i = w.count; i < sizeof out; i++)
        kept = kept && out[i] == 0xEE;
    is_true(kept && (number == 0 || w.count == 0), "output kept", w.count, w.number);
}
