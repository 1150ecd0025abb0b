/* Change A7: the totals beside the table, worked out by hand, after every line, before every sort of refusal, in places lent short
   and long, by chance in three ways, and as large as they can be. */
#include <stdio.h>
#include <stdlib.h>
#include <string.h>

#include "test_random.h"
#include "test_source.h"
#include "test_totals.h"

enum { PLACES = 74, LENT = 80, LINES = 65536 };
#define UNTOUCHED 0xA5A5A5A5u
#define PATTERN UINT64_C(0xA5C3A5C3A5C3A5C3)
#define LARGEST UINT64_C(9999999999999)
#define N "\r\n"

/* ---- one question, in every way ---- */

static uint64_t *patterned(size_t places)
{
    uint64_t *out = malloc(8 * places + 8);
    for (size_t i = 0; i < places; i++)
        out[i] = PATTERN;
    return out;
}

static uint32_t *untouched(size_t numbers)
{
    uint32_t *out = malloc(4 * numbers + 4);
    for (size_t i = 0; i < numbers; i++)
        out[i] = UNTOUCHED;
    return out;
}

/* With a table and with a room alone: the answer and table of the check without totals, and one set of totals, in its places alone. */
static plain_answer ask_totals(const text *t, size_t room, uint64_t got[PLACES])
{
    size_t numbers = 5 * room + below_n(5);
    uint32_t *table = untouched(numbers), *beside = untouched(numbers);
    uint64_t *with = patterned(LENT), *without = patterned(LENT);
    plain_answer a = plain_check(t->bytes, t->len, table, numbers);
    plain_answer b = plain_check_totals(t->bytes, t->len, beside, numbers, with, LENT);
    plain_answer c = plain_check_room_totals(t->bytes, t->len, room, without, LENT);
    is_true(equal(a, b) && equal(a, c), "answers as without totals", a.number, a.line);
    is_true(memcmp(table, beside, 4 * numbers) == 0, "table as without totals", a.number, a.line);
    is_true(memcmp(with, without, 8 * LENT) == 0, "totals with and without a table", a.number, a.line);
    for (size_t k = PLACES; k < LENT; k++)
        is_true(with[k] == PATTERN, "past the last kind", k, a.number);
    memcpy(got, with, 8 * PLACES);
    if (a.number < 32)
        given[a.number]++;
    free(table);
    free(beside);
    free(with);
    free(without);
    return a;
}

/* The kinds named have the totals behind their names, and all others 0; so says the reading of the first lines. */
static void are_totals(const char *what, const text *t, plain_answer a, const uint64_t *got, const char *wanted)
{
    uint64_t sums[PLACES] = {0};
    unsigned long long sum;
    char name[16];
    int used;
    for (const char *s = wanted; sscanf(s, "%15s %llu%n", name, &sum, &used) == 2; s += used)
        sums[named(name)] += sum;
    for (uint32_t k = 0; k < PLACES; k++) {
        is_true(got[k] == sums[k], what, k, got[k]);
        is_true(plain_total_reading(t->bytes, t->len, a.entries, k) == sums[k], "by reading, as by hand", k, a.entries);
    }
}

static void expect_totals(const char *what, const text *t, size_t room, plain_answer wanted, const char *totals)
{
    uint64_t got[PLACES];
    wanted.entries = wanted.number ? wanted.line - 1 : wanted.line;
    plain_answer a = ask_totals(t, room, got);
    is_true(equal(a, wanted), what, a.number, a.line);
    is_right(what, t, wanted);
    are_totals(what, t, a, got, totals);
}

/* ---- a small file by hand, line by line ---- */

/* After lines 1 to 3 of either declarant, or of DECPJ alone: each line, the kind that it adds to, if any, and how much. */
static const struct { const char *line, *name; uint64_t adds; int company; } small[] = {
    {"IDREC|0561|", NULL, 0, 0},
    {"BPFDEC|{cpf 10}|999||S|S|", NULL, 0, 0},
    {"RTRT|1|2|3|4|5|6|7|8|9|10|11|12|13|", "RTRT", 91, 0},                     /* 13 * 14 / 2, the thirteenth is 13 */
    {"RTPO|1000|1000|1000|1000|1000|1000|1000|1000|1000|1000|1000|1000||", "RTPO", 12000, 0},          /* no thirteenth */
    {"RTIRF|||||||||||||77|", "RTIRF", 77, 0},                                  /* the thirteenth alone */
    {"CJAC||||||||||||||", NULL, 0, 0},                                         /* no amount at all */
    {"RIL96|9999999999999|", "RIL96", 9999999999999, 1},                        /* annual */
    {"RIPTS|4294967297|", "RIPTS", 4294967297, 1},                              /* 2^32 + 1 */
    {"RIJMRE|5|", "RIJMRE", 5, 0},
    {"RIO|31|1234567|", "RIO", 31, 0},                                          /* field 3 is a text, of digits here */
    {"INFPC|{cnpj 3}|9|", NULL, 0, 0},
    {"RTPP|||||||6|||||||", "RTPP", 6, 0},
    {"INFPA|{cpf 4}|20240229|5|04|", NULL, 0, 0},
    {"RTPA|20||||||||||||3|", "RTPA", 23, 0},
    {"ESPA|9999999999999|9999999999999||||||||||||", "ESPA", 19999999999998, 0},
    {"BPFDEC|{cpf 11}|7||N|N|", NULL, 0, 0},
    {"RTRT|100||||||||||||100000|", "RTRT", 100100, 0},                         /* the same kind, another person */
    {"RIO|69|A|", "RIO", 69, 0},
    {"BPJDEC|{cnpj 5}|8|", NULL, 0, 0},
    {"RTRT|||1000000||||||||||500|", "RTRT", 1000500, 0},                       /* and a company */
    {"PROC|1|12|1|{cpf 6}|A|888888|", NULL, 0, 1},                              /* PROC 7 is in no value record */
    {"IDREC|0561|", NULL, 0, 1},
    {"BPFPROC|{cpf 7}|A||", NULL, 0, 1},
    {"RTPP|94|||||||||||||", "RTPP", 94, 1},                                    /* the same kind below another parent */
    {"RIRSR|640|", "RIRSR", 640, 1},
    {"RRA|1|44|2|{cnpj 8}|B|999999|", NULL, 0, 0},                              /* nor is RRA 7 */
    {"IDREC|0561|", NULL, 0, 0},
    {"BPFRRA|{cpf 9}|A|||N|", NULL, 0, 0},
    {"QTMESES|1|22|333|4444|5|6|7|8|9|10|11|12|", NULL, 0, 0},                  /* months, not money */
    {"DAJUD||2||||||||||||", "DAJUD", 2, 0},
    {"SCP|{cnpj 9}|A|", NULL, 0, 0},
    {"BPFSCP|{cpf 12}|A|1234|", NULL, 0, 0},                                    /* a share */
    {"RISCP||||||||||||8|1|", "RISCP", 9, 0},
    {"PSE|", NULL, 0, 0},
    {"OPSE|{cnpj 13}|A|123456|", NULL, 0, 0},
    {"TPSE|{cpf 14}|A|777|", NULL, 0, 0},                                       /* nor TPSE 4 */
    {"RTPSE|{cpf 15}|A|40|2|", "RTPSE", 42, 0},                                 /* both fields */
    {"RTPSE|{cnpj 15}|A||999999999|", "RTPSE", 999999999, 0},
    {"DTPSE|{cpf 16}||A|04|555|", NULL, 0, 0},                                  /* nor DTPSE 6 */
    {"RDTPSE|{cpf 17}|A|999999999||", "RDTPSE", 999999999, 0},
    {"RDTPSE|{cnpj 17}|A|3|4|", "RDTPSE", 7, 0},
    {"FIMDirf|", NULL, 0, 0},
};

enum { SMALL = sizeof small / sizeof *small };

/* RTRT 91 + 100,100 + 1,000,500; RIO 31 + 69; RTPP 6 + 94; RTPSE 42 + 999,999,999; RDTPSE 999,999,999 + 7. */
#define BOTH_TOTALS "RTRT 1100691 RTPO 12000 RTIRF 77 RIJMRE 5 RIO 100 RTPA 23 ESPA 19999999999998 DAJUD 2 RISCP 9 " \
    "RTPSE 1000000041 RDTPSE 1000000006 "
static const char *const small_totals[] = {BOTH_TOTALS "RTPP 6",
    BOTH_TOTALS "RTPP 100 RIL96 9999999999999 RIPTS 4294967297 RIRSR 640"};

/* So many lines of the small file, and the totals that they add up to. */
static text small_file(unsigned d, size_t lines, uint64_t sums[PLACES])
{
    text t = head(d, PEOPLE_SCP | PEOPLE_PSE);
    size_t n = 3;
    memset(sums, 0, 8 * PLACES);
    for (unsigned i = 0; i < SMALL && n < lines; i++) {
        if (small[i].company && d != DECPJ)
            continue;
        add_line(&t, small[i].line);
        if (small[i].name != NULL)
            sums[named(small[i].name)] += small[i].adds;
        n++;
    }
    while (n > lines)
        for (n--, t.len -= 2; t.len > 0 && t.bytes[t.len - 1] != '\n';)
            t.len--;
    return t;
}

static void are_sums(const char *what, const text *t, plain_answer a, const uint64_t *got, const uint64_t *sums)
{
    for (uint32_t k = 0; k < PLACES; k++) {
        is_true(got[k] == sums[k], what, k, a.entries);
        is_true(plain_total_reading(t->bytes, t->len, a.entries, k) == sums[k], "by reading, line by line", k, a.entries);
    }
}

/* After every line: the file with so much room, cut there, and with a wrong line there before the others. */
static void test_line_by_line(unsigned d)
{
    uint64_t got[PLACES], sums[PLACES], all[PLACES];
    text whole = small_file(d, 1000, all);
    size_t lines = count_lf(whole.bytes, whole.len);
    expect_totals("the small file", &whole, lines, (plain_answer){0, (uint32_t)lines, 0, 0}, small_totals[d - DECPF]);
    for (size_t n = 0; n < lines; n++) {
        text t = small_file(d, n, sums);
        plain_answer a = ask_totals(&whole, n, got);
        is_true(equal(a, (plain_answer){7, (uint32_t)n + 1, 0, n}), "room for so many", n, a.number);
        are_sums("room for so many", &whole, a, got, sums);
        a = ask_totals(&t, lines, got);
        is_true(equal(a, (plain_answer){1, (uint32_t)n + 1, 0, n}), "cut after so many", n, a.number);
        are_sums("cut after so many", &t, a, got, sums);
        size_t len = t.len;
        add_line(&t, "RTXX|1|2|3|4|5|6|7|8|9|10|11|12|13|");
        add_bytes(&t, whole.bytes + len, whole.len - len);
        a = ask_totals(&t, lines, got);
        is_true(equal(a, (plain_answer){9, (uint32_t)n + 1, 1, n}), "wrong after so many", n, a.number);
        are_sums("wrong after so many", &t, a, got, sums);
        drop(&t);
    }
    drop(&whole);
}

/* ---- every kind and every field ---- */

/* The 40 kinds with their numbers, by the fields that are amounts: 2 to 14, 2 alone, 4 and 5. */
static const struct { const char *kinds; uint64_t ones; } sorts[] = {
    {"RTRT 7 RTPO 8 RTDP 9 RTDS 10 RTIRF 11 CJAC 12 CJAA 13 ESRT 14 ESPO 15 ESDP 16 ESDS 17 ESIR 18 ESDJ 19 RTPP 21 RTFA 22 RTSP 23 "
     "RTEP 24 ESPP 25 ESFA 26 ESSP 27 ESEP 28 RTPA 30 ESPA 31 RIDAC 32 RIIRP 33 RIAP 34 RIMOG 35 RIP65 36 RIBMR 37 RICAP 38 RIRPC 39 "
     "DAJUD 57 RISCP 61", 1111111111111},
    {"RIL96 40 RIPTS 41 RIJMRE 42 RIO 43 RIRSR 53", 1},
    {"RTPSE 66 RDTPSE 68", 1100}};

#define EVERY "IDREC BPFDEC RTRT RTPO RTDP RTDS RTIRF CJAC CJAA ESRT ESPO ESDP ESDS ESIR ESDJ RIDAC RIIRP RIAP RIMOG RIP65 RIBMR RICAP " \
    "RIRPC RIL96 RIPTS RIJMRE RIO INFPC RTPP RTFA RTSP RTEP ESPP ESFA ESSP ESEP INFPA RTPA ESPA PROC IDREC BPFPROC RIRSR RRA IDREC " \
    "BPFRRA DAJUD QTMESES SCP BPFSCP RISCP PSE OPSE TPSE RTPSE DTPSE RDTPSE FIMDirf"

/* A digit that tells a kind from its neighbours; by both of them every kind is told from every other. */
static unsigned digit_of(unsigned kind, int second)
{
    return 1 + (second ? kind / 9 : kind % 9);
}

/* An amount in field f is the kind's digit and f - 2 zeros, so the total shows each field's own digit. */
static void add_digits(text *t, unsigned kind, int second)
{
    for (unsigned f = 1; f <= plain_fields(edition, kind); f++) {
        char field[160];
        good_field(kind, f, 1, field);
        if (plain_field_row(edition, kind, f).amount)
            sprintf(field, "%u%s", digit_of(kind, second), many('0', f - 2));
        else if (plain_field_row(edition, kind, f).months)
            strcpy(field, "9999");
        add(t, field);
        add(t, "|");
    }
    add(t, N);
}

static void test_every_kind(int second)
{
    text t = head(DECPJ, PEOPLE_SCP | PEOPLE_PSE), wanted = {0};
    char name[16], line[64];
    unsigned kind;
    int used;
    for (const char *s = EVERY; sscanf(s, "%15s%n", name, &used) == 1; s += used)
        if (!lacking(name))
            add_digits(&t, named(name), second);
    for (unsigned i = 0; i < 3; i++)
        for (const char *s = sorts[i].kinds; sscanf(s, "%15s %u%n", name, &kind, &used) == 2; s += used) {
            is_true(named(name) == kind, "the table's number", kind, 0);
            sprintf(line, "%s %llu ", name, (unsigned long long)(digit_of(kind, second) * sorts[i].ones));
            add(&wanted, lacking(name) ? "" : line);
        }
    add_bytes(&wanted, "", 1);
    expect_totals("every kind", &t, 100, (plain_answer){0, (uint32_t)count_lf(t.bytes, t.len), 0, 0}, (char *)wanted.bytes);
    drop(&t);
    drop(&wanted);
}

/* ---- refused at a line ---- */

#define PERSON "IDREC|0561|" N "BPFDEC|11144477735|A||N|N|" N
#define TWELVE "1|2|3|4|5|6|7|8|9|10|11|12|"
#define HOLDER "PSE|" N "OPSE|{cnpj 1}|A||" N "TPSE|{cpf 1}|A|700|" N
#define LATER "RTIRF|1000|||||||||||||" N "CJAC|" TWELVE "2000|" N

/* What follows lines 1 to 3 of a DECPJ, and the totals before the bad line, which must not be those with the bad line's amounts or
   with those of the lines behind it. */
static const struct { const char *what, *rest; uint32_t number, line, field; const char *totals; } refusals[] = {
    {"21", PERSON "RTRT|5|||||||||||||" N "RTRT|" TWELVE "7|" N LATER, 21, 7, 1, "RTRT 5"},
    {"21, annual", PERSON "RIJMRE|5|" N "RTPO|1|||||||||||||" N "RIJMRE|6|" N LATER, 21, 8, 1, "RIJMRE 5 RTPO 1"},
    {"21, RIO", PERSON "RIO|5|A|" N "RIO|6|B|" N LATER, 21, 7, 1, "RIO 5"},
    {"20, RTPSE", HOLDER "RTPSE|{cpf 5}|A|40|2|" N "RTPSE|{cpf 5}|A|300|3000|" N "RTPSE|{cpf 6}|A|1|1|" N, 20, 8, 2, "RTPSE 42"},
    {"20, RDTPSE", HOLDER "DTPSE|||A||9|" N "RDTPSE|{cnpj 5}|A|40|2|" N "RDTPSE|{cpf 5}|A|300|3000|" N, 20, 9, 2, "RDTPSE 42"},
    {"20, person", PERSON "RTRT|5|||||||||||||" N "BPFDEC|11144477735|A||N|N|" N LATER, 20, 7, 2, "RTRT 5"},
    {"20, PROC", "PROC|1|2||||5|" N "IDREC|0561|" N "BPFPROC|{cpf 1}|A||" N "RIRSR|6|" N "PROC|1|2||||7|" N, 20, 8, 2, "RIRSR 6"},
    {"14, last amount", PERSON "RTPO|5|||||||||||||" N "RTRT|" TWELVE "1X|" N LATER, 14, 7, 14, "RTPO 5"},
    {"15, last amount", PERSON "RTPO|5|||||||||||||" N "RTRT|" TWELVE "99999999999999|" N LATER, 15, 7, 14, "RTPO 5"},
    {"16, last amount", PERSON "RTPO|5|||||||||||||" N "RTRT|" TWELVE "01|" N LATER, 16, 7, 14, "RTPO 5"},
    {"14, refund", HOLDER "RTPSE|{cpf 5}|A|40|2|" N "RTPSE|{cpf 6}|A|300|-3|" N "RTPSE|{cpf 7}|A|1|1|" N, 14, 8, 5, "RTPSE 42"},
    {"15, refund", HOLDER "RTPSE|{cpf 5}|A|40|2|" N "RTPSE|{cpf 6}|A|300|1234567890|" N, 15, 8, 5, "RTPSE 42"},
    {"13, RIO", PERSON "RTRT|5|||||||||||||" N "RIO|6||" N LATER, 13, 7, 3, "RTRT 5"},
    {"13, TPSE", HOLDER "RTPSE|{cpf 5}|A|40|2|" N "TPSE|{cpf 2}|A||" N "RTPSE|{cpf 5}|A|40|2|" N, 13, 8, 4, "RTPSE 42"},
    {"26, refund", HOLDER "RTPSE|{cpf 5}|A|40|2|" N "RTPSE|" BAD_CPF "|A|300|3000|" N "RTPSE|{cnpj 7}|A|1|1|" N, 26, 8, 2, "RTPSE 42"},
    {"19", "RRA|1|2||||9|" N "IDREC|0561|" N "BPFRRA|{cpf 1}|A|||N|" N "DAJUD|" TWELVE "1|" N "RRA|1|3|||A|9|" N, 19, 8, 6, "DAJUD 79"},
    {"18", PERSON "RTRT|5|||||||||||||" N "BPFDEC|{cpf 200000000}|A||X|N|" N LATER, 18, 7, 5, "RTRT 5"},
    {"17", PERSON "RTRT|5|||||||||||||" N "BPFDEC|{cpf 200000000}|A|20230229|N|N|" N LATER, 17, 7, 4, "RTRT 5"},
    {"11, more", PERSON "RTPO|5|||||||||||||" N "RTRT|" TWELVE "13|14|" N LATER, 11, 7, 0, "RTPO 5"},
    {"11, fewer", PERSON "RTPO|5|||||||||||||" N "RTRT|" TWELVE N LATER, 11, 7, 0, "RTPO 5"},
    {"12, no person", "IDREC|0561|" N "RTRT|" TWELVE "13|" N, 12, 5, 1, ""},
    {"12, no INFPC", PERSON "RTRT|5|||||||||||||" N "RTPP|" TWELVE "13|" N LATER, 12, 7, 1, "RTRT 5"},
    {"10", PERSON "RTRT|5|||||||||||||" N "RIMUN|" TWELVE "13|" N LATER, 10, 7, 1, "RTRT 5"},
    {"9", PERSON "RTRT|5|||||||||||||" N "rtpo|" TWELVE "13|" N LATER, 9, 7, 1, "RTRT 5"},
    {"8", PERSON "RTRT|5|||||||||||||" N "RTPO|" TWELVE "13" N LATER, 8, 7, 0, "RTRT 5"},
    {"8, empty", PERSON "RTRT|5|||||||||||||" N N LATER, 8, 7, 0, "RTRT 5"},
    {"6", PERSON "RTRT|5|||||||||||||" N "RTPO|" TWELVE "13|\n" LATER, 6, 7, 0, "RTRT 5"},
    {"5", PERSON "RTRT|5|||||||||||||" N "RTPO|" TWELVE "13|", 5, 7, 0, "RTRT 5"},
    {"5, CR", PERSON "RTRT|5|||||||||||||" N "RTPO|" TWELVE "13|\r", 5, 7, 0, "RTRT 5"},
    {"2", PERSON "RTRT|5|||||||||||||" N "FIMDirf|" N LATER, 2, 8, 0, "RTRT 5"},
    {"1", PERSON "RTRT|5|||||||||||||" N, 1, 7, 0, "RTRT 5"},
};

static void test_refusals(void)
{
    for (unsigned i = 0; i < sizeof refusals / sizeof *refusals; i++) {
        text t = head(DECPJ, strncmp(refusals[i].rest, "PSE", 3) ? 0 : PEOPLE_PSE);
        add_text(&t, refusals[i].rest);
        plain_answer wanted = {refusals[i].number, refusals[i].line, refusals[i].field, 0};
        expect_totals(refusals[i].what, &t, 100, wanted, refusals[i].totals);
        drop(&t);
    }
}

/* Number 7 at a value line, a line too long, a value record in line 1, and the two records that one edition lacks. */
static void test_other_refusals(void)
{
    text t = head(DECPF, 0);
    add_text(&t, PERSON "RTRT|5|||||||||||||" N "RTPO|" TWELVE "13|" N "FIMDirf|" N);
    expect_totals("no room for the second", &t, 6, (plain_answer){7, 7, 0, 0}, "RTRT 5");
    expect_totals("no room for the first", &t, 5, (plain_answer){7, 6, 0, 0}, "");
    expect_totals("no room for the end", &t, 7, (plain_answer){7, 8, 0, 0}, "RTRT 5 RTPO 91");
    drop(&t);
    t = head(DECPF, 0);
    add_text(&t, PERSON "RTRT|5|||||||||||||" N "RTPO|" TWELVE);
    for (unsigned i = 0; i < 3; i++)
        add(&t, many('1', 400));
    expect_totals("4", &t, 100, (plain_answer){4, 7, 0, 0}, "RTRT 5");
    drop(&t);
    add_text(&t, "RTRT|1|2|3|4|{year}|{mark}|7|8|9|10|11|12|13|" N DIRF_LINE N);
    expect_totals("line 1", &t, 100, (plain_answer){12, 1, 1, 0}, "");
    drop(&t);
    expect_totals("nothing", &t, 100, (plain_answer){1, 1, 0, 0}, "");
    expect_totals("nothing, and no room", &t, 0, (plain_answer){1, 1, 0, 0}, "");
    t = head(DECPF, 0);
    add_text(&t, PERSON "RTDP|5|||||||||||||" N "RTDS|" TWELVE "13|" N "ESDS||||4||||||||||" N "FIMDirf|" N);
    if (edition == PLAIN_2025)
        expect_totals("its own two", &t, 100, (plain_answer){0, 9, 0, 0}, "RTDP 5 RTDS 91 ESDS 4");
    else
        expect_totals("without the two", &t, 100, (plain_answer){9, 7, 1, 0}, "RTDP 5");
    drop(&t);
}

/* ---- as many places as are lent ---- */

/* So many places of those there are, all with a pattern before; with the table and without. */
static void expect_lent(const text *t, size_t room, size_t lent, const uint64_t *sums)
{
    uint32_t *table = untouched(5 * room);
    for (int with = 0; with < 2; with++) {
        uint64_t *totals = patterned(lent + 8);
        plain_answer a = with ? plain_check_totals(t->bytes, t->len, table, 5 * room, totals, lent)
            : plain_check_room_totals(t->bytes, t->len, room, totals, lent);
        is_true(equal(a, plain_check_room(t->bytes, t->len, room)), "answers whatever is lent", lent, a.number);
        for (size_t k = 0; k < lent + 8; k++)
            is_true(totals[k] == (k < lent && k < PLACES ? sums[k] : PATTERN), "so many places", k, lent);
        free(totals);
    }
    free(table);
}

/* Every length to past the last kind and some far past it; accepted, refused at several lines, and nothing at all. */
static void test_lent(void)
{
    static const size_t rooms[] = {100, 30, 7, 6, 2, 0};
    const size_t most = 90;
    uint64_t sums[PLACES], all[PLACES];
    text whole = small_file(DECPJ, 1000, all), nothing = {0};
    for (unsigned i = 0; i < 6; i++) {
        text t = small_file(DECPJ, rooms[i], sums);
        for (size_t lent = 0; lent <= 1000; lent += lent < most ? 1 : 455) {
            expect_lent(&whole, rooms[i], lent, sums);
            expect_lent(&t, rooms[i], lent, sums);
        }
        drop(&t);
    }
    memset(sums, 0, sizeof sums);
    for (size_t lent = 0; lent <= most; lent++)
        expect_lent(&nothing, 0, lent, sums);
    plain_answer a = plain_check_totals(whole.bytes, whole.len, NULL, 0, NULL, 0);
    is_true(equal(a, (plain_answer){7, 1, 0, 0}), "nothing lent", a.number, a.line);
    a = plain_check_room_totals(NULL, 0, 9, NULL, 0);
    is_true(equal(a, (plain_answer){1, 1, 0, 0}), "nothing lent, nothing read", a.number, a.line);
    drop(&whole);
}

/* ---- the reading by itself ---- */

static void expect_read(const char *what, const char *rest, size_t lines, const char *name, uint64_t wanted)
{
    text t = head(DECPF, 0);
    add_text(&t, rest);
    uint8_t *file = edge_copy(t.bytes, t.len);
    is_true(plain_total_reading(file, t.len, lines, named(name)) == wanted, what, lines, named(name));
    drop(&t);
}

/* It takes lines that the check would not, and files that are none. */
static void test_reading(void)
{
    static const char two[] = "RTRT|1|2|" N "RTRT|30|||||||||||||" N;
    for (size_t lines = 0; lines < 9; lines++)
        expect_read("so many lines", two, lines, "RTRT", lines < 4 ? 0 : lines < 5 ? 3 : 33);
    expect_read("any number of lines", two, SIZE_MAX, "RTRT", 33);
    expect_read("what no CR LF ends", "RTRT|1|" N "RTRT|20|", 9, "RTRT", 1);
    expect_read("a CR alone", "RTRT|1|" N "RTRT|20|\r", 9, "RTRT", 1);
    expect_read("a CR or LF in a line", "RTRT|1|\n|\r|20|" N "\nRTRT|300|" N "RTRT|4000|\r" N, 9, "RTRT", 4021);
    expect_read("empty lines", N N "RTRT|5|" N, 9, "RTRT", 5);
    expect_read("no amounts", "RTRT|X|01|12345678901234||-1|7|" N, 9, "RTRT", 7);
    expect_read("past the record's fields", "RTRT|" TWELVE "13|14|15|" N, 9, "RTRT", 91);
    expect_read("no bar", "RTRT" N "|RTRT|5|" N "RTRTX|5|" N "RTR|5|" N "rtrt|5|" N, 9, "RTRT", 0);
    expect_read("the last part", "RTRT|5|6" N, 9, "RTRT", 5);
    expect_read("RIO alone", "RIO|5|6|7|" N "RIRSR|8|" N, 9, "RIO", 5);
    expect_read("both refunds", "RTPSE|1|20|300|4000|50000|" N "RDTPSE|||7||" N, 9, "RTPSE", 4300);
    expect_read("of the dependant", "RTPSE|1|20|300|4000|50000|" N "RDTPSE|||7||" N, 9, "RDTPSE", 7);
    expect_read("months", "QTMESES|1|2|3|4|5|6|7|8|9|10|11|12|" N, 9, "QTMESES", 0);
    expect_read("no value record", "PROC|1|2||||5|" N, 9, "PROC", 0);
    expect_read("no value record", "RRA|1|2||||5|" N, 9, "RRA", 0);
    expect_read("no value record", "TPSE|||5|" N, 9, "TPSE", 0);
    expect_read("no value record", "DTPSE|||||5|" N, 9, "DTPSE", 0);
    expect_read("left for later", "RIMUN|5|" N, 9, "RIMUN", 0);
    expect_read("the edition's own", "RTDS|5|6|" N, 9, "RTDS", edition == PLAIN_2025 ? 11 : 0);
    expect_read("the edition's own", "ESDS|5|6|" N, 9, "ESDS", edition == PLAIN_2025 ? 11 : 0);
    is_true(plain_total_reading(NULL, 0, 9, named("RTRT")) == 0, "nothing to read", 0, 0);
    text t = head(DECPF, 0);
    static const uint32_t none[] = {0, 74, 75, 7 + 256, 7 + 65536, UINT32_MAX};
    add_text(&t, two);
    for (unsigned i = 0; i < 6; i++)
        is_true(plain_total_reading(t.bytes, t.len, 9, none[i]) == 0, "no such kind", none[i], 0);
    drop(&t);
}

/* ---- by chance ---- */

/* Which fields 000 prints as amounts in its value records: N, variável, 13 or 9, below the headings of values and refunds. */
static unsigned amount_bits(unsigned kind)
{
    const char *name = plain_name(kind), *like = source_holds("RTDS ESDS", name) ? "RTDP" : name;
    unsigned bits = 0;
    if (source_holds("PROC RRA TPSE DTPSE RESPO", name))
        return 0;
    for (unsigned f = 1; f <= 15; f++) {
        source_line r = source_row(like, f);
        if (r.format == 'N' && !r.fixed && (r.size == 13 || r.size == 9))
            bits |= 1u << f;
    }
    return bits;
}

/* By the check's table and 000's own rows, with neither the checker's rows nor its readers. */
static void printed_totals(const text *t, const uint32_t *table, size_t entries, uint64_t sums[PLACES])
{
    static unsigned bits[PLACES], ready;
    for (unsigned kind = 1; kind < PLACES && !ready; kind++)
        bits[kind] = amount_bits(kind);
    ready = 1;
    memset(sums, 0, 8 * PLACES);
    for (size_t n = 0; n < entries; n++) {
        const char *at = (const char *)t->bytes + table[5 * n + 1];
        for (unsigned f = 1; f <= 15 && *at != '\r'; f++, at += strcspn(at, "|") + 1)
            if (bits[table[5 * n]] >> f & 1)
                sums[table[5 * n]] += strtoull(at, NULL, 10);
    }
}

/* One file with a room, in three ways; marks the kinds that have a total. */
static void ask_by_chance(text *t, size_t room, unsigned long seen[2][PLACES])
{
    uint64_t got[PLACES], printed[PLACES];
    uint32_t *table = untouched(5 * room);
    plain_answer a = ask_totals(t, room, got);
    plain_check(t->bytes, t->len, table, 5 * room);
    printed_totals(t, table, a.entries, printed);
    uint8_t *file = edge_copy(t->bytes, t->len);
    for (uint32_t k = 0; k < LENT; k++) {
        uint64_t wanted = k < PLACES ? got[k] : 0;
        is_true(plain_total_reading(file, t->len, a.entries, k) == wanted, "as by reading", k, a.entries);
        is_true(k >= PLACES || printed[k] == wanted, "as printed", k, a.entries);
        if (k < PLACES)
            seen[a.number != 0][k] += wanted != 0;
    }
    free(table);
}

/* Accepted files, with too little room, changed and cut; in many of them every kind that has a total has one, and no other. */
static void test_by_chance(unsigned rounds)
{
    static unsigned long seen[2][PLACES];
    memset(seen, 0, sizeof seen);
    for (unsigned i = 0; i < rounds; i++) {
        text t = i % 5 == 4 ? crowd_file() : random_file(i % 5 == 3);
        size_t lines = count_lf(t.bytes, t.len);
        ask_by_chance(&t, lines + 1, seen);
        ask_by_chance(&t, below_n((uint32_t)lines), seen);
        if (below_n(3))
            change(&t);
        else
            t.len -= below_n((uint32_t)t.len);
        ask_by_chance(&t, lines + 2, seen);
        drop(&t);
    }
    for (unsigned k = 0; k < PLACES && rounds >= 500; k++) {
        int has = k > 0 && amount_bits(k) != 0 && !lacking(plain_name(k));
        is_true((seen[0][k] != 0) == has && (seen[1][k] != 0) == has, "totals come up", k, seen[0][k]);
    }
}

/* ---- as large as they can be ---- */

/* Lines 1 to 3, those before, so many times the unit with serials of its own, and those behind. */
static text large_file(unsigned blocks, const char *before, const char *unit, unsigned times, const char *behind)
{
    text t = head(DECPJ, blocks);
    char lines[1024];
    add_text(&t, before);
    for (unsigned i = 0; i < times; i++) {
        snprintf(lines, sizeof lines, unit, i + 1);
        add_text(&t, lines);
    }
    add_text(&t, behind);
    return t;
}

/* Wide enough for any number of lines: a total that needs more than 64 bits would show. */
typedef unsigned __int128 wide;

static wide product(wide lines, wide fields, wide amount)
{
    return lines * fields * amount;
}

/* The kinds named have these totals, in the order of their names, and all others 0. */
static void expect_large(const char *what, const text *t, plain_answer wanted, const char *names, const wide *sums)
{
    wide all[PLACES] = {0};
    uint64_t got[PLACES];
    char name[16];
    int used;
    plain_answer a = ask_totals(t, LINES, got);
    wanted.entries = wanted.number ? wanted.line - 1 : wanted.line;
    is_true(equal(a, wanted), what, a.number, a.line);
    for (const char *s = names; sscanf(s, "%15s%n", name, &used) == 1; s += used) {
        all[named(name)] = *sums++;
        is_true(plain_total_reading(t->bytes, t->len, a.entries, named(name)) == all[named(name)], "large, by reading", a.entries, 0);
    }
    for (unsigned k = 0; k < PLACES; k++)
        is_true(got[k] == all[k], what, k, got[k]);
}

#define NINES "9999999999999|"
#define FULL NINES NINES NINES NINES NINES NINES NINES NINES NINES NINES NINES NINES NINES N
#define ONE_PERSON "BPFDEC|{cpf %u}|A||N|N|" N "RTRT|" FULL

/* As many RTRT as there can be, each with a person before it: 4 + 2 * 32,765 + 2 lines.
   32,765 * 13 = 425,945, and 425,945 * 9,999,999,999,999 = 4,259,450,000,000,000,000 - 425,945. */
static void test_largest(void)
{
    text t = large_file(0, "IDREC|0561|" N, ONE_PERSON, 32765, "IDREC|0562|" N "FIMDirf|" N);
    wide sum = UINT64_C(4259449999999574055);
    expect_large("as large as can be", &t, (plain_answer){0, LINES, 0, 0}, "RTRT", &sum);
    drop(&t);
    /* Line 65,536 is one more RTRT, and line 65,537 none. */
    t = large_file(0, "IDREC|0561|" N, ONE_PERSON, 32766, "RTPO|" FULL "FIMDirf|" N);
    sum = product(32766, 13, LARGEST);
    expect_large("3", &t, (plain_answer){3, LINES + 1, 0, 0}, "RTRT", &sum);
    drop(&t);
}

/* 4 + 10,921 * 6 + 5 + 1 lines; then 6 + 32,764 + 1 + 32,764 + 1 lines, whose 65,528 amounts of 999,999,999 in each kind are
   65,528,000,000,000 - 65,528. */
static void test_large(void)
{
    static const char holder[] = HOLDER, refund[] = "RTPSE|{cpf %u}|A|999999999|999999999|" N;
    const wide year = product(10921, 1, LARGEST);
    wide sums[] = {product(10921, 13, LARGEST), year, year, year, year};
    text t = large_file(0, "IDREC|0561|" N, ONE_PERSON "RIL96|" NINES N "RIPTS|" NINES N "RIJMRE|" NINES N "RIO|" NINES "99|" N, 10921,
                        "IDREC|0562|" N "IDREC|0563|" N "IDREC|0564|" N "IDREC|0565|" N "IDREC|0566|" N "FIMDirf|" N);
    expect_large("annual ones", &t, (plain_answer){0, LINES, 0, 0}, "RTRT RIL96 RIPTS RIJMRE RIO", sums);
    drop(&t);
    t = large_file(PEOPLE_PSE, holder, refund, 32764, "DTPSE|||A||999999999|" N);
    text more = large_file(0, "", "RDTPSE|{cpf %u}|A|999999999|999999999|" N, 32764, "FIMDirf|" N), first = head(DECPJ, 0);
    add_bytes(&t, more.bytes + first.len, more.len - first.len);
    sums[0] = sums[1] = UINT64_C(65527999934472);
    expect_large("refunds", &t, (plain_answer){0, LINES, 0, 0}, "RTPSE RDTPSE", sums);
    drop(&t);
    drop(&more);
    drop(&first);
}

void test_totals(unsigned rounds)
{
    test_line_by_line(DECPF);
    test_line_by_line(DECPJ);
    test_every_kind(0);
    test_every_kind(1);
    test_refusals();
    test_other_refusals();
    test_lent();
    test_reading();
    test_by_chance(rounds / 5 + 10);
    test_largest();
    test_large();
}
