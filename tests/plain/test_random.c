/* Files made by chance, good ones and changed ones. */
#include <stdio.h>
#include <stdlib.h>
#include <string.h>

#include "test_random.h"

static unsigned serial;
static unsigned blocks_to_come;         /* the declarant's line is made before its blocks */
static char key_fields[2][PEOPLE_ID];   /* fields 2 and 3 of the next line, where its kind's order asks for certain ones */
static int key_is_set;

void spoil(char *id, size_t len)
{
    size_t at = below_n((uint32_t)len - 1);
    char first = id[at];
    if (below_n(2)) {
        id[at] = id[at + 1];
        id[at + 1] = first;
    } else {
        id[at + below_n(2)] = (char)('0' + below_n(10));
    }
}

/* A lawyer's field, 5 and 6 now and then empty and the name of any length that the lawyer lets it have. */
static void random_lawyer(unsigned lawyer, unsigned f, char *out)
{
    unsigned longest = people_longest(lawyer);
    people_lawyer(lawyer, f, serial, out);
    if (f > 4 && below_n(4) == 0)
        out[0] = 0;
    else if (f == 6 && longest > 0 && below_n(2))
        strcpy(out, many("AZ \x80\xFF"[below_n(5)], below_n(3) ? 1 + below_n(longest) : longest));
}

/* A good line with optional fields often empty, sizes often full and every lawyer; if changed, some contents are odd and some
   lawyers' fields are made for another lawyer. */
static void random_line(text *t, unsigned kind, int changed)
{
    static const char *const odd[] = {"", "0", "00", "1", "2", "9", "S", "N", "X", "01", "2025", "2022", "2024", "2021",
        "R6GP3ZA", "XJFSFHB",
        "20240229", "20230229", "11144477735", BAD_CPF, "11222333000181", "99999999999999", "A|", "A", "000", "123456789",
        "12345678", "1234567", "\xC3\x87", "2,3", ",", "S,N", "03", "10", "05", "1234567890"};
    unsigned lawyer = below_n(3);
    for (unsigned f = 1; f <= plain_fields(edition, kind); f++) {
        char field[160];
        plain_row r = plain_field_row(edition, kind, f);
        good_field(kind, f, serial, field);
        if (people_flag(kind, f, blocks_to_come) != NULL)
            strcpy(field, people_flag(kind, f, blocks_to_come));
        int key = kind == named("RRA") && f == 3;
        if (key_is_set && (f == 2 || (f == 3 && r.format == 'D')))
            strcpy(field, key_fields[f - 2]);
        else if (people_is_lawyer(plain_name(kind), f))
            random_lawyer(changed && below_n(12) == 0 ? below_n(3) : lawyer, f, field);
        else if (f > 1 && !r.obligatory && !key && below_n(2))
            field[0] = 0;
        else if (f > 2 && r.values == NULL && r.format == 'C' && r.size > 20 && below_n(3) == 0)
            strcpy(field, many("AZ \x80\xFF"[below_n(5)], 1 + below_n(r.size)));
        else if (r.amount || r.months)
            sprintf(field, "%u", 1 + below_n(r.months ? 9999 : r.size == 9 ? 999999999 : 2000000000));
        if (changed && people_is_id(plain_name(kind), f) && field[0] && below_n(30) == 0)
            spoil(field, strlen(field));
        if (changed && below_n(60) == 0)
            strcpy(field, odd[below_n(sizeof odd / sizeof *odd)]);
        add(t, field);
        add(t, "|");
    }
    add(t, "\r\n");
    serial++;
    key_is_set = 0;
}

/* Where the order of dependants is: none of the two fields, then dates alone, then CPFs, now and then one again with a later date. */
typedef struct { unsigned stage, days; char cpf[PEOPLE_ID]; } dependants;

static void random_dependant(text *t, unsigned kind, dependants *p, int changed)
{
    unsigned stage = p->stage + below_n(3 - p->stage);
    int again = stage == 2 && p->cpf[0] && below_n(3) == 0;
    if (stage == 2 && !again)
        people_cpf(serial, p->cpf);
    strcpy(key_fields[0], stage == 2 ? p->cpf : "");
    sprintf(key_fields[1], "20%02u0%u%02u", p->days / 280, 1 + p->days / 28 % 9, 1 + p->days % 28);
    p->days += 1 + below_n(30);
    if (stage == 0 || (stage == 2 && !again && below_n(2)))
        key_fields[1][0] = 0;
    p->stage = stage == 0 ? 1 : stage;
    key_is_set = 1;
    random_line(t, kind, changed);
}

/* CPFs, then CNPJs, which by their bytes alone would often stand before them. */
static void random_refunds(text *t, unsigned kind, int changed)
{
    unsigned n = below_n(4), persons = below_n(n + 1), far = below_n(2) * 900000000;
    for (unsigned i = 0; i < n; i++) {
        if (i < persons)
            people_cpf(far + serial, key_fields[0]);
        else
            people_cnpj(serial, key_fields[0]);
        key_is_set = 1;
        random_line(t, kind, changed);
    }
}

/* An INFPC or INFPA with values, where the beneficiary may have one. */
static void random_group(text *t, unsigned d, unsigned beneficiary, dependants *p, int changed)
{
    unsigned group = named(below_n(2) ? "INFPC" : "INFPA"), from = below_n(73);
    if (!plain_below(edition, d, beneficiary, group))
        return;
    if (group == named("INFPA"))
        random_dependant(t, group, p, changed);
    else
        random_line(t, group, changed);
    for (unsigned i = 0; i < 73; i++) {
        unsigned kind = 1 + (from + i * 5) % 73;
        int lacking_there = kind == named("ESPA") && beneficiary == named("BPFRRA");
        if (plain_below(edition, d, group, kind) && below_n(2) && (!lacking_there || (changed && below_n(9) == 0)))
            random_line(t, kind, changed);
    }
}

static void random_values(text *t, unsigned d, unsigned beneficiary, int changed)
{
    unsigned from = below_n(73), n = below_n(4) ? below_n(8) : 73;
    dependants p = {below_n(3), 0, ""};
    for (unsigned i = 0; i < 73 && n > 0; i++) {
        unsigned kind = 1 + (from + i * 5) % 73;
        if (strncmp(plain_name(kind), "INF", 3) == 0 || !plain_below(edition, d, beneficiary, kind) || !below_n(3))
            continue;
        random_line(t, kind, changed);
        n--;
        while (below_n(4) == 0)
            random_group(t, d, beneficiary, &p, changed);
    }
    while (below_n(3) == 0)
        random_group(t, d, beneficiary, &p, changed);
}

/* The operator's holders, each with refunds and dependants. */
static void random_holders(text *t, int changed)
{
    for (unsigned n = below_n(4); n > 0; n--) {
        dependants p = {below_n(3), 0, ""};
        random_line(t, named("TPSE"), changed);
        random_refunds(t, named("RTPSE"), changed);
        for (unsigned m = below_n(4); m > 0; m--) {
            random_dependant(t, named("DTPSE"), &p, changed);
            random_refunds(t, named("RDTPSE"), changed);
        }
    }
}

static void random_beneficiaries(text *t, unsigned d, const char *bpf, const char *bpj, int changed)
{
    for (unsigned n = below_n(3); n > 0; n--) {
        random_line(t, named(bpf), changed);
        random_values(t, d, named(bpf), changed);
    }
    for (unsigned n = bpj ? below_n(3) : 0; n > 0; n--) {
        random_line(t, named(bpj), changed);
        random_values(t, d, named(bpj), changed);
    }
}

static void random_codes(text *t, unsigned d, const char *bpf, const char *bpj, int changed)
{
    for (unsigned n = below_n(3); n > 0; n--) {
        random_line(t, 5, changed);
        random_beneficiaries(t, d, bpf, bpj, changed);
    }
}

text random_file(int changed)
{
    static const char *const blocks[][3] = {
        {"FCI", "BPFFCI", "BPJFCI"}, {"PROC", "BPFPROC", "BPJPROC"}, {"RRA", "BPFRRA", NULL}};
    unsigned d = DECPF + below_n(2), scps = below_n(3), pses = below_n(2);
    text t = {0};
    serial = 100;
    blocks_to_come = (scps > 0 ? PEOPLE_SCP : 0) | (pses ? PEOPLE_PSE : 0);
    random_line(&t, 1, changed);
    random_line(&t, 2, changed);
    random_line(&t, d, changed);
    random_codes(&t, d, "BPFDEC", "BPJDEC", changed);
    for (unsigned b = d == DECPJ ? 0 : 2; b < 3; b++)
        for (unsigned n = below_n(3); n > 0; n--) {
            random_line(&t, named(blocks[b][0]), changed);
            random_codes(&t, d, blocks[b][1], blocks[b][2], changed);
        }
    for (; scps > 0; scps--) {
        random_line(&t, named("SCP"), changed);
        random_beneficiaries(&t, d, "BPFSCP", "BPJSCP", changed);
    }
    if (pses)
        random_line(&t, named("PSE"), changed);
    for (unsigned n = pses ? below_n(4) : 0; n > 0; n--) {
        random_line(&t, named("OPSE"), changed);
        random_holders(&t, changed);
    }
    random_line(&t, 73, changed);
    return t;
}

/* Start and end, CR LF included, of a random line of the file. */
static void random_span(const text *t, size_t *start, size_t *end)
{
    size_t at = below_n((uint32_t)t->len + 1);
    while (at > 0 && t->bytes[at - 1] != '\n')
        at--;
    *start = at;
    while (at < t->len && t->bytes[at] != '\n')
        at++;
    *end = at < t->len ? at + 1 : at;
}

void change(text *t)
{
    static const char bytes[] = "|0123456789SNAX\r\n \x80RDIBPJF";
    size_t a, b, c, d;
    char one = bytes[below_n(sizeof bytes - 1)];
    if (t->len == 0)
        return;
    size_t at = below_n((uint32_t)t->len);
    random_span(t, &a, &b);
    random_span(t, &c, &d);
    uint8_t *line = exact_copy(t->bytes + a, b - a);
    switch (below_n(8)) {
    case 0: t->bytes[at] = (uint8_t)one; break;
    case 1: splice(t, at, at, &one, 1); break;
    case 2: splice(t, at, at + 1, NULL, 0); break;
    case 3: splice(t, a, b, NULL, 0); break;
    case 4: splice(t, b, b, line, b - a); break;
    case 5: splice(t, c, c, line, b - a); break;
    case 6: splice(t, c, d, line, b - a); break;
    default: t->bytes[at] = (uint8_t)below_n(256); break;
    }
    free(line);
}

/* ---- files with many persons ---- */

/* The value records of a beneficiary, here and there a group with its own. */
static void crowd_values(text *t, unsigned d, unsigned beneficiary)
{
    char line[512];
    for (unsigned kind = 1; kind <= plain_kinds(); kind++) {
        if (!plain_below(edition, d, beneficiary, kind) || below_n(8))
            continue;
        good_line(kind, 7, line);
        add_line(t, line);
        for (unsigned below = 1; below <= plain_kinds(); below++) {
            int lacking_there = below == named("ESPA") && beneficiary == named("BPFRRA");
            if (lacking_there || !plain_below(edition, d, kind, below) || below_n(3))
                continue;
            good_line(below, 7, line);
            add_line(t, line);
        }
    }
}

/* Beneficiaries whose numbers rise by little, so that one's neighbour is often another's number. */
static void crowd_kind(text *t, unsigned d, const char *name, unsigned most)
{
    char line[512];
    unsigned serial = below_n(50);
    for (unsigned n = below_n(most + 1); n > 0; n--) {
        serial += 1 + below_n(3);
        good_line(named(name), serial, line);
        add_line(t, line);
        if (below_n(2))
            crowd_values(t, d, named(name));
    }
}

static void crowd_codes(text *t, unsigned d, const char *bpf, const char *bpj)
{
    char line[512];
    for (unsigned n = below_n(4), code = 1; n > 0; n--, code++) {
        good_line(5, code, line);
        add_line(t, line);
        crowd_kind(t, d, bpf, below_n(4) ? 5 : 20);
        if (bpj != NULL)
            crowd_kind(t, d, bpj, 3);
    }
}

text crowd_file(void)
{
    static const char *const blocks[][3] = {
        {"FCI", "BPFFCI", "BPJFCI"}, {"PROC", "BPFPROC", "BPJPROC"}, {"RRA", "BPFRRA", NULL}};
    unsigned d = DECPF + below_n(2), serial = 1;
    text t = head(d, PEOPLE_SCP | PEOPLE_PSE);
    char line[512];
    crowd_codes(&t, d, "BPFDEC", "BPJDEC");
    for (unsigned b = d == DECPJ ? 0 : 2; b < 3; b++)
        for (unsigned n = below_n(3); n > 0; n--) {
            good_line(named(blocks[b][0]), serial++, line);
            add_line(&t, line);
            crowd_codes(&t, d, blocks[b][1], blocks[b][2]);
        }
    good_line(named("SCP"), 1, line);
    add_line(&t, line);
    crowd_kind(&t, d, "BPFSCP", 3);
    crowd_kind(&t, d, "BPJSCP", 3);
    add_line(&t, "PSE|");
    good_line(named("OPSE"), 1, line);
    add_line(&t, line);
    crowd_kind(&t, d, "TPSE", 3);
    add_line(&t, "FIMDirf|");
    return t;
}
