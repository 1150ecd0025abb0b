/* Right CPFs, CNPJs, lawyers and declarants' flags, so that a rule about them finds the test data ready. */
#include <stdio.h>
#include <string.h>

#include "test_people.h"

/* ---- makers ---- */

static char check_digit(const char *digits, const unsigned char *weights, size_t n)
{
    unsigned sum = 0;
    for (size_t i = 0; i < n; i++)
        sum += (unsigned)(digits[i] - '0') * weights[i];
    return (char)('0' + (sum % 11 < 2 ? 0 : 11 - sum % 11));
}

void people_cpf(uint32_t serial, char *out)
{
    static const unsigned char weights[] = {11, 10, 9, 8, 7, 6, 5, 4, 3, 2};
    sprintf(out, "%09u", (unsigned)(serial % 1000000000u));
    out[9] = check_digit(out, weights + 1, 9);
    out[10] = check_digit(out, weights, 10);
    out[11] = 0;
}

/* The branch is always 0001, so that serial 11222333 gives document 01's CNPJ. */
void people_cnpj(uint32_t serial, char *out)
{
    static const unsigned char weights[] = {6, 5, 4, 3, 2, 9, 8, 7, 6, 5, 4, 3, 2};
    sprintf(out, "%08u0001", (unsigned)(serial % 100000000u));
    out[12] = check_digit(out, weights + 1, 12);
    out[13] = check_digit(out, weights, 13);
    out[14] = 0;
}

size_t people_stand_in(const char *s, char *out)
{
    unsigned serial;
    int used = 0;
    if (*s != '{')
        return 0;
    if (sscanf(s, "{cpf %u}%n", &serial, &used) == 1 && used > 0)
        people_cpf(serial, out);
    else if (sscanf(s, "{cnpj %u}%n", &serial, &used) == 1 && used > 0)
        people_cnpj(serial, out);
    return (size_t)used;
}

/* A name field may hold the words as well, so only the beginning of a part counts. */
unsigned people_blocks(const char *records, char between)
{
    unsigned blocks = 0;
    for (const char *s = records; s != NULL; s = strchr(s, between), s = s ? s + 1 : NULL)
        if (s[0] != 0 && s[1] != 0 && s[2] != 0 && (s[3] == 0 || s[3] == '|' || s[3] == between))
            blocks |= strncmp(s, "SCP", 3) == 0 ? PEOPLE_SCP : strncmp(s, "PSE", 3) == 0 ? PEOPLE_PSE : 0;
    return blocks;
}

/* 000's 3.3 has the health plan in 6 and SCP in 7, its 3.4 SCP in 6 and the health plan in 10. */
const char *people_flag(unsigned kind, unsigned f, unsigned blocks)
{
    if ((kind == DECPF && f == 7) || (kind == DECPJ && f == 6))
        return blocks & PEOPLE_SCP ? "S" : "N";
    if ((kind == DECPF && f == 6) || (kind == DECPJ && f == 10))
        return blocks & PEOPLE_PSE ? "S" : "N";
    return NULL;
}

void people_declarant(unsigned kind, unsigned blocks, const char *rest, char *out)
{
    char cpf[PEOPLE_ID], cnpj[PEOPLE_ID];
    people_cpf(111444777, cpf);
    people_cnpj(11222333, cnpj);
    if (kind == DECPF)
        sprintf(out, "DECPF|%s|ANA LIMA|N|N|%s|%s|%s", cpf, people_flag(kind, 6, blocks),
                people_flag(kind, 7, blocks), rest ? rest : "N|||N|||||");
    else
        sprintf(out, "DECPJ|%s|EMPRESA|0|%s|%s|N|N|N|%s|%s", cnpj, cpf, people_flag(kind, 6, blocks),
                people_flag(kind, 10, blocks), rest ? rest : "N|N|N||");
}

void people_lawyer(unsigned lawyer, unsigned f, uint32_t serial, char *out)
{
    static const char *const kinds[] = {"", "1", "2"}, *const names[] = {"", "A", "B"};
    out[0] = 0;
    if (f != 5)
        strcpy(out, f == 4 ? kinds[lawyer] : names[lawyer]);
    else if (lawyer == PEOPLE_PERSON)
        people_cpf(serial, out);
    else if (lawyer == PEOPLE_OFFICE)
        people_cnpj(serial, out);
}

unsigned people_longest(unsigned lawyer)
{
    return lawyer == PEOPLE_OFFICE ? 150 : lawyer == PEOPLE_PERSON ? 60 : 0;
}

/* ---- the look for wrong ones ---- */

int people_is_lawyer(const char *name, unsigned f)
{
    return f >= 4 && f <= 6 && (strcmp(name, "PROC") == 0 || strcmp(name, "RRA") == 0);
}

int people_is_id(const char *name, unsigned f)
{
    /* Taken from 000's tables 3.2 to 3.31 and not from the checker's rows, so that a slip in these shows. */
    static const struct { const char *name; unsigned field; } ids[] = {
        {"RESPO", 2}, {"DECPF", 2}, {"DECPF", 14}, {"DECPJ", 2}, {"DECPJ", 5},
        {"BPFDEC", 2}, {"BPJDEC", 2}, {"FCI", 2}, {"BPFFCI", 2}, {"BPJFCI", 2},
        {"PROC", 5}, {"BPFPROC", 2}, {"BPJPROC", 2}, {"RRA", 5}, {"BPFRRA", 2},
        {"INFPC", 2}, {"INFPA", 2}, {"SCP", 2}, {"BPFSCP", 2}, {"BPJSCP", 2},
        {"OPSE", 2}, {"TPSE", 2}, {"RTPSE", 2}, {"DTPSE", 2}, {"RDTPSE", 2}};
    for (size_t i = 0; i < sizeof ids / sizeof *ids; i++)
        if (ids[i].field == f && strcmp(ids[i].name, name) == 0)
            return 1;
    return 0;
}

/* By rising weights and the remainder itself, unlike the makers, so that a slip in either shows. */
static int digit_right(const uint8_t *id, size_t n, unsigned least)
{
    unsigned sum = 0, weight = 9;
    for (size_t i = n; i-- > 0; weight = weight == least ? 9 : weight - 1)
        sum += weight * (id[i] - 48u);
    return id[n] - 48u == sum % 11 % 10;
}

int people_right(const uint8_t *id, size_t len)
{
    unsigned least = len == 14 ? 2 : 0;
    for (size_t i = 0; i < len; i++)
        if (id[i] < '0' || id[i] > '9')
            return 0;
    return (len == 11 || len == 14) && digit_right(id, len - 2, least) && digit_right(id, len - 1, least);
}

/* How many fields of line n the answer takes for right: 13 to 18 and 26 come field by field, 19 to 21 and 7 after all. */
static unsigned fields_taken(plain_answer a, uint32_t n)
{
    if (a.number == 0 || n < a.line || a.number == 7 || (a.number >= 19 && a.number <= 21))
        return 99;
    if ((a.number >= 13 && a.number <= 18) || a.number == 26)
        return a.field - 1;
    return a.number == 11;
}

/* How many fields of line n the answer takes to keep their conditions: 19 comes after all of 13 to 18 and 26. */
static unsigned conditions_taken(plain_answer a, uint32_t n)
{
    if (n == a.line && a.number == 19)
        return a.field - 1;
    return n < a.line || a.number == 0 || a.number == 7 || a.number == 20 || a.number == 21 ? 99 : 0;
}

/* A2 cell by cell, of PROC and RRA alone: 0, or the first of 5 and 6 that does not go with field 4. */
static uint32_t lawyer_wrong(const uint8_t *line, size_t len)
{
    size_t start, kind, number, name;
    if (len < 5 || (memcmp(line, "PROC|", 5) != 0 && memcmp(line, "RRA|", 4) != 0))
        return 0;
    plain_field(line, len, 5, &start, &number);
    plain_field(line, len, 6, &start, &name);
    plain_field(line, len, 4, &start, &kind);
    if (kind == 0)
        return number > 0 ? 5 : name > 0 ? 6 : 0;
    if (line[start] == '1')
        return number == 14 ? 5 : name >= 61 ? 6 : 0;
    return number == 11 ? 5 : name >= 151 ? 6 : 0;
}

typedef struct { char scp, health; int scp_seen, health_seen; } flags;

/* A block without its flag is wrong at once, a flag without its block when no more can come. */
static int flags_wrong(const flags *f, int at_end)
{
    if ((f->scp_seen && f->scp != 'S') || (f->health_seen && f->health != 'S'))
        return 1;
    return at_end && ((f->scp == 'S') != f->scp_seen || (f->health == 'S') != f->health_seen);
}

/* 0, or the first wrong field of a line whose first fields are taken for right. */
static uint32_t line_wrong(const uint8_t *line, size_t len, unsigned taken, flags *seen)
{
    char name[8] = "";
    unsigned kind;
    size_t start, length;
    if (taken == 0)
        return 0;
    plain_field(line, len, 1, &start, &length);
    memcpy(name, line, length < 7 ? length : 7);
    kind = strcmp(name, "DECPF") == 0 ? DECPF : strcmp(name, "DECPJ") == 0 ? DECPJ : 0;
    seen->scp_seen |= strcmp(name, "SCP") == 0;
    seen->health_seen |= strcmp(name, "PSE") == 0;
    if (flags_wrong(seen, strcmp(name, "FIMDirf") == 0))
        return 1;
    for (unsigned f = 2; f <= taken && plain_field(line, len, f, &start, &length); f++) {
        if (people_is_id(name, f) && length > 0 && !people_right(line + start, length))
            return f;
        if (people_flag(kind, f, 0) != NULL)
            *(f == (kind == DECPF ? 7 : 6) ? &seen->scp : &seen->health) = (char)line[start];
    }
    return 0;
}

people_spot people_wrong(const uint8_t *file, size_t len, plain_answer a)
{
    flags seen = {0};
    size_t start = 0;
    for (uint32_t n = 1; n <= a.line && start < len; n++) {
        size_t end = start;
        while (end < len && file[end] != '\r')
            end++;
        uint32_t field = line_wrong(file + start, end - start, fields_taken(a, n), &seen);
        if (field != 0)
            return (people_spot){n, field};
        field = lawyer_wrong(file + start, end - start);
        if (field != 0 && field <= conditions_taken(a, n))
            return (people_spot){n, field};
        start = end + 2;
    }
    return (people_spot){0, 0};
}
