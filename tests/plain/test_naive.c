/* The check once more, slow and by looking back over all lines read so far:
   it holds no state but the table, and it finds the parent on the path from
   the line before up to the declarant. */
#include <stdio.h>
#include <stdlib.h>
#include <string.h>

#include "test_naive.h"
#include "test_people.h"
#include "test_source.h"

#define KIND(n) table[5 * ((n) - 1)]
#define START(n) table[5 * ((n) - 1) + 1]
#define LENGTH(n) table[5 * ((n) - 1) + 2]
#define PARENT(n) table[5 * ((n) - 1) + 3]
#define LAST(n) table[5 * ((n) - 1) + 4]

static int is(unsigned kind, const char *name)
{
    return plain_name(kind) != NULL && strcmp(plain_name(kind), name) == 0;
}

static int is_beneficiary(unsigned kind)
{
    return strncmp(plain_name(kind), "BPF", 3) == 0
        || strncmp(plain_name(kind), "BPJ", 3) == 0;
}

static int is_block(unsigned kind)
{
    return is(kind, "FCI") || is(kind, "PROC") || is(kind, "RRA") || is(kind, "SCP");
}

/* The records of change A3, of which the checker's own rows and pairs are not asked. */
static int is_of_a3(unsigned kind)
{
    return plain_name(kind) != NULL && source_holds("INFPC INFPA RTEP ESEP PSE OPSE TPSE RTPSE DTPSE RDTPSE", plain_name(kind));
}

/* What stands where in A3, each place by its whole path from the declarant down, * for either declarant. */
static const struct { const char *path, *children; } places_of_a3[] = {
    {"*", "PSE"}, {"* PSE", "OPSE"}, {"* PSE OPSE", "TPSE"}, {"* PSE OPSE TPSE", "RTPSE DTPSE"},
    {"* PSE OPSE TPSE DTPSE", "RDTPSE"}, {"* IDREC BPFDEC", "INFPC INFPA"}, {"* RRA IDREC BPFRRA", "INFPA"},
    {"* IDREC BPFDEC INFPA", "RTPA ESPA"}, {"* RRA IDREC BPFRRA INFPA", "RTPA"},
    {"DECPF IDREC BPFDEC INFPC", "RTPP RTFA ESPP ESFA"},
    {"DECPJ IDREC BPFDEC INFPC", "RTPP RTFA RTSP RTEP ESPP ESFA ESSP ESEP"},
};

/* Whether the path, read from its end, is that from line n up to the declarant. */
static int path_is(const uint32_t *table, uint32_t n, const char *path)
{
    size_t end = strlen(path);
    for (uint32_t up = n; up >= 3; up = PARENT(up)) {
        const char *name = up == 3 && path[0] == '*' ? "*" : plain_name(KIND(up));
        size_t len = strlen(name);
        if (len > end || memcmp(path + end - len, name, len) != 0)
            return 0;
        end -= len;
        if (end > 0 && path[end - 1] == ' ')
            end--;
    }
    return end == 0;
}

/* Whether the kind may stand directly below the record of line n, by A3 in A3's places, else by the base. */
static int may_be_below(plain_edition edition, const uint32_t *table, uint32_t n, unsigned kind)
{
    if (!is_of_a3(kind) && !is_of_a3(KIND(n)))
        return plain_below(edition, KIND(3), KIND(n), kind);
    for (size_t i = 0; i < sizeof places_of_a3 / sizeof *places_of_a3; i++)
        if (path_is(table, n, places_of_a3[i].path) && source_holds(places_of_a3[i].children, plain_name(kind)))
            return 1;
    return 0;
}

static int date_exists(const uint8_t *at)
{
    int y, m, d;
    char text[9] = {0};
    memcpy(text, at, 8);
    if (sscanf(text, "%4d%2d%2d", &y, &m, &d) != 3)
        return 0;
    if (y < 1900 || y > 2099 || m < 1 || m > 12 || d < 1)
        return 0;
    int leap = (y % 4 == 0) - (y % 100 == 0) + (y % 400 == 0);
    int last = m == 2 ? 28 + leap : m == 4 || m == 6 || m == 9 || m == 11 ? 30 : 31;
    return d <= last;
}

static int value_listed(const char *values, const uint8_t *at, size_t len)
{
    char list[64];
    snprintf(list, sizeof list, "%s", values);
    for (char *v = strtok(list, ","); v != NULL; v = strtok(NULL, ","))
        if (strlen(v) == len && memcmp(v, at, len) == 0)
            return 1;
    return 0;
}

/* A check digit is the one that makes its sum a multiple of 11 when it is added, and 0 where none of 1 to 9 does. Weights grow
   from 2 at the right; those of a CNPJ begin again after 9. */
static int digit_fits(const uint8_t *at, size_t before, unsigned greatest)
{
    unsigned sum = 0, weight = 2, digit = 9;
    for (size_t i = before; i > 0; i--) {
        sum += weight * (at[i - 1] - 48u);
        weight = weight == greatest ? 2 : weight + 1;
    }
    while (digit > 0 && (sum + digit) % 11 != 0)
        digit--;
    return at[before] == 48 + digit;
}

static int identity_right(const uint8_t *at, size_t len)
{
    unsigned greatest = len == 14 ? 9 : 11;
    return digit_fits(at, len - 2, greatest) && digit_fits(at, len - 1, greatest);
}

plain_edition naive_edition(const uint8_t *file, size_t len)
{
    static const char tail[] = "|XJFSFHB|";
    size_t bars = 0, piece = 0;
    while (piece < len && (piece + 1 == len || memcmp(file + piece, "\r\n", 2) != 0))
        piece++;
    for (size_t i = 0; i < piece; i++)
        if (file[i] == '|' && ++bars == 6)
            return i >= 8 && memcmp(file + i - 8, tail, 9) == 0 ? PLAIN_2022 : PLAIN_2025;
    return PLAIN_2025;
}

/* 000's row of a record of A3; read once, as it is asked for very often. */
static const source_line *printed(unsigned kind, unsigned f)
{
    static source_line rows[80][17];
    static char read[80];
    for (unsigned i = 1; !read[kind] && i <= 16; i++)
        rows[kind][i] = source_row(plain_name(kind), i);
    read[kind] = 1;
    return &rows[kind][f];
}

/* The checker's row, or for A3's records the one that 000 prints, with what the nine digits and the fourteen are. */
static plain_row row_for(plain_edition edition, unsigned kind, unsigned f)
{
    if (!is_of_a3(kind))
        return plain_field_row(edition, kind, f);
    const source_line *p = printed(kind, f);
    plain_row r = {.format = p->format, .fixed = p->fixed, .size = p->size, .obligatory = p->obligatory};
    int digits = p->format == 'N' && !p->fixed;
    r.values = f == 1 ? plain_name(kind) : p->values[0] ? p->values : NULL;
    r.amount = digits && (p->size == 9 || p->size == 13);
    r.cpf_or_cnpj = digits && p->size == 14;
    return r;
}

uint32_t naive_field(plain_edition edition, unsigned kind, unsigned f, const uint8_t *at, size_t len)
{
    plain_row r = row_for(edition, kind, f);
    if (len == 0)
        return r.obligatory ? 13 : 0;
    for (size_t i = 0; i < len; i++) {
        if (r.format != 'C' && (at[i] < 48 || at[i] > 57))
            return 14;
        if (at[i] == '|' || at[i] == '\r' || at[i] == '\n')
            return 14;
    }
    if (len > r.size || (r.fixed && len < r.size))
        return 15;
    if (r.telephone && len < 8)
        return 15;
    if (r.cpf_or_cnpj && len != 11 && len != 14)
        return 15;
    if ((r.amount || r.months || r.ddd) && at[0] == '0')
        return 16;
    if (r.format == 'D' && !date_exists(at))
        return 17;
    if (r.values != NULL && !value_listed(r.values, at, len))
        return 18;
    /* Which fields these are, the list from 000's tables says and not the row. */
    if (people_is_id(plain_name(kind), f) && !identity_right(at, len))
        return 26;
    return 0;
}

/* The order in which siblings stand; equal numbers stand in any order. */
static int order_of(unsigned kind)
{
    static const char *const order[] = {"IDREC", "FCI", "PROC", "RRA", "SCP", "PSE"};
    for (int i = 0; i < 6; i++)
        if (is(kind, order[i]))
            return i;
    return strncmp(plain_name(kind), "BPJ", 3) == 0 || is(kind, "DTPSE") ? 1 : 0;
}

/* The beneficiaries of the declarant end in DEC, the others in their block's name. */
static int block_fits(const uint32_t *table, uint32_t code, unsigned kind)
{
    if (!is(KIND(code), "IDREC"))
        return 1;
    unsigned above = KIND(PARENT(code));
    const char *tail = plain_name(kind) + 3;
    return strcmp(tail, is_block(above) ? plain_name(above) : "DEC") == 0;
}

/* The parent's line, or -1 if the record may not stand here. */
static long parent_of(plain_edition edition, const uint32_t *table, uint32_t n, unsigned kind)
{
    if (n <= 3)
        return n == 1 ? (is(kind, "Dirf") ? 0 : -1)
             : n == 2 ? (is(kind, "RESPO") ? 0 : -1)
             : is(kind, "DECPF") || is(kind, "DECPJ") ? 0 : -1;
    if (is(kind, "FIMDirf"))
        return 0;
    for (uint32_t m = 4; is(kind, "PSE") && m < n; m++)
        if (is(KIND(m), "PSE"))
            return -1;
    for (uint32_t up = n - 1; up >= 3; up = PARENT(up)) {
        if (!may_be_below(edition, table, up, kind))
            continue;
        if (is_beneficiary(kind) && !block_fits(table, up, kind))
            return -1;
        for (uint32_t m = up + 1; m < n; m++)
            if (PARENT(m) == up && order_of(KIND(m)) > order_of(kind))
                return -1;
        return up;
    }
    return -1;
}

static int key_greater(const uint8_t *file, const uint32_t *table, uint32_t before,
                       size_t start, size_t len, unsigned kind)
{
    unsigned last = is(kind, "PROC") || is(kind, "RRA") ? 3 : 2;
    for (unsigned f = 2; f <= last; f++) {
        size_t s1, l1, s2, l2, i = 0;
        plain_field(file + START(before), LENGTH(before), f, &s1, &l1);
        plain_field(file + start, len, f, &s2, &l2);
        const uint8_t *a = file + START(before) + s1, *b = file + start + s2;
        while (i < l1 && i < l2 && a[i] == b[i])
            i++;
        if (i < l1 && i < l2)
            return b[i] > a[i];
        if (l1 != l2)
            return l2 > l1;
    }
    return 0;
}

/* A3's keys as texts: how many fields from 2 on, and a letter F or J before a number that may be of either. */
static int keys_of_a3(unsigned kind)
{
    return is(kind, "INFPC") || is(kind, "OPSE") || is(kind, "TPSE") ? 1 : is(kind, "INFPA") || is(kind, "DTPSE") ? 2
         : is(kind, "RTPSE") || is(kind, "RDTPSE") ? 3 : 0;
}

static void key_text(unsigned kind, const uint8_t *line, size_t len, char *out)
{
    int shape = keys_of_a3(kind);
    size_t s, l;
    plain_field(line, len, 2, &s, &l);
    out += sprintf(out, "%s%.*s", shape < 3 ? "" : l == 11 ? "F" : "J", (int)l, (const char *)line + s);
    plain_field(line, len, 3, &s, &l);
    if (shape == 2)
        sprintf(out, " %.*s", (int)l, (const char *)line + s);
}

/* A blank is less than any digit, so the texts stand in the order of the keys. */
static int text_greater(const uint8_t *file, const uint32_t *table, uint32_t before, size_t start, size_t len, unsigned kind)
{
    char a[32], b[32];
    key_text(kind, file + START(before), LENGTH(before), a);
    key_text(kind, file + start, len, b);
    return strcmp(b, a) > 0;
}

static uint32_t condition(const uint8_t *line, size_t len)
{
    char v[16] = {0};
    for (unsigned f = 1; f <= 15; f++) {
        size_t s, l;
        plain_field(line, len, f, &s, &l);
        v[f] = l ? (char)line[s] : 0;
    }
    uint32_t lowest = 0;
    if (v[8] == 'S' && v[13])
        lowest = 13;
    if (v[8] == 'S' && v[10] == '1' && v[11] != 'S')
        lowest = 11;
    if (v[8] == 'S' && !v[10])
        lowest = 10;
    if (v[8] == 'S' && !v[9])
        lowest = 9;
    return lowest;
}

/* A2 the other way about: which of none, 1 and 2 in field 4 lets field 5 stand as it is, and then field 6. */
static uint32_t lawyer_condition(const uint8_t *line, size_t len)
{
    size_t s, l4, l5, l6;
    plain_field(line, len, 6, &s, &l6);
    plain_field(line, len, 5, &s, &l5);
    plain_field(line, len, 4, &s, &l4);
    int lawyer = l4 == 0 ? '-' : line[s];
    const char *five = l5 == 0 ? "-12" : l5 < 14 ? "1" : "2";
    const char *six = l6 == 0 ? "-12" : l6 < 61 ? "12" : "2";
    return strchr(five, lawyer) == NULL ? 5 : strchr(six, lawyer) == NULL ? 6 : 0;
}

typedef struct { uint32_t number, field; } breach;

static breach fields_breach(plain_edition edition, unsigned kind, const uint8_t *line, size_t len)
{
    size_t bars = 0;
    for (size_t i = 0; i < len; i++)
        bars += line[i] == '|';
    unsigned fields = 0;
    while (is_of_a3(kind) && printed(kind, fields + 1)->format)
        fields++;
    if (bars != (is_of_a3(kind) ? fields : plain_fields(edition, kind)))
        return (breach){11, 0};
    for (unsigned f = 1; f <= bars; f++) {
        size_t s, l;
        plain_field(line, len, f, &s, &l);
        uint32_t number = naive_field(edition, kind, f, line + s, l);
        if (number)
            return (breach){number, f};
    }
    if (is(kind, "DECPF") && condition(line, len))
        return (breach){19, condition(line, len)};
    if ((is(kind, "PROC") || is(kind, "RRA")) && lawyer_condition(line, len))
        return (breach){19, lawyer_condition(line, len)};
    return (breach){0, 0};
}

static unsigned kind_named(const uint8_t *line, size_t len)
{
    for (unsigned k = 1; k <= plain_kinds(); k++)
        if (strlen(plain_name(k)) == len && memcmp(plain_name(k), line, len) == 0)
            return k;
    return 0;
}

/* The two records that document 000 does not have. */
static int is_newer(unsigned kind)
{
    return is(kind, "RTDS") || is(kind, "ESDS");
}

static breach line_breach(plain_edition edition, const uint8_t *file, uint32_t *table, uint32_t n,
                          size_t start, size_t len)
{
    const uint8_t *line = file + start;
    size_t s, l;
    if (len == 0 || line[len - 1] != '|')
        return (breach){8, 0};
    plain_field(line, len, 1, &s, &l);
    unsigned kind = kind_named(line, l);
    if (!kind || (edition == PLAIN_2022 && is_newer(kind)))
        return (breach){9, 1};
    if (!is_of_a3(kind) && !plain_is_base(edition, kind))
        return (breach){10, 1};
    long parent = parent_of(edition, table, n, kind);
    if (parent < 0)
        return (breach){12, 1};
    breach b = fields_breach(edition, kind, line, len);
    if (b.number)
        return b;
    uint32_t before = 0;
    for (uint32_t m = 4; parent && m < n; m++)
        if (PARENT(m) == (uint32_t)parent && KIND(m) == kind)
            before = m;
    int keyed = is_beneficiary(kind) || is_block(kind) || is(kind, "IDREC"), of_a3 = keys_of_a3(kind);
    if (before && !keyed && !of_a3)
        return (breach){21, 1};
    if (before && !(of_a3 ? text_greater : key_greater)(file, table, before, start, len, kind))
        return (breach){20, 2};
    KIND(n) = kind;
    START(n) = (uint32_t)start;
    LENGTH(n) = (uint32_t)len;
    PARENT(n) = (uint32_t)parent;
    return b;
}

static plain_answer read_all(const uint8_t *file, size_t len, uint32_t *table, size_t room)
{
    plain_edition edition = naive_edition(file, len);
    size_t at = 0;
    for (uint32_t n = 1;; n++) {
        int ended = n > 1 && is(KIND(n - 1), "FIMDirf");
        size_t i = at;
        if (at == len && ended)
            return (plain_answer){0, n - 1, 0, n - 1};
        uint32_t number = at == len ? 1 : ended ? 2 : n == 65537 ? 3 : 0;
        while (i < len && file[i] != '\r' && file[i] != '\n')
            i++;
        int cr = i < len && file[i] == '\r', lf = i + 1 < len && file[i + 1] == '\n';
        if (!number)
            number = i - at > 1024 ? 4 : i == len || (cr && i + 1 == len) ? 5
                   : !(cr && lf) ? 6 : 0;
        if (number)
            return (plain_answer){number, n, 0, n - 1};
        breach b = line_breach(edition, file, table, n, at, i - at);
        if (b.number)
            return (plain_answer){b.number, n, b.field, n - 1};
        if (room < n)
            return (plain_answer){7, n, 0, n - 1};
        at = i + 2;
    }
}

/* A group goes on as long as no parent stands before its record: it needs the parents alone, and no climbing. */
plain_answer naive_check(const uint8_t *file, size_t len, uint32_t *table, size_t room)
{
    plain_answer a = read_all(file, len, table, room);
    for (uint32_t n = 1; n <= a.entries; n++) {
        LAST(n) = n;
        while (LAST(n) < a.entries && PARENT(LAST(n) + 1) >= n)
            LAST(n)++;
    }
    return a;
}
