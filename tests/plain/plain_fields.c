/* Numbers 13 to 18 and 26, one field after another, then the conditions of 19. */
#include <string.h>

#include "plain_inner.h"

enum { PERSON_NAME = 60, OFFICE_NAME = 150 };   /* the longest names of a lawyer */

static int digits_only(part p)
{
    for (size_t i = 0; i < p.len; i++)
        if (p.bytes[i] < '0' || p.bytes[i] > '9')
            return 0;
    return 1;
}

static int characters_only(part p)
{
    for (size_t i = 0; i < p.len; i++)
        if (p.bytes[i] == BAR || p.bytes[i] == CR || p.bytes[i] == LF)
            return 0;
    return 1;
}

static int size_right(const row *r, size_t len)
{
    if (r->rule == TELEPHONE)
        return len == 8 || len == 9;
    if (r->rule == CPF_OR_CNPJ)
        return len == CPF_DIGITS || len == CNPJ_DIGITS;
    return r->fixed ? len == r->size : len <= r->size;
}

static unsigned two_digits(const uint8_t *at)
{
    return (at[0] - '0') * 10u + (at[1] - '0');
}

/* Year, month, day in eight digits. */
static int is_date(const uint8_t *at)
{
    static const unsigned char days[13] =
        {0, 31, 28, 31, 30, 31, 30, 31, 31, 30, 31, 30, 31};
    unsigned year = two_digits(at) * 100 + two_digits(at + 2);
    unsigned month = two_digits(at + 4), day = two_digits(at + 6);
    if (year < 1900 || year > 2099 || month < 1 || month > 12)
        return 0;
    int leap = year % 4 == 0 && (year % 100 != 0 || year % 400 == 0);
    return day >= 1 && day <= days[month] + (unsigned)(month == 2 && leap);
}

/* Values are joined by commas, and no printed value holds one. */
static int is_one_of(const char *values, part p)
{
    for (;;) {
        size_t len = strcspn(values, ",");
        if (len == p.len && memcmp(values, p.bytes, len) == 0)
            return 1;
        if (values[len] == 0)
            return 0;
        values += len + 1;
    }
}

/* The check digit that a sum of weighted digits asks for. */
static unsigned check_digit(unsigned sum)
{
    unsigned left = sum % 11;
    return left < 2 ? 0 : 11 - left;
}

/* The modulo 11 rule, asked of 11 or 14 digits only. The weights are the second
   check digit's; the first one's are the same without the one in front. */
static int check_digits_right(part p)
{
    static const uint8_t cpf[CPF_DIGITS - 1] = {11, 10, 9, 8, 7, 6, 5, 4, 3, 2};
    static const uint8_t cnpj[CNPJ_DIGITS - 1] = {6, 5, 4, 3, 2, 9, 8, 7, 6, 5, 4, 3, 2};
    const uint8_t *weights = p.len == CPF_DIGITS ? cpf : cnpj;
    size_t before = p.len - 2;
    unsigned first_sum = 0, second_sum = 0;
    for (size_t i = 0; i < before; i++) {
        unsigned digit = p.bytes[i] - '0';
        first_sum += digit * weights[i + 1];
        second_sum += digit * weights[i];
    }
    unsigned first = p.bytes[before] - '0', second = p.bytes[before + 1] - '0';
    second_sum += first * weights[before];
    return first == check_digit(first_sum) && second == check_digit(second_sum);
}

static uint32_t field_fault(const row *r, part p)
{
    if (p.len == 0)
        return r->obligatory ? 13 : 0;
    if (!(r->format == 'C' ? characters_only(p) : digits_only(p)))
        return 14;
    if (!size_right(r, p.len))
        return 15;
    int no_zero = r->rule == AMOUNT || r->rule == MONTHS || r->rule == DDD;
    if (no_zero && p.bytes[0] == '0')
        return 16;
    if (r->format == 'D' && !is_date(p.bytes))
        return 17;
    if (r->values != NULL && !is_one_of(r->values, p))
        return 18;
    int identity = r->rule == CPF || r->rule == CNPJ || r->rule == CPF_OR_CNPJ;
    if (identity && !check_digits_right(p))
        return 26;
    return 0;
}

/* DECPF: the lowest field is named. Fields 8 and 11 are one byte each by now. */
static uint32_t decpf_broken(const part *fields)
{
    part f8 = fields[7], f9 = fields[8], f10 = fields[9];
    part f11 = fields[10], f13 = fields[12];
    if (f8.bytes[0] != 'S')
        return 0;
    if (f9.len == 0)
        return 9;
    if (f10.len == 0)
        return 10;
    if (f10.bytes[0] == '1' && f11.bytes[0] != 'S')
        return 11;
    return f13.len != 0 ? 13 : 0;
}

/* PROC and RRA, by change A2: field 4, by now empty, 1 or 2, tells what may stand in 5 and 6. */
static uint32_t lawyer_broken(const part *fields)
{
    part f4 = fields[3], f5 = fields[4], f6 = fields[5];
    size_t digits = 0, name = 0;
    if (f4.len != 0) {
        int person = f4.bytes[0] == '1';
        digits = person ? CPF_DIGITS : CNPJ_DIGITS;
        name = person ? PERSON_NAME : OFFICE_NAME;
    }
    if (f5.len != 0 && f5.len != digits)
        return 5;
    return f6.len > name ? 6 : 0;
}

/* 0, or the field that 19 names. No other record has conditions. */
static uint32_t condition_broken(uint32_t kind, const part *fields)
{
    if (kind == DECPF)
        return decpf_broken(fields);
    return kind == PROC || kind == RRA ? lawyer_broken(fields) : 0;
}

fault plain_fields_fault(plain_edition edition, uint32_t kind, const part *fields)
{
    for (unsigned f = 1; f <= plain_records[kind].fields; f++) {
        row r = plain_row_of(edition, kind, f);
        uint32_t number = field_fault(&r, fields[f - 1]);
        if (number != 0)
            return (fault){number, f};
    }
    uint32_t broken = condition_broken(kind, fields);
    return (fault){broken ? 19 : 0, broken};
}
