#include "sound.h"

#include <stdio.h>
#include <string.h>

#include "../makers/people.h"
#include "../plain/plain_inner.h"
#include "chance.h"

unsigned some_digits(unsigned count, uint8_t *out)
{
    for (unsigned i = 0; i < count; i++)
        out[i] = (uint8_t)('0' + chance(10));
    return count;
}

unsigned sound_digits(unsigned count, uint8_t *out)
{
    some_digits(count, out);
    out[0] = (uint8_t)('1' + chance(9));
    return count;
}

/* Letters and blanks, and now and then any byte that a C field takes. */
static unsigned some_text(unsigned count, uint8_t *out)
{
    int any_byte = chance(4) == 0;
    for (unsigned i = 0; i < count; i++) {
        out[i] = (uint8_t)(any_byte ? chance(256) : (uint32_t)"ANA LIMA SERRA DO MAR 0123"[chance(26)]);
        if (out[i] == '|' || out[i] == '\r' || out[i] == '\n')
            out[i] = 0;
    }
    return count;
}

static unsigned one_of(const char *values, uint8_t *out)
{
    unsigned count = 1, len = 0;
    for (const char *p = values; *p; p++)
        count += *p == ',';
    for (unsigned skip = chance(count); skip > 0; skip--)
        values = strchr(values, ',') + 1;
    while (values[len] != 0 && values[len] != ',') {
        out[len] = (uint8_t)values[len];
        len++;
    }
    return len;
}

unsigned some_date(uint8_t *out)
{
    static const unsigned days[] = {31, 28, 31, 30, 31, 30, 31, 31, 30, 31, 30, 31};
    unsigned year = 1900 + chance(200), month = chance(12);
    unsigned leap = year % 4 == 0 && year != 1900;
    unsigned most = days[month] + (month == 1 && leap);
    char text[32];
    snprintf(text, sizeof text, "%04u%02u%02u", year, month + 1, chance(3) ? 1 + chance(most) : most);
    memcpy(out, text, DATE_SIZE);
    return DATE_SIZE;
}

int holds_identity(const plain_row *row)
{
    return row->cpf || row->cnpj || row->cpf_or_cnpj;
}

unsigned sound_identity(const plain_row *row, uint8_t *out)
{
    int person = row->cpf || (row->cpf_or_cnpj && chance(2));
    unsigned size = person ? CPF_SIZE : CNPJ_SIZE;
    make_identity(size, chance64(), (char *)out);
    return size;
}

unsigned sound_field(const plain_row *row, uint8_t *out)
{
    if (!row->obligatory && chance(2) == 0)
        return 0;
    if (row->values)
        return one_of(row->values, out);
    if (row->format == 'D')
        return some_date(out);
    if (row->ddd)
        return sound_digits(2, out);
    if (row->telephone)
        return some_digits(8 + chance(2), out);
    if (holds_identity(row))
        return sound_identity(row, out);
    unsigned size = row->fixed || chance(8) == 0 ? row->size : 1 + chance(row->size);
    if (row->amount || row->months)
        return sound_digits(size, out);
    return row->format == 'N' ? some_digits(size, out) : some_text(size, out);
}

/* DECPF where field 8 is S: 9 and 10 are filled, 13 is empty, and 11 is S where 10 is 1. */
static void keep_conditions(text_line *line)
{
    unsigned start, len;
    uint8_t text[16];
    find_field(line, DECPF_SPECIAL, &start, &len);
    if (line->bytes[start] != 'S')
        return;
    set_field(line, 9, text, some_date(text));
    set_field(line, 10, chance(2) ? "1" : "2", 1);
    set_field(line, 13, "", 0);
    find_field(line, 10, &start, &len);
    if (line->bytes[start] == '1')
        set_field(line, 11, "S", 1);
}

const lawyer lawyers[LAWYERS] = {{"", 0, 0}, {"1", CPF_SIZE, 60}, {"2", CNPJ_SIZE, LONGEST_NAME}};

void set_lawyer(text_line *line, const char *kind, unsigned digits, unsigned name)
{
    uint8_t text[LONGEST_NAME + 1];
    if (digits > 0)
        make_identity(digits, chance64(), (char *)text);
    set_field(line, LAWYER_KIND, kind, (unsigned)strlen(kind));
    set_field(line, LAWYER_NUMBER, text, digits);
    set_field(line, LAWYER_NAME, text, some_text(name, text));
}

unsigned sound_name(const lawyer *l)
{
    if (l->most == 0 || chance(4) == 0)
        return 0;
    return chance(4) ? 1 + chance(l->most) : l->most;
}

/* PROC and RRA: number and name are such as the kind of lawyer has, each there or not, and with no kind there is neither. */
static void keep_lawyer(text_line *line)
{
    const lawyer *l = &lawyers[chance(LAWYERS)];
    set_lawyer(line, l->kind, chance(4) ? l->digits : 0, sound_name(l));
}

int has_lawyer(unsigned kind)
{
    return kind == PROC || kind == RRA;
}

void sound_line(text_line *line, plain_edition edition, unsigned kind)
{
    line->edition = edition;
    line->kind = kind;
    line->len = 0;
    for (unsigned f = 1; f <= plain_fields(edition, kind); f++) {
        plain_row row = plain_field_row(edition, kind, f);
        line->len += sound_field(&row, line->bytes + line->len);
        line->bytes[line->len++] = '|';
    }
    if (kind == DECPF)
        keep_conditions(line);
    if (has_lawyer(kind))
        keep_lawyer(line);
    set_end(line, "\r\n");
}
