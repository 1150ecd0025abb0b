/* 26 by the field that has it, and 19 by the condition that is broken. */
#include "met_ways.h"

#include <stdio.h>
#include <string.h>

#include "faults.h"
#include "met_inner.h"
#include "sound.h"

/* How many fields of an edition hold a CPF or a CNPJ. */
enum { IDENTITY_FIELDS = 25 };

/* The conditions as they are broken, DECPF's and then those of PROC and RRA: what stands in the field that each hangs on, how many bytes
   the field has that is named, and all that in words. */
static const struct {
    unsigned on;
    const char *held;
    unsigned field, least, most;
    const char *words;
} conditions[CONDITIONS] = {
    {DECPF_SPECIAL, "S", 9, 0, 0, "S in field 8 and field 9 empty"},
    {DECPF_SPECIAL, "S", 10, 0, 0, "S in field 8 and field 10 empty"},
    {DECPF_SPECIAL, "S", 11, 1, 1, "S in field 8, 1 in field 10 and field 11 not S"},
    {DECPF_SPECIAL, "S", 13, 1, 1, "S in field 8 and field 13 filled"},
    {LAWYER_KIND, "1", LAWYER_NUMBER, CNPJ_DIGITS, CNPJ_DIGITS, "1 in field 4 and 14 digits in field 5"},
    {LAWYER_KIND, "1", LAWYER_NAME, 61, LONGEST_NAME, "1 in field 4 and over 60 bytes in field 6"},
    {LAWYER_KIND, "2", LAWYER_NUMBER, CPF_DIGITS, CPF_DIGITS, "2 in field 4 and 11 digits in field 5"},
    {LAWYER_KIND, "", LAWYER_NUMBER, CPF_DIGITS, CNPJ_DIGITS, "field 4 empty and field 5 filled"},
    {LAWYER_KIND, "", LAWYER_NAME, 1, LONGEST_NAME, "field 4 empty and field 6 filled"},
};

/* One of the ways in a field. */
typedef struct {
    plain_edition edition;
    unsigned kind, field, way;
} spot;

/* Whether there is such a way in this field. */
static int can_be(spot at)
{
    plain_row row = plain_field_row(at.edition, at.kind, at.field);
    if (at.way < FIRST_CONDITION)
        return row.cpf_or_cnpj || (at.way == WRONG_CPF ? row.cpf : row.cnpj);
    unsigned c = at.way - FIRST_CONDITION;
    return at.field == conditions[c].field && (conditions[c].on == LAWYER_KIND ? has_lawyer(at.kind) : at.kind == DECPF);
}

/* Whether the line was refused in this way, which its field can be. */
static int is_way(const refusal *r, unsigned way)
{
    size_t bytes = r->fields[r->found.field - 1].len;
    if (way < FIRST_CONDITION)
        return r->found.number == WRONG_DIGITS && bytes == (way == WRONG_CPF ? CPF_DIGITS : CNPJ_DIGITS);
    unsigned c = way - FIRST_CONDITION;
    part on = r->fields[conditions[c].on - 1];
    return r->found.number == CONDITION && bytes >= conditions[c].least && bytes <= conditions[c].most
        && on.len == strlen(conditions[c].held) && memcmp(on.bytes, conditions[c].held, on.len) == 0;
}

/* Steps through all that can be; 0 behind the last. */
static int next_spot(spot *at)
{
    do {
        at->way = (at->way + 1) % WAYS;
        at->field += at->way == 0;
        if (at->field > MOST_FIELDS) {
            at->field = 1;
            at->kind++;
        }
    } while (at->kind <= KINDS && !can_be(*at));
    return at->kind <= KINDS;
}

/* In front of an edition's first. */
static spot before_all(plain_edition edition)
{
    return (spot){edition, NO_KIND, 0, WAYS - 1};
}

void count_refusal(ways_met *m, const refusal *r)
{
    for (unsigned way = 0; way < WAYS; way++)
        if (can_be((spot){r->edition, r->kind, r->found.field, way}) && is_way(r, way))
            m->count[r->edition][r->kind][r->found.field][way]++;
}

static unsigned long times_met(const ways_met *m, spot at)
{
    return m->count[at.edition][at.kind][at.field][at.way];
}

static unsigned number_of(spot at)
{
    return at.way < FIRST_CONDITION ? WRONG_DIGITS : CONDITION;
}

/* What a spot is, behind its number. */
static const char *words_of(spot at)
{
    static char words[100];
    unsigned digits = at.way == WRONG_CPF ? CPF_DIGITS : CNPJ_DIGITS;
    if (at.way < FIRST_CONDITION)
        snprintf(words, sizeof words, "%s %u with %u digits", plain_name(at.kind), at.field, digits);
    else
        snprintf(words, sizeof words, "%s with %s", plain_name(at.kind), conditions[at.way - FIRST_CONDITION].words);
    return words;
}

int all_ways_met(const ways_met *m, plain_edition edition, const char *where)
{
    int all = 1;
    for (spot at = before_all(edition); next_spot(&at);)
        if (times_met(m, at) == 0)
            all = not_met("%u for %s, %s of %u", number_of(at), words_of(at), where, year_of(edition));
    return all;
}

int fields_counted(plain_edition edition)
{
    unsigned fields = 0;
    for (unsigned kind = 1; kind <= KINDS; kind++)
        for (unsigned f = 1; f <= plain_fields(edition, kind); f++) {
            plain_row row = plain_field_row(edition, kind, f);
            fields += holds_identity(&row) != 0;
        }
    if (fields != IDENTITY_FIELDS)
        return not_met("the %u fields of %u that hold a CPF or a CNPJ: there are %u", IDENTITY_FIELDS, year_of(edition), fields);
    return 1;
}

/* Where the number came up least. */
static void print_least(const ways_met *m, plain_edition edition, unsigned number)
{
    spot least = before_all(edition);
    for (spot at = least; next_spot(&at);)
        if (number_of(at) == number && (least.kind == NO_KIND || times_met(m, at) < times_met(m, least)))
            least = at;
    printf("; %u came up least for %s, %lu times", number, words_of(least), times_met(m, least));
}

void print_ways(const ways_met *m, plain_edition edition)
{
    print_least(m, edition, WRONG_DIGITS);
    print_least(m, edition, CONDITION);
}
