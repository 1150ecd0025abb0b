#include "whole.h"

#include <stdio.h>
#include <string.h>

#include "../makers/people.h"
#include "../plain/plain_inner.h"
#include "chance.h"
#include "sound.h"

/* Records are left out once so many lines are there, so that what closes the file still fits. */
enum { ENOUGH = MOST_LINES - 20 };

/* Below this a key begins, so that it can grow. */
enum { MOST_CPF_BEGIN = 900000000 };

/* The key of the last INFPA or DTPSE: a CPF by its serial number, or none with 0, and a date or none. */
typedef struct {
    int begun;
    uint64_t serial;
    unsigned len;
    uint8_t date[DATE_SIZE];
} person_key;

/* The keys of a beneficiary's INFPC and INFPA so far. */
typedef struct {
    uint64_t pension;
    person_key alimony;
} group_keys;

int has_key(unsigned kind)
{
    switch (plain_records[kind].role) {
    case BLOCK: return kind != PSE;
    case CODE: case BENEFICIARY: case GROUP: return 1;
    default: return kind == RTPSE || kind == RDTPSE;
    }
}

int may_stand_below(const declaration *d, unsigned above, unsigned parent, unsigned kind)
{
    if (above == BPFRRA && kind == ESPA)
        return 0;
    return plain_below(d->edition, d->declarant, parent, kind);
}

static text_line *add(declaration *d, unsigned kind)
{
    text_line *line = &d->line[d->count++];
    sound_line(line, d->edition, kind);
    return line;
}

/* 0, 1 or 2, and none once there are enough lines. */
static unsigned few(const declaration *d)
{
    static const unsigned counts[] = {0, 0, 1, 1, 1, 2};
    return d->count < ENOUGH ? counts[chance(6)] : 0;
}

/* By little or much. */
static void grow(uint64_t *key)
{
    *key += 1 + chance(chance(2) ? 3 : 4000);
}

/* Puts a key of so many digits that is greater than the one before. */
static void rising_key(text_line *line, unsigned digits, uint64_t *key)
{
    char text[32];
    grow(key);
    if (digits == CPF_SIZE || digits == CNPJ_SIZE)
        make_identity(digits, *key, text);
    else
        snprintf(text, sizeof text, "%0*llu", (int)digits, (unsigned long long)*key);
    set_field(line, 2, text, digits);
}

/* A later date, or any where there was none: the next day, or one by chance. 0 where that is no later one. */
static int later_date(person_key *key)
{
    uint8_t other[DATE_SIZE];
    if (key->len > 0 && chance(2) && key->date[6] < '3' && key->date[7] < '8') {
        key->date[7]++;
        return 1;
    }
    some_date(other);
    if (key->len > 0 && memcmp(other, key->date, DATE_SIZE) <= 0)
        return 0;
    memcpy(key->date, other, DATE_SIZE);
    key->len = DATE_SIZE;
    return 1;
}

/* Fields 2 and 3 of INFPA and DTPSE, greater than those before: the same CPF, or none still, and a later date, or a greater CPF. */
static void rising_person(text_line *line, person_key *key)
{
    char cpf[CPF_SIZE];
    if (!key->begun || !(chance(2) && later_date(key))) {
        if (key->begun || chance(2))
            grow(&key->serial);
        key->len = chance(3) ? some_date(key->date) : 0;
    }
    key->begun = 1;
    make_cpf(key->serial, cpf);
    set_field(line, 2, cpf, key->serial ? CPF_SIZE : 0);
    set_field(line, 3, key->date, key->len);
}

static void values(declaration *d, unsigned above, unsigned parent, group_keys *keys);

/* A few INFPC and INFPA, with the values below each. */
static void groups(declaration *d, unsigned beneficiary, group_keys *keys)
{
    for (unsigned left = chance(2) ? few(d) : 0; left > 0; left--) {
        unsigned kind = plain_below(d->edition, d->declarant, beneficiary, INFPC) && chance(2) ? INFPC : INFPA;
        if (!plain_below(d->edition, d->declarant, beneficiary, kind))
            return;
        if (kind == INFPC)
            rising_key(add(d, kind), CNPJ_SIZE, &keys->pension);
        else
            rising_person(add(d, kind), &keys->alimony);
        values(d, beneficiary, kind, NULL);
    }
}

/* Values in any order, each once, and where there are keys groups before, between and behind them. */
static void values(declaration *d, unsigned above, unsigned parent, group_keys *keys)
{
    unsigned left = chance(20) ? chance(4) : KINDS, kind = chance(KINDS), step = 1 + chance(KINDS - 1);
    /* KINDS is prime, so every step comes past every kind once */
    for (unsigned i = 0; i < KINDS && left > 0 && d->count < ENOUGH; i++) {
        kind = (kind + step) % KINDS;
        if (plain_records[kind + 1].role != VALUE || !may_stand_below(d, above, parent, kind + 1))
            continue;
        if (keys)
            groups(d, parent, keys);
        add(d, kind + 1);
        left--;
    }
    if (keys)
        groups(d, parent, keys);
}

/* A few, and in a crowd some more. */
static unsigned people_here(const declaration *d)
{
    unsigned count = few(d);
    return d->crowd && d->count < ENOUGH ? count + chance(d->crowd + 1) : count;
}

static void people(declaration *d, unsigned kind)
{
    uint64_t key = chance(2) ? 0 : chance(1000000);
    for (unsigned left = people_here(d); left > 0; left--) {
        group_keys keys = {0};
        rising_key(add(d, kind), plain_field_row(d->edition, kind, 2).size, &key);
        values(d, NO_KIND, kind, &keys);
    }
}

static void codes(declaration *d, unsigned first, unsigned second)
{
    uint64_t key = 0;
    for (unsigned left = few(d); left > 0; left--) {
        rising_key(add(d, IDREC), 4, &key);
        people(d, first);
        if (second)
            people(d, second);
    }
}

/* Fields 2 and 3 of PROC and RRA, greater than those before: the field 2 greater, or the field 3 longer or greater. */
static void rising_pair(text_line *line, unsigned *nature, unsigned most, uint8_t *text, unsigned *len)
{
    if (*nature == 0 || (*nature < most && chance(2))) {
        ++*nature;
        *len = line->kind == RRA && chance(2) ? 0 : some_digits(1 + chance(6), text);
    } else if (*len < 20 && (*len == 0 || chance(2) || text[*len - 1] == '9')) {
        text[(*len)++] = (uint8_t)('0' + chance(10));
    } else {
        text[*len - 1] = (uint8_t)(text[*len - 1] + 1);
    }
    uint8_t first = (uint8_t)('0' + *nature);
    set_field(line, 2, &first, 1);
    set_field(line, 3, text, *len);
}

static void blocks(declaration *d, unsigned kind, unsigned first, unsigned second)
{
    uint64_t key = 0;
    unsigned nature = 0, len = 0;
    uint8_t text[32];
    for (unsigned left = few(d); left > 0; left--) {
        text_line *line = add(d, kind);
        if (kind == PROC || kind == RRA)
            rising_pair(line, &nature, kind == PROC ? 3 : 2, text, &len);
        else
            rising_key(line, 14, &key);
        if (kind != SCP) {
            codes(d, first, second);
            continue;
        }
        people(d, first);
        people(d, second);
    }
}

/* RTPSE or RDTPSE: CPFs, then CNPJs, of which the first may be less byte by byte than the last CPF. */
static void refunds(declaration *d, unsigned kind)
{
    static const unsigned sizes[] = {CPF_SIZE, CNPJ_SIZE};
    for (unsigned i = 0; i < 2; i++) {
        uint64_t key = chance(3) ? chance(MOST_CPF_BEGIN) : 0;
        key *= sizes[i] == CNPJ_SIZE && chance(2) ? 1000 : 1;
        for (unsigned left = few(d); left > 0; left--)
            rising_key(add(d, kind), sizes[i], &key);
    }
}

static void dependants(declaration *d)
{
    person_key key = {0};
    for (unsigned left = few(d); left > 0; left--) {
        rising_person(add(d, DTPSE), &key);
        refunds(d, RDTPSE);
    }
}

static void holders(declaration *d)
{
    uint64_t key = chance(2) ? 0 : chance(1000000);
    for (unsigned left = few(d); left > 0; left--) {
        rising_key(add(d, TPSE), CPF_SIZE, &key);
        refunds(d, RTPSE);
        dependants(d);
    }
}

/* The PSE of half the files, which stands once. */
static void health_plan(declaration *d)
{
    uint64_t key = 0;
    if (chance(2) || d->count >= ENOUGH)
        return;
    add(d, PSE);
    for (unsigned left = few(d); left > 0; left--) {
        rising_key(add(d, OPSE), CNPJ_SIZE, &key);
        holders(d);
    }
}

/* The declarant's flags: S exactly when there is such a block. */
static void keep_flags(declaration *d, text_line *declarant)
{
    int company = d->declarant == DECPJ, has_scp = 0, has_pse = 0;
    for (unsigned i = 0; i < d->count; i++) {
        has_scp |= d->line[i].kind == SCP;
        has_pse |= d->line[i].kind == PSE;
    }
    set_field(declarant, company ? DECPJ_SCP_FLAG : DECPF_SCP_FLAG, has_scp ? "S" : "N", 1);
    set_field(declarant, company ? DECPJ_PSE_FLAG : DECPF_PSE_FLAG, has_pse ? "S" : "N", 1);
}

/* What a beneficiary says of its INFPA or INFPC; a BPFRRA has no word for the latter. */
static void set_indicator(text_line *person, unsigned group, const char *there)
{
    if (person->kind == BPFDEC)
        set_field(person, group == INFPA ? BPFDEC_INFPA_FLAG : BPFDEC_INFPC_FLAG, there, 1);
    else if (group == INFPA)
        set_field(person, BPFRRA_INFPA_FLAG, there, 1);
}

/* The beneficiaries' indicators: S exactly when an INFPA or an INFPC stands below. */
static void keep_indicators(declaration *d)
{
    text_line *person = NULL;
    for (unsigned i = 0; i < d->count; i++) {
        text_line *line = &d->line[i];
        if (line->kind == BPFDEC || line->kind == BPFRRA) {
            person = line;
            set_indicator(person, INFPA, "N");
            set_indicator(person, INFPC, "N");
        }
        if (line->kind == INFPA || line->kind == INFPC)
            set_indicator(person, line->kind, "S");
    }
}

static void declare(declaration *d)
{
    d->count = 0;
    d->edition = chance(2) ? PLAIN_2025 : PLAIN_2022;
    d->declarant = chance(2) ? DECPF : DECPJ;
    add(d, DIRF);
    add(d, RESPO);
    text_line *line = add(d, d->declarant);
    codes(d, BPFDEC, BPJDEC);
    if (d->declarant == DECPJ) {
        blocks(d, FCI, BPFFCI, BPJFCI);
        blocks(d, PROC, BPFPROC, BPJPROC);
    }
    blocks(d, RRA, BPFRRA, 0);
    blocks(d, SCP, BPFSCP, BPJSCP);
    health_plan(d);
    keep_flags(d, line);
    keep_indicators(d);
    add(d, FIMDIRF);
}

void sound_declaration(declaration *d)
{
    d->crowd = 0;
    declare(d);
}

void sound_crowd(declaration *d)
{
    d->crowd = 5;
    declare(d);
}
