/* 12, 20 and 21: records in other places, and keys and values that have come before. The ways that are listed come from breaks.c. */
#include "faults_inner.h"

#include <string.h>

#include "../makers/people.h"
#include "../plain/plain_inner.h"
#include "breaks.h"
#include "chance.h"
#include "sound.h"
#include "whole.h"

static int role_of(const declaration *d, unsigned at)
{
    return plain_records[d->line[at].kind].role;
}

static void swap_lines(declaration *d, unsigned at, unsigned other)
{
    text_line line = d->line[at];
    d->line[at] = d->line[other];
    d->line[other] = line;
}

/* 12: a record put in, taken out, or in another's place, often its neighbour's. */
int misplaced(declaration *d)
{
    unsigned at = chance(d->count), kind;
    if (chance(2) && any_break(d, 12))
        return 1;
    if (chance(3) == 0) {
        remove_line(d, at);
        return 1;
    }
    if (chance(2)) {
        swap_lines(d, at, chance(2) && at + 1 < d->count ? at + 1 : chance(d->count));
        return 1;
    }
    do
        kind = 1 + chance(KINDS);
    while (!plain_is_base(d->edition, kind));
    if (!insert_line(d, at))
        return 0;
    sound_line(&d->line[at], d->edition, kind);
    return 1;
}

/* Where what stands beside and below a record ends: at the first behind it that is nearer to the declarant than `role`. */
static unsigned end_of(const declaration *d, unsigned at, int role)
{
    do
        at++;
    while (at < d->count && role_of(d, at) >= role && role_of(d, at) != END);
    return at;
}

/* A record with a key, or a value record without one, by chance; the number of lines where there is none. */
static unsigned any_with(const declaration *d, int key)
{
    for (unsigned tries = 0; tries < 100; tries++) {
        unsigned at = chance(d->count), kind = d->line[at].kind;
        if (has_key(kind) == key && (key || plain_records[kind].role == VALUE))
            return at;
    }
    return d->count;
}

/* 20: a record with a key twice, often with others between, or with another key that is hardly ever greater. */
int not_greater(declaration *d)
{
    unsigned at = any_with(d, 1), start, len;
    uint8_t text[64];
    if (chance(2) && any_break(d, 20))
        return 1;
    if (at == d->count)
        return 0;
    text_line *line = &d->line[at];
    if (chance(2) || !find_field(line, 2, &start, &len) || len == 0 || len > sizeof text)
        return copy_line(d, at, at + 1 + chance(end_of(d, at, role_of(d, at)) - at));
    memset(text, '0', len);
    if (len == CPF_SIZE || len == CNPJ_SIZE)
        make_identity(len, chance(3), (char *)text);
    else
        text[len - 1] = (uint8_t)('0' + chance(3));
    set_field(line, 2, text, len);
    return 1;
}

/* 21: a value record twice, often with others between, INFPC and INFPA among them. */
int repeated(declaration *d)
{
    unsigned at = any_with(d, 0);
    if (chance(2) && any_break(d, 21))
        return 1;
    if (at == d->count)
        return 0;
    return copy_line(d, at, at + 1 + (chance(2) ? chance(end_of(d, at, GROUP) - at) : 0));
}
