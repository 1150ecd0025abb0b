/* 19: the conditions of DECPF, PROC and RRA. */
#include "faults_inner.h"

#include <string.h>

#include "../makers/people.h"
#include "../plain/plain_inner.h"
#include "chance.h"
#include "sound.h"

/* DECPF: field 8 is S, and the others by chance, so that each is named about as often. */
static void break_declarant(text_line *line)
{
    set_field(line, DECPF_SPECIAL, "S", 1);
    set_field(line, 9, "20240301", chance(4) ? 8 : 0);
    set_field(line, 10, chance(3) ? "1" : "2", chance(4) ? 1 : 0);
    set_field(line, 11, chance(2) ? "S" : "N", 1);
    set_field(line, 13, chance(2) ? "0" : "1", chance(2) ? 1 : 0);
}

/* The digits of a number that this lawyer may not have: the other kind's, or either's where there is none. */
static unsigned other_digits(const lawyer *l)
{
    int person = l->digits == 0 ? chance(2) == 0 : l->digits != CPF_SIZE;
    return person ? CPF_SIZE : CNPJ_SIZE;
}

/* A name that is too long for this lawyer, often by one byte, or now and then for every one. */
static unsigned long_name(const lawyer *l)
{
    if (l->most == LONGEST_NAME || chance(12) == 0)
        return LONGEST_NAME + 1;
    return chance(3) == 0 ? l->most + 1 : chance(3) == 0 ? LONGEST_NAME : l->most + 1 + chance(LONGEST_NAME - l->most);
}

/* PROC and RRA: a number of the other kind, a name that is too long, or one of them without a kind; often both. */
static void break_lawyer(text_line *line)
{
    const lawyer *l = &lawyers[chance(LAWYERS)];
    /* of a firm no name is too long that is not too long for the field */
    int in_number = l->most == LONGEST_NAME || chance(2), in_name = !in_number || chance(2);
    unsigned digits = in_number ? other_digits(l) : chance(2) ? l->digits : 0;
    set_lawyer(line, l->kind, digits, in_name ? long_name(l) : sound_name(l));
    /* the field behind them is asked first */
    if (chance(12) == 0)
        set_field(line, LAWYER_NAME + 1, chance(2) ? "0" : "A", 1);
}

static int has_conditions(const text_line *line)
{
    return line->kind == DECPF || has_lawyer(line->kind);
}

int break_conditions(text_line *line)
{
    if (line->kind == DECPF)
        break_declarant(line);
    else if (has_lawyer(line->kind))
        break_lawyer(line);
    return has_conditions(line);
}

/* 19: each line that has conditions is as likely. Now and then its key has come before, since 20 is asked after 19. */
int broken_condition(declaration *d)
{
    unsigned at = 0, found = 0;
    for (unsigned i = 0; i < d->count; i++)
        if (has_conditions(&d->line[i]) && chance(++found) == 0)
            at = i;
    if (has_lawyer(d->line[at].kind) && chance(8) == 0)
        at += (unsigned)copy_line(d, at, at + 1);
    return break_conditions(&d->line[at]);
}
