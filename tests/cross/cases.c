#include "cases.h"

#include "breaks.h"
#include "chance.h"
#include "faults.h"
#include "marks.h"
#include "whole.h"

/* What is done to a file, and how many of all have it done. 26 has many fields to come up in, 19 and the listed breaks many ways. */
enum { ALL_SHARES = 42 };
enum way { WHOLE, OF_CONDITIONS, OF_DIGITS, LISTED, ONE_RULE, TWO_RULES, TWO_AND_DAMAGED, DAMAGED, NOISE_OR_DAMAGED, FILE_WAYS };
static const unsigned shares[FILE_WAYS] = {
    [WHOLE] = 5, [OF_CONDITIONS] = 2, [OF_DIGITS] = 5, [LISTED] = 8, [ONE_RULE] = 2, [TWO_RULES] = 13, [TWO_AND_DAMAGED] = 2,
    [DAMAGED] = 3, [NOISE_OR_DAMAGED] = 2,
};

/* The number of the rule, or 0 where it could not be broken. */
static unsigned broken(declaration *d, unsigned number)
{
    return break_rule(d, number) ? number : 0;
}

/* Bytes without a plan, most of them such as lines are made of. */
static void noise(file_text *file)
{
    file->len = chance(60);
    for (size_t i = 0; i < file->len; i++)
        file->bytes[i] = (uint8_t)(chance(8) ? (uint32_t)"Dirf|2025\r\nFIM|\r\n"[chance(17)] : chance(256));
}

/* One of the listed breaks, each as likely, in the first declaration of some that has the records for it. */
static void break_listed(declaration *d, plan *p)
{
    unsigned which = chance(BREAKS);
    for (unsigned tries = 0; tries < 100 && p->line == 0; tries++) {
        sound_declaration(d);
        p->line = make_break(d, which);
    }
    p->listed = p->line ? which + 1 : 0;
    p->first = p->line ? break_number(which) : 0;
}

static enum way any_way(void)
{
    unsigned left = chance(ALL_SHARES), way = WHOLE;
    while (left >= shares[way])
        left -= shares[way++];
    return (enum way)way;
}

static void break_rules(declaration *d, plan *p, enum way way)
{
    if (way == OF_CONDITIONS || way == OF_DIGITS)
        p->first = broken(d, way == OF_DIGITS ? WRONG_DIGITS : CONDITION);
    if (way == ONE_RULE || way == TWO_RULES || way == TWO_AND_DAMAGED)
        p->first = broken(d, any_rule(1));
    if (way == TWO_RULES || way == TWO_AND_DAMAGED)
        p->second = broken(d, any_rule(1));
}

plan make_file(uint64_t seed, declaration *d, file_text *file)
{
    plan p = {0};
    chance_from(seed);
    enum way way = any_way();
    sound_declaration(d);
    if (way == LISTED)
        break_listed(d, &p);
    p.crossed = way != LISTED && chance(8) == 0;
    if (p.crossed)
        cross_line_one(d);
    break_rules(d, &p, way);
    write_file(d, file);
    if (way == NOISE_OR_DAMAGED && chance(4) == 0)
        noise(file);
    p.damaged = way >= TWO_AND_DAMAGED;
    if (p.damaged)
        for (unsigned left = 1 + chance(3); left > 0; left--)
            damage_bytes(file);
    return p;
}
