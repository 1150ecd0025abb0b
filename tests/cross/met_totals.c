#include "met_totals.h"

#include <stdio.h>

#include "declaration.h"
#include "met_inner.h"

enum { ACCEPTED, REFUSED, ENDS };
static const char *const end_words[ENDS] = {"accepted", "refused"};

/* The kinds of value records with amounts are counted too: docs/KINDS.md names so many, two of them in 2025 alone. */
static const unsigned kinds_with_total[EDITIONS] = {[PLAIN_2025] = 40, [PLAIN_2022] = 38};

/* The numbers that a value line with amounts can have, that of the room among them. */
static const unsigned refusals[] = {7, 11, 12, 14, 15, 16, 20, 21, 26};

/* Whether the line of the answer, which is not counted, adds to its kind's total where it is read with the others. */
static int has_amounts(part file, uint32_t line, uint32_t kind)
{
    return plain_total_reading(file.bytes, file.len, line, kind) != plain_total_reading(file.bytes, file.len, line - 1, kind);
}

void count_totals(totals_met *m, part file, plain_answer a, uint32_t kind, const uint64_t *totals)
{
    plain_edition edition = plain_edition_of(file.bytes, file.len);
    for (unsigned k = 1; k <= KINDS; k++)
        m->kinds[edition][a.number != 0][k] += totals[k] != 0;
    if (a.number != 0 && plain_records[kind].role == VALUE && has_amounts(file, a.line, kind))
        m->left_out[edition][a.number]++;
}

/* Whether the kind is a value record of the edition with an amount. */
static int has_total(plain_edition edition, unsigned kind)
{
    for (unsigned f = 2; f <= plain_fields(edition, kind); f++)
        if (plain_records[kind].role == VALUE && plain_field_row(edition, kind, f).amount)
            return 1;
    return 0;
}

static int kinds_met(const totals_met *m, plain_edition edition)
{
    int all = 1;
    unsigned count = 0;
    for (unsigned kind = 1; kind <= KINDS; kind++) {
        count += (unsigned)has_total(edition, kind);
        for (unsigned end = 0; end < ENDS; end++)
            if (has_total(edition, kind) && m->kinds[edition][end][kind] == 0)
                all = not_met("a total of %s that is not 0, in a file of %u, %s", plain_name(kind), year_of(edition), end_words[end]);
    }
    return count == kinds_with_total[edition] ? all : not_met("%u kinds with a total in %u", kinds_with_total[edition], year_of(edition));
}

int all_totals_met(const totals_met *m, plain_edition edition)
{
    int all = kinds_met(m, edition);
    for (unsigned i = 0; i < sizeof refusals / sizeof *refusals; i++)
        if (m->left_out[edition][refusals[i]] == 0)
            all = not_met("%u for a value line with amounts, in %u", refusals[i], year_of(edition));
    return all;
}

void print_totals(const char *name, const totals_met *m, plain_edition edition)
{
    printf("%s, %u: totals that are not 0", name, year_of(edition));
    for (unsigned end = 0; end < ENDS; end++) {
        const unsigned long *met = m->kinds[edition][end];
        unsigned count = 0, least = RTRT;
        for (unsigned kind = 1; kind <= KINDS; kind++) {
            count += met[kind] != 0;
            if (has_total(edition, kind) && met[kind] < met[least])
                least = kind;
        }
        printf(", %s: %u kinds, least %s in %lu files", end_words[end], count, plain_name(least), met[least]);
    }
    printf("; value lines with amounts refused, by number");
    for (unsigned number = 1; number <= LAST_RULE; number++)
        if (m->left_out[edition][number])
            printf(" %u:%lu", number, m->left_out[edition][number]);
    printf("\n");
}
