#include "met_records.h"

#include <stdio.h>

#include "declaration.h"
#include "met_inner.h"

/* More than any file from a seed has. */
enum { MOST_ENTRIES = 4000, DECLARANT_LINE = 3 };

/* Where a record stands. */
typedef struct {
    plain_edition edition;
    unsigned declarant, of_rra, parent, kind;
} stand;

/* The kind of a line, and its parent's line; NO_KIND and 0 of line 0. */
static unsigned kind_at(const uint32_t *table, uint32_t line)
{
    return line ? table[TABLE_NUMBERS * (line - 1) + ENTRY_KIND] : NO_KIND;
}

static uint32_t parent_at(const uint32_t *table, uint32_t line)
{
    return line ? table[TABLE_NUMBERS * (line - 1) + ENTRY_PARENT] : 0;
}

void count_records(records_met *m, part file)
{
    static uint32_t table[TABLE_NUMBERS * MOST_ENTRIES];
    plain_edition edition = plain_edition_of(file.bytes, file.len);
    plain_answer a = plain_check(file.bytes, file.len, table, TABLE_NUMBERS * MOST_ENTRIES);
    for (uint32_t line = 1; line <= a.line && a.number == 0; line++) {
        uint32_t parent = parent_at(table, line);
        unsigned of_rra = kind_at(table, parent_at(table, parent)) == BPFRRA;
        m->count[edition][kind_at(table, DECLARANT_LINE)][of_rra][kind_at(table, parent)][kind_at(table, line)]++;
    }
}

/* Whether a record may stand so. */
static int can_stand(stand at)
{
    if (at.of_rra && (at.parent != INFPA || at.kind == ESPA))
        return 0;
    int role = plain_records[at.kind].role;
    if (at.parent == NO_KIND)
        return role == HEAD || role == END || at.kind == at.declarant;
    return plain_below(at.edition, at.declarant, at.parent, at.kind);
}

/* Steps through all that can be; 0 behind the last. */
static int next_stand(stand *at)
{
    do {
        if (++at->kind > KINDS) {
            at->kind = 1;
            at->parent++;
        }
        if (at->parent > KINDS) {
            at->parent = NO_KIND;
            at->of_rra++;
        }
        if (at->of_rra > 1) {
            at->of_rra = 0;
            at->declarant++;
        }
    } while (at->declarant <= DECPJ && !can_stand(*at));
    return at->declarant <= DECPJ;
}

/* In front of an edition's first. */
static stand before_all(plain_edition edition)
{
    return (stand){edition, DECPF, 0, NO_KIND, NO_KIND};
}

static unsigned long times_met(const records_met *m, stand at)
{
    return m->count[at.edition][at.declarant][at.of_rra][at.parent][at.kind];
}

static const char *words_of(stand at)
{
    static char words[100];
    const char *below = at.parent == NO_KIND ? "nothing" : plain_name(at.parent);
    snprintf(words, sizeof words, "%s below %s%s under %s", plain_name(at.kind), below, at.of_rra ? " of a BPFRRA" : "",
             plain_name(at.declarant));
    return words;
}

int all_records_met(const records_met *m, plain_edition edition)
{
    int all = 1;
    for (stand at = before_all(edition); next_stand(&at);)
        if (times_met(m, at) == 0)
            all = not_met("%s, accepted in %u", words_of(at), year_of(edition));
    return all;
}

void print_records(const records_met *m, plain_edition edition)
{
    unsigned stands = 0;
    stand least = before_all(edition);
    for (stand at = least; next_stand(&at); stands++)
        if (stands == 0 || times_met(m, at) < times_met(m, least))
            least = at;
    printf("; records accepted in %u places, least %s, %lu times", stands, words_of(least), times_met(m, least));
}
