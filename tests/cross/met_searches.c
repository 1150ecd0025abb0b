#include "met_searches.h"

#include <stdio.h>

#include "met_inner.h"

static const char *const block_words[BLOCKS] = {"the declarant", "an FCI", "a PROC", "an RRA"};
static const char *const ending_words[ENDINGS] = {
    "found at the first person", "found at a middle person", "found at the last person", "found at the only person",
    "not found before all", "not found between two persons", "not found behind all persons", "not found, a company behind the persons",
    "not found, a company and no person", "not found, nobody below",
};
static const char *const cause_words[CAUSES] = {
    "line 0", "a line past the table", "no IDREC", "no beneficiary", "start and length past the file", "start and length past 32 bits",
    "a last line past the table", "a last line before itself",
};
static const char *const place_words[PLACES] = {"the IDREC", "the first beneficiary", "a later beneficiary"};
static const char *const edge_words[EDGES] = {
    "a last line past the IDREC's own", "a last line that is the table's last", "an entry that ends with the file",
};
static const char *const table_words[TABLES] = {
    "own", "one number changed", "some changed", "cut", "with numbers behind", "of another file",
};
static const char *const entry_words[CHANGED_ENTRIES] = {"the IDREC", "a beneficiary", "any line"};
static const char *const answer_words[ANSWERS] = {"nobody", "somebody", "27"};

/* ---- how a search in an accepted file ends */

/* Who stands directly below the IDREC, by the parents. */
typedef struct { uint32_t persons, companies, last_person; } crowd;

static crowd below(const lent_table *lent, uint32_t idrec)
{
    crowd c = {0, 0, 0};
    for (uint32_t line = idrec + 1; line <= lent->numbers / TABLE_NUMBERS; line++) {
        uint32_t kind = number_at(lent->table, line, ENTRY_KIND);
        if (number_at(lent->table, line, ENTRY_PARENT) != idrec)
            continue;
        c.companies += is_company(kind) != 0;
        if (is_person(kind)) {
            c.persons++;
            c.last_person = line;
        }
    }
    return c;
}

static unsigned ending_of(const asked *a, const lent_table *lent, plain_found f)
{
    crowd c = below(lent, a->line);
    part key = {a->key, a->key_len};
    if (c.persons + c.companies == 0)
        return NOBODY;
    if (c.persons == 0)
        return COMPANY_FIRST;
    if (f.line && c.persons == 1)
        return FOUND_ONLY;
    if (f.line)
        return f.line == c.last_person ? FOUND_LAST : f.count == 1 ? FOUND_FIRST : FOUND_MIDDLE;
    if (plain_compare(key_at(a->file, lent->table, c.last_person), key) < 0)
        return c.companies ? COMPANY_BEHIND : BEHIND_ALL;
    return f.count == 1 ? BEFORE_ALL : BETWEEN;
}

static unsigned block_of(const lent_table *lent, uint32_t idrec)
{
    switch (number_at(lent->table, number_at(lent->table, idrec, ENTRY_PARENT), ENTRY_KIND)) {
    case FCI: return OF_FCI;
    case PROC: return OF_PROC;
    case RRA: return OF_RRA;
    default: return OF_DECLARANT;
    }
}

/* Below an RRA no company stands. */
static int can_end(unsigned block, unsigned ending)
{
    return block != OF_RRA || (ending != COMPANY_BEHIND && ending != COMPANY_FIRST);
}

/* ---- why it is 27, and what is taken */

/* All causes of an entry of the table, one bit each. */
static unsigned causes_at(const asked *a, const lent_table *lent, uint32_t line)
{
    const uint32_t *entry = lent->table + TABLE_NUMBERS * (line - 1);
    uint64_t end = (uint64_t)entry[ENTRY_START] + entry[ENTRY_LENGTH];
    unsigned causes = 0;
    if (end > a->file.len)
        causes |= 1u << (end > UINT32_MAX ? PAST_32_BITS : PAST_FILE);
    if (entry[ENTRY_LAST] > lent->numbers / TABLE_NUMBERS)
        causes |= 1u << LAST_PAST_TABLE;
    if (entry[ENTRY_LAST] < line)
        causes |= 1u << LAST_BEFORE;
    if (line == a->line)
        causes |= (unsigned)(entry[ENTRY_KIND] != IDREC) << NO_IDREC;
    else
        causes |= (unsigned)(!is_person(entry[ENTRY_KIND]) && !is_company(entry[ENTRY_KIND])) << NO_BENEFICIARY;
    return causes;
}

/* A beneficiary that the search has stepped over. */
static void count_edges(searches_met *m, const asked *a, const lent_table *lent, uint32_t line)
{
    const uint32_t *entry = lent->table + TABLE_NUMBERS * (line - 1);
    m->edge[PAST_OWN] += entry[ENTRY_LAST] > number_at(lent->table, a->line, ENTRY_LAST);
    m->edge[LAST_OF_TABLE] += entry[ENTRY_LAST] == lent->numbers / TABLE_NUMBERS;
    m->edge[AT_FILE_END] += (uint64_t)entry[ENTRY_START] + entry[ENTRY_LENGTH] == a->file.len;
}

/* The causes of the first entry of a search that has any, 0 where none has; and where it stands. */
static unsigned first_causes(searches_met *m, const asked *a, const lent_table *lent, unsigned *place)
{
    part key = {a->key, a->key_len};
    *place = AT_IDREC;
    unsigned causes = causes_at(a, lent, a->line);
    uint32_t last = number_at(lent->table, a->line, ENTRY_LAST);
    for (uint32_t line = a->line + 1; causes == 0 && line <= last; line = number_at(lent->table, line, ENTRY_LAST) + 1) {
        *place = *place == AT_IDREC ? AT_FIRST : AT_LATER;
        causes = causes_at(a, lent, line);
        if (causes)
            return causes;
        if (is_company(number_at(lent->table, line, ENTRY_KIND)) || plain_compare(key_at(a->file, lent->table, line), key) >= 0)
            return 0;
        if (a->way != OWN_TABLE)
            count_edges(m, a, lent, line);
    }
    return causes;
}

static void count_causes(searches_met *m, const asked *a, const lent_table *lent)
{
    unsigned place = AT_IDREC, causes, given = a->way != OWN_TABLE;
    if (a->line == 0)
        causes = 1u << LINE_0;
    else if (a->line > lent->numbers / TABLE_NUMBERS)
        causes = 1u << PAST_TABLE;
    else
        causes = first_causes(m, a, lent, &place);
    for (unsigned cause = 0; cause < CAUSES; cause++)
        m->cause[given][place][cause] += causes == 1u << cause;
}

/* `S` meets the first three alone: the check's own entries have no other cause. */
static int can_cause(unsigned given, unsigned place, unsigned cause)
{
    if (cause <= NO_IDREC)
        return place == AT_IDREC;
    return given && (cause != NO_BENEFICIARY || place != AT_IDREC);
}

/* ---- all of it */

void count_search(searches_met *m, const asked *a, const lent_table *lent, plain_found f)
{
    plain_edition edition = plain_edition_of(a->file.bytes, a->file.len);
    unsigned answer = f.number ? REFUSED : f.line ? FOUND : NOT_FOUND;
    m->by_table[a->way][answer]++;
    if (a->way == CHANGED)
        m->changed[a->changed.entry][a->changed.number][a->changed.value]++;
    count_causes(m, a, lent);
    if (a->way != OWN_TABLE)
        return;
    m->accepted += lent->checked.number == 0;
    m->refused += lent->checked.number != 0;
    m->full += lent->checked.number == 7;
    if (lent->checked.number != 0)
        m->spoiled[edition][answer]++;
    else if (f.number == 0)
        m->ending[edition][block_of(lent, a->line)][ending_of(a, lent, f)]++;
}

static int endings_met(const searches_met *m)
{
    int all = 1;
    for (plain_edition e = PLAIN_2025; e <= PLAIN_2022; e++)
        for (unsigned b = 0; b < BLOCKS; b++)
            for (unsigned i = 0; i < ENDINGS; i++)
                if (can_end(b, i) && m->ending[e][b][i] == 0)
                    all = not_met("%s of an IDREC of %s, accepted in %u", ending_words[i], block_words[b], year_of(e));
    return all;
}

static int causes_met(const searches_met *m)
{
    int all = 1;
    for (unsigned given = 0; given < 2; given++)
        for (unsigned p = 0; p < PLACES; p++)
            for (unsigned c = 0; c < CAUSES; c++)
                if (can_cause(given, p, c) && m->cause[given][p][c] == 0)
                    all = not_met("27 by %c for %s at %s", given ? 'T' : 'S', cause_words[c], place_words[p]);
    return all;
}

/* Every number of every entry put to every value. */
static int changes_met(const searches_met *m)
{
    int all = 1;
    for (unsigned e = 0; e < CHANGED_ENTRIES; e++)
        for (unsigned n = 0; n < TABLE_NUMBERS; n++)
            for (unsigned v = 0; v < VALUES; v++)
                if (m->changed[e][n][v] == 0)
                    all = not_met("number %u of %s put to value %u", n + 1, entry_words[e], v + 1);
    return all;
}

int all_searches_met(const searches_met *m)
{
    int all = endings_met(m) & causes_met(m) & changes_met(m);
    for (unsigned answer = 0; answer < ANSWERS; answer++) {
        for (plain_edition e = PLAIN_2025; e <= PLAIN_2022; e++)
            if (m->spoiled[e][answer] == 0)
                all = not_met("%s in a refused file of %u", answer_words[answer], year_of(e));
        for (unsigned way = 0; way < TABLES; way++)
            if (m->by_table[way][answer] == 0)
                all = not_met("%s by a table: %s", answer_words[answer], table_words[way]);
    }
    for (unsigned i = 0; i < EDGES; i++)
        if (m->edge[i] == 0)
            all = not_met("%s, stepped over", edge_words[i]);
    if (m->full == 0)
        all = not_met("a search in a file that was refused for want of room");
    return all;
}

static void print_endings(const searches_met *m, plain_edition e)
{
    unsigned least_block = 0, least = 0;
    printf("searches, %u: accepted files", year_of(e));
    for (unsigned i = 0; i < ENDINGS; i++) {
        unsigned long times = 0;
        for (unsigned b = 0; b < BLOCKS; b++) {
            times += m->ending[e][b][i];
            if (can_end(b, i) && m->ending[e][b][i] < m->ending[e][least_block][least]) {
                least_block = b;
                least = i;
            }
        }
        printf("%s %s %lu", i ? "," : ":", ending_words[i], times);
    }
    printf("; least %s of %s, %lu times; refused files: nobody %lu, somebody %lu, 27 %lu\n", ending_words[least], block_words[least_block],
        m->ending[e][least_block][least], m->spoiled[e][NOT_FOUND], m->spoiled[e][FOUND], m->spoiled[e][REFUSED]);
}

static void print_causes(const searches_met *m)
{
    for (unsigned given = 0; given < 2; given++) {
        printf("searches, 27 by %c", given ? 'T' : 'S');
        for (unsigned c = 0; c < CAUSES; c++)
            for (unsigned p = 0; p < PLACES; p++)
                if (can_cause(given, p, c))
                    printf("; %s at %s %lu", cause_words[c], place_words[p], m->cause[given][p][c]);
        printf("\n");
    }
}

void print_searches(const searches_met *m)
{
    printf("searches: by S in accepted files %lu, in refused ones %lu, %lu of these for want of room", m->accepted, m->refused, m->full);
    for (unsigned way = 0; way < TABLES; way++)
        printf("; table %s: nobody %lu, somebody %lu, 27 %lu", table_words[way], m->by_table[way][NOT_FOUND], m->by_table[way][FOUND],
            m->by_table[way][REFUSED]);
    printf("\n");
    print_endings(m, PLAIN_2025);
    print_endings(m, PLAIN_2022);
    print_causes(m);
    printf("searches, stepped over");
    for (unsigned i = 0; i < EDGES; i++)
        printf("%s %s %lu", i ? ";" : ":", edge_words[i], m->edge[i]);
    printf("\n");
}
