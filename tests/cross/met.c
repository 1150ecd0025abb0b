#include "met.h"

#include <stdarg.h>
#include <stdio.h>
#include <string.h>

#include "met_inner.h"

enum { UNKNOWN = 9 };

/* A line of the file, counted from 1, up to its CR or LF; the lines before it are whole. */
static part line_of(part file, unsigned line)
{
    for (; line > 1; line--) {
        const uint8_t *end = memchr(file.bytes, LF, file.len);
        if (!end)
            return (part){file.bytes, 0};
        file = (part){end + 1, file.len - (size_t)(end + 1 - file.bytes)};
    }
    size_t len = 0;
    while (len < file.len && file.bytes[len] != CR && file.bytes[len] != LF)
        len++;
    return (part){file.bytes, len};
}

static part field_of(part line, unsigned f)
{
    size_t start, length;
    plain_field(line.bytes, line.len, f, &start, &length);
    return (part){line.bytes + start, length};
}

/* By field a number counts only where its own rule was broken: another rule's fault or a damaged byte gives it now and then as well. */
static int was_broken(plan p, unsigned number)
{
    return !p.damaged && (p.first == number || p.second == number);
}

void count_file(met *m, part file, plain_answer a, const uint64_t *totals, plan p)
{
    plain_edition edition = plain_edition_of(file.bytes, file.len);
    part line = line_of(file, a.line);
    uint32_t kind = plain_kind_of(PLAIN_2025, field_of(line, 1));
    m->files[edition]++;
    m->taken[edition] += a.number == 0;
    count_totals(&m->totals, file, a, kind, totals);
    if (a.number == UNKNOWN && edition == PLAIN_2022 && kind != NO_KIND)
        m->lacked[kind][a.line > 1]++;
    if (a.number == 0 && !p.damaged)
        count_records(&m->records, file);
    if (p.listed && a.number == break_number(p.listed - 1) && a.line == p.line)
        m->listed[edition][p.listed - 1]++;
    if (a.number == 0 || !was_broken(p, a.number))
        return;
    refusal r = {.edition = edition, .kind = kind, .found = {a.number, a.field}};
    for (unsigned f = 1; f <= MOST_FIELDS; f++)
        r.fields[f - 1] = field_of(line, f);
    count_refusal(&m->in_files, &r);
}

void count_plan(met *m, plan p, unsigned number)
{
    if (p.damaged)
        return;
    if (p.first && !p.second && !p.crossed && number == p.first)
        m->alone[number]++;
    if (p.first && p.second)
        m->pair[p.first][p.second]++;
}

void count_closed(met *m, part file, unsigned lines)
{
    plain_edition edition = plain_edition_of(file.bytes, file.len);
    m->closed[edition]++;
    m->begun[edition] += lines == 0;
}

/* Whether only 2025 has the kind. */
static int is_lacked(unsigned kind)
{
    return plain_is_base(PLAIN_2025, kind) && !plain_is_base(PLAIN_2022, kind);
}

int not_met(const char *what, ...)
{
    va_list words;
    va_start(words, what);
    fputs("not met: ", stderr);
    vfprintf(stderr, what, words);
    fputc('\n', stderr);
    va_end(words);
    return 0;
}

static int rules_met(const met *m)
{
    int all = 1;
    for (unsigned a = 1; a <= LAST_RULE; a++) {
        if (can_break(a) && m->alone[a] == 0)
            all = not_met("number %u from its rule broken alone", a);
        for (unsigned b = 1; b <= LAST_RULE; b++)
            if (can_break(a) && can_break(b) && m->pair[a][b] == 0)
                all = not_met("rules %u and %u broken together", a, b);
    }
    return all;
}

/* Of the older edition: the records that it lacks, refused in line 1 and in another. */
static int lacked_met(const met *m)
{
    int all = 1;
    for (unsigned kind = 1; kind <= KINDS; kind++)
        for (unsigned later = 0; later < 2; later++)
            if (is_lacked(kind) && m->lacked[kind][later] == 0)
                all = not_met("9 for %s in %s of an older file", plain_name(kind), later ? "a later line" : "line 1");
    return all;
}

/* Every listed break, answered with its number. */
static int breaks_met(const met *m, plain_edition edition)
{
    int all = 1;
    for (unsigned i = 0; i < BREAKS; i++)
        if (m->listed[edition][i] == 0)
            all = not_met("%u for %s, in a file of %u", break_number(i), break_words(i), year_of(edition));
    return all;
}

static int edition_met(const met *m, plain_edition edition)
{
    int all = all_records_met(&m->records, edition) & breaks_met(m, edition) & fields_counted(edition)
        & all_ways_met(&m->in_files, edition, "in a file") & all_totals_met(&m->totals, edition);
    if (m->taken[edition] == 0)
        all = not_met("an accepted file of %u", year_of(edition));
    if (m->closed[edition] == 0 || m->begun[edition] == 0 || m->fixed[edition] == 0)
        all = not_met("a cut of %u that can be closed, an empty one, or one that no tail changes", year_of(edition));
    return all;
}

int all_met(const met *m, unsigned most, unsigned left_out)
{
    int all = rules_met(m) & lacked_met(m) & edition_met(m, PLAIN_2025) & edition_met(m, PLAIN_2022);
    for (unsigned number = 0; number <= LAST_RULE; number++)
        if ((number <= most || number == WRONG_DIGITS) && number != left_out && m->number[number] == 0)
            all = not_met("number %u", number);
    return all;
}

int lines_met(const met *m)
{
    int all = all_ways_met(&m->in_lines, PLAIN_2025, "in a line") & all_ways_met(&m->in_lines, PLAIN_2022, "in a line");
    for (unsigned kind = 1; kind <= KINDS; kind++) {
        for (plain_edition edition = PLAIN_2025; edition <= PLAIN_2022; edition++)
            if (plain_is_base(edition, kind) && m->written[edition][kind] == 0)
                all = not_met("a line of %s written in %u", plain_name(kind), year_of(edition));
        if (is_lacked(kind) && m->unwritten[kind] == 0)
            all = not_met("22 for %s in the older edition", plain_name(kind));
    }
    return all;
}

/* Which listed break came up least. */
static void print_breaks(const met *m, plain_edition edition)
{
    unsigned least = 0;
    for (unsigned i = 0; i < BREAKS; i++)
        if (m->listed[edition][i] < m->listed[edition][least])
            least = i;
    printf("; of %u listed breaks least %u for %s, %lu times\n", BREAKS, break_number(least), break_words(least),
        m->listed[edition][least]);
}

void print_met(const char *name, unsigned long cases, unsigned long differ, const met *m)
{
    printf("%s: %lu cases, %lu differ; by number", name, cases, differ);
    for (unsigned number = 0; number <= LAST_RULE; number++)
        if (m->number[number])
            printf(" %u:%lu", number, m->number[number]);
    printf("\n");
    for (plain_edition e = PLAIN_2025; e <= PLAIN_2022; e++) {
        printf("%s, %u: %lu files, %lu accepted; %lu cuts closed, %lu of them with no line; %lu cuts that no tail changes", name,
            year_of(e), m->files[e], m->taken[e], m->closed[e], m->begun[e], m->fixed[e]);
        print_ways(&m->in_files, e);
        print_records(&m->records, e);
        print_breaks(m, e);
        print_totals(name, &m->totals, e);
    }
    for (unsigned kind = 1; kind <= KINDS; kind++)
        if (is_lacked(kind))
            printf("%s, 2022: 9 for %s: %lu in line 1, %lu later\n", name, plain_name(kind), m->lacked[kind][0], m->lacked[kind][1]);
}

void print_lines(const char *name, const met *m)
{
    for (plain_edition e = PLAIN_2025; e <= PLAIN_2022; e++) {
        unsigned long lines = 0, kinds = 0;
        for (unsigned kind = 1; kind <= KINDS; kind++) {
            lines += m->written[e][kind];
            kinds += m->written[e][kind] != 0;
        }
        printf("%s, line writer told %u: %lu lines of %lu kinds", name, year_of(e), lines, kinds);
        print_ways(&m->in_lines, e);
        printf("\n");
    }
    for (unsigned kind = 1; kind <= KINDS; kind++)
        if (is_lacked(kind))
            printf("%s, line writer told 2022: 22 for %s: %lu\n", name, plain_name(kind), m->unwritten[kind]);
}
