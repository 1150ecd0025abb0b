#include <stdlib.h>
#include <string.h>

#include "fed.h"
#include "feed.h"

int is_line(const fed *c)
{
    return c->letter == 'W' || c->letter == 'E';
}

void write_fed(FILE *out, const fed *c)
{
    fputc(c->letter, out);
    if (c->letter == 'E')
        put_number(out, year_of(c->edition));
    if (strchr("CNWEFam", c->letter))
        put_number(out, c->number);
    if (strchr("WEam", c->letter))
        put_number(out, c->room);
    if (strchr("CNWEFAM", c->letter))
        put_string(out, c->bytes, c->len);
    if (!is_line(c))
        return;
    put_number(out, c->count);
    for (size_t i = 0; i < c->count; i++)
        put_number(out, c->lengths[i]);
}

static void put_hex(FILE *out, const uint8_t *bytes, size_t len)
{
    if (len > 0)
        fputc(' ', out);
    for (size_t i = 0; i < len; i++)
        fprintf(out, "%02x", bytes[i]);
}

static uint32_t table[MOST_TABLE];

static fault demand_check(FILE *out, const fed *c)
{
    plain_answer a = plain_check(c->bytes, c->judged, table, c->number);
    fprintf(out, "%u %u %u %zu 1", a.number, a.line, a.field, a.entries);
    for (size_t i = 0; i < TABLE_NUMBERS * a.entries; i++)
        fprintf(out, " %u", table[i]);
    return (fault){a.number, a.field};
}

/* The answer, and the kinds that have a total. */
static fault demand_totals(FILE *out, const fed *c)
{
    uint64_t totals[KINDS + 1];
    plain_answer a = plain_check_totals(c->bytes, c->judged, table, c->number, totals, KINDS + 1);
    fprintf(out, "%u %u %u %zu", a.number, a.line, a.field, a.entries);
    for (unsigned kind = 1; kind <= KINDS; kind++)
        if (totals[kind] != 0)
            fprintf(out, " %u %llu", kind, (unsigned long long)(c->cut_totals ? (uint32_t)totals[kind] : totals[kind]));
    return (fault){a.number, a.field};
}

static fault demand_written(FILE *out, const fed *c)
{
    static uint8_t written[MOST_ROOM];
    size_t lengths[MOST_LENGTHS];
    plain_written w;
    for (size_t i = 0; i < c->count; i++)
        lengths[i] = c->lengths[i];
    if (is_line(c))
        w = plain_write_line(c->edition, (uint32_t)c->number, c->bytes, c->len, lengths, c->count, written, c->room);
    else if (c->letter == 'a')
        w = plain_write_amount(c->number, written, c->room);
    else
        w = plain_write_months(c->number, written, c->room);
    if (is_line(c))
        fprintf(out, "%u %u %zu 1", w.number, w.field, w.count);
    else
        fprintf(out, "%u %zu 1", w.number, w.count);
    put_hex(out, written, w.count);
    return (fault){w.number, w.field};
}

static fault demand_place(FILE *out, const fed *c)
{
    size_t start, length;
    int there = plain_field(c->bytes, c->len, c->number, &start, &length);
    fprintf(out, "%d %zu %zu", there, start, length);
    return (fault){0, 0};
}

static fault demand_value(FILE *out, const fed *c)
{
    plain_number n = c->letter == 'A' ? plain_read_amount(c->bytes, c->len) : plain_read_months(c->bytes, c->len);
    fprintf(out, "%u %llu", n.number, (unsigned long long)n.value);
    return (fault){n.number, 0};
}

fault demand_line(FILE *out, const fed *c)
{
    fault found;
    switch (c->letter) {
    case 'C': found = demand_check(out, c); break;
    case 'N': found = demand_totals(out, c); break;
    case 'F': found = demand_place(out, c); break;
    case 'A': case 'M': found = demand_value(out, c); break;
    default: found = demand_written(out, c);
    }
    fputc('\n', out);
    return found;
}
