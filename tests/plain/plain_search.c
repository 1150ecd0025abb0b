/* One CPF under one IDREC, asked in two ways: by the table, from one beneficiary to the next, and by reading every line. */
#include <string.h>

#include "plain_inner.h"

static const plain_found not_answered = {27, 0, 0};

/* ---- by the table ---- */

/* A table and its file as lent, neither of them trusted. */
typedef struct { const uint8_t *file; size_t file_len; const uint32_t *table; size_t entries; } lent;

static const uint32_t *entry_of(const lent *in, size_t line)
{
    return in->table + TABLE_NUMBERS * (line - 1);
}

static int is_company(uint32_t kind)
{
    return kind == BPJDEC || kind == BPJFCI || kind == BPJPROC || kind == BPJSCP;
}

/* Named one by one: the check gives TPSE a beneficiary's place, and here it is none. */
static int is_beneficiary(uint32_t kind)
{
    return kind == BPFDEC || kind == BPFFCI || kind == BPFPROC || kind == BPFRRA || kind == BPFSCP || is_company(kind);
}

/* Whether the entry of the line lies within the file and ends its group within the table, not before itself. */
static int is_inside(const lent *in, size_t line)
{
    const uint32_t *entry = entry_of(in, line);
    /* In 64 bits, as the sum of two numbers of 32 may need 33. */
    uint64_t end = (uint64_t)entry[ENTRY_START] + entry[ENTRY_LENGTH];
    return end <= in->file_len && entry[ENTRY_LAST] <= in->entries && entry[ENTRY_LAST] >= line;
}

static part second_field(part line)
{
    size_t start, length;
    plain_field(line.bytes, line.len, 2, &start, &length);
    /* Nothing is added to a pointer that may be NULL. */
    return (part){length ? line.bytes + start : NULL, length};
}

static part line_of(const lent *in, const uint32_t *entry)
{
    size_t length = entry[ENTRY_LENGTH];
    return (part){length ? in->file + entry[ENTRY_START] : NULL, length};
}

plain_found plain_search(const uint8_t *file, size_t file_len, const uint32_t *table, size_t table_len,
                         uint32_t line, const uint8_t *key, size_t key_len)
{
    const lent in = {file, file_len, table, table_len / TABLE_NUMBERS};
    const part wanted = {key, key_len};
    plain_found found = {0, 0, 0};
    if (line == 0 || line > in.entries || entry_of(&in, line)[ENTRY_KIND] != IDREC || !is_inside(&in, line))
        return not_answered;
    /* The lines are at most the table's, so one past them is still a size_t; each step goes forward, as no last line is before its own. */
    const size_t last = entry_of(&in, line)[ENTRY_LAST];
    for (size_t at = (size_t)line + 1; at <= last; at = (size_t)entry_of(&in, at)[ENTRY_LAST] + 1) {
        const uint32_t *entry = entry_of(&in, at);
        if (!is_beneficiary(entry[ENTRY_KIND]) || !is_inside(&in, at))
            return not_answered;
        found.count++;
        if (is_company(entry[ENTRY_KIND]))
            return found;
        int order = plain_compare(second_field(line_of(&in, entry)), wanted);
        if (order >= 0) {
            found.line = order == 0 ? (uint32_t)at : 0;
            return found;
        }
    }
    return found;
}

/* ---- by reading every line ---- */

/* What is left of the file, and the number of the line that was read last. */
typedef struct { const uint8_t *at; size_t left; uint32_t number; } reader;

/* The next line, its CR with it, as no field has that; 0 where there is none. */
static int read_line(reader *r, part *line)
{
    if (r->left == 0)
        return 0;
    const uint8_t *end = memchr(r->at, LF, r->left);
    size_t len = end ? (size_t)(end - r->at) : r->left, gone = end ? len + 1 : len;
    *line = (part){r->at, len};
    r->at += gone;
    r->left -= gone;
    r->number++;
    return 1;
}

static inline int begins(part line, const char *with)
{
    size_t len = strlen(with);
    return line.len >= len && memcmp(line.bytes, with, len) == 0;
}

/* Whether what the line begins is no longer below the IDREC before it. */
static int ends_idrec(part line)
{
    return begins(line, "IDREC|") || begins(line, "FCI|") || begins(line, "PROC|") || begins(line, "RRA|")
        || begins(line, "SCP|") || begins(line, "PSE|") || begins(line, "FIMDirf|");
}

plain_found plain_search_reading(const uint8_t *file, size_t file_len, uint32_t line,
                                 const uint8_t *key, size_t key_len)
{
    const part wanted = {key, key_len};
    reader r = {file, file_len, 0};
    part now = {NULL, 0};
    plain_found found = {0, 0, 0};
    while (r.number < line)
        if (!read_line(&r, &now))
            return not_answered;
    if (!begins(now, "IDREC|"))
        return not_answered;
    while (read_line(&r, &now) && !ends_idrec(now)) {
        int person = begins(now, "BPF");
        if (!person && !begins(now, "BPJ"))
            continue;
        found.count++;
        /* The persons stand in the order of their CPFs and before the companies, so the first other one ends the question. */
        int order = person ? plain_compare(second_field(now), wanted) : 1;
        if (order >= 0) {
            found.line = order == 0 ? r.number : 0;
            break;
        }
    }
    return found;
}
