/* The check of a file: line by line, the numbers tried in document 01's order, 26 where change A1 puts it. */
#include <string.h>

#include "plain_totals.h"

enum { MOST_LINES = 65536, MOST_BYTES = 1024 };

/* 4, 5 or 6, or 0 with the length of the line before its CR LF. */
static uint32_t end_line(const uint8_t *rest, size_t left, size_t *len)
{
    size_t most = left > MOST_BYTES ? MOST_BYTES + 1 : left, i = 0;
    while (i < most && rest[i] != CR && rest[i] != LF)
        i++;
    *len = i;
    if (i > MOST_BYTES)
        return 4;
    if (i == left || (rest[i] == CR && i + 1 == left))
        return 5;
    return rest[i] == CR && rest[i + 1] == LF ? 0 : 6;
}

static int is_older_mark(part field)
{
    const char *mark = plain_row_of(PLAIN_2022, DIRF, MARK_FIELD).values;
    return field.len == strlen(mark) && memcmp(field.bytes, mark, field.len) == 0;
}

plain_edition plain_edition_of(const uint8_t *file, size_t file_len)
{
    /* Only a CR LF ends line 1 here, so end_line, which also stops at a lone CR
       or LF and at the most bytes, is no help. The sixth bar ends the walk, as
       what stands behind it cannot change field 6. */
    size_t bars = 0, begin = 0;
    for (size_t i = 0; i < file_len; i++) {
        if (file[i] == CR && i + 1 < file_len && file[i + 1] == LF)
            break;
        if (file[i] != BAR)
            continue;
        if (++bars == MARK_FIELD)
            return is_older_mark((part){file + begin, i - begin}) ? PLAIN_2022 : PLAIN_2025;
        begin = i + 1;
    }
    return PLAIN_2025;
}

/* Cuts a line at its bars; fields past the most are counted, not kept. */
static void cut_line(line *l)
{
    size_t begin = 0;
    l->bars = 0;
    for (size_t i = 0; i < l->bytes.len; i++) {
        if (l->bytes.bytes[i] != BAR)
            continue;
        if (l->bars < MOST_FIELDS)
            l->fields[l->bars] = (part){l->bytes.bytes + begin, i - begin};
        l->bars++;
        begin = i + 1;
    }
}

/* 8 to 21 and 26 of one line, in order; fills in the line's kind and parent. */
static fault line_fault(const place *p, line *l)
{
    part b = l->bytes;
    if (b.len == 0 || b.bytes[b.len - 1] != BAR)
        return (fault){8, 0};
    cut_line(l);
    l->kind = plain_kind_of(p->edition, l->fields[0]);
    if (l->kind == NO_KIND)
        return (fault){9, 1};
    if (plain_records[l->kind].role == LATER)
        return (fault){10, 1};
    if (!plain_may_stand(p, l))
        return (fault){12, 1};
    if (l->bars != plain_records[l->kind].fields)
        return (fault){11, 0};
    fault found = plain_fields_fault(p->edition, l->kind, l->fields);
    if (found.number != 0)
        return found;
    if (plain_repeated(p, l))
        return (fault){21, 1};
    if (!plain_key_rises(p, l))
        return (fault){20, 2};
    return (fault){0, 0};
}

static uint32_t *entry_of(uint32_t *table, uint32_t number)
{
    return table + TABLE_NUMBERS * (size_t)(number - 1);
}

static void write_entry(uint32_t *table, const line *l, size_t start)
{
    uint32_t *entry = entry_of(table, l->number);
    entry[ENTRY_KIND] = l->kind;
    entry[ENTRY_START] = (uint32_t)start;
    entry[ENTRY_LENGTH] = (uint32_t)l->bytes.len;
    entry[ENTRY_PARENT] = l->parent;
    entry[ENTRY_LAST] = l->number;
    /* Every record above the line has it as its last line now. */
    for (uint32_t above = l->parent; above != 0; above = entry_of(table, above)[ENTRY_PARENT])
        entry_of(table, above)[ENTRY_LAST] = l->number;
}

static plain_answer refused(uint32_t number, uint32_t at_line, uint32_t field)
{
    return (plain_answer){number, at_line, field, at_line - 1};
}

static plain_answer check(const uint8_t *file, size_t file_len,
                          uint32_t *table, size_t room, kind_totals sums)
{
    place p = {.edition = PLAIN_2025};
    line l = {0};
    size_t start = 0;
    for (l.number = 1; l.kind != FIMDIRF; l.number++) {
        if (start == file_len)
            return refused(1, l.number, 0);
        if (l.number > MOST_LINES)
            return refused(3, l.number, 0);
        size_t len;
        uint32_t number = end_line(file + start, file_len - start, &len);
        if (number != 0)
            return refused(number, l.number, 0);
        /* Not before line 1 has passed 4 to 6: these are the same by either
           edition, and in such a file the sixth bar may be very far away. */
        if (l.number == 1)
            p.edition = plain_edition_of(file, file_len);
        l.bytes = (part){file + start, len};
        fault found = line_fault(&p, &l);
        if (found.number != 0)
            return refused(found.number, l.number, found.field);
        if (room < l.number)
            return refused(7, l.number, 0);
        if (table != NULL)
            write_entry(table, &l, start);
        plain_add_amounts(sums, p.edition, &l);
        plain_open(&p, &l);
        start += len + 2;
    }
    if (start != file_len)
        return refused(2, l.number, 0);
    return (plain_answer){0, l.number - 1, 0, l.number - 1};
}

plain_answer plain_check(const uint8_t *file, size_t file_len,
                         uint32_t *table, size_t table_len)
{
    return plain_check_totals(file, file_len, table, table_len, NULL, 0);
}

plain_answer plain_check_room(const uint8_t *file, size_t file_len, size_t room)
{
    return plain_check_room_totals(file, file_len, room, NULL, 0);
}

plain_answer plain_check_totals(const uint8_t *file, size_t file_len, uint32_t *table, size_t table_len,
                                uint64_t *totals, size_t totals_len)
{
    return check(file, file_len, table, table_len / TABLE_NUMBERS, plain_begin_totals(totals, totals_len));
}

plain_answer plain_check_room_totals(const uint8_t *file, size_t file_len, size_t room,
                                     uint64_t *totals, size_t totals_len)
{
    return check(file, file_len, NULL, room, plain_begin_totals(totals, totals_len));
}
