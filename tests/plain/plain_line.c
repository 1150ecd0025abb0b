/* One line: the reader of one field of it, and its writer. */
#include <string.h>

#include "plain_inner.h"

int plain_field(const uint8_t *line, size_t line_len, size_t k,
                size_t *start, size_t *length)
{
    size_t begin = 0, field = 1;
    for (size_t i = 0; i < line_len; i++) {
        if (line[i] != BAR)
            continue;
        if (field == k) {
            *start = begin;
            *length = i - begin;
            return 1;
        }
        field++;
        begin = i + 1;
    }
    *start = line_len;
    *length = 0;
    return 0;
}

/* Cuts the contents into fields; 0 if the lengths do not add up to them. */
static int cut_contents(part contents, const size_t *lengths, size_t count,
                        part *fields)
{
    size_t at = 0;
    for (size_t i = 0; i < count; i++) {
        /* Compared to what is left, so that no sum can wrap. */
        if (lengths[i] > contents.len - at)
            return 0;
        fields[i].len = lengths[i];
        fields[i].bytes = lengths[i] ? contents.bytes + at : contents.bytes;
        at += lengths[i];
    }
    return at == contents.len;
}

static void write_fields(const part *fields, size_t count, uint8_t *out)
{
    for (size_t i = 0; i < count; i++) {
        if (fields[i].len != 0)
            memcpy(out, fields[i].bytes, fields[i].len);
        out += fields[i].len;
        *out++ = BAR;
    }
    out[0] = CR;
    out[1] = LF;
}

plain_written plain_write_line(plain_edition edition, uint32_t kind,
                               const uint8_t *contents, size_t contents_len,
                               const size_t *lengths, size_t lengths_len,
                               uint8_t *out, size_t room)
{
    part fields[MOST_FIELDS];
    if (!plain_is_base(edition, kind))
        return (plain_written){22, 0, 0};
    if (lengths_len != plain_records[kind].fields)
        return (plain_written){11, 0, 0};
    if (!cut_contents((part){contents, contents_len}, lengths, lengths_len, fields))
        return (plain_written){23, 0, 0};
    fault found = plain_fields_fault(edition, kind, fields);
    if (found.number != 0)
        return (plain_written){found.number, found.field, 0};
    /* The sizes passed, so this sum is small. */
    size_t count = contents_len + lengths_len + 2;
    if (count > room)
        return (plain_written){24, 0, 0};
    write_fields(fields, lengths_len, out);
    return (plain_written){0, 0, count};
}
