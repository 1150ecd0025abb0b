#include "declaration.h"

#include <string.h>

unsigned year_of(plain_edition edition)
{
    return edition == PLAIN_2025 ? 2025 : 2022;
}

plain_edition other_than(plain_edition edition)
{
    return edition == PLAIN_2025 ? PLAIN_2022 : PLAIN_2025;
}

int find_field(const text_line *line, unsigned f, unsigned *start, unsigned *len)
{
    unsigned begin = 0;
    for (unsigned i = 0; i < line->len; i++) {
        if (line->bytes[i] != '|')
            continue;
        if (--f == 0) {
            *start = begin;
            *len = i - begin;
            return 1;
        }
        begin = i + 1;
    }
    return 0;
}

void set_field(text_line *line, unsigned f, const void *contents, unsigned len)
{
    unsigned start, old;
    if (!find_field(line, f, &start, &old) || line->len - old + len > MOST_BYTES)
        return;
    memmove(line->bytes + start + len, line->bytes + start + old, line->len - start - old);
    memcpy(line->bytes + start, contents, len);
    line->len = line->len - old + len;
}

void put_in(text_line *line, unsigned at, const char *bytes)
{
    unsigned len = (unsigned)strlen(bytes);
    if (line->len + len > MOST_BYTES)
        return;
    memmove(line->bytes + at + len, line->bytes + at, line->len - at);
    memcpy(line->bytes + at, bytes, len);
    line->len += len;
}

void set_end(text_line *line, const char *end)
{
    line->end_len = (unsigned)strlen(end);
    memcpy(line->end, end, line->end_len);
}

text_line *insert_line(declaration *d, unsigned at)
{
    if (d->count == MOST_LINES)
        return NULL;
    memmove(&d->line[at + 1], &d->line[at], (d->count - at) * sizeof d->line[0]);
    d->count++;
    return &d->line[at];
}

void remove_line(declaration *d, unsigned at)
{
    d->count--;
    memmove(&d->line[at], &d->line[at + 1], (d->count - at) * sizeof d->line[0]);
}

void write_file(const declaration *d, file_text *file)
{
    file->len = 0;
    for (unsigned i = 0; i < d->count; i++) {
        const text_line *line = &d->line[i];
        memcpy(file->bytes + file->len, line->bytes, line->len);
        memcpy(file->bytes + file->len + line->len, line->end, line->end_len);
        file->len += line->len + line->end_len;
    }
}
