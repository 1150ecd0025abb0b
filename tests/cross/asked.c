#include "asked.h"

#include "feed.h"

void write_asked(FILE *out, const asked *a)
{
    fputc(a->way == OWN_TABLE ? 'S' : 'T', out);
    put_number(out, a->numbers);
    if (a->way != OWN_TABLE)
        for (size_t i = 0; i < a->numbers; i++)
            put_number(out, a->table[i]);
    put_string(out, a->file.bytes, a->file.len);
    put_number(out, a->line);
    put_string(out, a->key, a->key_len);
}

plain_found answer_asked(const asked *a, lent_table *lent)
{
    static uint32_t written[MOST_TABLE];
    *lent = (lent_table){.table = a->table, .numbers = a->numbers};
    if (a->way == OWN_TABLE) {
        plain_answer checked = plain_check(a->file.bytes, a->file.len, written, a->numbers);
        *lent = (lent_table){checked, written, TABLE_NUMBERS * checked.entries};
    }
    return plain_search(a->file.bytes, a->file.len, lent->table, lent->numbers, a->line, a->key, a->key_len);
}

int can_be_read(const asked *a, const lent_table *lent)
{
    return a->way == LONGER || (a->way == OWN_TABLE && lent->checked.number == 0);
}

part key_at(part file, const uint32_t *table, size_t line)
{
    size_t start, length;
    const uint8_t *bytes = file.bytes + number_at(table, line, ENTRY_START);
    plain_field(bytes, number_at(table, line, ENTRY_LENGTH), 2, &start, &length);
    return (part){bytes + start, length};
}
