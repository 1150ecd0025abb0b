/* The words of change A6 once more, and what the tests of the search share. */
#include <stdio.h>
#include <stdlib.h>
#include <string.h>

#include "test_source.h"
#include "test_words.h"

#define PERSONS "BPFDEC BPFFCI BPFPROC BPFRRA BPFSCP"
#define COMPANIES "BPJDEC BPJFCI BPJPROC BPJSCP"

key key_text(const char *s)
{
    return (key){(const uint8_t *)s, strlen(s)};
}

static int found_equal(plain_found a, plain_found b)
{
    return a.number == b.number && a.line == b.line && a.count == b.count;
}

void is_found(plain_found got, plain_found wanted, const char *what, uint32_t line)
{
    int ok = found_equal(got, wanted);
    is_true(ok, what, line, wanted.number * 100000ul + wanted.line);
    if (!ok && wrong <= 40)
        printf("   got %u %u %u, wanted %u %u %u\n", got.number, got.line, got.count, wanted.number, wanted.line, wanted.count);
}

/* ---- the words of the request once more ---- */

int named_in(const char *names, uint32_t kind)
{
    return plain_name(kind) != NULL && source_holds(names, plain_name(kind));
}

static int points_out(const both *b, uint64_t line)
{
    const uint32_t *entry = b->table + 5 * (line - 1);
    uint64_t end = entry[1];
    end += entry[2];
    return end > b->file_len || entry[4] > b->table_len / 5 || entry[4] < line;
}

/* The bytes between the first two bars; none where there are not two. */
static key second(const uint8_t *line, size_t len)
{
    size_t bars[2], n = 0;
    for (size_t i = 0; i < len && n < 2; i++)
        if (line[i] == '|')
            bars[n++] = i;
    return n < 2 ? (key){line, 0} : (key){line + bars[0] + 1, bars[1] - bars[0] - 1};
}

/* An end counts as a byte that is less than all. */
static int order_of(key a, key b)
{
    for (size_t i = 0;; i++) {
        int x = i < a.len ? a.bytes[i] : -1, y = i < b.len ? b.bytes[i] : -1;
        if (x != y)
            return x < y ? -1 : 1;
        if (x < 0)
            return 0;
    }
}

/* From the entry of a line on, when count entries were looked at before it. */
static plain_found words_from(const both *b, uint64_t last, uint64_t at, uint32_t count, key k)
{
    if (at > last)
        return (plain_found){0, 0, count};
    const uint32_t *entry = b->table + 5 * (at - 1);
    int person = named_in(PERSONS, entry[0]), company = named_in(COMPANIES, entry[0]);
    if ((!person && !company) || points_out(b, at))
        return (plain_found){27, 0, 0};
    int order = company ? 1 : order_of(second(b->file + entry[1], entry[2]), k);
    if (order < 0)
        return words_from(b, last, (uint64_t)entry[4] + 1, count + 1, k);
    return (plain_found){0, order == 0 ? (uint32_t)at : 0, count + 1};
}

static plain_found words(const both *b, uint32_t line, key k)
{
    if (line == 0 || line > b->table_len / 5 || !named_in("IDREC", b->table[5 * (line - (size_t)1)]) || points_out(b, line))
        return (plain_found){27, 0, 0};
    return words_from(b, b->table[5 * (line - (size_t)1) + 4], (uint64_t)line + 1, 0, k);
}

plain_found meaning(const both *b, size_t entries, uint32_t line, key k)
{
    plain_found f = {0, 0, 0};
    int another = 0;
    if (line == 0 || line > entries || !named_in("IDREC", b->table[5 * (line - (size_t)1)]))
        return (plain_found){27, 0, 0};
    for (size_t n = 0; n < entries; n++) {
        const uint32_t *entry = b->table + 5 * n;
        if (entry[3] != line)
            continue;
        int order = named_in(PERSONS, entry[0]) ? order_of(second(b->file + entry[1], entry[2]), k) : 1;
        f.count += order < 0;
        another = another || order >= 0;
        if (order == 0)
            f.line = (uint32_t)n + 1;
    }
    f.count += another;
    return f;
}

plain_found ask(const both *b, uint32_t line, key k)
{
    uint8_t *own = exact_copy(k.bytes, k.len);
    plain_found f = plain_search(b->file, b->file_len, b->table, b->table_len, line, own, k.len);
    is_found(f, words(b, line, k), "as the words have it", line);
    given[f.number < 32 ? f.number : 0]++;
    free(own);
    return f;
}

/* ---- keys ---- */

key neighbour(key k, unsigned which, uint8_t out[64])
{
    size_t len = k.len < 40 ? k.len : 40;
    memset(out, which == 7 ? 0xFF : which == 8 ? 0 : '0', 64);
    if (which != 7 && which != 8 && len > 0)
        memcpy(out, k.bytes, len);
    size_t last = len > 0 ? len - 1 : 0;
    switch (which) {
    case 1: out[last]--; break;
    case 2: out[last]++; break;
    case 3: return (key){out, last};
    case 4: return (key){out, len + 1};
    case 5: out[len] = 0; return (key){out, len + 1};
    case 6: return (key){out, 0};
    case 7: return (key){out, 11};
    case 8: return (key){out, 1 + below_n(20)};
    case 9: out[0]--; break;
    case 10: out[0]++; break;
    case 11: out[len] = '|'; return (key){out, len + 1};
    case 12: return (key){out, len < 1 ? len : 1};
    case 13: out[last] |= 0x80; break;
    case 14: out[below_n((uint32_t)last + 1)] = (uint8_t)('0' + below_n(10)); break;
    case 15: out[len] = 0xFF; return (key){out, len + 1};
    default: break;
    }
    return (key){out, len};
}

key key_at(const both *b, uint32_t line)
{
    const uint32_t *entry = b->table + 5 * (line - 1);
    int inside = (uint64_t)entry[1] + entry[2] <= b->file_len;
    return inside ? second(b->file + entry[1], entry[2]) : (key){b->file, 0};
}

/* ---- what is lent ---- */

both lend(const text *t, const uint32_t *table, size_t table_len)
{
    int file_at_edge = (int)below_n(2);
    return (both){file_at_edge ? edge_copy(t->bytes, t->len) : exact_copy(t->bytes, t->len), t->len,
                  file_at_edge ? exact_copy(table, 4 * table_len) : (uint32_t *)(void *)edge_copy(table, 4 * table_len), table_len};
}

void take_back(both *b, const text *t, const uint32_t *table)
{
    const void *edge = edge_copy(NULL, 0);
    int at_edge = b->file + b->file_len == (const uint8_t *)edge;
    is_true(memcmp(b->file, t->bytes, t->len) == 0 && memcmp(b->table, table, 4 * b->table_len) == 0, "nothing written", 0, 0);
    free(at_edge ? (void *)(uintptr_t)b->table : (void *)(uintptr_t)b->file);
}
