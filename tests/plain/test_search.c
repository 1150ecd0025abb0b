/* Change A6: where each record's group ends, and the search for one CPF under one IDREC that goes by it. */
#include <stdio.h>
#include <stdlib.h>
#include <string.h>

#include "test_hand.h"
#include "test_random.h"
#include "test_search.h"
#include "test_words.h"

#define UNTOUCHED 0xA5A5A5A5u

/* ---- the fifth number ---- */

/* The last line from which one comes up to line n. */
static uint32_t climbed(const uint32_t *table, size_t entries, uint32_t n)
{
    uint32_t last = n;
    for (uint32_t m = n; m <= entries; m++)
        for (uint32_t up = m; up != 0; up = table[5 * (up - 1) + 3])
            if (up == n)
                last = m;
    return last;
}

/* A table of so many numbers: whole entries, their groups as far as read, and nothing else touched. */
static plain_answer test_table(const text *t, size_t numbers)
{
    uint32_t *table = malloc(4 * numbers + 4);
    int kept = 1, groups = 1;
    for (size_t i = 0; i < numbers + 1; i++)
        table[i] = UNTOUCHED;
    plain_answer a = plain_check(t->bytes, t->len, table, numbers);
    is_true(equal(a, plain_check_room(t->bytes, t->len, numbers / 5)), "room in fives", numbers, a.number);
    for (uint32_t n = 1; n <= a.entries; n++)
        groups = groups && table[5 * n - 1] == climbed(table, a.entries, n);
    for (size_t i = 5 * a.entries; i < numbers + 1; i++)
        kept = kept && table[i] == UNTOUCHED;
    is_true(groups, "groups as far as read", a.number, a.line);
    is_true(kept, "entries alone", a.number, a.line);
    free(table);
    return a;
}

/* Every room from none to enough, in fives and beside them. */
static void test_room_in_fives(void)
{
    static const int beside[] = {-1, 0, 1, 4};
    text t = random_file(0);
    size_t lines = count_lf(t.bytes, t.len);
    for (size_t n = 0; n <= lines; n++)
        for (unsigned i = 0; i < 4; i++) {
            if (n == 0 && beside[i] < 0)
                continue;
            size_t whole = n - (beside[i] < 0);
            plain_answer a = test_table(&t, 5 * n + (size_t)beside[i]);
            is_true(a.number == (whole < lines ? 7 : 0) && a.entries == whole, "whole entries of five", n, a.number);
        }
    drop(&t);
}

/* Good files and changed ones; then a good one cut after each line. */
static void test_fifth(unsigned rounds)
{
    for (unsigned i = 0; i < rounds; i++) {
        text t = random_file((int)(i % 2));
        if (i % 4 == 2)
            change(&t);
        test_table(&t, 5 * count_lf(t.bytes, t.len) + below_n(9));
        test_table(&t, below_n(5 * (uint32_t)count_lf(t.bytes, t.len) + 1));
        drop(&t);
    }
    text t = random_file(0);
    while (t.len > 0) {
        test_table(&t, 5 * 2000);
        for (t.len -= 2; t.len > 0 && t.bytes[t.len - 1] != '\n';)
            t.len--;
    }
    drop(&t);
}

/* One file line by line: the groups after each line that is taken. */
static void test_fifth_by_line(void)
{
    static const char path[] = "IDREC BPFDEC INFPC RTPP RTRT BPJDEC FCI IDREC BPFFCI SCP BPFSCP RISCP PSE OPSE TPSE DTPSE RDTPSE FIMDirf";
    /* The last line of each record, when the whole file is read. */
    static const uint32_t lasts[] = {1, 2, 20, 9, 8, 7, 7, 8, 9, 12, 12, 12, 15, 15, 15, 20, 20, 20, 20, 20, 21};
    uint32_t lines, table[5 * 21];
    text t = path_file(DECPJ, path, "", &lines);
    expect("one of each depth", &t, 0, 21, 0);
    for (size_t room = 0; room <= 21; room++) {
        plain_answer a = plain_check(t.bytes, t.len, table, 5 * room);
        is_true(a.entries == room && a.number == (room < 21 ? 7 : 0), "so many entries", room, a.number);
        for (size_t n = 1; n <= room; n++) {
            uint32_t last = lasts[n - 1] < room ? lasts[n - 1] : (uint32_t)room;
            is_true(table[5 * n - 1] == last, "last line so far", n, table[5 * n - 1]);
        }
    }
    drop(&t);
}

/* ---- accepted files with their own table ---- */

/* The three ways to the answer agree, for an IDREC and for any other line. */
static void ask_all_ways(const both *b, size_t entries, uint32_t line, key k)
{
    plain_found f = ask(b, line, k), wanted = meaning(b, entries, line, k);
    if (line <= entries)
        is_found(f, wanted, "as it is meant", line);
    is_found(plain_search_reading(b->file, b->file_len, line, k.bytes, k.len), wanted, "by reading every line", line);
}

/* Every IDREC with the key of every beneficiary below it and one of any other line, and their neighbours. */
static unsigned long ask_file(const both *b, size_t entries)
{
    uint8_t out[64];
    unsigned long hits = 0;
    for (uint32_t line = 1; line <= entries; line++) {
        int idrec = named_in("IDREC", b->table[5 * (line - 1)]);
        for (uint32_t m = line; idrec && m <= entries; m++) {
            if (m != line && b->table[5 * (m - 1) + 3] != line && below_n(30))
                continue;
            for (unsigned i = 0; i < NEIGHBOURS; i++)
                ask_all_ways(b, entries, line, neighbour(key_at(b, m), i, out));
            hits += b->table[5 * (m - 1) + 3] == line;
        }
        ask_all_ways(b, entries, line, key_at(b, 1 + below_n((uint32_t)entries)));
    }
    static const uint32_t past[] = {0, 1, 2, 3, 7, 1000, UINT32_MAX - 1, UINT32_MAX};
    for (unsigned i = 0; i < 8; i++)
        ask_all_ways(b, entries, i == 0 ? 0 : past[i] > 7 ? past[i] : (uint32_t)entries + past[i], key_at(b, (uint32_t)entries - 1));
    return hits;
}

/* Behind the file's own entries stands anything: numbers by chance, or the entries of beneficiaries. */
static uint32_t *own_table(const text *t, size_t more, size_t *entries)
{
    size_t lines = count_lf(t->bytes, t->len), numbers = 5 * lines + more;
    uint32_t *table = malloc(4 * numbers + 4);
    plain_answer a = plain_check(t->bytes, t->len, table, numbers);
    *entries = a.entries;
    for (size_t i = 5 * a.entries; i < numbers; i++)
        table[i] = below_n(3) == 0 ? below_n(80) : below_n(2) && a.entries > 0 ? table[i % (5 * a.entries)] : below_n(UINT32_MAX);
    return table;
}

static void test_accepted(unsigned rounds)
{
    unsigned long hits = 0;
    for (unsigned i = 0; i < rounds; i++) {
        text t = i % 8 == 7 ? random_file(0) : crowd_file();
        size_t entries, more = below_n(3) ? below_n(30) : 0;
        uint32_t *table = own_table(&t, more, &entries);
        is_true(entries == count_lf(t.bytes, t.len), "accepted", entries, 0);
        both b = lend(&t, table, 5 * entries + more);
        hits += ask_file(&b, entries);
        take_back(&b, &t, table);
        free(table);
        drop(&t);
    }
    is_true(hits > rounds * 3, "now and then somebody is found", hits, rounds);
}

/* A refused file's own table answers for the lines that were taken. */
static void test_refused(unsigned rounds)
{
    for (unsigned i = 0; i < rounds; i++) {
        text t = i % 2 ? random_file(1) : crowd_file();
        if (i % 4 == 0)
            t.len -= below_n((uint32_t)t.len);
        else
            change(&t);
        size_t entries;
        uint32_t *table = own_table(&t, 0, &entries);
        both b = lend(&t, table, 5 * entries + (entries == count_lf(t.bytes, t.len) ? 0 : below_n(5)));
        for (uint32_t line = 0; entries > 0 && line <= entries + 1; line++) {
            uint8_t out[64];
            key k = neighbour(key_at(&b, 1 + below_n((uint32_t)entries)), below_n(NEIGHBOURS), out);
            is_found(ask(&b, line, k), meaning(&b, entries, line, k), "of a refused file", line);
        }
        take_back(&b, &t, table);
        free(table);
        drop(&t);
    }
}

/* An IDREC with nothing below it, in a file that ends there, goes wrong there or goes on elsewhere. */
static void test_nothing_below(void)
{
    static const struct { const char *rest; uint32_t number; } c[] = {
        {"", 1}, {"BPFDEC|" BAD_CPF "|A||N|N|\r\n", 26}, {"BPFDEC|11144477735|A||N|\r\n", 11}, {"BPFDEC|11144477735|A||N|N|", 5},
        {"RTRT|\r\n", 12}, {"FIMDirf|\r\n", 0}, {"IDREC|0562|\r\nBPFDEC|11144477735|A||N|N|\r\nFIMDirf|\r\n", 0}};
    for (unsigned i = 0; i < sizeof c / sizeof *c; i++)
        for (unsigned d = DECPF; d <= DECPJ; d++) {
            uint32_t table[5 * 8];
            text t = head(d, 0);
            add_line(&t, "IDREC|0561|");
            add(&t, c[i].rest);
            plain_answer a = plain_check(t.bytes, t.len, table, 5 * 8);
            both b = {t.bytes, t.len, table, 5 * a.entries};
            is_true(a.number == c[i].number && a.entries >= 4 && table[19] == 4, "an IDREC alone", a.number, i);
            is_found(ask(&b, 4, key_text("")), (plain_found){0, 0, 0}, "the empty key below nothing", i);
            is_found(ask(&b, 4, key_text("11144477735")), (plain_found){0, 0, 0}, "a CPF below nothing", i);
            drop(&t);
        }
}

/* ---- tables that are not the file's own ---- */

/* A number that may matter at that place. */
static uint32_t odd_number(const both *b, uint32_t line, uint32_t now)
{
    uint32_t entries = (uint32_t)(b->table_len / 5), start = b->table[5 * (line - 1) + 1];
    const uint32_t some[] = {0, 1, line, line - 1, line + 1, now - 1, now + 1, now + 2, entries, entries - 1, entries + 1, UINT32_MAX,
        UINT32_MAX - start, UINT32_MAX - start + 1, (uint32_t)b->file_len, (uint32_t)b->file_len + 1, (uint32_t)b->file_len - start,
        (uint32_t)b->file_len - start + 1, 5, 6, 44, 60, 65, 73, below_n(80), below_n(entries + 2), below_n(UINT32_MAX)};
    return some[below_n(sizeof some / sizeof *some)];
}

/* The line of an IDREC in the table or, where there is none or by chance, any. */
static uint32_t some_idrec(const both *b)
{
    uint32_t entries = (uint32_t)(b->table_len / 5), line = below_n(entries + 2);
    for (uint32_t i = 0; i < entries && below_n(20); i++) {
        uint32_t at = 1 + (line + i) % entries;
        if (b->table[5 * (at - 1)] == 5)
            return at;
    }
    return line;
}

/* A line below it, now and then any. */
static uint32_t some_below(const both *b, uint32_t idrec)
{
    uint32_t entries = (uint32_t)(b->table_len / 5), line = 1 + below_n(entries);
    for (uint32_t i = 0; i < entries && below_n(40); i++) {
        uint32_t at = 1 + (line + i) % entries;
        if (b->table[5 * (at - 1) + 3] == idrec)
            return at;
    }
    return line;
}

/* One number changed, now and then more, of the IDREC, of a beneficiary or of any; asked beside the words. */
static unsigned long ask_changed(const text *t, const uint32_t *own, size_t entries)
{
    uint32_t *table = exact_copy(own, 20 * entries);
    both b = {t->bytes, t->len, table, 5 * entries - (below_n(4) ? 0 : below_n(5))};
    uint32_t idrec = some_idrec(&b);
    uint8_t out[64];
    key k = neighbour(key_at(&b, some_below(&b, idrec)), below_n(3) ? 0 : below_n(NEIGHBOURS), out);
    for (unsigned n = below_n(6) ? 1 : 1 + below_n(4); n > 0; n--) {
        uint32_t line = below_n(3) == 0 && idrec > 0 && idrec <= b.table_len / 5 ? idrec : some_below(&b, idrec);
        unsigned which = below_n(5);
        table[5 * (line - 1) + which] = odd_number(&b, line, table[5 * (line - 1) + which]);
    }
    both lent = lend(t, table, b.table_len);
    plain_found f = ask(&lent, idrec, k);
    ask(&lent, below_n((uint32_t)entries + 2), k);
    take_back(&lent, t, table);
    free(table);
    return f.number == 27;
}

static void test_changed_tables(unsigned rounds)
{
    unsigned long not_answered = 0, asked = 0;
    for (unsigned i = 0; i < rounds; i++) {
        text t = crowd_file(), other = i % 2 ? crowd_file() : random_file(1);
        size_t entries, others;
        uint32_t *table = own_table(&t, 0, &entries), *another = own_table(&other, 0, &others);
        for (unsigned n = 0; n < 30; n++, asked++)
            not_answered += ask_changed(&t, table, entries);
        for (unsigned n = 0; n < 5 && others > 1; n++)
            ask_changed(&t, another, others);
        both mixed = {other.bytes, other.len, table, 5 * entries};
        for (uint32_t line = 0; line <= entries + 1; line++)
            ask(&mixed, line, key_at(&(both){t.bytes, t.len, table, 5 * entries}, 1 + below_n((uint32_t)entries)));
        free(table);
        free(another);
        drop(&t);
        drop(&other);
    }
    is_true(not_answered > asked / 10 && not_answered < asked * 9 / 10, "27 now and then", not_answered, asked);
}

/* Tables and files of nothing but chance, most numbers small. */
static void test_any_tables(unsigned rounds)
{
    static const uint32_t kinds[] = {5, 5, 5, 6, 6, 6, 44, 49, 50, 52, 54, 56, 60, 62, 7, 65};
    for (unsigned i = 0; i < rounds; i++) {
        uint32_t numbers = below_n(60), table[60];
        uint8_t bytes[64];
        size_t len = below_n(64);
        for (uint32_t n = 0; n < numbers; n++) {
            uint32_t number = n % 5 == 4 ? n / 5 + 1 + below_n(3) : below_n(9) ? below_n(40) : below_n(UINT32_MAX);
            table[n] = n % 5 == 0 && below_n(20) ? kinds[below_n(16)] : number;
        }
        for (size_t n = 0; n < len; n++)
            bytes[n] = (uint8_t)"||||0120IDREC|BPF\r\n\n\xFF"[below_n(21)];
        text t = {bytes, len, len};
        both b = lend(&t, table, numbers);
        for (uint32_t line = 0; line < numbers / 5 + 2; line++) {
            key k = {bytes, below_n(len < 3 ? 1 : 3)};
            ask(&b, line, k);
            plain_found f = plain_search_reading(b.file, b.file_len, line, k.bytes, k.len);
            is_true(f.number == 0 || (f.number == 27 && f.line == 0 && f.count == 0), "reading ends", f.number, line);
        }
        take_back(&b, &t, table);
    }
}

/* ---- as many lines as there may be ---- */

static void test_many_persons(void)
{
    enum { LINES = 65536, PEOPLE = LINES - 6 };
    text t = head(DECPF, 0);
    uint32_t *table = malloc(20 * LINES);
    char line[64], cpf[PEOPLE_ID];
    add_line(&t, "IDREC|0561|");
    for (unsigned i = 0; i < PEOPLE; i++) {
        people_cpf(2 * i, cpf);
        sprintf(line, "BPFDEC|%s|A||N|N|", cpf);
        add_line(&t, line);
    }
    add_line(&t, "IDREC|0562|");
    add_line(&t, "FIMDirf|");
    plain_answer a = plain_check(t.bytes, t.len, table, 5 * LINES);
    is_true(a.number == 0 && a.line == LINES && table[14] == LINES - 1 && table[19] == LINES - 2, "as many persons", a.number, a.line);
    for (unsigned i = 0; i < 2 * PEOPLE + 2; i += i < 6 || i > 2 * PEOPLE - 6 ? 1 : 9999) {
        people_cpf(i, cpf);
        uint32_t at = i % 2 || i / 2 >= PEOPLE ? 0 : 5 + i / 2, before = (i + 1) / 2 < PEOPLE ? (i + 1) / 2 : PEOPLE;
        plain_found wanted = {0, at, before + (before < PEOPLE)};
        is_found(plain_search(t.bytes, t.len, table, 5 * LINES, 4, (uint8_t *)cpf, 11), wanted, "among many", i);
        is_found(plain_search_reading(t.bytes, t.len, 4, (uint8_t *)cpf, 11), wanted, "among many, by reading", i);
    }
    free(table);
    drop(&t);
}

void test_search(unsigned rounds)
{
    test_room_in_fives();
    test_fifth_by_line();
    test_fifth(rounds / 10 + 10);
    test_accepted(rounds / 20 + 10);
    test_refused(rounds / 5 + 10);
    test_nothing_below();
    test_changed_tables(rounds / 10 + 10);
    test_many_persons();
    if (edition != PLAIN_2025)
        return;
    test_tables_by_hand();
    test_any_tables(rounds * 10);
}
