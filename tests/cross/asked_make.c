/* Searches with the file's own table. */
#include <string.h>

#include "../makers/people.h"
#include "asked_inner.h"
#include "chance.h"
#include "whole.h"

/* Of so many seeds one is of a file that was spoiled; and of so many sound files one is searched with given tables too. */
enum { SPOILED = 4, WITH_TABLES = 3 };

static const uint8_t behind_all[] = {0xff};

void sound_base(based *b)
{
    static declaration d;
    do {
        if (chance(3) == 0)
            sound_crowd(&d);
        else
            sound_declaration(&d);
        write_file(&d, &b->text);
    } while (b->text.len > MOST_STRING);
    b->checked = plain_check(b->text.bytes, b->text.len, b->table, MOST_TABLE);
}

uint32_t next_below(const based *b, uint32_t line, uint32_t from)
{
    while (++from <= entries_of(b))
        if (number_at(b->table, from, ENTRY_PARENT) == line)
            return from;
    return 0;
}

uint32_t next_idrec(const based *b, uint32_t from)
{
    while (++from <= entries_of(b))
        if (number_at(b->table, from, ENTRY_KIND) == IDREC)
            return from;
    return 0;
}

void set_key(asked *a, const void *bytes, size_t len)
{
    a->key_len = len < MOST_KEY ? len : MOST_KEY;
    memcpy(a->key, bytes, a->key_len);
}

static void ask(asked *a, taker take, const void *key, size_t len)
{
    set_key(a, key, len);
    take(a);
}

/* One of its digits one less or one more, or where it has none for it, a byte beside the digits. */
static void ask_nudged(asked *a, taker take, part key, int by)
{
    uint8_t near[MOST_KEY];
    size_t at = chance((uint32_t)key.len);
    memcpy(near, key.bytes, key.len);
    for (size_t tries = 0; tries < key.len && near[at] == (by < 0 ? '0' : '9'); tries++)
        at = (at + 1) % key.len;
    near[at] = (uint8_t)(near[at] + by);
    ask(a, take, near, key.len);
}

/* A beneficiary's key, and others about it. */
static void ask_about(asked *a, taker take, part key)
{
    uint8_t longer[MOST_KEY];
    ask(a, take, key.bytes, key.len);
    ask_nudged(a, take, key, -1);
    ask_nudged(a, take, key, 1);
    ask(a, take, key.bytes, chance((uint32_t)key.len));
    memcpy(longer, key.bytes, key.len);
    longer[key.len] = (uint8_t)(chance(2) ? '0' : chance(256));
    ask(a, take, longer, key.len + 1);
}

/* Keys that nobody has, most likely. */
static void ask_strangers(asked *a, taker take)
{
    char key[CNPJ_SIZE];
    ask(a, take, "", 0);
    ask(a, take, behind_all, sizeof behind_all);
    make_cpf(chance64(), key);
    ask(a, take, key, CPF_SIZE);
    make_cnpj(chance64(), key);
    ask(a, take, key, CNPJ_SIZE);
}

/* For all entries: most often far more, else at most a part of an entry more. */
static size_t room_enough(const based *b)
{
    size_t needed = TABLE_NUMBERS * entries_of(b);
    return chance(4) ? MOST_TABLE - chance(4) : needed + chance(TABLE_NUMBERS);
}

static void ask_idrecs(const based *b, asked *a, taker take)
{
    for (uint32_t idrec = next_idrec(b, 0); idrec; idrec = next_idrec(b, idrec)) {
        a->line = idrec;
        for (uint32_t line = next_below(b, idrec, 0); line; line = next_below(b, idrec, line))
            ask_about(a, take, key_at(file_of(b), b->table, line));
        ask_strangers(a, take);
    }
}

/* Lines that are no IDREC, as far as the table goes and past it. */
static void ask_elsewhere(const based *b, asked *a, taker take)
{
    uint32_t lines[] = {0, entries_of(b) + 1, entries_of(b) + 2 + chance(9), UINT32_MAX, chance(entries_of(b) + 1),
                        chance(entries_of(b) + 1)};
    for (size_t i = 0; i < sizeof lines / sizeof *lines; i++) {
        a->line = lines[i];
        set_key(a, behind_all, chance(2));
        take(a);
    }
}

/* A file as the other drivers have them, most of them refused, and now and then with too little room. */
static void ask_spoiled(uint64_t seed, based *b, taker take)
{
    static declaration d;
    make_file(~seed, &d, &b->text);
    if (b->text.len > MOST_STRING)
        b->text.len = MOST_STRING;
    asked a = {.way = OWN_TABLE, .file = file_of(b)};
    a.numbers = chance(4) ? MOST_TABLE - chance(4) : chance(TABLE_NUMBERS * (d.count + 2));
    b->checked = plain_check(b->text.bytes, b->text.len, b->table, a.numbers);
    ask_idrecs(b, &a, take);
    ask_elsewhere(b, &a, take);
}

void make_searches(uint64_t seed, taker take)
{
    static based b;
    chance_from(seed);
    if (chance(SPOILED) == 0) {
        ask_spoiled(seed, &b, take);
        return;
    }
    sound_base(&b);
    asked a = {.way = OWN_TABLE, .file = file_of(&b), .numbers = room_enough(&b)};
    ask_idrecs(&b, &a, take);
    ask_elsewhere(&b, &a, take);
    if (chance(WITH_TABLES) == 0)
        ask_tables(&b, take);
}
