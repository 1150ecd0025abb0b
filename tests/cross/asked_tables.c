/* Searches with tables that are given: the file's own with numbers changed, cut or longer, and that of another file. */
#include <string.h>

#include "asked_inner.h"
#include "chance.h"

/* How many searches with one table of each kind. */
enum { CHANGES = 56, MORE_CHANGES = 8, CUTS = 8, LONGER_TABLES = 6 };

/* The search at hand and its table. */
static asked now;
static uint32_t given[MOST_TABLE];

/* A key behind all and the last person's, which go through most beneficiaries, or that of any of them. */
static void any_key(const based *b, uint32_t idrec)
{
    uint32_t chosen = 0, seen = 0, way = chance(3);
    for (uint32_t line = next_below(b, idrec, 0); line; line = next_below(b, idrec, line)) {
        int company = is_company(number_at(b->table, line, ENTRY_KIND));
        if ((way == 1 && !company) || (way == 2 && chance(++seen) == 0))
            chosen = line;
    }
    part key = chosen ? key_at(file_of(b), b->table, chosen) : (part){(const uint8_t *)"\xff", 1};
    set_key(&now, key.bytes, key.len);
}

static void begin(const based *b, table_way way, uint32_t idrec)
{
    memcpy(given, b->table, TABLE_NUMBERS * entries_of(b) * sizeof *given);
    now = (asked){.way = way, .file = file_of(b), .numbers = TABLE_NUMBERS * entries_of(b), .table = given, .line = idrec};
    any_key(b, idrec);
}

/* What any number of an entry is put to: about its own value, the file's end and the table's. */
enum { COMMON = 8 };

/* And a kind: beneficiaries that no IDREC has, what is in a beneficiary's place in the health plan and is none, and others. */
static const uint32_t other_kinds[VALUES - COMMON] = {BPFSCP, BPJSCP, TPSE, IDREC, BPFDEC, RTRT};

static uint32_t other_value(const based *b, uint32_t idrec, uint32_t line, unsigned which, unsigned way)
{
    const uint32_t *entry = b->table + TABLE_NUMBERS * (line - 1);
    uint32_t len = (uint32_t)b->text.len, entries = entries_of(b), last = number_at(b->table, idrec, ENTRY_LAST);
    /* the most with which the entry still ends within the file; of a last line the least */
    uint32_t edge = which == ENTRY_START ? len - entry[ENTRY_LENGTH] : which == ENTRY_LENGTH ? len - entry[ENTRY_START] : line;
    const uint32_t values[VALUES] = {
        entry[which] - 1, entry[which] + 1, 0, len, len + 1, entries, entries + 1, UINT32_MAX,
        edge, edge + 1, edge - 1, last, last + 1, chance(which == ENTRY_START ? len : entries),
    };
    return which == ENTRY_KIND && way >= COMMON ? other_kinds[way - COMMON] : values[way];
}

/* One of the beneficiaries below the IDREC, each as likely. */
static uint32_t any_beneficiary(const based *b, uint32_t idrec)
{
    uint32_t chosen = 0, seen = 0;
    for (uint32_t line = next_below(b, idrec, 0); line; line = next_below(b, idrec, line))
        if (chance(++seen) == 0)
            chosen = line;
    return chosen;
}

/* One number of one entry: of the IDREC, of one of its beneficiaries, as often of the first as of any, or of any line. */
static void change_one(const based *b, uint32_t idrec, taker take)
{
    static const unsigned entries[] = {OF_IDREC, OF_IDREC, OF_BENEFICIARY, OF_BENEFICIARY, OF_BENEFICIARY, OF_ANY_LINE};
    change c = {entries[chance(sizeof entries / sizeof *entries)], chance(TABLE_NUMBERS), chance(VALUES)};
    uint32_t line = idrec;
    if (c.entry == OF_BENEFICIARY)
        line = chance(2) ? next_below(b, idrec, 0) : any_beneficiary(b, idrec);
    if (c.entry == OF_ANY_LINE)
        line = 1 + chance(entries_of(b));
    begin(b, CHANGED, idrec);
    now.changed = c;
    given[TABLE_NUMBERS * (line - 1) + c.number] = other_value(b, idrec, line, c.number, c.value);
    take(&now);
}

/* Some numbers of the IDREC's lines, and of any. */
static void change_more(const based *b, uint32_t idrec, taker take)
{
    begin(b, CHANGED_MORE, idrec);
    uint32_t group = number_at(b->table, idrec, ENTRY_LAST) - idrec + 1;
    for (unsigned left = 2 + chance(4); left > 0; left--) {
        uint32_t line = chance(4) ? idrec + chance(group) : 1 + chance(entries_of(b));
        unsigned which = chance(TABLE_NUMBERS);
        given[TABLE_NUMBERS * (line - 1) + which] = other_value(b, idrec, line, which, chance(VALUES));
    }
    take(&now);
}

/* At any number, within the IDREC's group more often. */
static void cut(const based *b, uint32_t idrec, taker take)
{
    uint32_t group = number_at(b->table, idrec, ENTRY_LAST) - idrec + 2;
    begin(b, CUT, idrec);
    now.numbers = chance(2) ? chance((uint32_t)now.numbers + 1) : TABLE_NUMBERS * (idrec - 1) + chance(TABLE_NUMBERS * group);
    take(&now);
}

/* With up to three entries' numbers behind the last one, of any value or copied; now and then of a line that is no IDREC. */
static void lengthen(const based *b, uint32_t idrec, taker take)
{
    unsigned more = chance(2) ? 1 + chance(TABLE_NUMBERS - 1) : 1 + chance(3 * TABLE_NUMBERS);
    begin(b, LONGER, chance(4) ? idrec : chance(entries_of(b) + 1));
    for (unsigned i = 0; i < more; i++)
        given[now.numbers + i] = chance(2) ? (uint32_t)chance64() : given[chance((uint32_t)now.numbers)];
    now.numbers += more;
    take(&now);
}

/* The same file without one of its lines behind the declarant's. */
static void without_line(const based *b, based *other)
{
    uint32_t line = 4 + chance(entries_of(b) - 3);
    size_t from = number_at(b->table, line, ENTRY_START), gone = number_at(b->table, line, ENTRY_LENGTH) + 2;
    other->text.len = b->text.len - gone;
    memcpy(other->text.bytes, b->text.bytes, from);
    memcpy(other->text.bytes + from, b->text.bytes + from + gone, other->text.len - from);
    other->checked = plain_check(other->text.bytes, other->text.len, other->table, MOST_TABLE);
}

/* The table of another file, or of one that has a line less, by each of its IDRECs. */
static void of_another(const based *b, uint32_t idrec, int nearly, taker take)
{
    static based other;
    if (nearly)
        without_line(b, &other);
    else
        sound_base(&other);
    for (uint32_t line = next_idrec(&other, 0); line; line = next_idrec(&other, line)) {
        begin(b, OF_ANOTHER, idrec);
        now.table = other.table;
        now.numbers = TABLE_NUMBERS * entries_of(&other);
        now.line = line;
        take(&now);
    }
}

/* One of the IDRECs below which somebody stands, each as likely; or 0. */
static uint32_t peopled_idrec(const based *b)
{
    uint32_t chosen = 0, seen = 0;
    for (uint32_t line = next_idrec(b, 0); line; line = next_idrec(b, line))
        if (next_below(b, line, 0) && chance(++seen) == 0)
            chosen = line;
    return chosen;
}

void ask_tables(const based *b, taker take)
{
    uint32_t idrec = peopled_idrec(b);
    if (idrec == 0)
        return;
    for (unsigned i = 0; i < CHANGES; i++)
        change_one(b, idrec, take);
    for (unsigned i = 0; i < MORE_CHANGES; i++)
        change_more(b, idrec, take);
    for (unsigned i = 0; i < CUTS; i++)
        cut(b, idrec, take);
    for (unsigned i = 0; i < LONGER_TABLES; i++)
        lengthen(b, idrec, take);
    of_another(b, idrec, 0, take);
    of_another(b, idrec, 1, take);
}
