#include <string.h>

#include "chance.h"
#include "closers.h"
#include "faults.h"
#include "fed.h"
#include "sound.h"
#include "whole.h"

static void take_file(fed *c, const file_text *file)
{
    c->len = c->judged = file->len < MOST_STRING ? file->len : MOST_STRING;
    memcpy(c->bytes, file->bytes, c->len);
}

/* A file cut after a whole line: closed, or with a tail that must change nothing. */
static void cut_case(fed *c, file_text *file, met *m)
{
    cut_at_line(file);
    plain_answer a = plain_check_room(file->bytes, file->len, MOST_TABLE / TABLE_NUMBERS);
    size_t judged = file->len;
    if (a.number == 1)
        close_file(file, a.line - 1);
    else if (a.number != 0)
        add_tail(file);
    take_file(c, file);
    if (a.number > 1 && judged < c->len)
        c->judged = judged;
    c->number = MOST_TABLE - chance(4);
    if (a.number == 1)
        count_closed(m, (part){c->bytes, c->len}, a.line - 1);
    m->fixed[plain_edition_of(c->bytes, c->judged)] += a.number > 1;
}

static void check_case(fed *c, uint64_t seed, met *m)
{
    static declaration d;
    static file_text file;
    plan p = make_file(~seed, &d, &file);
    c->letter = 'C';
    if (chance(8) == 0) {
        cut_case(c, &file, m);
        return;
    }
    c->number = chance(4) ? MOST_TABLE - chance(4) : chance(TABLE_NUMBERS * (d.count + 2));
    take_file(c, &file);
    uint64_t totals[KINDS + 1];
    plain_answer a = plain_check_room_totals(c->bytes, c->len, c->number / TABLE_NUMBERS, totals, KINDS + 1);
    m->number[a.number]++;
    count_file(m, (part){c->bytes, c->len}, a, totals, p);
    count_plan(m, p, a.number);
}

/* The fields of a line as the writer takes them: contents one after another, and lengths. */
static void contents_of(fed *c, const text_line *line)
{
    unsigned start, len;
    c->len = c->count = 0;
    while (c->count < MOST_LENGTHS && find_field(line, (unsigned)c->count + 1, &start, &len)) {
        memcpy(c->bytes + c->len, line->bytes + start, len);
        c->lengths[c->count++] = len;
        c->len += len;
    }
}

static void damage_contents(fed *c)
{
    switch (chance(6)) {
    case 0:
        c->count = chance(MOST_LENGTHS + 1);
        break;
    case 1:
        if (c->count > 0)
            c->lengths[chance((uint32_t)c->count)] = chance(2) ? chance64() : chance(200);
        break;
    case 2:
        c->number = chance(2) ? chance(80) : chance64() >> 32;
        break;
    case 3:
        c->len = chance((uint32_t)c->len + 1);
        break;
    case 4:
        c->lengths[0] = chance(9);
        break;
    default:
        if (c->len > 0)
            c->bytes[chance((uint32_t)c->len)] = (uint8_t)(chance(2) ? (uint32_t)"|\r\n0"[chance(4)] : chance(256));
    }
}

/* A line of any kind by the writer's edition, by that of 2025 where it lacks the kind. */
static void any_kind(text_line *line, plain_edition edition)
{
    unsigned kind;
    do
        kind = 1 + chance(KINDS);
    while (!plain_is_base(PLAIN_2025, kind));
    sound_line(line, plain_is_base(edition, kind) ? edition : PLAIN_2025, kind);
}

/* One of any kind that can have this number, in which it is broken. */
static unsigned broken_kind(text_line *line, plain_edition edition, unsigned number)
{
    do
        any_kind(line, edition);
    while (!break_line(line, number));
    return number;
}

/* Half sound, a quarter with 26 and an eighth with 19 broken, else left as it is. Gives the number, or 0. */
static unsigned other_line(text_line *line, plain_edition edition)
{
    unsigned way = chance(8);
    if (way < 4)
        any_kind(line, edition);
    else if (way < 7)
        return broken_kind(line, edition, way < 6 ? WRONG_DIGITS : CONDITION);
    return 0;
}

/* Now and then the writer is told the other edition than that of the line. */
static void write_case(fed *c)
{
    static declaration d;
    sound_declaration(&d);
    c->letter = chance(3) ? 'E' : 'W';
    c->edition = c->letter == 'W' ? PLAIN_2025 : chance(8) ? d.edition : other_than(d.edition);
    for (unsigned left = chance(3); left > 0; left--)
        break_rule(&d, any_rule(11));
    text_line *line = &d.line[chance(d.count)];
    c->broken = other_line(line, c->edition);
    c->number = line->kind;
    memset(c->lengths, 0, sizeof c->lengths);
    contents_of(c, line);
    if (chance(4) == 0) {
        damage_contents(c);
        c->broken = 0;
    }
    /* the line has a bar a field and its end beside the contents */
    c->room = chance(4) ? chance(MOST_ROOM + 1) : c->len + c->count + 4 - chance(5);
    if (c->room > MOST_ROOM)
        c->room = MOST_ROOM;
}

static void place_case(fed *c, uint64_t seed)
{
    static declaration d;
    static file_text file;
    make_file(~seed, &d, &file);
    c->letter = 'F';
    c->number = chance(50) ? chance(20) : chance64();
    size_t from = chance((uint32_t)file.len + 1);
    c->len = chance((uint32_t)(file.len - from) + 1) % 400;
    memcpy(c->bytes, file.bytes + from, c->len);
}

static void value_case(fed *c)
{
    c->letter = chance(2) ? 'A' : 'M';
    c->len = chance(c->letter == 'A' ? 18 : 8);
    if (c->len > 0)
        sound_digits((unsigned)c->len, c->bytes);
    if (c->len > 0 && chance(4) == 0)
        c->bytes[chance((uint32_t)c->len)] = (uint8_t)(chance(2) ? '0' : chance(256));
}

/* Values of every width, near a power of ten and near the limits. */
static void digits_case(fed *c)
{
    uint64_t power = 1;
    c->letter = chance(2) ? 'a' : 'm';
    for (unsigned left = chance(20); left > 0; left--)
        power *= 10;
    c->number = chance(3) ? power + chance(5) - 2 : chance64() >> chance(64);
    c->room = chance(16);
}

/* A file has numbers of its own (~seed), so that its shape does not hang on the letter. */
void make_fed(uint64_t seed, fed *c, met *m)
{
    chance_from(seed);
    unsigned way = chance(20);
    if (way < 10)
        check_case(c, seed, m);
    else if (way < 15)
        write_case(c);
    else if (way < 17)
        place_case(c, seed);
    else if (way < 18)
        value_case(c);
    else
        digits_case(c);
}
