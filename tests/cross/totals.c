#include "totals.h"

#include <stdarg.h>
#include <stdio.h>

#include "../../include/decklesail.h"

/* Places behind those that are lent at most, and how often places are lent once more, a kind with a total and any number are asked alone,
   and every kind is read. */
enum { GUARDS = 6, ALL_PLACES = MOST_LENT + GUARDS };
enum { EVERY_LENT = 16, EVERY_ALONE = 8, EVERY_READ = 32 };

/* The check with totals by either side, as C has it. */
typedef uint32_t (*teller)(const uint8_t *file, size_t len, size_t room, uint64_t *totals, size_t totals_len);

static uint32_t plain_teller(const uint8_t *file, size_t len, size_t room, uint64_t *totals, size_t totals_len)
{
    return plain_check_room_totals(file, len, room, totals, totals_len).number;
}

/* What stands in a place beforehand: no total comes to it. */
static uint64_t pattern(size_t place)
{
    return UINT64_C(0xd1f0000000000000) + place;
}

static const char *say(const char *words, ...)
{
    static char said[200];
    va_list rest;
    va_start(rest, words);
    vsnprintf(said, sizeof said, words, rest);
    va_end(rest);
    return said;
}

known_totals totals_by_plain(part file, size_t room)
{
    known_totals known;
    for (size_t i = 0; i < TOTAL_PLACES; i++)
        known.of[i] = pattern(i);
    known.answer = plain_check_room_totals(file.bytes, file.len, room, known.of, TOTAL_PLACES);
    return known;
}

/* With so many places lent: the number, the totals, and that the other places stay. */
static const char *lent_difference(const char *who, teller tell, part file, size_t room, size_t lent, const known_totals *known)
{
    uint64_t places[ALL_PLACES];
    for (size_t i = 0; i < ALL_PLACES; i++)
        places[i] = pattern(i);
    uint32_t number = tell(file.bytes, file.len, room, places, lent);
    if (number != known->answer.number)
        return say("%s says %u with %zu places, and %u is right", who, number, lent, known->answer.number);
    for (size_t i = 0; i < ALL_PLACES; i++) {
        uint64_t right = i < lent && i < TOTAL_PLACES ? known->of[i] : pattern(i);
        if (places[i] != right)
            return say("%s has %llu in place %zu of %zu, and %llu is right", who, (unsigned long long)places[i], i, lent,
                       (unsigned long long)right);
    }
    return NULL;
}

/* Of the lines that the answer speaks of; the reading has no part in the check. */
static const char *reading_difference(part file, const known_totals *known, uint32_t kind)
{
    uint32_t lines = known->answer.line - (known->answer.number != 0);
    uint64_t read = plain_total_reading(file.bytes, file.len, lines, kind), checked = kind < TOTAL_PLACES ? known->of[kind] : 0;
    if (read == checked)
        return NULL;
    return say("reading %u lines gives %llu for kind %u, the plain check %llu", lines, (unsigned long long)read, kind,
               (unsigned long long)checked);
}

static const char *alone_difference(part file, size_t room, const known_totals *known, uint32_t kind)
{
    uint64_t total = decklesail_total(file.bytes, file.len, room, kind), right = kind < TOTAL_PLACES ? known->of[kind] : 0;
    if (total == right)
        return NULL;
    return say("the library says %llu for kind %u alone, and %llu is right", (unsigned long long)total, kind, (unsigned long long)right);
}

const char *totals_difference(part file, size_t room, const known_totals *known, totals_question q)
{
    const char *found = lent_difference("the library", decklesail_totals, file, room, TOTAL_PLACES, known);
    if (!found && q.lent != TOTAL_PLACES)
        found = lent_difference("the library", decklesail_totals, file, room, q.lent, known);
    if (!found && q.lent != TOTAL_PLACES)
        found = lent_difference("the plain checker", plain_teller, file, room, q.lent, known);
    if (!found && q.asked_alone)
        found = alone_difference(file, room, known, q.alone);
    if (!found && !q.read_all)
        return reading_difference(file, known, q.alone);
    for (uint32_t kind = 0; kind <= TOTAL_PLACES && !found; kind++)
        found = reading_difference(file, known, kind);
    return found;
}

/* The kinds with a total in turn; or NO_KIND, where the file has none. */
static uint32_t kind_with_total(const known_totals *known, unsigned long turn)
{
    uint32_t count = 0, kind = NO_KIND;
    for (uint32_t k = 1; k <= KINDS; k++)
        count += known->of[k] != 0;
    for (unsigned long left = count ? turn % count + 1 : 0; left > 0;)
        left -= known->of[++kind] != 0;
    return kind;
}

/* 0 to 74 in turn, then the largest, those that are a kind's in their low 8, 16 or 31 bits, and any. */
static uint32_t any_number(unsigned long turn)
{
    const uint32_t kind = (uint32_t)(turn / 80 % KINDS + 1);
    const uint32_t past[] = {UINT32_MAX, 0x100 + kind, 0x10000 + kind, 0x80000000 + kind, TOTAL_PLACES + (uint32_t)(turn * 2654435761u)};
    return turn % 80 <= TOTAL_PLACES ? (uint32_t)(turn % 80) : past[turn % 80 - TOTAL_PLACES - 1];
}

totals_question next_question(const known_totals *known)
{
    static unsigned long turn;
    turn++;
    totals_question q = {.lent = TOTAL_PLACES, .asked_alone = turn % EVERY_ALONE < 2, .read_all = turn % EVERY_READ == 0};
    if (turn % EVERY_LENT == 0)
        q.lent = turn / EVERY_LENT % (MOST_LENT + 1);
    q.alone = turn % 2 ? kind_with_total(known, turn / EVERY_ALONE) : any_number(turn / EVERY_ALONE);
    return q;
}

void count_held(totals_held *h, const known_totals *known, totals_question q)
{
    h->files++;
    for (uint32_t kind = 1; kind <= KINDS; kind++)
        h->not_zero += known->of[kind] != 0;
    h->lent += q.lent != TOTAL_PLACES;
    h->alone += (unsigned)q.asked_alone;
    h->alone_not_zero += q.asked_alone && q.alone < TOTAL_PLACES && known->of[q.alone] != 0;
    h->read += q.read_all ? TOTAL_PLACES + 1 : 1;
}

void print_held(const char *name, const totals_held *h)
{
    printf("%s, totals: of %lu files, %lu not 0; %lu with other places lent; %lu asked alone, %lu not 0; %lu read again\n", name, h->files,
           h->not_zero, h->lent, h->alone, h->alone_not_zero, h->read);
}
