#include "marks.h"

#include <stdio.h>
#include <string.h>

#include "../plain/plain_inner.h"
#include "chance.h"
#include "sound.h"

enum { YEAR_FIELD = 2, CALENDAR_FIELD = 3 };

/* The year, the calendar year and the mark of the other edition, or some of the three. All three make it a file of that edition. */
static void other_edition(declaration *d)
{
    static const unsigned fields[] = {YEAR_FIELD, CALENDAR_FIELD, MARK_FIELD};
    plain_edition other = other_than(d->edition);
    uint8_t text[8];
    unsigned which = 1 + chance(7);
    for (unsigned i = 0; i < 3; i++) {
        plain_row row = plain_field_row(other, DIRF, fields[i]);
        if (which >> i & 1)
            set_field(&d->line[0], fields[i], text, sound_field(&row, text));
    }
}

/* A year about theirs, so that what is taken for a value does not hang on the plain checker's own list of them. */
static void near_year(declaration *d)
{
    char text[16];
    snprintf(text, sizeof text, "%u", 2019 + chance(8));
    set_field(&d->line[0], chance(3) ? CALENDAR_FIELD : YEAR_FIELD, text, 4);
}

/* A mark of neither edition: a letter in the other case, another byte, one more in front or behind, one less, or none at all. */
static void other_mark(declaration *d)
{
    text_line *line = &d->line[0];
    unsigned start, len;
    if (!find_field(line, MARK_FIELD, &start, &len))
        return;
    unsigned at = start + chance(len);
    switch (chance(5)) {
    case 0:
        line->bytes[at] ^= 32;
        break;
    case 1:
        line->bytes[at] = (uint8_t)chance(256);
        break;
    case 2:
        put_in(line, chance(2) ? start : start + len, chance(2) ? " " : "B");
        break;
    case 3:
        memmove(line->bytes + at, line->bytes + at + 1, --line->len - at);
        break;
    default:
        set_field(line, MARK_FIELD, "", 0);
    }
}

/* One of the bars gone, half the time the mark's own, or there twice. */
static void other_bars(declaration *d)
{
    text_line *line = &d->line[0];
    unsigned start, len;
    if (!find_field(line, chance(2) ? MARK_FIELD : 1 + chance(MARK_FIELD), &start, &len))
        return;
    unsigned bar = start + len;
    if (chance(3) == 0)
        put_in(line, bar, "|");
    else
        memmove(line->bytes + bar, line->bytes + bar + 1, --line->len - bar);
}

/* CR LF, which ends line 1 before its mark, or a lone CR or LF, which does not. */
static void end_within(declaration *d)
{
    static const char *const ends[] = {"\r\n", "\r", "\n"};
    put_in(&d->line[0], chance(d->line[0].len), ends[chance(3)]);
}

/* Another record with line 1's fields: of RTDS and ESDS the mark says whether they are known. */
static void other_record(declaration *d)
{
    unsigned kind = chance(2) ? 1 + chance(KINDS) : chance(2) ? RTDS : ESDS;
    set_field(&d->line[0], 1, plain_name(kind), (unsigned)strlen(plain_name(kind)));
}

void cross_line_one(declaration *d)
{
    static void (*const ways[])(declaration *) = {other_edition, near_year, other_mark, other_bars, end_within, other_record};
    ways[chance(sizeof ways / sizeof *ways)](d);
}

const first_line first_lines[] = {
    /* the mark itself, with the years of either */
    {"Dirf|2022|2021|N||XJFSFHB|", 2022}, {"Dirf|2022|2022|N||XJFSFHB|", 2022}, {"Dirf|2025|2024|N||XJFSFHB|", 2022},
    {"Dirf|2025|2024|N||R6GP3ZA|", 2025}, {"Dirf|2022|2021|N||R6GP3ZA|", 2025}, {"Dirf|2022|2021|N|||", 2025},
    /* what is nearly the mark */
    {"Dirf|2022|2021|N||xjfsfhb|", 2025}, {"Dirf|2022|2021|N||XJFSFHb|", 2025}, {"Dirf|2022|2021|N||XJFSFH|", 2025},
    {"Dirf|2022|2021|N||XJFSFHBB|", 2025}, {"Dirf|2022|2021|N||XXJFSFHB|", 2025}, {"Dirf|2022|2021|N|| XJFSFHB|", 2025},
    {"Dirf|2022|2021|N||XJFSFHB |", 2025}, {"Dirf|2022|2021|N||XJFSFHC|", 2025}, {"Dirf|2022|2021|N||YJFSFHB|", 2025},
    /* the bars */
    {"", 2025}, {"|", 2025}, {"|||||XJFSFHB|", 2022}, {"|||||XJFSFHB", 2025}, {"Dirf|2022|2021|N||XJFSFHB", 2025},
    {"Dirf|2022|2021|N||XJFSFHB|A", 2022}, {"Dirf|2022|2021|N||XJFSFHB||", 2022}, {"Dirf|2022|2021|N||XJFSFHB|R6GP3ZA|", 2022},
    {"Dirf|2022|2021|N||R6GP3ZA|XJFSFHB|", 2025}, {"Dirf|2022|2021|N|XJFSFHB|", 2025}, {"Dirf|2022|2021|N|XJFSFHB||", 2025},
    {"Dirf|2022|2021|N|||XJFSFHB|", 2025},
    /* other records */
    {"RTDS|2022|2021|N||XJFSFHB|", 2022}, {"ESDS|2022|2021|N||XJFSFHB|", 2022}, {"RTDS|||||XJFSFHB|||||||||", 2022},
    {"RTDS|2022|2021|N||R6GP3ZA|", 2025}, {"ESDS|2022|2021|N||R6GP3ZA|", 2025}, {"VPEIM|||||XJFSFHB|", 2022},
    {"FIMDirf|||||XJFSFHB|", 2022},
    /* a lone CR or LF, which ends nothing and is a byte of its field */
    {"\rDirf|2022|2021|N||XJFSFHB|", 2022}, {"\nDirf|2022|2021|N||XJFSFHB|", 2022}, {"Dirf|2022\r|2021|N||XJFSFHB|", 2022},
    {"Dirf|2022\n|2021|N||XJFSFHB|", 2022}, {"Dirf|2022|2021|N|\n\r|XJFSFHB|", 2022}, {"Dirf|2022|2021|N|\r\r\r|XJFSFHB|", 2022},
    {"Dirf|2022|2021|N||\rXJFSFHB|", 2025}, {"Dirf|2022|2021|N||\nXJFSFHB|", 2025}, {"Dirf|2022|2021|N||XJFSFHB\r|", 2025},
    {"Dirf|2022|2021|N||XJFSFHB\n|", 2025},
    /* CR LF before the sixth bar */
    {"\r\nDirf|2022|2021|N||XJFSFHB|", 2025}, {"Dirf|2022\r\n|2021|N||XJFSFHB|", 2025}, {"Dirf|2022|2021|N|\r\n|XJFSFHB|", 2025},
    {"Dirf|2022|2021|N|\r\r\n|XJFSFHB|", 2025}, {"Dirf|2022|2021|N|\n\r\n|XJFSFHB|", 2025}, {"Dirf|2022|2021|N||\r\nXJFSFHB|", 2025},
    {"Dirf|2022|2021|N||XJFS\r\nFHB|", 2025}, {"Dirf|2022|2021|N||XJFSFHB\r\n|", 2025},
    {NULL, 0},
};
