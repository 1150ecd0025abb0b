/* 26: the check digits of a CPF or a CNPJ. */
#include "faults_inner.h"

#include "../makers/people.h"
#include "chance.h"
#include "sound.h"

/* Swaps two neighbours that differ; 0 if there are none. */
static int swap_neighbours(uint8_t *text, unsigned len)
{
    unsigned at = chance(len);
    for (unsigned i = 0; i < len; i++, at = (at + 1) % len)
        if (at + 1 < len && text[at] != text[at + 1]) {
            uint8_t first = text[at];
            text[at] = text[at + 1];
            text[at + 1] = first;
            return 1;
        }
    return 0;
}

/* Mostly two swapped, else another digit, a check digit as well as one before it. A few are right again. */
static void spoil(uint8_t *text, unsigned len)
{
    if (chance(4) && swap_neighbours(text, len))
        return;
    uint8_t *digit = &text[chance(len)];
    *digit = (uint8_t)('0' + (*digit - '0' + 1 + chance(9)) % 10);
}

/* An empty field is filled first. */
static int spoil_field(text_line *line, unsigned f)
{
    plain_row row = plain_field_row(line->edition, line->kind, f);
    uint8_t text[CNPJ_SIZE];
    unsigned start, len;
    if (find_field(line, f, &start, &len) && len == 0)
        set_field(line, f, text, sound_identity(&row, text));
    if (!find_field(line, f, &start, &len) || len == 0)
        return 0;
    spoil(line->bytes + start, len);
    return 1;
}

int spoil_any(text_line *lines, unsigned count)
{
    text_line *line = NULL;
    unsigned field = 0, found = 0;
    for (unsigned i = 0; i < count; i++)
        for (unsigned f = 1; f <= plain_fields(lines[i].edition, lines[i].kind); f++) {
            plain_row row = plain_field_row(lines[i].edition, lines[i].kind, f);
            if (holds_identity(&row) && chance(++found) == 0) {
                line = &lines[i];
                field = f;
            }
        }
    return line != NULL && spoil_field(line, field);
}

int wrong_digits(declaration *d)
{
    return spoil_any(d->line, d->count);
}
