/* 1 to 11: where a file ends, a line's end, its length, its identifier and its bars. */
#include "faults_inner.h"

#include <string.h>

#include "../plain/plain_inner.h"
#include "chance.h"
#include "sound.h"

/* 1: the lines from some place on are missing. */
int not_closed(declaration *d)
{
    d->count = chance(3) ? d->count - 1 : chance(d->count);
    return 1;
}

/* 2: a line, or only its end, after the last one. */
int after_the_end(declaration *d)
{
    text_line *line = insert_line(d, d->count);
    if (!line)
        return 0;
    sound_line(line, d->edition, 1 + chance(FIMDIRF));
    if (chance(2))
        line->len = chance(2);
    set_end(line, chance(2) ? "\r\n" : chance(2) ? "\n" : "");
    return 1;
}

/* 4: a line of 1,023 to 1,026 bytes. */
int too_long(declaration *d)
{
    static uint8_t filler[MOST_BYTES];
    text_line *line = any_line(d);
    unsigned fields = plain_fields(line->edition, line->kind), f = 1 + chance(fields < 4 ? fields : 4), want = 1023 + chance(4), start, len;
    memset(filler, chance(2) ? 'A' : '0', sizeof filler);
    if (!find_field(line, f, &start, &len) || line->len > want)
        return 0;
    set_field(line, f, filler, len + want - line->len);
    return 1;
}

/* 5: the file ends within a line or its end. */
int cut_short(declaration *d)
{
    d->count = 1 + chance(d->count);
    text_line *line = &d->line[d->count - 1];
    if (chance(2))
        line->len = chance(line->len + 1);
    set_end(line, chance(2) ? "\r" : "");
    return 1;
}

/* 6: another line end, or one within the line. */
int wrong_end(declaration *d)
{
    static const char *const ends[] = {"\r", "\n", "\n\r", "\r\r\n", "\n\n"};
    text_line *line = any_line(d);
    if (chance(2) || line->len == 0)
        set_end(line, ends[chance(5)]);
    else
        line->bytes[chance(line->len)] = chance(2) ? '\r' : '\n';
    return 1;
}

/* 8: an empty line, or one that ends in no bar. */
int no_last_bar(declaration *d)
{
    text_line *line = any_line(d);
    if (chance(4) == 0 || line->len == 0)
        line->len = 0;
    else if (chance(2))
        line->len--;
    else
        line->bytes[line->len++] = 'A';
    return 1;
}

/* 9 of the older edition: a record that it lacks, put in before a line or in its place. In the place of line 1 the mark stays, and with it
   the edition; put in before it, the record is misplaced in a file of 2025. */
static int lacked(declaration *d)
{
    unsigned kind = chance(2) ? RTDS : ESDS, at = chance(4) ? chance(d->count) : 0;
    text_line *line = chance(2) ? insert_line(d, at) : NULL;
    if (line) {
        sound_line(line, PLAIN_2025, kind);
        return 1;
    }
    line = &d->line[at];
    line->edition = PLAIN_2025;
    line->kind = kind;
    set_field(line, 1, plain_name(kind), (unsigned)strlen(plain_name(kind)));
    return 1;
}

/* 9: another identifier; the three misprints of the layout among them. */
int unknown(declaration *d)
{
    static const char *const others[] = {"BPFRRRA", "BPFICI", "QTMESSES", "DIRF", "FIMDIRF", "", " IDREC", "R", "RTRTR"};
    if (d->edition == PLAIN_2022 && chance(2))
        return lacked(d);
    text_line *line = any_line(d);
    if (chance(2)) {
        const char *other = others[chance(9)];
        set_field(line, 1, other, (unsigned)strlen(other));
    } else if (line->len > 0) {
        line->bytes[0] ^= 32;
    }
    return 1;
}

/* 10: a record that is left for later, in a line's place or before it. */
int left_for_later(declaration *d)
{
    unsigned kind, at = chance(d->count);
    do
        kind = 1 + chance(KINDS);
    while (plain_records[kind].role != LATER);
    if (chance(2) && insert_line(d, at))
        sound_line(&d->line[at], d->edition, BPFSCP);
    set_field(&d->line[at], 1, plain_name(kind), (unsigned)strlen(plain_name(kind)));
    return 1;
}

/* 11: a bar more or less. */
int wrong_count(declaration *d)
{
    text_line *line = any_line(d);
    unsigned start, len, f = 1 + chance(plain_fields(line->edition, line->kind));
    if (!find_field(line, f, &start, &len))
        return 0;
    if (chance(2))
        set_field(line, f, "|", 1);
    else if (start + len + 1 < line->len)
        memmove(line->bytes + start + len, line->bytes + start + len + 1, --line->len - start - len);
    return 1;
}
