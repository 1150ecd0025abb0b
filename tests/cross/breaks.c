#include "breaks.h"

#include <string.h>

#include "../makers/people.h"
#include "../plain/plain_inner.h"
#include "chance.h"
#include "faults_inner.h"
#include "sound.h"
#include "whole.h"

enum { MOST_STEPS = 6 };

/* In a kind's place: any value record that may stand below such a parent, and the first of those that were taken, once more. */
enum { OF_KIND = KINDS + 1, FIRST_AGAIN = 2 * OF_KIND };
#define OF(parent) (OF_KIND + (parent))

/* What stands in field 2: what the line was made with, nothing, a CPF or a CNPJ by its rank, or one of a rank that is 1 or 2. */
enum rank { AS_MADE, EMPTY, FIRST, SECOND, FIRST_OR_SECOND };

/* One line that is put in. Of optional ones in a row a beginning is put in. The CNPJ of a rank is less byte by byte than a CPF of any; a
   great one is greater than a CPF of a lesser rank. */
typedef struct {
    unsigned kind;
    enum rank rank;
    unsigned size;              /* the key's digits */
    int great;
    const char *date;           /* in field 3, where there is one; a blank for that day, an earlier one or none */
    int optional;
} step;

#define LINE(kind) {kind, AS_MADE, 0, 0, NULL, 0}
#define MAYBE(kind) {kind, AS_MADE, 0, 0, NULL, 1}
#define CPF_OF(kind, rank) {kind, rank, CPF_SIZE, 0, NULL, 0}
#define CNPJ_OF(kind, rank) {kind, rank, CNPJ_SIZE, 0, NULL, 0}
#define GREAT_CNPJ_OF(kind, rank) {kind, rank, CNPJ_SIZE, 1, NULL, 0}
#define PERSON(kind, rank, date) {kind, rank, CPF_SIZE, 0, date, 0}

static const char a_day[] = "19900228", a_later_day[] = "19910101", not_later[] = " ";

/* A way: lines put in behind a record, the last of which is refused, or, where there is a field, that field of the record broken. The
   record is the declarant where no kind is said. */
typedef struct {
    unsigned number;
    const char *words;
    unsigned declarant, behind, field;
    step steps[MOST_STEPS];
} way;

#define PLACED(words, behind, ...) {12, words, NO_KIND, behind, 0, {__VA_ARGS__}}
#define PLACED_UNDER(declarant, words, behind, ...) {12, words, declarant, behind, 0, {__VA_ARGS__}}
#define BEHIND_PSE(words, kind) PLACED(words, PSE, MAYBE(OPSE), MAYBE(TPSE), MAYBE(DTPSE), LINE(kind))
#define AGAIN(words, behind, ...) {21, words, NO_KIND, behind, 0, {__VA_ARGS__, LINE(FIRST_AGAIN)}}
#define KEYED(words, behind, ...) {20, words, NO_KIND, behind, 0, {__VA_ARGS__}}
#define FIELD(number, words, kind, field) {number, words, NO_KIND, kind, field, {LINE(NO_KIND)}}

/* The key of two fields, with what may stand between. */
#define PERSONS(name, kind, behind, between) \
    KEYED("two " name " without CPF and date", behind, PERSON(kind, EMPTY, ""), between, PERSON(kind, EMPTY, "")), \
    KEYED("two " name " without CPF, the second's date no later", behind, PERSON(kind, EMPTY, a_day), between, \
        PERSON(kind, EMPTY, not_later)), \
    KEYED("two " name " of one CPF, the second's date no later", behind, PERSON(kind, FIRST, a_day), between, \
        PERSON(kind, FIRST, not_later)), \
    KEYED("two " name " of one CPF without a date", behind, PERSON(kind, FIRST, ""), between, PERSON(kind, FIRST, "")), \
    KEYED(name " with a lesser CPF and a later date", behind, PERSON(kind, SECOND, a_day), between, PERSON(kind, FIRST, a_later_day)), \
    KEYED(name " without CPF behind one with it", behind, PERSON(kind, FIRST, a_day), between, PERSON(kind, EMPTY, a_later_day))

/* The key that is a CPF or a CNPJ. */
#define REFUNDS(name, kind, behind) \
    KEYED(name " with a CPF that is not greater", behind, CPF_OF(kind, SECOND), CPF_OF(kind, FIRST_OR_SECOND)), \
    KEYED(name " with a CNPJ that is not greater", behind, CNPJ_OF(kind, SECOND), CNPJ_OF(kind, FIRST_OR_SECOND)), \
    KEYED(name " with a CPF behind a CNPJ, greater byte by byte", behind, CNPJ_OF(kind, SECOND), CPF_OF(kind, FIRST_OR_SECOND)), \
    KEYED(name " with a CPF behind a CNPJ, less byte by byte", behind, GREAT_CNPJ_OF(kind, SECOND), CPF_OF(kind, FIRST)), \
    FIELD(13, name " with field 2 empty", kind, 2), FIELD(15, name " with neither 11 nor 14 digits in field 2", kind, 2), \
    FIELD(15, name " with over nine digits in field 4", kind, 4), FIELD(16, name " with a zero in front in field 4", kind, 4), \
    FIELD(15, name " with over nine digits in field 5", kind, 5), FIELD(16, name " with a zero in front in field 5", kind, 5)

#define DUE_AMOUNT(name, kind, field) \
    FIELD(13, name " without its amount", kind, field), FIELD(15, name " with an amount of over nine digits", kind, field), \
    FIELD(16, name " with a zero in front of its amount", kind, field)

static const way ways[] = {
    /* values beside their INFPC or INFPA */
    PLACED("a value of an INFPC directly below a BPFDEC", BPFDEC, LINE(OF(INFPC))),
    PLACED("a value of an INFPA directly below a BPFDEC", BPFDEC, LINE(OF(INFPA))),
    PLACED("a value of an INFPC directly below a BPFRRA", BPFRRA, LINE(OF(INFPC))),
    PLACED("a value of an INFPA directly below a BPFRRA", BPFRRA, LINE(OF(INFPA))),
    PLACED("a value of an INFPC behind one of its BPFDEC", BPFDEC, LINE(INFPC), MAYBE(OF(INFPC)), LINE(OF(BPFDEC)), LINE(OF(INFPC))),
    PLACED("a value of an INFPA behind one of its BPFDEC", BPFDEC, LINE(INFPA), MAYBE(OF(INFPA)), LINE(OF(BPFDEC)), LINE(OF(INFPA))),
    PLACED("RTPA behind a value of its BPFRRA", BPFRRA, LINE(INFPA), MAYBE(RTPA), LINE(OF(BPFRRA)), LINE(RTPA)),
    PLACED("a value of an INFPC behind an INFPA", BPFDEC, LINE(INFPC), MAYBE(OF(INFPC)), LINE(INFPA), MAYBE(OF(INFPA)), LINE(OF(INFPC))),
    PLACED("a value of an INFPA behind an INFPC", BPFDEC, LINE(INFPA), MAYBE(OF(INFPA)), LINE(INFPC), MAYBE(OF(INFPC)), LINE(OF(INFPA))),
    PLACED("a value of an INFPC behind the next BPFDEC", BPFDEC, LINE(INFPC), MAYBE(OF(INFPC)), LINE(BPFDEC), LINE(OF(INFPC))),
    PLACED("a value of an INFPA behind the next BPFDEC", BPFDEC, LINE(INFPA), MAYBE(OF(INFPA)), LINE(BPFDEC), LINE(OF(INFPA))),
    PLACED("RTPA behind the next BPFRRA", BPFRRA, LINE(INFPA), MAYBE(RTPA), LINE(BPFRRA), LINE(RTPA)),
    PLACED("ESPA below an INFPA of a BPFRRA", BPFRRA, LINE(INFPA), MAYBE(RTPA), LINE(ESPA)),
    PLACED_UNDER(DECPF, "RTSP below an INFPC under DECPF", BPFDEC, LINE(INFPC), MAYBE(OF(INFPC)), LINE(RTSP)),
    PLACED_UNDER(DECPF, "RTEP below an INFPC under DECPF", BPFDEC, LINE(INFPC), MAYBE(OF(INFPC)), LINE(RTEP)),
    PLACED_UNDER(DECPF, "ESSP below an INFPC under DECPF", BPFDEC, LINE(INFPC), MAYBE(OF(INFPC)), LINE(ESSP)),
    PLACED_UNDER(DECPF, "ESEP below an INFPC under DECPF", BPFDEC, LINE(INFPC), MAYBE(OF(INFPC)), LINE(ESEP)),
    /* INFPC and INFPA where there are none */
    PLACED("INFPC below a BPFRRA", BPFRRA, MAYBE(OF(BPFRRA)), LINE(INFPC)),
    PLACED("INFPC below a BPFPROC", BPFPROC, MAYBE(OF(BPFPROC)), LINE(INFPC)),
    PLACED("INFPA below a BPFPROC", BPFPROC, MAYBE(OF(BPFPROC)), LINE(INFPA)),
    PLACED("RTEP below a BPFPROC", BPFPROC, LINE(RTEP)),
    PLACED("ESEP below a BPFPROC", BPFPROC, LINE(ESEP)),
    /* the health plan */
    BEHIND_PSE("a second PSE", PSE), BEHIND_PSE("IDREC behind the PSE", IDREC), BEHIND_PSE("FCI behind the PSE", FCI),
    BEHIND_PSE("PROC behind the PSE", PROC), BEHIND_PSE("RRA behind the PSE", RRA), BEHIND_PSE("SCP behind the PSE", SCP),
    PLACED("RTPSE behind a DTPSE of its TPSE", TPSE, MAYBE(RTPSE), LINE(DTPSE), MAYBE(RDTPSE), LINE(RTPSE)),
    PLACED("RDTPSE behind the next TPSE", TPSE, LINE(DTPSE), MAYBE(RDTPSE), LINE(TPSE), LINE(RDTPSE)),
    PLACED("RDTPSE directly below a TPSE", TPSE, MAYBE(RTPSE), LINE(RDTPSE)),
    PLACED("RTPSE directly below an OPSE", OPSE, LINE(RTPSE)),
    PLACED("DTPSE directly below an OPSE", OPSE, LINE(DTPSE)),
    PLACED("TPSE directly below the PSE", PSE, LINE(TPSE)),
    PLACED("OPSE without a PSE", NO_KIND, LINE(OPSE)),
    /* once under its own parent */
    AGAIN("a value of a BPFDEC again behind an INFPC", BPFDEC, LINE(OF(BPFDEC)), LINE(INFPC), MAYBE(OF(INFPC))),
    AGAIN("a value of a BPFDEC again behind an INFPA", BPFDEC, LINE(OF(BPFDEC)), LINE(INFPA), MAYBE(OF(INFPA))),
    AGAIN("a value of a BPFRRA again behind an INFPA", BPFRRA, LINE(OF(BPFRRA)), LINE(INFPA), MAYBE(RTPA)),
    AGAIN("a value of an INFPC again", BPFDEC, LINE(INFPC), LINE(OF(INFPC))),
    AGAIN("a value of an INFPA of a BPFDEC again", BPFDEC, LINE(INFPA), LINE(OF(INFPA))),
    AGAIN("a value of an INFPA of a BPFRRA again", BPFRRA, LINE(INFPA), LINE(OF(INFPA))),
    /* keys */
    KEYED("INFPC that is not greater", BPFDEC, CNPJ_OF(INFPC, SECOND), MAYBE(OF(INFPC)), CNPJ_OF(INFPC, FIRST_OR_SECOND)),
    KEYED("INFPC that is not greater, an INFPA between", BPFDEC, CNPJ_OF(INFPC, SECOND), MAYBE(OF(INFPC)), LINE(INFPA),
        MAYBE(OF(INFPA)), CNPJ_OF(INFPC, FIRST_OR_SECOND)),
    KEYED("INFPC that is not greater, a value between", BPFDEC, CNPJ_OF(INFPC, SECOND), MAYBE(OF(INFPC)), LINE(OF(BPFDEC)),
        CNPJ_OF(INFPC, FIRST_OR_SECOND)),
    PERSONS("INFPA of a BPFDEC", INFPA, BPFDEC, MAYBE(OF(INFPA))),
    KEYED("INFPA of a BPFDEC that is not greater, an INFPC between", BPFDEC, PERSON(INFPA, SECOND, a_day), MAYBE(OF(INFPA)), LINE(INFPC),
        MAYBE(OF(INFPC)), PERSON(INFPA, FIRST_OR_SECOND, not_later)),
    KEYED("INFPA of a BPFDEC that is not greater, a value between", BPFDEC, PERSON(INFPA, SECOND, a_day), MAYBE(OF(INFPA)),
        LINE(OF(BPFDEC)), PERSON(INFPA, FIRST_OR_SECOND, not_later)),
    PERSONS("INFPA of a BPFRRA", INFPA, BPFRRA, MAYBE(RTPA)),
    KEYED("INFPA of a BPFRRA that is not greater, a value between", BPFRRA, PERSON(INFPA, SECOND, a_day), MAYBE(RTPA), LINE(OF(BPFRRA)),
        PERSON(INFPA, FIRST_OR_SECOND, not_later)),
    KEYED("OPSE that is not greater", PSE, CNPJ_OF(OPSE, SECOND), CNPJ_OF(OPSE, FIRST_OR_SECOND)),
    KEYED("OPSE that is not greater, a TPSE between", PSE, CNPJ_OF(OPSE, SECOND), LINE(TPSE), MAYBE(RTPSE), MAYBE(DTPSE),
        CNPJ_OF(OPSE, FIRST_OR_SECOND)),
    KEYED("TPSE that is not greater", OPSE, CPF_OF(TPSE, SECOND), CPF_OF(TPSE, FIRST_OR_SECOND)),
    KEYED("TPSE that is not greater, an RTPSE between", OPSE, CPF_OF(TPSE, SECOND), LINE(RTPSE), MAYBE(DTPSE),
        CPF_OF(TPSE, FIRST_OR_SECOND)),
    KEYED("TPSE that is not greater, a DTPSE between", OPSE, CPF_OF(TPSE, SECOND), LINE(DTPSE), MAYBE(RDTPSE),
        CPF_OF(TPSE, FIRST_OR_SECOND)),
    PERSONS("DTPSE", DTPSE, TPSE, MAYBE(RDTPSE)),
    KEYED("DTPSE that is not greater, an RDTPSE between", TPSE, PERSON(DTPSE, SECOND, a_day), LINE(RDTPSE),
        PERSON(DTPSE, FIRST_OR_SECOND, not_later)),
    REFUNDS("RTPSE", RTPSE, TPSE),
    REFUNDS("RDTPSE", RDTPSE, DTPSE),
    /* fields */
    FIELD(15, "OPSE with other than six digits in field 4", OPSE, 4), DUE_AMOUNT("TPSE", TPSE, 4), DUE_AMOUNT("DTPSE", DTPSE, 6),
    FIELD(18, "INFPA with no such relation", INFPA, 5), FIELD(18, "DTPSE with no such relation", DTPSE, 5),
    FIELD(17, "INFPA with no such date", INFPA, 3), FIELD(17, "DTPSE with no such date", DTPSE, 3),
};
_Static_assert(sizeof ways / sizeof *ways == BREAKS, "as many as breaks.h says");

unsigned break_number(unsigned which)
{
    return ways[which].number;
}

const char *break_words(unsigned which)
{
    return ways[which].words;
}

/* A record of this kind by chance, counted from 1, the declarant where none is said; 0 where there is none. */
static unsigned any_of_kind(const declaration *d, unsigned kind)
{
    unsigned at = 0, found = 0;
    for (unsigned i = 0; i < d->count; i++)
        if (d->line[i].kind == (kind == NO_KIND ? d->declarant : kind) && chance(++found) == 0)
            at = i + 1;
    return at;
}

/* A value record that may stand below this parent under the declarant. */
static unsigned any_value_of(const declaration *d, unsigned above, unsigned parent)
{
    unsigned kind;
    do
        kind = 1 + chance(KINDS);
    while (plain_records[kind].role != VALUE || !may_stand_below(d, above, parent, kind));
    return kind;
}

static void put_key(text_line *line, const step *s, uint64_t least, unsigned gap)
{
    char text[CNPJ_SIZE];
    unsigned rank = s->rank == FIRST_OR_SECOND ? FIRST + chance(2) : s->rank;
    if (s->rank == AS_MADE)
        return;
    make_identity(s->size, (least + rank * (uint64_t)gap) * (s->great ? 1000 : 1), text);
    set_field(line, 2, text, s->rank == EMPTY ? 0 : s->size);
}

/* That day, an earlier one or none, where it is not to be later. */
static void put_date(text_line *line, const char *date)
{
    static const char *const no_later[] = {a_day, "19900227", "19891231", ""};
    if (date == not_later)
        date = no_later[chance(4)];
    if (date)
        set_field(line, 3, date, (unsigned)strlen(date));
}

/* Puts the lines in behind line `at`; gives the last one's, or 0 where there is no room. */
static unsigned put_steps(declaration *d, const way *w, unsigned at)
{
    unsigned above = d->line[at - 1].kind, first = NO_KIND, gap = 1 + chance(chance(2) ? 3 : 4000);
    uint64_t least = 100000000 + chance(700000000);
    int going = 1;
    for (const step *s = w->steps; s < w->steps + MOST_STEPS && s->kind != NO_KIND; s++) {
        going = !s->optional || (going && chance(2));
        if (!going)
            continue;
        text_line *line = insert_line(d, at++);
        if (!line)
            return 0;
        unsigned kind = s->kind == FIRST_AGAIN ? first : s->kind > KINDS ? any_value_of(d, above, s->kind - OF_KIND) : s->kind;
        first = first == NO_KIND && s->kind > KINDS ? kind : first;
        sound_line(line, d->edition, kind);
        put_key(line, s, least, gap);
        put_date(line, s->date);
    }
    return at;
}

/* Whether the field is as long as it may be. */
static int size_right(const text_line *line, unsigned f)
{
    plain_row row = plain_field_row(line->edition, line->kind, f);
    unsigned start, len = 0;
    find_field(line, f, &start, &len);
    if (row.cpf_or_cnpj)
        return len == CPF_SIZE || len == CNPJ_SIZE;
    return row.fixed ? len == row.size : len <= row.size;
}

unsigned make_break(declaration *d, unsigned which)
{
    const way *w = &ways[which];
    unsigned at = w->declarant == NO_KIND || w->declarant == d->declarant ? any_of_kind(d, w->behind) : 0;
    if (at == 0)
        return 0;
    if (w->field == 0)
        return put_steps(d, w, at);
    do
        break_field_of(&d->line[at - 1], w->field, w->number);
    while (w->number == 15 && size_right(&d->line[at - 1], w->field));
    return at;
}

int any_break(declaration *d, unsigned number)
{
    unsigned which;
    do
        which = chance(BREAKS);
    while (ways[which].number != number);
    return make_break(d, which) != 0;
}
