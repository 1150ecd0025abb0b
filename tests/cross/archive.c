/* Holds the C functions of the proved library, and the bench's tuned checker, against the plain checker:
   archive CASES SEED [wrong | wrong-edition | wrong-tuned | wrong-totals].
   With `wrong` the plain checker's 16 is taken for 15, with `wrong-edition` its 2022 for 2025, with `wrong-tuned` the tuned checker's 16
   for 15, with `wrong-totals` of the plain checker's totals the low 32 bits, to see that a difference is found and shown. */
#include <stdio.h>
#include <stdlib.h>
#include <string.h>

#include "../../bench/tuned/tuned.h"
#include "../../include/decklesail.h"
#include "../makers/people.h"
#include "chance.h"
#include "closers.h"
#include "largest.h"
#include "marks.h"
#include "met.h"
#include "places.h"
#include "shrink.h"
#include "sound.h"
#include "totals.h"

enum { NO_LIMIT = 65536 };
enum { NONE = 99 };

static int wrong, wrong_edition, wrong_tuned, wrong_totals;
static size_t room;
static unsigned long differences;
/* The plain checker's totals of the file that is held, and how many were. */
static known_totals known;
static totals_held held;

typedef struct { uint32_t number, line, field, edition; } answer;

static answer by_library(const uint8_t *file, size_t len)
{
    return (answer){decklesail_check_number(file, len, room), decklesail_check_line(file, len, room),
                    decklesail_check_field(file, len, room), decklesail_edition(file, len)};
}

static answer by_tuned(const uint8_t *file, size_t len)
{
    tuned_answer a = tuned_check_room(file, len, room);
    return (answer){wrong_tuned && a.number == 16 ? 15 : a.number, a.line, a.field, a.edition};
}

static known_totals known_of(const uint8_t *file, size_t len)
{
    known_totals k = totals_by_plain((part){file, len}, room);
    for (unsigned place = 0; place < TOTAL_PLACES && wrong_totals; place++)
        k.of[place] = (uint32_t)k.of[place];
    return k;
}

static answer answer_of(plain_answer a, const uint8_t *file, size_t len)
{
    plain_edition edition = wrong_edition ? PLAIN_2025 : plain_edition_of(file, len);
    return (answer){wrong && a.number == 16 ? 15 : a.number, a.line, a.field, year_of(edition)};
}

static answer by_plain(const uint8_t *file, size_t len)
{
    return answer_of(plain_check_room(file, len, room), file, len);
}

static int same(answer a, answer b)
{
    return a.number == b.number && a.line == b.line && a.field == b.field && a.edition == b.edition;
}

/* The sides that are held against the plain checker, and the one that a difference is shrunk for. */
enum { LIBRARY, TUNED, SIDES };
typedef struct { const char *name; answer (*asked)(const uint8_t *file, size_t len); } side;
static const side sides[SIDES] = {[LIBRARY] = {"the library", by_library}, [TUNED] = {"the tuned checker", by_tuned}};
static const side *differing;

static int differs(const uint8_t *file, size_t len)
{
    return !same(differing->asked(file, len), by_plain(file, len));
}

/* A copy that is shrunk, since other sides have still to be asked of the file; its length is put in. */
static uint8_t *shrunk(const uint8_t *file, size_t *len, int (*still)(const uint8_t *file, size_t len))
{
    uint8_t *small = malloc(*len + 1);
    if (!small)
        abort();
    memcpy(small, file, *len);
    shrink(small, len, still);
    return small;
}

static void report(const side *who, const uint8_t *file, size_t len)
{
    if (++differences > 3)
        return;
    differing = who;
    uint8_t *small = shrunk(file, &len, differs);
    answer a = who->asked(small, len), b = by_plain(small, len);
    printf("room %zu: %s says %u %u %u by %u, the plain checker %u %u %u by %u, of this file:\n", room, who->name, a.number, a.line,
           a.field, a.edition, b.number, b.line, b.field, b.edition);
    show(stdout, small, len);
    free(small);
}

/* ---- totals */

static totals_question question;

static const char *totals_words(const uint8_t *file, size_t len)
{
    known_totals k = known_of(file, len);
    return totals_difference((part){file, len}, room, &k, question);
}

static int totals_differ(const uint8_t *file, size_t len)
{
    return totals_words(file, len) != NULL;
}

static void report_totals(const uint8_t *file, size_t len)
{
    if (++differences > 3)
        return;
    /* to shrink a listed file of the most lines would take hours */
    if (len > MOST_FILE) {
        printf("room %zu: %s, of a file of %zu bytes\n", room, totals_words(file, len), len);
        return;
    }
    uint8_t *small = shrunk(file, &len, totals_differ);
    printf("room %zu: %s, of this file:\n", room, totals_words(small, len));
    show(stdout, small, len);
    free(small);
}

static void hold_totals(const uint8_t *file, size_t len)
{
    question = next_question(&known);
    if (totals_difference((part){file, len}, room, &known, question))
        report_totals(file, len);
    else
        count_held(&held, &known, question);
}

/* All on one file; gives the library's answer. */
static answer hold(const uint8_t *file, size_t len)
{
    known = known_of(file, len);
    answer given[SIDES], plain = answer_of(known.answer, file, len);
    for (unsigned i = 0; i < SIDES; i++) {
        given[i] = sides[i].asked(file, len);
        if (!same(given[i], plain))
            report(&sides[i], file, len);
    }
    hold_totals(file, len);
    return given[LIBRARY];
}

/* The same, and counts the number, where it is one that all gave. */
static answer hold_counted(const uint8_t *file, size_t len, met *m)
{
    unsigned long before = differences;
    answer a = hold(file, len);
    if (differences == before)
        m->number[a.number]++;
    return a;
}

static void expect(const char *what, answer a, answer want)
{
    if (same(a, want))
        return;
    differences++;
    printf("%s: %u %u %u by %u was expected, the library says %u %u %u by %u\n", what, want.number, want.line, want.field, want.edition,
           a.number, a.line, a.field, a.edition);
}

/* ---- places and amounts */

static void hold_place(const uint8_t *line, size_t len)
{
    size_t k = chance(50) ? chance(20) : (size_t)chance64(), start, length;
    int there = plain_field(line, len, k, &start, &length);
    if (decklesail_field_there(line, len, k) == (uint32_t)there && decklesail_field_start(line, len, k) == start
        && decklesail_field_length(line, len, k) == length)
        return;
    differences++;
    printf("field %zu stands elsewhere in:\n", k);
    show(stdout, line, len);
}

static void hold_amount(void)
{
    uint8_t field[20];
    size_t len = chance(18);
    if (len > 0)
        sound_digits((unsigned)len, field);
    if (len > 0 && chance(4) == 0)
        field[chance((uint32_t)len)] = (uint8_t)(chance(2) ? '0' : chance(256));
    plain_number want = plain_read_amount(field, len);
    if (decklesail_amount_number(field, len) == want.number && decklesail_amount_value(field, len) == want.value)
        return;
    differences++;
    printf("the amount reader differs on:\n");
    show(stdout, field, len);
}

/* ---- demand 3 */

/* A file cut after a whole line: at most four lines close it, or no tail changes the answer. Its edition is settled once it has a line. */
static void hold_cut(file_text *file, met *m)
{
    room = NO_LIMIT;
    cut_at_line(file);
    answer a = hold(file->bytes, file->len);
    if (a.number == 0)
        return;
    if (a.number == 1) {
        uint32_t lines = a.line - 1, more = close_file(file, lines);
        answer closed = hold(file->bytes, file->len);
        expect("a file that is good up to here, closed", closed, (answer){0, lines + more, 0, lines ? a.edition : closed.edition});
        count_closed(m, (part){file->bytes, file->len}, lines);
        return;
    }
    m->fixed[plain_edition_of(file->bytes, file->len)]++;
    add_tail(file);
    expect("a refused file with a tail", hold(file->bytes, file->len), a);
}

/* ---- files that chance does not make */

enum { LONG_LINE = 40, LONG_FILE = 65540 * LONG_LINE };

/* A file of so many lines: people with ever greater CPFs, and FIMDirf where it is closed. */
static size_t long_file(uint8_t *file, plain_edition edition, unsigned lines, int closed)
{
    char *text = (char *)file, cpf[CPF_SIZE + 1] = "";
    size_t len = (size_t)sprintf(text, "%sRESPO|11144477735|ANA LIMA|11|33334444||||\r\n", line_one(edition));
    len += make_declarant(0, 0, text + len);
    len += (size_t)sprintf(text + len, "IDREC|0561|\r\n");
    for (unsigned n = 5; n < lines + !closed; n++) {
        make_cpf(n, cpf);
        len += (size_t)sprintf(text + len, "BPFDEC|%s|A||N|N|\r\n", cpf);
    }
    return closed ? len + (size_t)sprintf(text + len, "FIMDirf|\r\n") : len;
}

static size_t with_tail(uint8_t *file, size_t len, const char *tail)
{
    memcpy(file + len, tail, strlen(tail));
    return len + strlen(tail);
}

/* 65,535 to 65,537 lines: what document 01 says of each, 2 against 3 among them. */
static unsigned hold_long(met *m, plain_edition edition)
{
    static const struct { unsigned lines; int closed; const char *tail; size_t room; uint32_t number, line; } list[] = {
        {65535, 1, "", NO_LIMIT, 0, 65535}, {65536, 1, "", NO_LIMIT, 0, 65536}, {65537, 1, "", NO_LIMIT, 3, 65537},
        {65535, 0, "", NO_LIMIT, 1, 65536}, {65536, 0, "", NO_LIMIT, 1, 65537}, {65537, 0, "", NO_LIMIT, 3, 65537},
        {65535, 1, "\n", NO_LIMIT, 2, 65536}, {65536, 1, "\n", NO_LIMIT, 2, 65537}, {65536, 1, "FIMDirf|\r\n", NO_LIMIT, 2, 65537},
        {65536, 0, "F", NO_LIMIT, 3, 65537}, {65536, 0, "\n", NO_LIMIT, 3, 65537}, {65535, 0, "\n", NO_LIMIT, 6, 65536},
        {65535, 0, "|\r\n", NO_LIMIT, 9, 65536}, {65536, 1, "", 65535, 7, 65536}, {65536, 0, "\r\n", 65535, 7, 65536},
    };
    uint8_t *file = malloc(LONG_FILE);
    if (!file)
        abort();
    unsigned count = sizeof list / sizeof *list;
    for (unsigned i = 0; i < count; i++) {
        size_t len = with_tail(file, long_file(file, edition, list[i].lines, list[i].closed), list[i].tail);
        room = list[i].room;
        answer want = {list[i].number, list[i].line, list[i].number == 9, year_of(edition)};
        expect("a long file", hold_counted(file, len, m), want);
    }
    free(file);
    return count;
}

/* The most lines and the largest amounts: what the totals come to is worked out by hand. */
static unsigned hold_largest(met *m)
{
    uint8_t *file = malloc(LARGEST_BYTES);
    if (!file)
        abort();
    room = NO_LIMIT;
    for (plain_edition edition = PLAIN_2025; edition <= PLAIN_2022; edition++) {
        size_t len = largest_file(file, edition);
        uint64_t totals[TOTAL_PLACES];
        expect("the largest file", hold_counted(file, len, m), (answer){0, LARGEST_LINES, 0, year_of(edition)});
        decklesail_totals(file, len, room, totals, TOTAL_PLACES);
        for (unsigned kind = 0; kind < TOTAL_PLACES; kind++)
            if (totals[kind] != largest_total(edition, kind)) {
                differences++;
                printf("the largest file of %u: %llu was expected of kind %u, the library says %llu\n", year_of(edition),
                       (unsigned long long)largest_total(edition, kind), kind, (unsigned long long)totals[kind]);
            }
    }
    free(file);
    return EDITIONS;
}

/* Lines of 1,023 to 1,026 bytes with every end, and what they are of: line 1 as anything and as a Dirf, line 2 of each edition. */
static unsigned hold_edges(met *m)
{
    static const char *const ends[] = {"", "\r", "\n", "\r\n", "\n\r", "\r\r\n", "\r\nFIMDirf|\r\n"};
    const char *const before[] = {"", "", line_one(PLAIN_2025), line_one(PLAIN_2022)};
    static const char *const begins[] = {"", "Dirf|", "RESPO|11144477735|", "RESPO|11144477735|"};
    uint8_t file[1200];
    unsigned count = 0;
    room = NO_LIMIT;
    for (unsigned b = 0; b < 4; b++)
        for (unsigned len = 1023; len <= 1026; len++)
            for (unsigned e = 0; e < 7 * 2; e++, count++) {
                size_t at = with_tail(file, 0, before[b]), used = with_tail(file, at, begins[b]);
                memset(file + used, 'A', at + len - used);
                file[at + len - 1] = e % 2 ? '|' : 'A';
                hold_counted(file, with_tail(file, at + len, ends[e / 2]), m);
            }
    return count;
}

/* The listed lines 1 with every end, and with so many bytes in front that the mark stands about, or past, the most of a line. */
static unsigned hold_marks(met *m)
{
    static const char *const ends[] = {"", "\r", "\n", "\r\n", "\r\n|||||XJFSFHB|\r\n", "\r\n|||||R6GP3ZA|\r\n"};
    static const unsigned fronts[] = {0, 990, 997, 998, 999, 1000, 5000};
    static uint8_t file[6000];
    unsigned count = 0;
    room = NO_LIMIT;
    for (const first_line *line = first_lines; line->text; line++)
        for (unsigned e = 0; e < 6; e++)
            for (unsigned f = 0; f < 7; f++, count++) {
                memset(file, 'A', fronts[f]);
                size_t len = with_tail(file, with_tail(file, fronts[f], line->text), ends[e]);
                answer a = hold_counted(file, len, m);
                expect("a line 1", a, (answer){a.number, a.line, a.field, line->edition});
            }
    return count;
}

/* Every kind behind every way in which records can be open, under each declarant of each edition. */
static unsigned hold_places(met *m)
{
    static file_text file;
    unsigned count = 0;
    room = NO_LIMIT;
    for (plain_edition edition = PLAIN_2025; edition <= PLAIN_2022; edition++)
        for (unsigned declarant = DECPF; declarant <= DECPJ; declarant++)
            for (unsigned place = 0; place < count_places(); place++)
                for (unsigned kind = 1; kind <= KINDS; kind++, count++) {
                    place_file(edition, declarant, place, kind, &file);
                    hold_counted(file.bytes, file.len, m);
                }
    return count;
}

/* The empty file, every file of one byte, and those of two with a bar, CR or LF and any other byte. */
static unsigned hold_tiny(met *m)
{
    uint8_t file[2];
    room = NO_LIMIT;
    hold_counted(file, 0, m);
    for (unsigned i = 0; i < 3 * 256; i++) {
        file[0] = (uint8_t)i;
        file[1] = (uint8_t)"|\r\n"[i / 256];
        hold_counted(file, 1, m);
        hold_counted(file, 2, m);
        file[0] = file[1];
        file[1] = (uint8_t)i;
        hold_counted(file, 2, m);
    }
    return 1 + 3 * 3 * 256;
}

/* ---- the run */

static void hold_case(uint64_t seed, met *m)
{
    static declaration d;
    static file_text file;
    plan p = make_file(seed, &d, &file);
    room = chance(4) ? NO_LIMIT : chance(d.count + 2);
    answer a = hold_counted(file.bytes, file.len, m);
    count_file(m, (part){file.bytes, file.len}, (plain_answer){a.number, a.line, a.field, 0}, known.of, p);
    count_plan(m, p, a.number);
    size_t from = chance((uint32_t)file.len + 1);
    hold_place(file.bytes + from, chance((uint32_t)(file.len - from) + 1) % 400);
    hold_amount();
    if (chance(8) == 0)
        hold_cut(&file, m);
}

int main(int argc, char **argv)
{
    static met m;
    unsigned long cases = argc > 1 ? strtoul(argv[1], NULL, 10) : 1000, more = 0;
    uint64_t seed = argc > 2 ? strtoull(argv[2], NULL, 10) : 1;
    wrong = argc > 3 && strcmp(argv[3], "wrong") == 0;
    wrong_edition = argc > 3 && strcmp(argv[3], "wrong-edition") == 0;
    wrong_tuned = argc > 3 && strcmp(argv[3], "wrong-tuned") == 0;
    wrong_totals = argc > 3 && strcmp(argv[3], "wrong-totals") == 0;
    for (unsigned long i = 0; i < cases; i++)
        hold_case(seed * UINT64_C(0x100000000) + i, &m);
    /* after a difference the rest says little more */
    if (differences == 0)
        more = hold_long(&m, PLAIN_2025) + hold_long(&m, PLAIN_2022) + hold_largest(&m) + hold_edges(&m) + hold_marks(&m)
            + hold_places(&m) + hold_tiny(&m);
    print_met("archive", cases + more, differences, &m);
    print_held("archive", &held);
    return differences != 0 || !all_met(&m, 21, NONE);
}
