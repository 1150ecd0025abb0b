/* answers LINES short|long|scp|older|plan accepted|refused
   Prints the file's bytes and fails where a checker's answer is not the one expected, the totals differ, or the floor missed a line end. */
#include <inttypes.h>
#include <stdio.h>
#include <stdlib.h>
#include <string.h>

#include "../include/decklesail.h"
#include "../tests/plain/plain.h"
#include "calls.h"
#include "input.h"
#include "tuned/tuned.h"

typedef tuned_answer answer;

static answer of_plain(input in)
{
    plain_answer a = plain_check_room(in.bytes, in.len, ROOM);
    return (answer){a.number, a.line, a.field, plain_edition_of(in.bytes, in.len) == PLAIN_2025 ? 2025 : 2022};
}

static answer of_archive(input in)
{
    return (answer){decklesail_check_number(in.bytes, in.len, ROOM), decklesail_check_line(in.bytes, in.len, ROOM),
                    decklesail_check_field(in.bytes, in.len, ROOM), decklesail_edition(in.bytes, in.len)};
}

static int same(answer a, answer b)
{
    return a.number == b.number && a.line == b.line && a.field == b.field && a.edition == b.edition;
}

/* The archive's totals are the plain checker's, all of them and one alone. */
static int same_totals(input in)
{
    uint64_t archive[TOTAL_PLACES], plain[TOTAL_PLACES];
    decklesail_totals(in.bytes, in.len, ROOM, archive, TOTAL_PLACES);
    plain_check_room_totals(in.bytes, in.len, ROOM, plain, TOTAL_PLACES);
    return memcmp(archive, plain, sizeof plain) == 0 && decklesail_total(in.bytes, in.len, ROOM, RTRT) == plain[RTRT];
}

static void show(const char *who, answer a)
{
    fprintf(stderr, "answers: %s: number %" PRIu32 ", line %" PRIu32 ", field %" PRIu32 ", edition %" PRIu32 "\n", who, a.number, a.line,
            a.field, a.edition);
}

int main(int argc, char **argv)
{
    if (argc < 4) {
        fprintf(stderr, "answers LINES short|long|scp|older|plan accepted|refused\n");
        return 2;
    }
    input in = input_make(argv[1], argv[2], argv[3]);
    uint32_t lines = (uint32_t)strtoul(argv[1], NULL, 10), ends = count_line_ends(in.bytes, in.len);
    answer expected = {strcmp(argv[3], "refused") == 0 ? 8 : 0, lines, 0, strcmp(argv[2], "older") == 0 ? 2022 : 2025};
    answer archive = of_archive(in), plain = of_plain(in), tuned = tuned_check_room(in.bytes, in.len, ROOM);
    printf("%zu\n", in.len);
    int totals = same_totals(in);
    if (same(archive, expected) && same(plain, expected) && same(tuned, expected) && ends == lines && totals)
        return 0;
    show("expected", expected);
    show("archive", archive);
    show("plain", plain);
    show("tuned", tuned);
    fprintf(stderr, "answers: %" PRIu32 " line ends found, the totals are %s\n", ends, totals ? "the same" : "not the same");
    return 1;
}
