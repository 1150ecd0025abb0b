/* Feeds the program replay and holds every line that it prints against the plain checker: replay CASES SEED FOLDER COMMAND
   [wrong | wrong-totals]. Every file is fed twice, for its table and for its totals.
   With `wrong` a printed 16 is taken for 15, with `wrong-totals` of the demanded totals the low 32 bits, to see that a difference is found
   and shown. */
#include <stdlib.h>
#include <string.h>

#include "fed.h"
#include "feed.h"
#include "shrink.h"

enum { BATCH = 2000 };

static feeder replay;
static unsigned long differences;
static fed now;

/* The cases that are fed, by their seeds and letters. */
enum { MOST_CASES = 2 * BATCH };
static struct { uint64_t seed; char letter; } batch[MOST_CASES];
static unsigned long fed_totals;

static void spoil(char *line)
{
    if (strncmp(line, "16 ", 3) == 0)
        line[1] = '5';
}

/* The case at hand, with these bytes. */
static int differs(const uint8_t *bytes, size_t len)
{
    memmove(now.bytes, bytes, len);
    now.len = now.judged = len;
    feeding to = begin_feeding(&replay);
    write_fed(to.cases, &now);
    demand_line(to.demanded, &now);
    return end_feeding(&replay, to) >= 0;
}

static void report(uint64_t seed, char letter)
{
    static met ignored;
    static uint8_t bytes[MOST_FILE];
    make_fed(seed, &now, &ignored);
    now.letter = letter;
    size_t len = now.len;
    memcpy(bytes, now.bytes, len);
    /* a line's contents and their lengths, and a file and its tail, belong together: these are shown as they are */
    if (!is_line(&now) && now.judged == now.len) {
        shrink(bytes, &len, differs);
        differs(bytes, len);
    }
    printf("case %llu, %c %u %llu %llu: replay prints\n%sbut the plain checker demands\n%sof these bytes:\n", (unsigned long long)seed,
        now.letter, year_of(now.edition), (unsigned long long)now.number, (unsigned long long)now.room, printed_line(),
        demanded_line());
    show(stdout, bytes, len);
    differences++;
}

/* Counts a line that was refused by the rule that was broken in it; so its lengths add up, and those that it has not are 0. */
static void count_broken(met *m, fault found)
{
    refusal r = {.edition = now.edition, .kind = (unsigned)now.number, .found = found};
    size_t start = 0;
    for (unsigned i = 0; i < MOST_FIELDS; i++) {
        r.fields[i] = (part){now.bytes + start, now.lengths[i]};
        start += now.lengths[i];
    }
    count_refusal(&m->in_lines, &r);
}

/* What the line writer did with a kind, told the edition: 22 for a kind that 2025 has means that the older one lacks it. */
static void count_line(met *m, fault found)
{
    if (now.letter != 'E' || now.number > KINDS)
        return;
    unsigned kind = (unsigned)now.number;
    m->written[now.edition][kind] += found.number == 0;
    m->unwritten[kind] += found.number == 22 && plain_is_base(PLAIN_2025, kind);
    if (found.number != 0 && found.number == now.broken)
        count_broken(m, found);
}

/* Feeds the case at hand as this letter, the next of the batch. */
static fault feed_as(feeding to, char letter, uint64_t seed, unsigned long *count)
{
    now.letter = letter;
    batch[*count].seed = seed;
    batch[(*count)++].letter = letter;
    write_fed(to.cases, &now);
    return demand_line(to.demanded, &now);
}

static void run_batch(uint64_t seed, unsigned long count, met *m)
{
    unsigned long cases = 0;
    feeding to = begin_feeding(&replay);
    for (unsigned long i = 0; i < count; i++) {
        make_fed(seed + i, &now, m);
        fault found = feed_as(to, now.letter, seed + i, &cases);
        m->number[found.number] += now.letter != 'C';
        count_line(m, found);
        if (now.letter == 'C')
            feed_as(to, 'N', seed + i, &cases);
    }
    fed_totals += cases - count;
    long at = end_feeding(&replay, to);
    if (at >= 0)
        report(batch[at].seed, batch[at].letter);
}

int main(int argc, char **argv)
{
    static met m;
    if (argc < 5)
        return 2;
    unsigned long cases = strtoul(argv[1], NULL, 10);
    uint64_t seed = strtoull(argv[2], NULL, 10) << 32;
    replay = (feeder){argv[3], argv[4], argc > 5 && strcmp(argv[5], "wrong") == 0 ? spoil : NULL};
    now.cut_totals = argc > 5 && strcmp(argv[5], "wrong-totals") == 0;
    /* after a difference the rest says little more */
    for (unsigned long i = 0; i < cases && differences == 0; i += BATCH)
        run_batch(seed + i, cases - i < BATCH ? cases - i : BATCH, &m);
    print_met("replay", cases, differences, &m);
    print_lines("replay", &m);
    printf("replay, totals: of %lu files\n", fed_totals);
    return differences != 0 || !(all_met(&m, 24, 3) & lines_met(&m));
}
