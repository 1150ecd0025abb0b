/* Feeds the program replay with searches and holds every line that it prints against the plain checker's search by the table, and that one
   against the plain checker's reading of every line: searches SEEDS SEED FOLDER COMMAND [wrong | wrong-count].
   With `wrong` a printed 27 is taken for 0, with `wrong-count` a printed count of 2 for 1, to see that a difference is found and shown. */
#include <stdlib.h>
#include <string.h>

#include "feed.h"
#include "met_searches.h"
#include "shrink.h"

enum { BATCH = 25 };

static feeder replay;
static feeding to;
static searches_met met_here;
static unsigned long asked_so_far, differences;

/* The search that is looked for among those of a batch, or that is shrunk. */
static asked now;
static unsigned long skip;
static uint8_t file_now[MOST_FILE];
static uint32_t table_now[MOST_TABLE];

static void wrong_number(char *line)
{
    if (strcmp(line, "27 0 0\n") == 0)
        strcpy(line, "0 0 0\n");
}

static void wrong_count(char *line)
{
    size_t len = strlen(line);
    if (len > 3 && strcmp(line + len - 3, " 2\n") == 0)
        line[len - 2] = '1';
}

static void demand(const asked *a, plain_found f)
{
    write_asked(to.cases, a);
    fprintf(to.demanded, "%u %u %u\n", f.number, f.line, f.count);
}

/* Whether the plain checker answers otherwise where it reads every line. */
static int reads_otherwise(const asked *a, const lent_table *lent, plain_found f)
{
    if (!can_be_read(a, lent))
        return 0;
    plain_found r = plain_search_reading(a->file.bytes, a->file.len, a->line, a->key, a->key_len);
    return r.number != f.number || r.line != f.line || r.count != f.count;
}

/* Whether the search at hand is answered otherwise: by replay, or by reading every line. */
static int (*differs)(void);

static int differs_printed(void)
{
    lent_table lent;
    plain_found f = answer_asked(&now, &lent);
    to = begin_feeding(&replay);
    demand(&now, f);
    return end_feeding(&replay, to) >= 0;
}

static int differs_read(void)
{
    lent_table lent;
    plain_found f = answer_asked(&now, &lent);
    return reads_otherwise(&now, &lent, f);
}

/* The file's lines as it was at first, at most as many as a byte can count, the rest in the last. */
enum { MOST_SHRUNK = 256 };
static part lines[MOST_SHRUNK];

static size_t split_lines(part file)
{
    size_t count = 0;
    while (file.len > 0) {
        const uint8_t *end = count + 1 < MOST_SHRUNK ? memchr(file.bytes, LF, file.len) : NULL;
        size_t len = end ? (size_t)(end + 1 - file.bytes) : file.len;
        lines[count++] = (part){file.bytes, len};
        file = (part){file.bytes + len, file.len - len};
    }
    return count;
}

/* The file of these lines alone. By lines, since each try is a run of replay. */
static int differs_with(const uint8_t *kept, size_t count)
{
    static uint8_t file[MOST_FILE];
    now.file = (part){file, 0};
    for (size_t i = 0; i < count; i++) {
        memcpy(file + now.file.len, lines[kept[i]].bytes, lines[kept[i]].len);
        now.file.len += lines[kept[i]].len;
    }
    return differs();
}

static void shrink_file(void)
{
    uint8_t kept[MOST_SHRUNK];
    size_t count = split_lines(now.file);
    for (size_t i = 0; i < count; i++)
        kept[i] = (uint8_t)i;
    shrink(kept, &count, differs_with);
    differs_with(kept, count);
}

/* Fewer numbers of a table that was given, for as long as the answers still differ. */
static void shrink_table(void)
{
    for (size_t gone = now.numbers; gone > 0;) {
        size_t had = now.numbers;
        now.numbers -= gone < had ? gone : had;
        if (had > 0 && differs())
            continue;
        now.numbers = had;
        gone /= 2;
    }
    differs();
}

static void show_asked(void)
{
    printf("line %u, table of %zu numbers", now.line, now.numbers);
    for (size_t i = 0; now.way != OWN_TABLE && i < now.numbers; i++)
        printf("%s%u", i % TABLE_NUMBERS ? " " : "\n", now.table[i]);
    printf("\nkey: ");
    show(stdout, now.key, now.key_len);
}

/* Shrinks the search at hand and shows it. */
static void report(int (*found_by)(void))
{
    int given = now.way != OWN_TABLE;
    differs = found_by;
    /* read line by line, a table that was given belongs to its whole file */
    if (!given || differs == differs_printed)
        shrink_file();
    if (given && differs == differs_printed)
        shrink_table();
    if (differs == differs_printed)
        printf("a search by %c: replay prints\n%sbut the plain checker demands\n%s", given ? 'T' : 'S', printed_line(), demanded_line());
    else
        printf("the plain checker's two searches differ\n");
    show_asked();
    printf("of this file:\n");
    show(stdout, now.file.bytes, now.file.len);
    differences++;
}

/* Keeps one, whose file and table its maker will use again. */
static void keep(const asked *a)
{
    now = *a;
    memcpy(file_now, a->file.bytes, a->file.len);
    now.file.bytes = file_now;
    if (a->way == OWN_TABLE)
        return;
    memcpy(table_now, a->table, a->numbers * sizeof *table_now);
    now.table = table_now;
}

static void pick(const asked *a)
{
    if (skip-- == 0)
        keep(a);
}

static void hold(const asked *a)
{
    lent_table lent;
    plain_found f = answer_asked(a, &lent);
    asked_so_far++;
    demand(a, f);
    count_search(&met_here, a, &lent, f);
    if (differences == 0 && reads_otherwise(a, &lent, f)) {
        keep(a);
        report(differs_read);
    }
}

static void run_batch(uint64_t seed, unsigned long count)
{
    to = begin_feeding(&replay);
    for (unsigned long i = 0; i < count; i++)
        make_searches(seed + i, hold);
    long at = end_feeding(&replay, to);
    if (at < 0 || differences)
        return;
    skip = (unsigned long)at;
    for (unsigned long i = 0; i < count; i++)
        make_searches(seed + i, pick);
    report(differs_printed);
}

int main(int argc, char **argv)
{
    if (argc < 5)
        return 2;
    unsigned long seeds = strtoul(argv[1], NULL, 10);
    uint64_t seed = strtoull(argv[2], NULL, 10) << 32;
    const char *told = argc > 5 ? argv[5] : "";
    replay = (feeder){argv[3], argv[4], strcmp(told, "wrong") == 0 ? wrong_number : strcmp(told, "wrong-count") == 0 ? wrong_count : NULL};
    /* after a difference the rest says little more */
    for (unsigned long i = 0; i < seeds && differences == 0; i += BATCH)
        run_batch(seed + i, seeds - i < BATCH ? seeds - i : BATCH);
    printf("searches: %lu in the files of %lu seeds, %lu differ\n", asked_so_far, seeds, differences);
    print_searches(&met_here);
    return differences != 0 || !all_searches_met(&met_here);
}
