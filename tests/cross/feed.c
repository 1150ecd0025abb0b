#include "feed.h"

#include <stdlib.h>
#include <string.h>

enum { MOST_LINE = 1 << 18 };

static char got[MOST_LINE], want[MOST_LINE];

void put_number(FILE *out, uint64_t n)
{
    for (unsigned i = 0; i < 8; i++)
        fputc((int)(n >> (8 * i) & 255), out);
}

void put_string(FILE *out, const uint8_t *bytes, size_t len)
{
    put_number(out, len);
    fwrite(bytes, 1, len, out);
}

static FILE *open_file(const feeder *f, const char *name, const char *mode)
{
    char path[4096];
    snprintf(path, sizeof path, "%s/%s", f->folder, name);
    FILE *file = fopen(path, mode);
    if (!file) {
        perror(path);
        exit(2);
    }
    return file;
}

static void run_replay(const feeder *f)
{
    char line[16384];
    snprintf(line, sizeof line, "%s < %s/cases > %s/got", f->command, f->folder, f->folder);
    if (system(line) != 0) {
        fprintf(stderr, "replay did not end well: %s\n", line);
        exit(2);
    }
}

feeding begin_feeding(const feeder *f)
{
    return (feeding){open_file(f, "cases", "wb"), open_file(f, "want", "wb")};
}

/* The next line of both; 1 while either has one. */
static int next_lines(const feeder *f, FILE *printed, FILE *demanded)
{
    if (!fgets(got, MOST_LINE, printed))
        got[0] = 0;
    if (!fgets(want, MOST_LINE, demanded))
        want[0] = 0;
    if (f->spoil)
        f->spoil(got);
    return got[0] != 0 || want[0] != 0;
}

long end_feeding(const feeder *f, feeding to)
{
    fclose(to.cases);
    fclose(to.demanded);
    run_replay(f);
    FILE *printed = open_file(f, "got", "rb"), *demanded = open_file(f, "want", "rb");
    long at = -1, i = 0;
    while (at < 0 && next_lines(f, printed, demanded)) {
        if (strcmp(got, want) != 0)
            at = i;
        i++;
    }
    fclose(printed);
    fclose(demanded);
    return at;
}

const char *printed_line(void)
{
    return got;
}

const char *demanded_line(void)
{
    return want;
}
