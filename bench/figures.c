/* Reads the measured figures and works out ratios, growth and peaks. */
#include "figures.h"

#include <inttypes.h>
#include <stdlib.h>
#include <string.h>

const char *const input_names[INPUTS] = {
    "short accepted", "short refused", "long accepted", "long refused", "scp accepted", "scp refused", "older accepted", "older refused",
    "plan accepted", "plan refused",
};
const char *const which_names[WHICHES] = {"nothing", "floor", "tuned", "plain", "archive", "plain+totals", "totals", "one-total"};
const unsigned size_lines[SIZES] = {600, 6000, 60000};
static const char *const measure_names[MEASURES] = {"instructions", "nanoseconds", "stack", "bytes"};

/* Where a word stands in a list, or -1. */
static int place(const char *word, const char *const *list, int count)
{
    for (int i = 0; i < count; i++)
        if (strcmp(word, list[i]) == 0)
            return i;
    return -1;
}

static int place_of_size(unsigned lines)
{
    for (int i = 0; i < SIZES; i++)
        if (size_lines[i] == lines)
            return i;
    return -1;
}

/* One line of the figures; its value, or NULL where a word is not known. */
static uint64_t *slot(figures *f, const char *measure, const char *input, unsigned lines, const char *which)
{
    int m = place(measure, measure_names, MEASURES), i = place(input, input_names, INPUTS);
    int s = place_of_size(lines), w = place(which, which_names, WHICHES);
    return m < 0 || i < 0 || s < 0 || w < 0 ? NULL : &f->value[m][i][s][w];
}

int figures_read(figures *f, FILE *from)
{
    char measure[16], shape[16], end[16], which[16], input[40];
    unsigned lines, read = 0;
    uint64_t value;
    while (fscanf(from, "%15s %15s %15s %u %15s %" SCNu64, measure, shape, end, &lines, which, &value) == 6) {
        snprintf(input, sizeof input, "%s %s", shape, end);
        uint64_t *to = slot(f, measure, input, lines, which);
        if (to == NULL)
            return 0;
        /* none that was measured is 0 */
        read += *to == 0;
        if (*to == 0 || value < *to)
            *to = value;
    }
    /* the stack of all, the instructions of all but one, and the bytes, which are the file's, under the empty call */
    return read == INPUTS * SIZES * (WHICHES + (WHICHES - 1) + TIMED + 1);
}

uint64_t instructions(const figures *f, int input, enum size size, enum which which)
{
    const uint64_t *run = f->value[INSTRUCTIONS][input][size];
    return run[which] - run[NOTHING];
}

double per_line(const figures *f, int input, enum size size, enum which which)
{
    return (double)instructions(f, input, size, which) / size_lines[size];
}

double over(const figures *f, int input, enum size size, enum which which, enum which other)
{
    return (double)instructions(f, input, size, which) / (double)instructions(f, input, size, other);
}

double ratio(const figures *f, int input, enum size size, enum which other)
{
    return over(f, input, size, ARCHIVE, other);
}

double growth(const figures *f, int input, enum which which)
{
    return per_line(f, input, SIZE_60000, which) / per_line(f, input, SIZE_6000, which);
}

double seconds_ratio(const figures *f, int input, enum size size, enum which other)
{
    const uint64_t *run = f->value[NANOSECONDS][input][size];
    return (double)run[ARCHIVE] / (double)run[other];
}

uint64_t peak_stack(const figures *f, enum which which)
{
    uint64_t most = 0;
    for (int i = 0; i < INPUTS; i++)
        for (int s = 0; s < SIZES; s++) {
            const uint64_t *run = f->value[STACK][i][s];
            uint64_t here = which == NOTHING ? run[NOTHING] : run[which] - run[NOTHING];
            if (here > most)
                most = here;
        }
    return most;
}
