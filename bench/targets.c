/* Prints the targets and whether each is met. */
#include "targets.h"

#include <inttypes.h>
#include <string.h>

const double most_ratio = 1.0, most_growth = 1.05;
static const double most_seconds = 1.1, most_totals = 1.4;
static const uint64_t most_stack = 15360;

static const char *verdict(int met)
{
    return met ? "met" : "MISSED";
}

static int print_input(const figures *f, int input)
{
    double r = ratio(f, input, SIZE_60000, PLAIN), g = growth(f, input, ARCHIVE);
    int cheap = r <= most_ratio, even = g <= most_growth;
    printf("%-15s archive/plain at 60,000 lines %.3f, at most %.2f: %s\n", input_names[input], r, most_ratio, verdict(cheap));
    printf("%-15s growth of the archive %.4f, at most %.2f: %s\n", input_names[input], g, most_growth, verdict(even));
    return cheap && even;
}

/* Emulated seconds say more of the emulator than of the calls, so they have no target. */
static int print_seconds_target(const figures *f, int input)
{
    double r = seconds_ratio(f, input, SIZE_60000, PLAIN);
    int quick = f->emulated || r <= most_seconds;
    if (f->emulated)
        printf("%-15s archive/plain at 60,000 lines in emulated seconds %.2f, no target\n", input_names[input], r);
    else
        printf("%-15s archive/plain at 60,000 lines in seconds %.2f, at most %.2f: %s\n", input_names[input], r, most_seconds,
               verdict(quick));
    return quick;
}

/* Long lines have the most amounts to add, and no other input has a target. */
static int print_totals_target(const figures *f, int input)
{
    if (strncmp(input_names[input], "long", 4) != 0)
        return 1;
    double r = over(f, input, SIZE_60000, TOTALS, ARCHIVE);
    int cheap = r <= most_totals;
    printf("%-15s totals/archive at 60,000 lines %.3f, at most %.2f: %s\n", input_names[input], r, most_totals, verdict(cheap));
    return cheap;
}

static int print_stack_target(const figures *f, enum which which)
{
    uint64_t stack = peak_stack(f, which);
    int small = stack <= most_stack;
    printf("%-15s stack of %s %" PRIu64 " bytes, at most %" PRIu64 ": %s\n", "all inputs", which_names[which], stack, most_stack,
           verdict(small));
    return small;
}

int targets_print(const figures *f)
{
    int all = 1;
    printf("\nTargets\n\n");
    for (int i = 0; i < INPUTS; i++)
        all &= print_input(f, i);
    for (int i = 0; i < INPUTS; i++)
        all &= print_seconds_target(f, i);
    for (int i = 0; i < INPUTS; i++)
        all &= print_totals_target(f, i);
    return all & print_stack_target(f, ARCHIVE) & print_stack_target(f, TOTALS) & print_stack_target(f, ONE_TOTAL);
}
