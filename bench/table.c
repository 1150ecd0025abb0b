/* Prints the measured figures as text. */
#include "table.h"

#include <inttypes.h>

static void print_row_name(int input, int size)
{
    printf("%-15s %6u", input_names[input], size_lines[size]);
}

/* The calls that are measured, in the order of the columns, each so wide. */
static void print_call_names(int wide)
{
    for (int w = ARCHIVE; w >= FLOOR; w--)
        printf(" %*s", wide, which_names[w]);
}

static void print_totals(const figures *f)
{
    printf("Instructions of one call: a run with it less a run without it\n\n");
    printf("%-15s %6s %10s", "input", "lines", "bytes");
    print_call_names(12);
    printf("\n");
    for (int i = 0; i < INPUTS; i++)
        for (int s = 0; s < SIZES; s++) {
            print_row_name(i, s);
            printf(" %10" PRIu64, f->value[BYTES][i][s][NOTHING]);
            for (int w = ARCHIVE; w >= FLOOR; w--)
                printf(" %12" PRIu64, instructions(f, i, s, w));
            printf("\n");
        }
}

static void print_per_line(const figures *f)
{
    printf("\nInstructions per line, and the archive's over the others'\n\n");
    printf("%-15s %6s", "input", "lines");
    print_call_names(10);
    printf(" %14s %14s %14s\n", "archive/plain", "archive/tuned", "archive/floor");
    for (int i = 0; i < INPUTS; i++)
        for (int s = 0; s < SIZES; s++) {
            print_row_name(i, s);
            for (int w = ARCHIVE; w >= FLOOR; w--)
                printf(" %10.1f", per_line(f, i, s, w));
            printf(" %14.3f %14.2f %14.2f\n", ratio(f, i, s, PLAIN), ratio(f, i, s, TUNED), ratio(f, i, s, FLOOR));
        }
}

static void print_with_totals(const figures *f)
{
    printf("\nInstructions per line of the checks with totals, over those without and the archive's over the plain checker's\n\n");
    printf("%-15s %6s %10s %14s %14s %12s %20s\n", "input", "lines", "totals", "totals/archive", "plain+totals", "over plain",
           "totals/plain+totals");
    for (int i = 0; i < INPUTS; i++)
        for (int s = 0; s < SIZES; s++) {
            print_row_name(i, s);
            printf(" %10.1f %14.3f", per_line(f, i, s, TOTALS), over(f, i, s, TOTALS, ARCHIVE));
            printf(" %14.1f %12.3f", per_line(f, i, s, PLAIN_TOTALS), over(f, i, s, PLAIN_TOTALS, PLAIN));
            printf(" %20.3f\n", over(f, i, s, TOTALS, PLAIN_TOTALS));
        }
}

static void print_growth(const figures *f)
{
    printf("\nGrowth: instructions per line at 60,000 lines over those at 6,000\n\n");
    printf("%-15s", "input");
    print_call_names(10);
    printf("\n");
    for (int i = 0; i < INPUTS; i++) {
        printf("%-15s", input_names[i]);
        for (int w = ARCHIVE; w >= FLOOR; w--)
            printf(" %10.4f", growth(f, i, w));
        printf("\n");
    }
}

static void print_seconds(const figures *f)
{
    const char *unit = f->emulated ? "emulated seconds (under an emulator they are only ratios)" : "seconds";
    printf("\nThe quickest of %u calls, in %s\n\n", f->timed, unit);
    printf("%-15s %6s", "input", "lines");
    print_call_names(10);
    printf(" %14s %14s\n", "archive/plain", "archive/tuned");
    for (int i = 0; i < INPUTS; i++)
        for (int s = 0; s < SIZES; s++) {
            print_row_name(i, s);
            for (int w = ARCHIVE; w >= FLOOR; w--)
                printf(" %10.6f", (double)f->value[NANOSECONDS][i][s][w] / 1e9);
            printf(" %14.2f %14.2f\n", seconds_ratio(f, i, s, PLAIN), seconds_ratio(f, i, s, TUNED));
        }
}

static void print_stack(const figures *f)
{
    printf("\nPeak stack of one call, the most of all inputs, in bytes: archive %" PRIu64 ", plain %" PRIu64 ", tuned %" PRIu64
           ";\nwith totals archive %" PRIu64 ", plain %" PRIu64 "; archive for one total %" PRIu64
           ".\nAn empty call takes %" PRIu64 " bytes on the same stack; they are left out of all.\n",
           peak_stack(f, ARCHIVE), peak_stack(f, PLAIN), peak_stack(f, TUNED), peak_stack(f, TOTALS), peak_stack(f, PLAIN_TOTALS),
           peak_stack(f, ONE_TOTAL), peak_stack(f, NOTHING));
}

void table_print(const figures *f)
{
    print_totals(f);
    print_per_line(f);
    print_with_totals(f);
    print_growth(f);
    print_seconds(f);
    print_stack(f);
}
