/* report PICTURE real|emulated TIMED < FIGURES
   Prints the measured figures as text and writes them as a picture. The words say what the seconds are, and of how many calls they are
   the quickest's. Fails where a figure is missing or a target is missed. */
#include <stdio.h>
#include <stdlib.h>
#include <string.h>

#include "figures.h"
#include "picture.h"
#include "table.h"
#include "targets.h"

static int write_picture(const figures *f, const char *path)
{
    FILE *to = fopen(path, "w");
    if (to == NULL)
        return 0;
    picture_print(f, to);
    return fclose(to) == 0;
}

int main(int argc, char **argv)
{
    static figures f;
    if (argc < 4) {
        fprintf(stderr, "report PICTURE real|emulated TIMED < FIGURES\n");
        return 2;
    }
    if (!figures_read(&f, stdin)) {
        fprintf(stderr, "report: a figure is missing or not known\n");
        return 2;
    }
    f.emulated = strcmp(argv[2], "real") != 0;
    f.timed = (unsigned)strtoul(argv[3], NULL, 10);
    table_print(&f);
    int met = targets_print(&f);
    if (!write_picture(&f, argv[1])) {
        fprintf(stderr, "report: cannot write %s\n", argv[1]);
        return 2;
    }
    return met ? 0 : 1;
}
