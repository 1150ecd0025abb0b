/* persons lines|groups|spread FILE
   Writes the file, and prints what a search in it has to answer, a word each: its bytes, its lines, the IDREC's line, the persons, and CPF
   and line of the first and of the last one. */
#include <stdio.h>

#include "searched.h"

/* as much as lookup takes */
enum { MOST_BYTES = 4194304 };

int main(int argc, char **argv)
{
    static char bytes[MOST_BYTES];
    char first[16], last[16];
    if (argc < 3) {
        fprintf(stderr, "persons lines|groups|spread FILE\n");
        return 2;
    }
    const searched *s = searched_named(argv[1]);
    size_t len = searched_make(s, bytes, sizeof bytes);
    FILE *out = fopen(argv[2], "wb");
    if (out == NULL || fwrite(bytes, 1, len, out) != len || fclose(out) != 0) {
        perror(argv[2]);
        return 1;
    }
    searched_cpf(s, 0, first);
    searched_cpf(s, s->persons - 1, last);
    printf("%zu %u %d %u %s %d %s %u\n", len, IDREC_LINE + s->persons * s->lines + 1, IDREC_LINE, s->persons, first, IDREC_LINE + 1, last,
           IDREC_LINE + 1 + (s->persons - 1) * s->lines);
    return 0;
}
