/* walk bytes|reading|nothing LINE CPF < FILE
   Reads the file, makes the one call and prints its number, line and count: the walk over its bytes, the search of the plain checker that
   reads every line, or none, whose instructions are the program's own. */
#include <inttypes.h>
#include <stdio.h>
#include <stdlib.h>
#include <string.h>

#include "byte_walk.h"

enum { MOST_BYTES = 4194304 };

typedef plain_found (*search)(const uint8_t *file, size_t len, uint32_t line, const uint8_t *key, size_t key_len);

static plain_found nothing(const uint8_t *file, size_t len, uint32_t line, const uint8_t *key, size_t key_len)
{
    (void)file, (void)len, (void)line, (void)key, (void)key_len;
    return (plain_found){0, 0, 0};
}

int main(int argc, char **argv)
{
    static uint8_t file[MOST_BYTES];
    if (argc < 4) {
        fprintf(stderr, "walk bytes|reading|nothing LINE CPF < FILE\n");
        return 2;
    }
    search chosen = strcmp(argv[1], "bytes") == 0 ? byte_walk : strcmp(argv[1], "reading") == 0 ? plain_search_reading : nothing;
    size_t len = fread(file, 1, sizeof file, stdin);
    plain_found f = chosen(file, len, (uint32_t)strtoul(argv[2], NULL, 10), (const uint8_t *)argv[3], strlen(argv[3]));
    printf("%" PRIu32 " %" PRIu32 " %" PRIu32 "\n", f.number, f.line, f.count);
    return 0;
}
