#include "searched.h"

#include <stdio.h>
#include <stdlib.h>
#include <string.h>

#include "../tests/makers/people.h"

enum { AMOUNTS = 13 };
/* no line made here is longer */
enum { LONGEST = 256 };

/* CPFs one after another have a long beginning in common, which is what comparing them costs most with; with this step the nine digits that
   a CPF counts by are used up. */
enum { WIDE_STEP = 99991 };
static const searched shapes[] = {{"lines", 20000, 1, 1}, {"groups", 10000, 6, 1}, {"spread", 10000, 6, WIDE_STEP}};
static const char *const values[] = {"RTRT", "RTPO", "RTDP", "RTIRF", "ESRT"};

static void stop(const char *what)
{
    fprintf(stderr, "searched: %s\n", what);
    exit(2);
}

const searched *searched_named(const char *name)
{
    for (size_t i = 0; i < sizeof shapes / sizeof *shapes; i++)
        if (strcmp(shapes[i].name, name) == 0)
            return &shapes[i];
    stop("no such file");
    return NULL;
}

void searched_cpf(const searched *s, unsigned at, char *cpf)
{
    make_cpf((at + 1) * s->step, cpf);
    cpf[CPF_SIZE] = 0;
}

/* Of one to four digits without a zero in front; a fixed series, so that the bytes are the same each time. */
static unsigned amount(void)
{
    static const unsigned least[] = {1, 10, 100, 1000};
    static uint64_t series = 1;
    series = series * 6364136223846793005u + 1442695040888963407u;
    unsigned from = least[series >> 33 & 3];
    return from + (unsigned)((series >> 40) % (9 * from));
}

static size_t put_values(const char *name, char *out)
{
    size_t len = (size_t)sprintf(out, "%s|", name);
    for (unsigned i = 0; i < AMOUNTS; i++)
        len += (size_t)sprintf(out + len, "%u|", amount());
    return len + (size_t)sprintf(out + len, "\r\n");
}

size_t searched_make(const searched *s, char *out, size_t room)
{
    char cpf[CPF_SIZE + 1];
    if (room / LONGEST < s->lines + IDREC_LINE)
        stop("too little room");
    size_t len = (size_t)sprintf(out, "%sRESPO|11144477735|ANA LIMA|11|33334444||||\r\n", line_one(PLAIN_2025));
    len += make_declarant(1, 0, out + len);
    len += (size_t)sprintf(out + len, "IDREC|0561|\r\n");
    for (unsigned at = 0; at < s->persons; at++) {
        if ((room - len) / LONGEST < s->lines + 1)
            stop("too little room");
        searched_cpf(s, at, cpf);
        len += (size_t)sprintf(out + len, "BPFDEC|%s|ANA||N|N|\r\n", cpf);
        for (unsigned i = 0; i + 1 < s->lines; i++)
            len += put_values(values[i], out + len);
    }
    return len + (size_t)sprintf(out + len, "FIMDirf|\r\n");
}
