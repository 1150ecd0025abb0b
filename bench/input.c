/* Makes the files that are measured, the same bytes each time. */
#include "input.h"

#include <stdio.h>
#include <stdlib.h>
#include <string.h>

#include "../tests/makers/people.h"

enum { HEAD_LINES = 4, LEAST_LINES = 5, MOST_LINES = 65536 };
/* no line made here is longer */
enum { LONGEST = 256 };
enum { MONTHS = 13, AMOUNT_DIGITS = 13 };

/* line 2; the declarant and the first block follow */
static const char responsible[] = "RESPO|11144477735|ANA LIMA|11|33334444||||\r\n";

/* 60 bytes, the most that a name may have */
static const char long_name[] = "MARIA APARECIDA DOS SANTOS ALBUQUERQUE DE OLIVEIRA E BARROSO";
_Static_assert(sizeof long_name == 61, "a name of 60 bytes");

/* One beneficiary's records of thirteen amounts; the beneficiary stands before them and a RIO after them. */
static const char *const long_values[] = {"RTRT", "RTPO", "RTDP", "RTIRF", "ESRT", "ESIR"};
enum { LONG_GROUP = sizeof long_values / sizeof *long_values + 2 };
enum { SHORT_GROUP = 4, PENSION_GROUP = 8, PLAN_GROUP = 4 };

static void stop(const char *what)
{
    fprintf(stderr, "input: %s\n", what);
    exit(2);
}

static void put(input *in, const char *text)
{
    size_t n = strlen(text);
    memcpy(in->bytes + in->len, text, n);
    in->len += n;
}

static void put_digits(input *in, uint64_t value, unsigned count)
{
    for (unsigned i = count; i > 0; i--) {
        in->bytes[in->len + i - 1] = (uint8_t)('0' + value % 10);
        value /= 10;
    }
    in->len += count;
}

/* 13 digits without a zero in front; a fixed series, so that the bytes are the same each time. */
static void put_amount(input *in)
{
    static uint64_t series = 1;
    series = series * 6364136223846793005u + 1442695040888963407u;
    put_digits(in, 1000000000000u + (series >> 16) % 9000000000000u, AMOUNT_DIGITS);
}

/* Ever greater CPFs. */
static void put_cpf(input *in, unsigned number)
{
    make_cpf(number + 1, (char *)in->bytes + in->len);
    in->len += CPF_SIZE;
}

/* A line with a CPF in field 2. */
static void put_person(input *in, const char *front, unsigned number, const char *behind)
{
    put(in, front);
    put_cpf(in, number);
    put(in, behind);
}

static void put_beneficiary(input *in, unsigned number, const char *name, const char *birth)
{
    put_person(in, "BPFDEC|", number, "|");
    put(in, name);
    put(in, "|");
    put(in, birth);
    put(in, "|N|N|\r\n");
}

static void put_short(input *in, unsigned i, unsigned lines)
{
    (void)lines;
    switch (i % SHORT_GROUP) {
    case 0: put_beneficiary(in, i / SHORT_GROUP, "ANA", ""); break;
    case 1: put(in, "RTRT|150000|||||||||||||\r\n"); break;
    case 2: put(in, "RTIRF||9050||||||||||||\r\n"); break;
    default: put(in, "RIJMRE|1|\r\n"); break;
    }
}

static void put_long_values(input *in, const char *name)
{
    put(in, name);
    for (unsigned i = 0; i < MONTHS; i++) {
        put(in, "|");
        put_amount(in);
    }
    put(in, "|\r\n");
}

static void put_long_text(input *in)
{
    put(in, "RIO|");
    put_amount(in);
    put(in, "|");
    put(in, long_name);
    put(in, "|\r\n");
}

static void put_long(input *in, unsigned i, unsigned lines)
{
    unsigned at = i % LONG_GROUP;
    (void)lines;
    if (at == 0)
        put_beneficiary(in, i / LONG_GROUP, long_name, "19800229");
    else if (at == LONG_GROUP - 1)
        put_long_text(in);
    else
        put_long_values(in, long_values[at - 1]);
}

/* A record late in the list of kinds, with little else to look at: of one kind alone it is the dearest that was tried. */
static void put_scp(input *in, unsigned i, unsigned lines)
{
    (void)lines;
    put_person(in, "BPFSCP|", i, "|ANA||\r\n");
}

/* A beneficiary with pay, a pension fund and alimony; the last line closes what was open below the beneficiary. */
static void put_pension(input *in, unsigned i)
{
    unsigned number = i / PENSION_GROUP;
    switch (i % PENSION_GROUP) {
    case 0: put_person(in, "BPFDEC|", number, "|ANA||S|S|\r\n"); break;
    case 1: put(in, "RTRT|150000|||||||||||||\r\n"); break;
    case 2: put(in, "INFPC|11222333000181|FUNDO SERRA|\r\n"); break;
    case 3: put(in, "RTPP|9050|||||||||||||\r\n"); break;
    case 4: put(in, "ESPP||||||||||||700||\r\n"); break;
    case 5: put_person(in, "INFPA|", number, "|20100315|BIA|03|\r\n"); break;
    case 6: put(in, "RTPA|30000|||||||||||||\r\n"); break;
    default: put(in, "RTIRF||9050||||||||||||\r\n"); break;
    }
}

/* A holder of the health plan and a dependant, each with a refund. */
static void put_holder(input *in, unsigned i)
{
    unsigned number = i / PLAN_GROUP;
    switch (i % PLAN_GROUP) {
    case 0: put_person(in, "TPSE|", number, "|ANA|120000|\r\n"); break;
    case 1: put_person(in, "RTPSE|", number, "|CAIO|4000||\r\n"); break;
    case 2: put_person(in, "DTPSE|", number, "|20100315|BIA|03|60000|\r\n"); break;
    default: put(in, "RDTPSE|11222333000181|CLINICA SERRA|500|2500|\r\n"); break;
    }
}

/* Two thirds of the lines stand below beneficiaries, the others in the health plan. */
static void put_plan(input *in, unsigned i, unsigned lines)
{
    unsigned plan = lines / 3 * 2;
    if (i < plan)
        put_pension(in, i);
    else if (i == plan)
        put(in, "PSE|\r\n");
    else if (i == plan + 1)
        put(in, "OPSE|11222333000181|SAUDE SERRA|123456|\r\n");
    else
        put_holder(in, i - plan - 2);
}

/* The edition of each shape, the line that opens its block, the blocks that the declarant's flags tell of, and the line number i after
   that of so many. */
typedef struct {
    const char *name;
    plain_edition edition;
    const char *block;
    unsigned blocks;
    void (*put_line)(input *in, unsigned i, unsigned lines);
} shape;

static const shape shapes[] = {
    {"short", PLAIN_2025, "IDREC|0561|\r\n", 0, put_short},
    {"long", PLAIN_2025, "IDREC|0561|\r\n", 0, put_long},
    {"scp", PLAIN_2025, "SCP|11222333000181|SCP SERRA|\r\n", HAS_SCP, put_scp},
    {"older", PLAIN_2022, "IDREC|0561|\r\n", 0, put_short},
    {"plan", PLAIN_2025, "IDREC|0561|\r\n", HAS_PSE, put_plan},
};

static const shape *shape_named(const char *name)
{
    for (size_t i = 0; i < sizeof shapes / sizeof *shapes; i++)
        if (strcmp(shapes[i].name, name) == 0)
            return &shapes[i];
    stop("no such shape");
    return NULL;
}

static int is_refused(const char *end)
{
    if (strcmp(end, "accepted") != 0 && strcmp(end, "refused") != 0)
        stop("no such end");
    return strcmp(end, "refused") == 0;
}

input input_make(const char *lines, const char *shape_name, const char *end)
{
    const shape *made = shape_named(shape_name);
    int refused = is_refused(end);
    unsigned long count = strtoul(lines, NULL, 10);
    if (count < LEAST_LINES || count > MOST_LINES)
        stop("no such count of lines");
    input in = {malloc(count * LONGEST), 0};
    if (in.bytes == NULL)
        stop("no memory");
    put(&in, line_one(made->edition));
    put(&in, responsible);
    in.len += make_declarant(1, made->blocks, (char *)in.bytes + in.len);
    put(&in, made->block);
    unsigned left = (unsigned)count - HEAD_LINES - 1;
    for (unsigned i = 0; i < left; i++)
        made->put_line(&in, i, left);
    /* without its bar the last line is refused with 8 */
    put(&in, refused ? "FIMDirf\r\n" : "FIMDirf|\r\n");
    return in;
}
