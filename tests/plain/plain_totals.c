/* The amounts of the value records by kind, in two ways: line by line as the check takes them, and by reading the file again. */
#include <string.h>

#include "plain_totals.h"

/* ---- as the lines are taken ---- */

kind_totals plain_begin_totals(uint64_t *lent, size_t lent_len)
{
    kind_totals t = {lent, lent_len > KINDS ? KINDS + 1 : lent_len};
    for (size_t place = 0; place < t.count; place++)
        t.places[place] = 0;
    return t;
}

/* A line has at most 13 amounts of 13 digits, so that all 65,536 lines of a file stay below 2^63 together. */
void plain_add_amounts(kind_totals t, plain_edition edition, const line *l)
{
    if (plain_records[l->kind].role != VALUE || l->kind >= t.count)
        return;
    for (unsigned f = 2; f <= plain_records[l->kind].fields; f++) {
        part field = l->fields[f - 1];
        if (plain_row_of(edition, l->kind, f).rule == AMOUNT)
            t.places[l->kind] += plain_read_amount(field.bytes, field.len).value;
    }
}

/* ---- by reading every line ---- */

/* The value records with amounts, as the headings of 3.19, 3.20, 3.21, 3.29 and 3.31 name them, and the two that 000 lacks. */
static const char *const value_names[] = {
    "RTRT", "RTPO", "RTPP", "RTFA", "RTSP", "RTEP", "RTDP", "RTPA", "RTIRF", "CJAA", "CJAC", "ESRT", "ESPO", "ESPP", "ESFA",
    "ESSP", "ESEP", "ESDP", "ESPA", "ESIR", "ESDJ", "RIP65", "RIDAC", "RIIRP", "RIAP", "RIMOG", "RIRPC", "RIBMR", "RICAP", "RISCP",
    "DAJUD", "RIL96", "RIPTS", "RIJMRE", "RIRSR", "RIO", "RTPSE", "RDTPSE", "RTDS", "ESDS"};

static int is_value_name(const char *name)
{
    for (size_t i = 0; i < sizeof value_names / sizeof *value_names; i++)
        if (strcmp(name, value_names[i]) == 0)
            return 1;
    return 0;
}

/* Takes the next line off what is left; 0 where no CR LF is left to end one. */
static int cut_off(part *left, part *line)
{
    for (size_t i = 0; i + 1 < left->len; i++)
        if (left->bytes[i] == CR && left->bytes[i + 1] == LF) {
            *line = (part){left->bytes, i};
            *left = (part){left->bytes + i + 2, left->len - i - 2};
            return 1;
        }
    return 0;
}

static int is_named(part line, const char *name)
{
    size_t start, length;
    return plain_field(line.bytes, line.len, 1, &start, &length)
        && length == strlen(name) && memcmp(line.bytes + start, name, length) == 0;
}

static uint64_t amounts_of(plain_edition edition, unsigned kind, part line)
{
    uint64_t sum = 0;
    size_t start, length;
    for (unsigned f = 1; f <= plain_fields(edition, kind); f++)
        if (plain_field_row(edition, kind, f).amount && plain_field(line.bytes, line.len, f, &start, &length))
            sum += plain_read_amount(line.bytes + start, length).value;
    return sum;
}

uint64_t plain_total_reading(const uint8_t *file, size_t file_len, size_t lines, uint32_t kind)
{
    const plain_edition edition = plain_edition_of(file, file_len);
    const char *name = plain_name(kind);
    part left = {file, file_len}, line;
    uint64_t total = 0;
    if (name == NULL || !is_value_name(name))
        return 0;
    for (size_t n = 0; n < lines && cut_off(&left, &line); n++)
        if (is_named(line, name))
            total += amounts_of(edition, kind, line);
    return total;
}
