#include "closers.h"

#include <stdlib.h>
#include <string.h>

#include "../makers/people.h"
#include "chance.h"
#include "faults.h"
#include "whole.h"

void cut_at_line(file_text *file)
{
    size_t ends[MOST_LINES + 8], count = 1;
    ends[0] = 0;
    for (size_t i = 1; i < file->len && count < MOST_LINES + 8; i++)
        if (file->bytes[i - 1] == '\r' && file->bytes[i] == '\n')
            ends[count++] = i + 1;
    file->len = ends[chance((uint32_t)count)];
}

/* The blocks that a declarant's flags speak of. */
static unsigned blocks_of(const uint8_t *line, size_t len)
{
    int company = memcmp(line, "DECPJ", 5) == 0;
    size_t scp, pse, length;
    plain_field(line, len, company ? DECPJ_SCP_FLAG : DECPF_SCP_FLAG, &scp, &length);
    plain_field(line, len, company ? DECPJ_PSE_FLAG : DECPF_PSE_FLAG, &pse, &length);
    return (line[scp] == 'S' ? HAS_SCP : 0) | (line[pse] == 'S' ? HAS_PSE : 0);
}

/* The blocks that the declarant in line 3 says there are, and that have not come; behind a PSE no SCP may. The file is one of whole lines
   and good so far. */
static unsigned owed(const file_text *file)
{
    unsigned owes = 0;
    size_t from = 0, len;
    for (unsigned number = 1; from < file->len; number++, from += len) {
        const uint8_t *line = file->bytes + from;
        len = (size_t)((const uint8_t *)memchr(line, '\n', file->len - from) - line) + 1;
        if (number == 3)
            owes = blocks_of(line, len);
        if (memcmp(line, "SCP|", 4) == 0)
            owes &= HAS_PSE;
        if (memcmp(line, "PSE|", 4) == 0)
            return 0;
    }
    return owes;
}

static unsigned put_line(file_text *file, const char *line)
{
    memcpy(file->bytes + file->len, line, strlen(line));
    file->len += strlen(line);
    return 1;
}

unsigned close_file(file_text *file, unsigned lines)
{
    char declarant[100];
    unsigned more = 0;
    make_declarant(0, 0, declarant);
    if (lines < 1)
        more += put_line(file, line_one(chance(2) ? PLAIN_2025 : PLAIN_2022));
    if (lines < 2)
        more += put_line(file, "RESPO|11144477735|ANA LIMA|11|33334444||||\r\n");
    if (lines < 3)
        more += put_line(file, declarant);
    unsigned owes = owed(file);
    if (owes & HAS_SCP)
        more += put_line(file, "SCP|11222333000181|SCP SERRA|\r\n");
    if (owes & HAS_PSE)
        more += put_line(file, "PSE|\r\n");
    more += put_line(file, "FIMDirf|\r\n");
    /* demand 3 promises no more */
    if (more > MOST_CLOSERS)
        abort();
    return more;
}

void add_tail(file_text *file)
{
    static declaration d;
    static file_text tail;
    sound_declaration(&d);
    for (unsigned left = chance(3); left > 0; left--)
        break_rule(&d, any_rule(1));
    write_file(&d, &tail);
    if (chance(2))
        damage_bytes(&tail);
    size_t from = chance(2) || tail.len == 0 ? 0 : chance((uint32_t)tail.len), len = tail.len - from;
    if (len > MOST_FILE - file->len)
        len = MOST_FILE - file->len;
    memcpy(file->bytes + file->len, tail.bytes + from, len);
    file->len += len;
}
