#include "places.h"

#include <string.h>

#include "../makers/people.h"
#include "../plain/plain_inner.h"
#include "sound.h"

enum { MOST_OPEN = 5 };

/* The open records, outermost first; in the last six ways the last record opens nothing, and may close what was open, or is
   a PSE behind an SCP. */
static const unsigned places[][MOST_OPEN] = {
    {NO_KIND}, {IDREC}, {IDREC, BPFDEC}, {IDREC, BPJDEC},
    {FCI}, {FCI, IDREC}, {FCI, IDREC, BPFFCI}, {FCI, IDREC, BPJFCI},
    {PROC}, {PROC, IDREC}, {PROC, IDREC, BPFPROC}, {PROC, IDREC, BPJPROC},
    {RRA}, {RRA, IDREC}, {RRA, IDREC, BPFRRA},
    {SCP}, {SCP, BPFSCP}, {SCP, BPJSCP},
    {IDREC, BPFDEC, INFPC}, {IDREC, BPFDEC, INFPA}, {RRA, IDREC, BPFRRA, INFPA},
    {PSE}, {PSE, OPSE}, {PSE, OPSE, TPSE}, {PSE, OPSE, TPSE, DTPSE},
    {IDREC, BPFDEC, INFPC, RTIRF}, {IDREC, BPFDEC, INFPA, RTIRF}, {RRA, IDREC, BPFRRA, INFPA, RTIRF},
    {PSE, OPSE, TPSE, RTPSE}, {PSE, OPSE, TPSE, DTPSE, RDTPSE}, {SCP, PSE},
};

unsigned count_places(void)
{
    return sizeof places / sizeof *places;
}

static void put_text(file_text *file, const char *text)
{
    memcpy(file->bytes + file->len, text, strlen(text));
    file->len += strlen(text);
}

/* A line of any kind: a record that is left for later has its identifier alone, and one that only 2025 has is made by its rows. */
static void put_kind(file_text *file, plain_edition edition, unsigned kind)
{
    text_line line;
    sound_line(&line, plain_is_base(edition, kind) ? edition : PLAIN_2025, kind);
    memcpy(file->bytes + file->len, line.bytes, line.len);
    file->len += line.len;
    if (line.len == 0) {
        put_text(file, plain_name(kind));
        put_text(file, "|");
    }
    put_text(file, "\r\n");
}

/* What the declarant's flags say of a record of this kind. */
static unsigned flag_of(unsigned kind)
{
    return kind == SCP ? HAS_SCP : kind == PSE ? HAS_PSE : 0;
}

void place_file(plain_edition edition, unsigned declarant, unsigned place, unsigned kind, file_text *file)
{
    char line[100];
    file->len = 0;
    make_declarant(declarant == DECPJ, flag_of(kind) | flag_of(places[place][0]) | flag_of(places[place][1]), line);
    put_text(file, line_one(edition));
    put_kind(file, edition, RESPO);
    put_text(file, line);
    for (unsigned i = 0; i < MOST_OPEN && places[place][i] != NO_KIND; i++)
        put_kind(file, edition, places[place][i]);
    put_kind(file, edition, kind);
    put_text(file, "FIMDirf|\r\n");
}
