/* What the parts of the checker share with each other and with nobody else. */
#ifndef PLAIN_INNER_H
#define PLAIN_INNER_H

#include "plain.h"

/* In the order in which list 2.2 first names them, DECPF before DECPJ. */
enum kind {
    NO_KIND,
    DIRF, RESPO, DECPF, DECPJ, IDREC, BPFDEC,
    RTRT, RTPO, RTDP, RTDS, RTIRF, CJAC, CJAA,
    ESRT, ESPO, ESDP, ESDS, ESIR, ESDJ,
    INFPC, RTPP, RTFA, RTSP, RTEP, ESPP, ESFA, ESSP, ESEP,
    INFPA, RTPA, ESPA,
    RIDAC, RIIRP, RIAP, RIMOG, RIP65, RIBMR, RICAP, RIRPC,
    RIL96, RIPTS, RIJMRE, RIO,
    BPJDEC, VPEIM, RIMUN, RISEN,
    FCI, BPFFCI, BPJFCI,
    PROC, BPFPROC, RIRSR, BPJPROC,
    RRA, BPFRRA, DAJUD, QTMESES,
    SCP, BPFSCP, RISCP, BPJSCP,
    PSE, OPSE, TPSE, RTPSE, DTPSE, RDTPSE,
    RPDE, BRPDE, VRPDE, INF, FIMDIRF,
    KINDS = FIMDIRF
};

/* From the top of the tree down: a record of one role closes what is open of the later ones. In the health plan's block OPSE
   has the place of an IDREC, TPSE that of a beneficiary and DTPSE that of an INFPC or INFPA. */
enum role { LATER, HEAD, DECLARANT, BLOCK, CODE, BENEFICIARY, GROUP, VALUE, END };
enum rule { NO_RULE, AMOUNT, MONTHS, DDD, TELEPHONE, CPF, CNPJ, CPF_OR_CNPJ };

enum { BAR = 124, CR = 13, LF = 10 };
enum { MOST_FIELDS = 15, MARK_FIELD = 6 };
enum { EDITIONS = 2 };
enum { ENTRY_KIND, ENTRY_START, ENTRY_LENGTH, ENTRY_PARENT, ENTRY_LAST, TABLE_NUMBERS };     /* of a table's entry */
enum { AMOUNT_DIGITS = 13, HEALTH_DIGITS = 9, MONTHS_DIGITS = 4, CPF_DIGITS = 11, CNPJ_DIGITS = 14 };

/* One row of the field tables. */
typedef struct {
    char format;
    uint8_t fixed, size, obligatory, rule;
    const char *values;
} row;

/* One kind. Each edition's rows begin at field 2, and most kinds have the same
   for both; field 1, the identifier, is name's own. */
typedef struct {
    char name[8];
    uint8_t name_len, name_fixed, name_size, role, fields;
    const row *rows[EDITIONS];
} record;

/* A part of somebody else's bytes. */
typedef struct { const uint8_t *bytes; size_t len; } part;

/* 0, or the number of the first breach in the given field. */
typedef struct { uint32_t number, field; } fault;

extern const record plain_records[KINDS + 1];

/* Whether the edition knows the kind: all but these two are in both. */
static inline int plain_has(plain_edition edition, uint32_t kind)
{
    return edition == PLAIN_2025 || (kind != RTDS && kind != ESDS);
}

/* The kind that an identifier names in the edition, or NO_KIND. */
uint32_t plain_kind_of(plain_edition edition, part identifier);

/* The row of field f, which has to be one of the kind's fields. */
row plain_row_of(plain_edition edition, uint32_t kind, unsigned f);

/* Byte by byte, a proper beginning first: below, at or above 0 as a is less than, equal to or greater than b. */
int plain_compare(part a, part b);

/* 13 to 18 and 26 over all fields of a base kind, then 19. */
fault plain_fields_fault(plain_edition edition, uint32_t kind, const part *fields);

#endif
