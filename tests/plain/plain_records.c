/* The kinds and the field rows, transcribed from the two sources. */
#include <string.h>

#include "plain_inner.h"

enum { VARIABLE, FIXED };
enum { OPTIONAL, OBLIGATORY };

/* 3.1, fields 2 to 6: the editions differ in the values of three of them */
#define DIRF_ROWS(year, calendar_years, mark) { \
    {'N', FIXED, 4, OBLIGATORY, NO_RULE, year}, \
    {'N', FIXED, 4, OBLIGATORY, NO_RULE, calendar_years}, \
    {'C', FIXED, 1, OBLIGATORY, NO_RULE, "S,N"}, \
    {'N', FIXED, 12, OPTIONAL, NO_RULE, NULL}, \
    {'C', FIXED, 7, OBLIGATORY, NO_RULE, mark}, \
}

static const row dirf_rows[EDITIONS][5] = {
    [PLAIN_2025] = DIRF_ROWS("2025", "2024", "R6GP3ZA"),
    [PLAIN_2022] = DIRF_ROWS("2022", "2021,2022", "XJFSFHB"),
};

/* All that follows is the same in both editions. */

/* 3.2, fields 2 to 8 */
static const row respo_rows[] = {
    {'N', FIXED, 11, OBLIGATORY, CPF, NULL},
    {'C', VARIABLE, 60, OBLIGATORY, NO_RULE, NULL},
    {'N', FIXED, 2, OBLIGATORY, DDD, NULL},
    {'N', VARIABLE, 9, OBLIGATORY, TELEPHONE, NULL},
    {'N', VARIABLE, 6, OPTIONAL, NO_RULE, NULL},
    {'N', VARIABLE, 9, OPTIONAL, TELEPHONE, NULL},
    {'C', VARIABLE, 50, OPTIONAL, NO_RULE, NULL},
};

/* 3.3, fields 2 to 15 */
static const row decpf_rows[] = {
    {'N', FIXED, 11, OBLIGATORY, CPF, NULL},
    {'C', VARIABLE, 60, OBLIGATORY, NO_RULE, NULL},
    {'C', FIXED, 1, OBLIGATORY, NO_RULE, "S,N"},
    {'C', FIXED, 1, OBLIGATORY, NO_RULE, "S,N"},
    {'C', FIXED, 1, OBLIGATORY, NO_RULE, "S,N"},
    {'C', FIXED, 1, OBLIGATORY, NO_RULE, "S,N"},
    {'C', FIXED, 1, OBLIGATORY, NO_RULE, "S,N"},
    {'D', FIXED, 8, OPTIONAL, NO_RULE, NULL},
    {'N', FIXED, 1, OPTIONAL, NO_RULE, "1,2"},
    {'C', FIXED, 1, OBLIGATORY, NO_RULE, "S,N"},
    {'D', FIXED, 8, OPTIONAL, NO_RULE, NULL},
    {'N', FIXED, 1, OPTIONAL, NO_RULE, "0,1"},
    {'N', FIXED, 11, OPTIONAL, CPF, NULL},
    {'C', VARIABLE, 60, OPTIONAL, NO_RULE, NULL},
};

/* 3.4, fields 2 to 14 */
static const row decpj_rows[] = {
    {'N', FIXED, 14, OBLIGATORY, CNPJ, NULL},
    {'C', VARIABLE, 150, OBLIGATORY, NO_RULE, NULL},
    {'N', FIXED, 1, OBLIGATORY, NO_RULE, "0,1,2,3,4,8"},
    {'N', FIXED, 11, OBLIGATORY, CPF, NULL},
    {'C', FIXED, 1, OBLIGATORY, NO_RULE, "S,N"},
    {'C', FIXED, 1, OBLIGATORY, NO_RULE, "S,N"},
    {'C', FIXED, 1, OBLIGATORY, NO_RULE, "S,N"},
    {'C', FIXED, 1, OBLIGATORY, NO_RULE, "S,N"},
    {'C', FIXED, 1, OBLIGATORY, NO_RULE, "S,N"},
    {'C', FIXED, 1, OBLIGATORY, NO_RULE, "S,N"},
    {'C', FIXED, 1, OBLIGATORY, NO_RULE, "S,N"},
    {'C', FIXED, 1, OBLIGATORY, NO_RULE, "S,N"},
    {'D', FIXED, 8, OPTIONAL, NO_RULE, NULL},
};

/* 3.5, field 2; the codes are printed in neither source */
static const row idrec_rows[] = {
    {'N', FIXED, 4, OBLIGATORY, NO_RULE, NULL},
};

/* 3.6, fields 2 to 6 */
static const row bpfdec_rows[] = {
    {'N', FIXED, 11, OBLIGATORY, CPF, NULL},
    {'C', VARIABLE, 60, OBLIGATORY, NO_RULE, NULL},
    {'D', FIXED, 8, OPTIONAL, NO_RULE, NULL},
    {'C', FIXED, 1, OBLIGATORY, NO_RULE, "S,N"},
    {'C', FIXED, 1, OBLIGATORY, NO_RULE, "S,N"},
};

/* 3.7, 3.9, 3.11, 3.14, 3.17 and 3.23, fields 2 and 3: a CNPJ and its name */
static const row cnpj_rows[] = {
    {'N', FIXED, 14, OBLIGATORY, CNPJ, NULL},
    {'C', VARIABLE, 150, OBLIGATORY, NO_RULE, NULL},
};

/* 3.10 and 3.13, fields 2 to 4 */
static const row dated_cpf_rows[] = {
    {'N', FIXED, 11, OBLIGATORY, CPF, NULL},
    {'C', VARIABLE, 60, OBLIGATORY, NO_RULE, NULL},
    {'D', FIXED, 8, OPTIONAL, NO_RULE, NULL},
};

/* 3.12, fields 2 to 7 */
static const row proc_rows[] = {
    {'N', FIXED, 1, OBLIGATORY, NO_RULE, "1,2,3"},
    {'C', VARIABLE, 20, OBLIGATORY, NO_RULE, NULL},
    {'N', FIXED, 1, OPTIONAL, NO_RULE, "1,2"},
    {'N', VARIABLE, 14, OPTIONAL, CPF_OR_CNPJ, NULL},
    {'C', VARIABLE, 150, OPTIONAL, NO_RULE, NULL},
    {'N', VARIABLE, 13, OPTIONAL, AMOUNT, NULL},
};

/* 3.15, fields 2 to 7 */
static const row rra_rows[] = {
    {'N', FIXED, 1, OBLIGATORY, NO_RULE, "1,2"},
    {'C', VARIABLE, 20, OPTIONAL, NO_RULE, NULL},
    {'N', FIXED, 1, OPTIONAL, NO_RULE, "1,2"},
    {'N', VARIABLE, 14, OPTIONAL, CPF_OR_CNPJ, NULL},
    {'C', VARIABLE, 150, OPTIONAL, NO_RULE, NULL},
    {'N', VARIABLE, 13, OPTIONAL, AMOUNT, NULL},
};

/* 3.16, fields 2 to 6 */
static const row bpfrra_rows[] = {
    {'N', FIXED, 11, OBLIGATORY, CPF, NULL},
    {'C', VARIABLE, 60, OBLIGATORY, NO_RULE, NULL},
    {'C', VARIABLE, 50, OPTIONAL, NO_RULE, NULL},
    {'D', FIXED, 8, OPTIONAL, NO_RULE, NULL},
    {'C', FIXED, 1, OBLIGATORY, NO_RULE, "S,N"},
};

/* 3.18 and 3.30, field 5 */
#define RELATION {'N', FIXED, 2, OPTIONAL, NO_RULE, "03,04,06,08,10"}

/* 3.18, fields 2 to 5 */
static const row infpa_rows[] = {
    {'N', FIXED, 11, OPTIONAL, CPF, NULL},
    {'D', FIXED, 8, OPTIONAL, NO_RULE, NULL},
    {'C', VARIABLE, 60, OBLIGATORY, NO_RULE, NULL},
    RELATION,
};

#define MONEY {'N', VARIABLE, AMOUNT_DIGITS, OPTIONAL, AMOUNT, NULL}
#define TENTHS {'N', VARIABLE, MONTHS_DIGITS, OPTIONAL, MONTHS, NULL}

/* 3.19, fields 2 to 14: the twelve months and the thirteenth pay */
static const row monthly_rows[] = {
    MONEY, MONEY, MONEY, MONEY, MONEY, MONEY, MONEY,
    MONEY, MONEY, MONEY, MONEY, MONEY, MONEY,
};

/* 3.20, field 2 */
static const row yearly_rows[] = {
    {'N', VARIABLE, 13, OBLIGATORY, AMOUNT, NULL},
};

/* 3.21, fields 2 and 3 */
static const row rio_rows[] = {
    {'N', VARIABLE, 13, OBLIGATORY, AMOUNT, NULL},
    {'C', VARIABLE, 60, OBLIGATORY, NO_RULE, NULL},
};

/* 3.22, fields 2 to 13 */
static const row qtmeses_rows[] = {
    TENTHS, TENTHS, TENTHS, TENTHS, TENTHS, TENTHS,
    TENTHS, TENTHS, TENTHS, TENTHS, TENTHS, TENTHS,
};

/* 3.24, fields 2 to 4; the share is no amount and no month count */
static const row bpfscp_rows[] = {
    {'N', FIXED, 11, OBLIGATORY, CPF, NULL},
    {'C', VARIABLE, 60, OBLIGATORY, NO_RULE, NULL},
    {'N', VARIABLE, 4, OPTIONAL, NO_RULE, NULL},
};

/* 3.25, fields 2 to 4; the share is printed as C here */
static const row bpjscp_rows[] = {
    {'N', FIXED, 14, OBLIGATORY, CNPJ, NULL},
    {'C', VARIABLE, 150, OBLIGATORY, NO_RULE, NULL},
    {'C', VARIABLE, 4, OPTIONAL, NO_RULE, NULL},
};

/* The amounts of a health plan have nine digits. */
#define HEALTH_MONEY(obligation) {'N', VARIABLE, HEALTH_DIGITS, obligation, AMOUNT, NULL}

/* 3.27, fields 2 to 4 */
static const row opse_rows[] = {
    {'N', FIXED, 14, OBLIGATORY, CNPJ, NULL},
    {'C', VARIABLE, 150, OBLIGATORY, NO_RULE, NULL},
    {'N', FIXED, 6, OPTIONAL, NO_RULE, NULL},
};

/* 3.28, fields 2 to 4 */
static const row tpse_rows[] = {
    {'N', FIXED, 11, OBLIGATORY, CPF, NULL},
    {'C', VARIABLE, 60, OBLIGATORY, NO_RULE, NULL},
    HEALTH_MONEY(OBLIGATORY),
};

/* 3.29 and 3.31, fields 2 to 5 */
static const row refund_rows[] = {
    {'N', VARIABLE, 14, OBLIGATORY, CPF_OR_CNPJ, NULL},
    {'C', VARIABLE, 150, OBLIGATORY, NO_RULE, NULL},
    HEALTH_MONEY(OPTIONAL),
    HEALTH_MONEY(OPTIONAL),
};

/* 3.30, fields 2 to 6 */
static const row dtpse_rows[] = {
    {'N', FIXED, 11, OPTIONAL, CPF, NULL},
    {'D', FIXED, 8, OPTIONAL, NO_RULE, NULL},
    {'C', VARIABLE, 60, OBLIGATORY, NO_RULE, NULL},
    RELATION,
    HEALTH_MONEY(OBLIGATORY),
};

/* The count of fields and the rows of each edition, shared or its own. */
#define ROWS(rows) 1 + sizeof (rows) / sizeof *(rows), {rows, rows}
#define OWN_ROWS(rows) 1 + sizeof *(rows) / sizeof **(rows), {(rows)[0], (rows)[1]}
#define ONE(name, role, rows) \
    {name, sizeof name - 1, FIXED, sizeof name - 1, role, ROWS(rows)}
#define MONTHLY(name) \
    {name, sizeof name - 1, VARIABLE, 5, VALUE, ROWS(monthly_rows)}
#define YEARLY(name) \
    {name, sizeof name - 1, VARIABLE, 6, VALUE, ROWS(yearly_rows)}
#define LEFT(name) {name, sizeof name - 1, FIXED, sizeof name - 1, LATER, 0, {NULL}}

const record plain_records[KINDS + 1] = {
    [DIRF] = {"Dirf", 4, FIXED, 4, HEAD, OWN_ROWS(dirf_rows)},
    [RESPO] = ONE("RESPO", HEAD, respo_rows),
    [DECPF] = ONE("DECPF", DECLARANT, decpf_rows),
    [DECPJ] = ONE("DECPJ", DECLARANT, decpj_rows),
    [IDREC] = ONE("IDREC", CODE, idrec_rows),
    [BPFDEC] = ONE("BPFDEC", BENEFICIARY, bpfdec_rows),
    [RTRT] = MONTHLY("RTRT"),
    [RTPO] = MONTHLY("RTPO"),
    [RTDP] = MONTHLY("RTDP"),
    [RTDS] = MONTHLY("RTDS"),
    [RTIRF] = MONTHLY("RTIRF"),
    [CJAC] = MONTHLY("CJAC"),
    [CJAA] = MONTHLY("CJAA"),
    [ESRT] = MONTHLY("ESRT"),
    [ESPO] = MONTHLY("ESPO"),
    [ESDP] = MONTHLY("ESDP"),
    [ESDS] = MONTHLY("ESDS"),
    [ESIR] = MONTHLY("ESIR"),
    [ESDJ] = MONTHLY("ESDJ"),
    [INFPC] = ONE("INFPC", GROUP, cnpj_rows),
    [RTPP] = MONTHLY("RTPP"),
    [RTFA] = MONTHLY("RTFA"),
    [RTSP] = MONTHLY("RTSP"),
    [RTEP] = MONTHLY("RTEP"),
    [ESPP] = MONTHLY("ESPP"),
    [ESFA] = MONTHLY("ESFA"),
    [ESSP] = MONTHLY("ESSP"),
    [ESEP] = MONTHLY("ESEP"),
    [INFPA] = ONE("INFPA", GROUP, infpa_rows),
    [RTPA] = MONTHLY("RTPA"),
    [ESPA] = MONTHLY("ESPA"),
    [RIDAC] = MONTHLY("RIDAC"),
    [RIIRP] = MONTHLY("RIIRP"),
    [RIAP] = MONTHLY("RIAP"),
    [RIMOG] = MONTHLY("RIMOG"),
    [RIP65] = MONTHLY("RIP65"),
    [RIBMR] = MONTHLY("RIBMR"),
    [RICAP] = MONTHLY("RICAP"),
    [RIRPC] = MONTHLY("RIRPC"),
    [RIL96] = YEARLY("RIL96"),
    [RIPTS] = YEARLY("RIPTS"),
    [RIJMRE] = YEARLY("RIJMRE"),
    [RIO] = ONE("RIO", VALUE, rio_rows),
    [BPJDEC] = ONE("BPJDEC", BENEFICIARY, cnpj_rows),
    [VPEIM] = LEFT("VPEIM"),
    [RIMUN] = LEFT("RIMUN"),
    [RISEN] = LEFT("RISEN"),
    [FCI] = ONE("FCI", BLOCK, cnpj_rows),
    [BPFFCI] = ONE("BPFFCI", BENEFICIARY, dated_cpf_rows),
    [BPJFCI] = ONE("BPJFCI", BENEFICIARY, cnpj_rows),
    [PROC] = ONE("PROC", BLOCK, proc_rows),
    [BPFPROC] = ONE("BPFPROC", BENEFICIARY, dated_cpf_rows),
    [RIRSR] = YEARLY("RIRSR"),
    [BPJPROC] = ONE("BPJPROC", BENEFICIARY, cnpj_rows),
    [RRA] = ONE("RRA", BLOCK, rra_rows),
    [BPFRRA] = ONE("BPFRRA", BENEFICIARY, bpfrra_rows),
    [DAJUD] = MONTHLY("DAJUD"),
    [QTMESES] = ONE("QTMESES", VALUE, qtmeses_rows),
    [SCP] = ONE("SCP", BLOCK, cnpj_rows),
    [BPFSCP] = ONE("BPFSCP", BENEFICIARY, bpfscp_rows),
    [RISCP] = MONTHLY("RISCP"),
    [BPJSCP] = ONE("BPJSCP", BENEFICIARY, bpjscp_rows),
    [PSE] = {"PSE", 3, FIXED, 3, BLOCK, 1, {NULL}},
    [OPSE] = ONE("OPSE", CODE, opse_rows),
    [TPSE] = ONE("TPSE", BENEFICIARY, tpse_rows),
    [RTPSE] = ONE("RTPSE", VALUE, refund_rows),
    [DTPSE] = ONE("DTPSE", GROUP, dtpse_rows),
    [RDTPSE] = ONE("RDTPSE", VALUE, refund_rows),
    [RPDE] = LEFT("RPDE"),
    [BRPDE] = LEFT("BRPDE"),
    [VRPDE] = LEFT("VRPDE"),
    [INF] = LEFT("INF"),
    [FIMDIRF] = {"FIMDirf", 7, FIXED, 7, END, 1, {NULL}},
};

uint32_t plain_kind_of(plain_edition edition, part identifier)
{
    for (uint32_t kind = 1; kind <= KINDS; kind++) {
        const record *r = &plain_records[kind];
        if (r->name_len == identifier.len
            && memcmp(r->name, identifier.bytes, identifier.len) == 0)
            return plain_has(edition, kind) ? kind : NO_KIND;
    }
    return NO_KIND;
}

row plain_row_of(plain_edition edition, uint32_t kind, unsigned f)
{
    const record *r = &plain_records[kind];
    if (f > 1)
        return r->rows[edition][f - 2];
    /* A line of this kind can hold no other of the printed identifiers. */
    row name = {'C', r->name_fixed, r->name_size, OBLIGATORY, NO_RULE, r->name};
    return name;
}

unsigned plain_kinds(void)
{
    return KINDS;
}

const char *plain_name(unsigned kind)
{
    return kind >= 1 && kind <= KINDS ? plain_records[kind].name : NULL;
}

int plain_is_base(plain_edition edition, unsigned kind)
{
    return kind >= 1 && kind <= KINDS && plain_records[kind].role != LATER
        && plain_has(edition, kind);
}

unsigned plain_fields(plain_edition edition, unsigned kind)
{
    return plain_is_base(edition, kind) ? plain_records[kind].fields : 0;
}

plain_row plain_field_row(plain_edition edition, unsigned kind, unsigned f)
{
    plain_row out = {0};
    if (f < 1 || f > plain_fields(edition, kind))
        return out;
    row r = plain_row_of(edition, kind, f);
    out.format = r.format;
    out.fixed = r.fixed;
    out.size = r.size;
    out.obligatory = r.obligatory;
    out.values = r.values;
    out.amount = r.rule == AMOUNT;
    out.months = r.rule == MONTHS;
    out.ddd = r.rule == DDD;
    out.telephone = r.rule == TELEPHONE;
    out.cpf_or_cnpj = r.rule == CPF_OR_CNPJ;
    out.cpf = r.rule == CPF;
    out.cnpj = r.rule == CNPJ;
    return out;
}
