/* The fields of every base kind behind its identifier, and the values that the sources print. */
#include "tuned_inner.h"

enum values { ANY, YES_NO, ONE_OR_TWO, ZERO_OR_ONE, ONE_TO_THREE, NATURES, RELATIONS, YEAR, CALENDAR_YEAR, MARK, OLDER_YEAR,
              OLDER_CALENDAR_YEARS, OLDER_MARK };

const char *const tuned_values[] = {
    [YES_NO] = "SN", [ONE_OR_TWO] = "12", [ZERO_OR_ONE] = "01", [ONE_TO_THREE] = "123", [NATURES] = "012348",
    [RELATIONS] = "0304060810",
    [YEAR] = "2025", [CALENDAR_YEAR] = "2024", [MARK] = "R6GP3ZA",
    [OLDER_YEAR] = "2022", [OLDER_CALENDAR_YEARS] = "20212022", [OLDER_MARK] = "XJFSFHB",
};

#define MAY 0
#define MUST 1
#define A_CPF {CPF, 11, 1, MUST, ANY}
#define A_CNPJ {CNPJ, 14, 1, MUST, ANY}
#define NAME(size) {TEXT, size, 1, MUST, ANY}
#define NOTE(size) {TEXT, size, 1, MAY, ANY}
#define FLAGS(count) {FLAG, 1, count, MUST, YES_NO}
#define A_DATE {DATE, 8, 1, MAY, ANY}
#define CHOICE(must, values) {DIGITS, 1, 1, must, values}
#define LAWYER CHOICE(MAY, ONE_OR_TWO), {EITHER, 14, 1, MAY, ANY}, NOTE(150), {AMOUNT, 13, 1, MAY, ANY}
#define RELATIVE {OPTIONAL_CPF, 11, 1, MAY, ANY}, A_DATE, NAME(60), {DIGITS, 2, 1, MAY, RELATIONS}
#define LAST {DONE, 0, 0, 0, ANY}
#define DIRF_ROWS(year, calendar_years, mark) \
    {{DIGITS, 4, 1, MUST, year}, {DIGITS, 4, 1, MUST, calendar_years}, FLAGS(1), {DIGITS, 12, 1, MAY, ANY}, {WORD, 7, 1, MUST, mark}, LAST}

static const row dirf[] = DIRF_ROWS(YEAR, CALENDAR_YEAR, MARK);
static const row older_dirf[] = DIRF_ROWS(OLDER_YEAR, OLDER_CALENDAR_YEARS, OLDER_MARK);
static const row respo[] = {
    A_CPF, NAME(60), {DDD, 2, 1, MUST, ANY}, {PHONE, 9, 1, MUST, ANY}, {UP_TO, 6, 1, MAY, ANY}, {PHONE, 9, 1, MAY, ANY}, NOTE(50), LAST};
static const row decpf[] = {
    A_CPF, NAME(60), FLAGS(5), A_DATE, CHOICE(MAY, ONE_OR_TWO), FLAGS(1), A_DATE, CHOICE(MAY, ZERO_OR_ONE), {OPTIONAL_CPF, 11, 1, MAY, ANY},
    NOTE(60), LAST};
static const row decpj[] = {A_CNPJ, NAME(150), CHOICE(MUST, NATURES), A_CPF, FLAGS(8), A_DATE, LAST};
static const row idrec[] = {{DIGITS, 4, 1, MUST, ANY}, LAST};
static const row bpfdec[] = {A_CPF, NAME(60), A_DATE, FLAGS(2), LAST};
static const row company[] = {A_CNPJ, NAME(150), LAST};
static const row dated_person[] = {A_CPF, NAME(60), A_DATE, LAST};
static const row proc[] = {CHOICE(MUST, ONE_TO_THREE), NAME(20), LAWYER, LAST};
static const row rra[] = {CHOICE(MUST, ONE_OR_TWO), NOTE(20), LAWYER, LAST};
static const row bpfrra[] = {A_CPF, NAME(60), NOTE(50), A_DATE, FLAGS(1), LAST};
static const row bpfscp[] = {A_CPF, NAME(60), {UP_TO, 4, 1, MAY, ANY}, LAST};
static const row bpjscp[] = {A_CNPJ, NAME(150), NOTE(4), LAST};
static const row monthly[] = {{AMOUNT, 13, 13, MAY, ANY}, LAST};
static const row yearly[] = {{DUE, 13, 1, MUST, ANY}, LAST};
static const row rio[] = {{DUE, 13, 1, MUST, ANY}, NAME(60), LAST};
static const row qtmeses[] = {{AMOUNT, 4, 12, MAY, ANY}, LAST};
static const row infpa[] = {RELATIVE, LAST};
static const row opse[] = {A_CNPJ, NAME(150), {DIGITS, 6, 1, MAY, ANY}, LAST};
static const row tpse[] = {A_CPF, NAME(60), {DUE, 9, 1, MUST, ANY}, LAST};
static const row dtpse[] = {RELATIVE, {DUE, 9, 1, MUST, ANY}, LAST};
static const row refund[] = {{EITHER, 14, 1, MUST, ANY}, NAME(150), {AMOUNT, 9, 2, MAY, ANY}, LAST};
static const row identifier_alone[] = {LAST};

/* Both editions share all rows but Dirf's. */
#define ALL_ROWS(first_line) { \
    [RTRT] = monthly, [RTPO] = monthly, [RTDP] = monthly, [RTDS] = monthly, [RTIRF] = monthly, [CJAC] = monthly, [CJAA] = monthly, \
    [ESRT] = monthly, [ESPO] = monthly, [ESDP] = monthly, [ESDS] = monthly, [ESIR] = monthly, [ESDJ] = monthly, [RTPP] = monthly, \
    [RTFA] = monthly, [RTSP] = monthly, [RTEP] = monthly, [ESPP] = monthly, [ESFA] = monthly, [ESSP] = monthly, [ESEP] = monthly, \
    [RTPA] = monthly, [ESPA] = monthly, [INFPC] = company, [INFPA] = infpa, [OPSE] = opse, [TPSE] = tpse, [RTPSE] = refund, \
    [DTPSE] = dtpse, [RDTPSE] = refund, [PSE] = identifier_alone, \
    [RIDAC] = monthly, [RIIRP] = monthly, [RIAP] = monthly, [RIMOG] = monthly, [RIP65] = monthly, [RIBMR] = monthly, \
    [RICAP] = monthly, [RIRPC] = monthly, [DAJUD] = monthly, [RISCP] = monthly, \
    [RIL96] = yearly, [RIPTS] = yearly, [RIJMRE] = yearly, [RIRSR] = yearly, [RIO] = rio, [QTMESES] = qtmeses, \
    [BPFDEC] = bpfdec, [BPJDEC] = company, [BPFFCI] = dated_person, [BPJFCI] = company, [BPFPROC] = dated_person, [BPJPROC] = company, \
    [BPFRRA] = bpfrra, [BPFSCP] = bpfscp, [BPJSCP] = bpjscp, [IDREC] = idrec, [FCI] = company, [PROC] = proc, [RRA] = rra, \
    [SCP] = company, [DIRF] = first_line, [RESPO] = respo, [DECPF] = decpf, [DECPJ] = decpj, [FIMDIRF] = identifier_alone}

const row *const tuned_rows[EDITIONS][KINDS] = {[NEWER] = ALL_ROWS(dirf), [OLDER] = ALL_ROWS(older_dirf)};
