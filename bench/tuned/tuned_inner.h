/* What the parts of the tuned checker share with each other and with nobody else. */
#ifndef TUNED_INNER_H
#define TUNED_INNER_H

#include "tuned.h"

/* Value kinds come first, so that a small number is one of them; they fit one word of bits, and the others another. */
enum kind {
    RTRT, RTPO, RTDP, RTDS, RTIRF, CJAC, CJAA, ESRT, ESPO, ESDP, ESDS, ESIR, ESDJ,
    RTPP, RTFA, RTSP, RTEP, ESPP, ESFA, ESSP, ESEP, RTPA, ESPA,
    RIDAC, RIIRP, RIAP, RIMOG, RIP65, RIBMR, RICAP, RIRPC, DAJUD, RISCP,
    RIL96, RIPTS, RIJMRE, RIRSR, RIO, QTMESES,
    VALUES,
    /* the deepest records that have a key */
    INFPC = VALUES, INFPA, RTPSE, DTPSE, RDTPSE,
    BPFDEC, BPJDEC, BPFFCI, BPJFCI, BPFPROC, BPJPROC, BPFRRA, BPFSCP, BPJSCP, TPSE,
    IDREC, OPSE,
    FCI, PROC, RRA, SCP, PSE,
    DIRF, RESPO, DECPF, DECPJ, FIMDIRF,
    KINDS,
    /* no place ever has these */
    LATER = KINDS, UNKNOWN
};

enum edition { NEWER, OLDER, EDITIONS };

/* How a field is judged; DUE is an amount that must be filled. Those before GENERAL have a quick way of their own. */
enum op { DONE, AMOUNT, DUE, CPF, CNPJ, TEXT, FLAG, DATE, GENERAL, DIGITS = GENERAL, UP_TO, WORD, DDD, PHONE, EITHER, OPTIONAL_CPF };

enum { CPF_SIZE = 11, CNPJ_SIZE = 14 };

/* One field, or `count` alike. Values, where there are any, stand one after another, each of the row's size. */
typedef struct { uint8_t op, size, count, must, values; } row;

extern const row *const tuned_rows[EDITIONS][KINDS];
extern const char *const tuned_values[];

/* Where a check stands: what is open. The place of an IDREC or OPSE follows that of its block. */
enum place {
    FOR_DIRF, FOR_RESPO, FOR_DECLARANT,
    NO_BLOCK, NO_BLOCK_CODE, IN_FCI, IN_FCI_CODE, IN_PROC, IN_PROC_CODE, IN_RRA, IN_RRA_CODE, IN_SCP, IN_SCP_CODE, IN_PSE, IN_PSE_CODE,
    OF_BPFDEC, OF_BPJDEC, OF_BPFFCI, OF_BPJFCI, OF_BPFPROC, OF_BPJPROC, OF_BPFRRA, OF_BPFSCP, OF_BPJSCP, OF_TPSE, OF_DTPSE,
    PLACES
};

/* Value kinds that may stand next, one bit each, and the other kinds. */
typedef struct { uint64_t values, others; } next_kinds;

/* Under DECPF, then under DECPJ. */
extern const next_kinds tuned_next[2][PLACES];

/* The values of an INFPC under either declarant. */
extern const uint64_t tuned_pension[2];

#define BIT(kind) (UINT64_C(1) << (kind))
#define OTHER(kind) (UINT64_C(1) << ((kind) - VALUES))

/* The values of an INFPA, and those that a BPFRRA's has. */
#define ALIMONY (BIT(RTPA) | BIT(ESPA))
#define PAST_ALIMONY BIT(RTPA)

/* How far the fields of a line passed: at the row DONE all did; else `at` is where the first that did not begins. */
typedef struct { const row *row; const uint8_t *at; } walk;

typedef struct { uint32_t number, field; } breach;

/* A line that did not pass, and its first breach or the place of it. */
typedef struct {
    const uint8_t *line, *end;      /* its begin, and the end of the file */
    const row *rows;                /* of its kind */
    walk stop;
    uint32_t number;                /* 9, 10 or 12, or 0 where it is for the field at the stop to say */
} stopped;

/* Looks on to the line's end, which may give a number that comes before the breach in document 01's order. */
breach tuned_settle(const stopped *s);

/* 0, or 13 to 18 or 26 of one field. */
uint32_t tuned_rule(const row *r, const uint8_t *at, size_t len);

/* Year, month, day in eight digits. */
int tuned_is_date(const uint8_t *at);

/* 0, or the lowest field of a DECPF in which a condition is broken; its fields passed. */
uint32_t tuned_condition(const uint8_t *line);

/* The same of a PROC or RRA, from its field 2 on. */
uint32_t tuned_lawyer(const uint8_t *key);

enum edition tuned_edition(const uint8_t *file, size_t len);

/* The check digit, as a byte of a file, that a sum of weighted digits asks for; the greatest sum is 585, a CPF's. */
enum { SUMS = 54 * 11 };
extern const uint8_t tuned_check_digit[SUMS];

/* What a byte is, in one look; the first two may stand in a text. */
enum byte_class { A_CHARACTER, A_DIGIT, A_BAR, A_LINE_END };
extern const uint8_t tuned_class[256];

enum { BAR = '|', CR = '\r', LF = '\n' };

#endif
