/* The identifier: its length, a switch on its first byte, then the rest compared with the fixed names.
   A header, so that it is compiled into the one loop over the lines. */
#ifndef TUNED_NAMES_H
#define TUNED_NAMES_H

#include "tuned_inner.h"
#include "tuned_words.h"

#define TWO(a, b) ((uint64_t)(a) | (uint64_t)(b) << 8)
#define THREE(a, b, c) (TWO(a, b) | (uint64_t)(c) << 16)
#define FOUR(a, b, c, d) (THREE(a, b, c) | (uint64_t)(d) << 24)
#define FIVE(a, b, c, d, e) (FOUR(a, b, c, d) | (uint64_t)(e) << 32)
#define SIX(a, b, c, d, e, f) (FIVE(a, b, c, d, e) | (uint64_t)(f) << 40)

static inline unsigned is(uint64_t rest, uint64_t name, unsigned kind)
{
    return rest == name ? kind : UNKNOWN;
}

static inline unsigned three_r(uint64_t rest)
{
    return rest == TWO('I', 'O') ? RIO : is(rest, TWO('R', 'A'), RRA);
}

static inline unsigned four_r(uint64_t rest)
{
    switch (rest) {
    case THREE('T', 'R', 'T'): return RTRT;
    case THREE('T', 'P', 'O'): return RTPO;
    case THREE('T', 'D', 'P'): return RTDP;
    case THREE('T', 'D', 'S'): return RTDS;
    case THREE('T', 'P', 'P'): return RTPP;
    case THREE('T', 'F', 'A'): return RTFA;
    case THREE('T', 'S', 'P'): return RTSP;
    case THREE('T', 'P', 'A'): return RTPA;
    case THREE('I', 'A', 'P'): return RIAP;
    case THREE('T', 'E', 'P'): return RTEP;
    case THREE('P', 'D', 'E'): return LATER;
    default: return UNKNOWN;
    }
}

static inline unsigned four_e(uint64_t rest)
{
    switch (rest) {
    case THREE('S', 'R', 'T'): return ESRT;
    case THREE('S', 'P', 'O'): return ESPO;
    case THREE('S', 'D', 'P'): return ESDP;
    case THREE('S', 'D', 'S'): return ESDS;
    case THREE('S', 'I', 'R'): return ESIR;
    case THREE('S', 'D', 'J'): return ESDJ;
    case THREE('S', 'P', 'P'): return ESPP;
    case THREE('S', 'F', 'A'): return ESFA;
    case THREE('S', 'S', 'P'): return ESSP;
    case THREE('S', 'P', 'A'): return ESPA;
    case THREE('S', 'E', 'P'): return ESEP;
    default: return UNKNOWN;
    }
}

static inline unsigned five_r(uint64_t rest)
{
    switch (rest) {
    case FOUR('T', 'I', 'R', 'F'): return RTIRF;
    case FOUR('I', 'D', 'A', 'C'): return RIDAC;
    case FOUR('I', 'I', 'R', 'P'): return RIIRP;
    case FOUR('I', 'M', 'O', 'G'): return RIMOG;
    case FOUR('I', 'P', '6', '5'): return RIP65;
    case FOUR('I', 'B', 'M', 'R'): return RIBMR;
    case FOUR('I', 'C', 'A', 'P'): return RICAP;
    case FOUR('I', 'R', 'P', 'C'): return RIRPC;
    case FOUR('I', 'L', '9', '6'): return RIL96;
    case FOUR('I', 'P', 'T', 'S'): return RIPTS;
    case FOUR('I', 'R', 'S', 'R'): return RIRSR;
    case FOUR('I', 'S', 'C', 'P'): return RISCP;
    case FOUR('E', 'S', 'P', 'O'): return RESPO;
    case FOUR('I', 'M', 'U', 'N'): return LATER;
    case FOUR('I', 'S', 'E', 'N'): return LATER;
    case FOUR('T', 'P', 'S', 'E'): return RTPSE;
    default: return UNKNOWN;
    }
}

static inline unsigned five_d(uint64_t rest)
{
    switch (rest) {
    case FOUR('E', 'C', 'P', 'F'): return DECPF;
    case FOUR('E', 'C', 'P', 'J'): return DECPJ;
    case FOUR('A', 'J', 'U', 'D'): return DAJUD;
    case FOUR('T', 'P', 'S', 'E'): return DTPSE;
    default: return UNKNOWN;
    }
}

static inline unsigned five_i(uint64_t rest)
{
    switch (rest) {
    case FOUR('D', 'R', 'E', 'C'): return IDREC;
    case FOUR('N', 'F', 'P', 'C'): return INFPC;
    case FOUR('N', 'F', 'P', 'A'): return INFPA;
    default: return UNKNOWN;
    }
}

static inline unsigned five_v(uint64_t rest)
{
    return rest == FOUR('P', 'E', 'I', 'M') || rest == FOUR('R', 'P', 'D', 'E') ? LATER : UNKNOWN;
}

static inline unsigned six_b(uint64_t rest)
{
    if ((rest & 0xff) != 'P')
        return UNKNOWN;
    switch (rest >> 8) {
    case FOUR('F', 'D', 'E', 'C'): return BPFDEC;
    case FOUR('J', 'D', 'E', 'C'): return BPJDEC;
    case FOUR('F', 'S', 'C', 'P'): return BPFSCP;
    case FOUR('J', 'S', 'C', 'P'): return BPJSCP;
    case FOUR('F', 'R', 'R', 'A'): return BPFRRA;
    case FOUR('F', 'F', 'C', 'I'): return BPFFCI;
    case FOUR('J', 'F', 'C', 'I'): return BPJFCI;
    default: return UNKNOWN;
    }
}

static inline unsigned six_r(uint64_t rest)
{
    return rest == FIVE('I', 'J', 'M', 'R', 'E') ? RIJMRE : is(rest, FIVE('D', 'T', 'P', 'S', 'E'), RDTPSE);
}

static inline unsigned seven_b(uint64_t rest)
{
    return rest == SIX('P', 'F', 'P', 'R', 'O', 'C') ? BPFPROC : is(rest, SIX('P', 'J', 'P', 'R', 'O', 'C'), BPJPROC);
}

static inline unsigned four_c(uint64_t rest)
{
    return rest == THREE('J', 'A', 'C') ? CJAC : is(rest, THREE('J', 'A', 'A'), CJAA);
}

static inline unsigned of_three(uint64_t rest, uint8_t first)
{
    switch (first) {
    case 'R': return three_r(rest);
    case 'F': return is(rest, TWO('C', 'I'), FCI);
    case 'S': return is(rest, TWO('C', 'P'), SCP);
    case 'P': return is(rest, TWO('S', 'E'), PSE);
    case 'I': return is(rest, TWO('N', 'F'), LATER);
    default: return UNKNOWN;
    }
}

static inline unsigned of_four(uint64_t rest, uint8_t first)
{
    switch (first) {
    case 'R': return four_r(rest);
    case 'E': return four_e(rest);
    case 'C': return four_c(rest);
    case 'P': return is(rest, THREE('R', 'O', 'C'), PROC);
    case 'D': return is(rest, THREE('i', 'r', 'f'), DIRF);
    case 'O': return is(rest, THREE('P', 'S', 'E'), OPSE);
    case 'T': return is(rest, THREE('P', 'S', 'E'), TPSE);
    default: return UNKNOWN;
    }
}

static inline unsigned of_five(uint64_t rest, uint8_t first)
{
    switch (first) {
    case 'R': return five_r(rest);
    case 'I': return five_i(rest);
    case 'D': return five_d(rest);
    case 'V': return five_v(rest);
    case 'B': return is(rest, FOUR('R', 'P', 'D', 'E'), LATER);
    default: return UNKNOWN;
    }
}

static inline unsigned of_six(uint64_t rest, uint8_t first)
{
    return first == 'B' ? six_b(rest) : first == 'R' ? six_r(rest) : UNKNOWN;
}

static inline unsigned of_seven(uint64_t rest, uint8_t first)
{
    switch (first) {
    case 'B': return seven_b(rest);
    case 'Q': return is(rest, SIX('T', 'M', 'E', 'S', 'E', 'S'), QTMESES);
    case 'F': return is(rest, SIX('I', 'M', 'D', 'i', 'r', 'f'), FIMDIRF);
    default: return UNKNOWN;
    }
}

/* The kind that a line names, LATER and UNKNOWN too; eight bytes may be read.
   No name is shorter than three bytes or has a bar in it, so a bar before the third shows when the rest is compared. */
static inline unsigned kind_of(const uint8_t *at)
{
    uint64_t rest = load(at) >> 8;
    if (at[3] == BAR)
        return of_three(rest & 0xffff, at[0]);
    if (at[4] == BAR)
        return of_four(rest & 0xffffff, at[0]);
    if (at[5] == BAR)
        return of_five(rest & 0xffffffff, at[0]);
    if (at[6] == BAR)
        return of_six(rest & 0xffffffffff, at[0]);
    return at[7] == BAR ? of_seven(rest & 0xffffffffffff, at[0]) : UNKNOWN;
}

static const uint8_t name_len[KINDS] = {
    [RTRT] = 4, [RTPO] = 4, [RTDP] = 4, [RTDS] = 4, [RTIRF] = 5, [CJAC] = 4, [CJAA] = 4, [ESRT] = 4, [ESPO] = 4, [ESDP] = 4, [ESDS] = 4,
    [ESIR] = 4, [ESDJ] = 4, [RTPP] = 4, [RTFA] = 4, [RTSP] = 4, [RTEP] = 4, [ESPP] = 4, [ESFA] = 4, [ESSP] = 4, [ESEP] = 4, [RTPA] = 4,
    [ESPA] = 4, [INFPC] = 5, [INFPA] = 5, [RTPSE] = 5, [DTPSE] = 5, [RDTPSE] = 6, [TPSE] = 4, [OPSE] = 4, [PSE] = 3,
    [RIDAC] = 5, [RIIRP] = 5, [RIAP] = 4, [RIMOG] = 5, [RIP65] = 5, [RIBMR] = 5, [RICAP] = 5, [RIRPC] = 5, [DAJUD] = 5, [RISCP] = 5,
    [RIL96] = 5, [RIPTS] = 5, [RIJMRE] = 6, [RIRSR] = 5, [RIO] = 3, [QTMESES] = 7,
    [BPFDEC] = 6, [BPJDEC] = 6, [BPFFCI] = 6, [BPJFCI] = 6, [BPFPROC] = 7, [BPJPROC] = 7, [BPFRRA] = 6, [BPFSCP] = 6, [BPJSCP] = 6,
    [IDREC] = 5, [FCI] = 3, [PROC] = 4, [RRA] = 3, [SCP] = 3, [DIRF] = 4, [RESPO] = 5, [DECPF] = 5, [DECPJ] = 5, [FIMDIRF] = 7,
};

#endif
