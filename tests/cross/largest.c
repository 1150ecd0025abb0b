#include "largest.h"

#include <stdio.h>

#include "../makers/people.h"
#include "../plain/plain_inner.h"

#define LARGEST "9999999999999"
#define LARGEST_REFUND "999999999"

/* So many persons have all that may stand below a BPFDEC, so many pay alone, and so many stand in each of PROC, RRA and SCP. */
enum { FULL = 300, PAY_ALONE = 20000, IN_BLOCK = 100, HOLDERS_REFUNDS = 6000 };
/* What is left for RDTPSE: without RTDS and ESDS a full person has two lines less. */
static const unsigned dependants_refunds[EDITIONS] = {[PLAIN_2025] = 7422, [PLAIN_2022] = 7422 + 2 * FULL};

static const unsigned of_person[] = {
    RTRT, RTPO, RTDP, RTDS, RTIRF, CJAC, CJAA, ESRT, ESPO, ESDP, ESDS, ESIR, ESDJ, RIDAC, RIIRP, RIAP, RIMOG, RIP65, RIBMR, RICAP, RIRPC,
    RIL96, RIPTS, RIJMRE, RIO, INFPC, RTPP, RTFA, RTSP, RTEP, ESPP, ESFA, ESSP, ESEP, INFPA, RTPA, ESPA,
};

/* The file as it is written, and the serial number of its last CPF. */
typedef struct {
    char *to;
    unsigned people;
    plain_edition edition;
} written;

static void put(written *w, const char *text)
{
    w->to += sprintf(w->to, "%s", text);
}

/* A line with the next CPF in field 2. */
static void put_person(written *w, const char *front, const char *behind)
{
    char cpf[CPF_SIZE + 1] = "";
    make_cpf(++w->people, cpf);
    w->to += sprintf(w->to, "%s|%s|%s|\r\n", front, cpf, behind);
}

static void put_times(written *w, const char *text, unsigned times)
{
    for (; times > 0; times--)
        put(w, text);
}

/* A line of a person's list; the two groups have no amounts, and the text of a RIO, though nines too, is none. */
static void put_kind(written *w, unsigned kind)
{
    put(w, plain_name(kind));
    switch (kind) {
    case INFPC: put(w, "|11222333000181|A|\r\n"); break;
    case INFPA: put(w, "|11144477735||A||\r\n"); break;
    case RIO: put(w, "|" LARGEST "|" LARGEST "|\r\n"); break;
    case RIL96: case RIPTS: case RIJMRE: case RIRSR: put(w, "|" LARGEST "|\r\n"); break;
    case QTMESES: put_times(w, "|9999", 12); put(w, "|\r\n"); break;
    default: put_times(w, "|" LARGEST, 13); put(w, "|\r\n");
    }
}

static void put_full_person(written *w)
{
    put_person(w, "BPFDEC", "A||S|S");
    for (unsigned i = 0; i < sizeof of_person / sizeof *of_person; i++)
        if (plain_has(w->edition, of_person[i]))
            put_kind(w, of_person[i]);
}

/* A block whose every person has these kinds, the second of them NO_KIND where there is one alone. */
static void put_block(written *w, const char *head, const char *front, const char *behind, unsigned kind, unsigned second)
{
    put(w, head);
    for (unsigned i = 0; i < IN_BLOCK; i++) {
        put_person(w, front, behind);
        put_kind(w, kind);
        if (second != NO_KIND)
            put_kind(w, second);
    }
}

static void put_plan(written *w)
{
    const char *refund = LARGEST_REFUND "|" LARGEST_REFUND "|" LARGEST_REFUND;
    put(w, "PSE|\r\nOPSE|11222333000181|A||\r\nTPSE|11144477735|A|" LARGEST_REFUND "|\r\n");
    for (unsigned i = 0; i < HOLDERS_REFUNDS; i++)
        put_person(w, "RTPSE", refund);
    put(w, "DTPSE|11144477735||A||" LARGEST_REFUND "|\r\n");
    for (unsigned i = 0; i < dependants_refunds[w->edition]; i++)
        put_person(w, "RDTPSE", refund);
}

size_t largest_file(uint8_t *file, plain_edition edition)
{
    written w = {(char *)file, 0, edition};
    put(&w, line_one(edition));
    put(&w, "RESPO|11144477735|ANA LIMA|11|33334444||||\r\n");
    w.to += make_declarant(1, HAS_SCP | HAS_PSE, w.to);
    put(&w, "IDREC|0561|\r\n");
    for (unsigned i = 0; i < FULL; i++)
        put_full_person(&w);
    for (unsigned i = 0; i < PAY_ALONE; i++) {
        put_person(&w, "BPFDEC", "A||N|N");
        put_kind(&w, RTRT);
    }
    put_block(&w, "PROC|1|A||||" LARGEST "|\r\nIDREC|0561|\r\n", "BPFPROC", "A|", RIRSR, NO_KIND);
    put_block(&w, "RRA|1|A||||" LARGEST "|\r\nIDREC|0561|\r\n", "BPFRRA", "A|||N", DAJUD, QTMESES);
    put_block(&w, "SCP|11222333000181|A|\r\n", "BPFSCP", "A|", RISCP, NO_KIND);
    put_plan(&w);
    put(&w, "FIMDirf|\r\n");
    return (size_t)(w.to - (char *)file);
}

uint64_t largest_total(plain_edition edition, unsigned kind)
{
    if (!plain_has(edition, kind))
        return 0;
    switch (kind) {
    case RTRT:                      /* 20,300 lines x 13 amounts = 263,900, x 9,999,999,999,999 */
        return UINT64_C(2638999999999736100);
    case RTPO: case RTDP: case RTDS: case RTIRF: case CJAC: case CJAA: case ESRT: case ESPO: case ESDP: case ESDS: case ESIR: case ESDJ:
    case RTPP: case RTFA: case RTSP: case RTEP: case ESPP: case ESFA: case ESSP: case ESEP: case RTPA: case ESPA:
    case RIDAC: case RIIRP: case RIAP: case RIMOG: case RIP65: case RIBMR: case RICAP: case RIRPC:
        return UINT64_C(38999999999996100);         /* 300 lines x 13 amounts = 3,900, x 9,999,999,999,999 */
    case RIL96: case RIPTS: case RIJMRE: case RIO:
        return UINT64_C(2999999999999700);          /* 300 lines x 9,999,999,999,999 */
    case RIRSR:
        return UINT64_C(999999999999900);           /* 100 lines x 9,999,999,999,999 */
    case DAJUD: case RISCP:
        return UINT64_C(12999999999998700);         /* 100 lines x 13 amounts = 1,300, x 9,999,999,999,999 */
    case RTPSE:
        return UINT64_C(11999999988000);            /* 6,000 lines x 2 amounts = 12,000, x 999,999,999 */
    case RDTPSE:                    /* 7,422 lines x 2 amounts = 14,844, or 8,022 x 2 = 16,044, x 999,999,999 */
        return edition == PLAIN_2025 ? UINT64_C(14843999985156) : UINT64_C(16043999983956);
    default:                        /* QTMESES among them, and PROC, RRA, TPSE and DTPSE with their amounts */
        return 0;
    }
}
