/* Document 000 once more, in its own order and words, so that a slip in the checker's tables shows. */
#include <stdio.h>
#include <string.h>

#include "test_source.h"

#define THIRTEEN(row) row row row row row row row row row row row row row
#define TWELVE(row) row row row row row row row row row row row row

/* A row is its format, F or V (fixo, variável), its size, s or n (sim, não), and = with its values where it has some.
   An identifier has no values here, since 3.19 and 3.20 print the same list for many records. */
static const struct { const char *names, *rows; } tables[] = {
    /* 3.1 */ {"Dirf", "CF4s NF4s=2022 NF4s=2021,2022 CF1s=S,N NF12n CF7s=XJFSFHB"},
    /* 3.2 */ {"RESPO", "CF5s NF11s CV60s NF2s NV9s NV6n NV9n CV50n"},
    /* 3.3 */ {"DECPF", "CF5s NF11s CV60s CF1s=S,N CF1s=S,N CF1s=S,N CF1s=S,N CF1s=S,N DF8n NF1n=1,2 CF1s=S,N DF8n NF1n=0,1 "
               "NF11n CV60n"},
    /* 3.4 */ {"DECPJ", "CF5s NF14s CV150s NF1s=0,1,2,3,4,8 NF11s CF1s=S,N CF1s=S,N CF1s=S,N CF1s=S,N CF1s=S,N CF1s=S,N "
               "CF1s=S,N CF1s=S,N DF8n"},
    /* 3.5 */ {"IDREC", "CF5s NF4s"},
    /* 3.6 */ {"BPFDEC", "CF6s NF11s CV60s DF8n CF1s=S,N CF1s=S,N"},
    /* 3.7 */ {"BPJDEC", "CF6s NF14s CV150s"},
    /* 3.9 */ {"FCI", "CF3s NF14s CV150s"},
    /* 3.10 */ {"BPFFCI", "CF6s NF11s CV60s DF8n"},
    /* 3.11 */ {"BPJFCI", "CF6s NF14s CV150s"},
    /* 3.12 */ {"PROC", "CF4s NF1s=1,2,3 CV20s NF1n=1,2 NV14n CV150n NV13n"},
    /* 3.13 */ {"BPFPROC", "CF7s NF11s CV60s DF8n"},
    /* 3.14 */ {"BPJPROC", "CF7s NF14s CV150s"},
    /* 3.15 */ {"RRA", "CF3s NF1s=1,2 CV20n NF1n=1,2 NV14n CV150n NV13n"},
    /* 3.16 */ {"BPFRRA", "CF6s NF11s CV60s CV50n DF8n CF1s=S,N"},
    /* 3.17 */ {"INFPC", "CF5s NF14s CV150s"},
    /* 3.18 */ {"INFPA", "CF5s NF11n DF8n CV60s NF2n=03,04,06,08,10"},
    /* 3.19 */ {"RTRT RTPO RTPP RTFA RTSP RTEP RTDP RTPA RTIRF CJAC CJAA ESRT ESPO ESPP ESFA ESSP ESEP ESDP ESPA ESIR ESDJ RIP65 "
                "RIDAC RIIRP RIAP RIMOG RIRPC RIBMR RICAP RISCP DAJUD", "CV5s" THIRTEEN(" NV13n")},
    /* 3.20 */ {"RIL96 RIPTS RIJMRE RIRSR", "CV6s NV13s"},
    /* 3.21 */ {"RIO", "CF3s NV13s CV60s"},
    /* 3.22 */ {"QTMESES", "CF7s" TWELVE(" NV4n")},
    /* 3.23 */ {"SCP", "CF3s NF14s CV150s"},
    /* 3.24 */ {"BPFSCP", "CF6s NF11s CV60s NV4n"},
    /* 3.25 */ {"BPJSCP", "CF6s NF14s CV150s CV4n"},
    /* 3.26 */ {"PSE", "CF3s"},
    /* 3.27 */ {"OPSE", "CF4s NF14s CV150s NF6n"},
    /* 3.28 */ {"TPSE", "CF4s NF11s CV60s NV9s"},
    /* 3.29 */ {"RTPSE", "CF5s NV14s CV150s NV9n NV9n"},
    /* 3.30 */ {"DTPSE", "CF5s NF11n DF8n CV60s NF2n=03,04,06,08,10 NV9s"},
    /* 3.31 */ {"RDTPSE", "CF6s NV14s CV150s NV9n NV9n"},
    /* 3.36 */ {"FIMDirf", "CF7s"},
};

/* Records below VPEIM, RPDE and INF are left out with these. */
static const struct { const char *declarant, *parent, *children; } lists[] = {
    /* 2.1 */
    {"DECPF", "DECPF", "IDREC RRA SCP PSE"},
    {"DECPF", "IDREC", "BPFDEC BPJDEC BPFRRA"},
    {"DECPF", "BPFDEC", "RTRT RTPO RTDP RTIRF CJAC CJAA ESRT ESPO ESDP ESIR ESDJ INFPC INFPA RIDAC RIIRP RIAP RIP65 RIJMRE RIO"},
    {"DECPF", "INFPC", "RTPP RTFA ESPP ESFA"},
    {"DECPF", "INFPA", "RTPA ESPA"},
    {"DECPF", "BPJDEC", "RTRT RTIRF"},
    {"DECPF", "RRA", "IDREC"},
    {"DECPF", "BPFRRA", "RTRT RTPO RTIRF DAJUD QTMESES RIJMRE INFPA"},
    {"DECPF", "SCP", "BPFSCP BPJSCP"},
    {"DECPF", "BPFSCP", "RISCP"},
    {"DECPF", "BPJSCP", "RISCP"},
    {"DECPF", "PSE", "OPSE"},
    {"DECPF", "OPSE", "TPSE"},
    {"DECPF", "TPSE", "RTPSE DTPSE"},
    {"DECPF", "DTPSE", "RDTPSE"},
    /* 2.2 */
    {"DECPJ", "DECPJ", "IDREC FCI PROC RRA SCP PSE"},
    {"DECPJ", "IDREC", "BPFDEC BPJDEC BPFFCI BPJFCI BPFPROC BPJPROC BPFRRA"},
    {"DECPJ", "BPFDEC", "RTRT RTPO RTDP RTIRF CJAC CJAA ESRT ESPO ESDP ESIR ESDJ INFPC INFPA RIDAC RIIRP RIAP RIMOG RIP65 RIBMR "
     "RICAP RIRPC RIL96 RIPTS RIJMRE RIO"},
    {"DECPJ", "INFPC", "RTPP RTFA RTSP RTEP ESPP ESFA ESSP ESEP"},
    {"DECPJ", "INFPA", "RTPA ESPA"},
    {"DECPJ", "BPJDEC", "RTRT RTIRF"},
    {"DECPJ", "FCI", "IDREC"},
    {"DECPJ", "BPFFCI", "RTRT RTIRF CJAC CJAA ESRT ESIR ESDJ RIP65 RIMOG RICAP RIO"},
    {"DECPJ", "BPJFCI", "RTRT RTIRF"},
    {"DECPJ", "PROC", "IDREC"},
    {"DECPJ", "BPFPROC", "RTRT RTPO RTDP RTIRF CJAC CJAA ESRT ESPO ESDP ESIR ESDJ RTPP RTFA RTSP ESPP ESFA ESSP RTPA ESPA "
     "RIMOG RIJMRE RIRSR"},
    {"DECPJ", "BPJPROC", "RTRT RTIRF RIRSR"},
    {"DECPJ", "RRA", "IDREC"},
    {"DECPJ", "BPFRRA", "RTRT RTPO INFPA RTIRF RIMOG RIP65 RIJMRE DAJUD QTMESES"},
    {"DECPJ", "SCP", "BPFSCP BPJSCP"},
    {"DECPJ", "BPFSCP", "RISCP"},
    {"DECPJ", "BPJSCP", "RISCP"},
    {"DECPJ", "PSE", "OPSE"},
    {"DECPJ", "OPSE", "TPSE"},
    {"DECPJ", "TPSE", "RTPSE DTPSE"},
    {"DECPJ", "DTPSE", "RDTPSE"},
};

int source_holds(const char *words, const char *word)
{
    size_t len = strlen(word);
    for (const char *s = words; len > 0 && (s = strstr(s, word)) != NULL; s++)
        if ((s == words || s[-1] == ' ') && (s[len] == ' ' || s[len] == 0))
            return 1;
    return 0;
}

/* Row f, from 1, of rows with one blank between. */
static source_line nth_row(const char *rows, unsigned f)
{
    source_line r = {0};
    char word[40], fixed, obligatory;
    int used;
    for (const char *s = rows; sscanf(s, "%39s%n", word, &used) == 1; s += used)
        if (--f == 0) {
            sscanf(word, "%c%c%u%c=%31s", &r.format, &fixed, &r.size, &obligatory, r.values);
            r.fixed = fixed == 'F';
            r.obligatory = obligatory == 's';
            break;
        }
    return r;
}

source_line source_row(const char *name, unsigned f)
{
    for (unsigned i = 0; i < sizeof tables / sizeof *tables; i++)
        if (source_holds(tables[i].names, name))
            return nth_row(tables[i].rows, f);
    return (source_line){0};
}

int source_below(const char *declarant, const char *parent, const char *child)
{
    for (unsigned i = 0; i < sizeof lists / sizeof *lists; i++)
        if (strcmp(lists[i].declarant, declarant) == 0 && strcmp(lists[i].parent, parent) == 0)
            return source_holds(lists[i].children, child);
    return 0;
}
