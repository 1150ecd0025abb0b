/* Change A3: where its records stand, what they close, their keys, the PSE block, their fields, and files cut and closed. */
#include <stdio.h>
#include <stdlib.h>
#include <string.h>

#include "test_groups.h"
#include "test_help.h"
#include "test_source.h"

#define A3_KINDS "INFPC INFPA RTEP ESEP PSE OPSE TPSE RTPSE DTPSE RDTPSE"
#define MOVED "RTPP RTFA RTSP ESPP ESFA ESSP RTPA ESPA"

/* ---- places ---- */

/* A file down a path of names, each with a greater key than the ones before, and the lines that it has. */
static text chain(unsigned d, const char *path, const char *next, uint32_t *lines)
{
    text t = head(d, people_blocks(path, ' ') | people_blocks(next, ' '));
    char line[512], name[16];
    int used;
    *lines = 3;
    for (const char *s = path; sscanf(s, "%15s%n", name, &used) == 1; s += used) {
        good_line(named(name), 10 * ++*lines, line);
        add_line(&t, line);
    }
    return t;
}

/* What may stand after a path, each with its parent's line; 21 stands for a repetition. */
static const struct { const char *declarants, *path, *may; } contexts[] = {
    {"FJ", "", "PSE@3"}, {"FJ", "IDREC", "PSE@3"}, {"FJ", "IDREC BPJDEC", "PSE@3"}, {"FJ", "IDREC BPJDEC RTRT", "PSE@3"},
    {"FJ", "IDREC BPFDEC", "INFPC@5 INFPA@5 PSE@3"}, {"FJ", "IDREC BPFDEC RTRT", "INFPC@5 INFPA@5 PSE@3"},
    {"F", "IDREC BPFDEC INFPC", "INFPC@5 INFPA@5 PSE@3 RTPP@6 RTFA@6 ESPP@6 ESFA@6"},
    {"J", "IDREC BPFDEC INFPC", "INFPC@5 INFPA@5 PSE@3 RTPP@6 RTFA@6 RTSP@6 RTEP@6 ESPP@6 ESFA@6 ESSP@6 ESEP@6"},
    {"F", "IDREC BPFDEC INFPC RTPP", "INFPC@5 INFPA@5 PSE@3 RTPP@21 RTFA@6 ESPP@6 ESFA@6"},
    {"J", "IDREC BPFDEC INFPC RTEP", "INFPC@5 INFPA@5 PSE@3 RTPP@6 RTFA@6 RTSP@6 RTEP@21 ESPP@6 ESFA@6 ESSP@6 ESEP@6"},
    {"J", "IDREC BPFDEC INFPC ESEP RTPP", "INFPC@5 INFPA@5 PSE@3 RTPP@21 RTFA@6 RTSP@6 RTEP@6 ESPP@6 ESFA@6 ESSP@6 ESEP@21"},
    {"F", "IDREC BPFDEC RTRT INFPC", "INFPC@5 INFPA@5 PSE@3 RTPP@7 RTFA@7 ESPP@7 ESFA@7"},
    {"FJ", "IDREC BPFDEC INFPC RTRT", "INFPC@5 INFPA@5 PSE@3"}, {"FJ", "IDREC BPFDEC INFPC RTPP RIO", "INFPC@5 INFPA@5 PSE@3"},
    {"FJ", "IDREC BPFDEC INFPA", "INFPC@5 INFPA@5 PSE@3 RTPA@6 ESPA@6"},
    {"FJ", "IDREC BPFDEC INFPA ESPA", "INFPC@5 INFPA@5 PSE@3 RTPA@6 ESPA@21"},
    {"FJ", "IDREC BPFDEC INFPC INFPA", "INFPC@5 INFPA@5 PSE@3 RTPA@7 ESPA@7"},
    {"F", "IDREC BPFDEC INFPA INFPC", "INFPC@5 INFPA@5 PSE@3 RTPP@7 RTFA@7 ESPP@7 ESFA@7"},
    {"FJ", "IDREC BPFDEC INFPA RTPA INFPA", "INFPC@5 INFPA@5 PSE@3 RTPA@8 ESPA@8"},
    {"FJ", "IDREC BPFDEC INFPA RIDAC", "INFPC@5 INFPA@5 PSE@3"},
    {"FJ", "IDREC BPFDEC INFPC BPFDEC", "INFPC@7 INFPA@7 PSE@3"}, {"FJ", "IDREC BPFDEC INFPC BPJDEC", "PSE@3"},
    {"FJ", "IDREC BPFDEC INFPA IDREC", "PSE@3"}, {"FJ", "IDREC BPFDEC INFPA RRA", "PSE@3"},
    {"FJ", "IDREC BPFDEC INFPA SCP", "PSE@3"}, {"FJ", "IDREC BPFDEC INFPC PSE", "OPSE@7"},
    {"FJ", "IDREC BPFDEC INFPC IDREC BPFDEC", "INFPC@8 INFPA@8 PSE@3"},
    {"FJ", "RRA", "PSE@3"}, {"FJ", "RRA IDREC", "PSE@3"}, {"FJ", "RRA IDREC BPFRRA", "INFPA@6 PSE@3"},
    {"FJ", "RRA IDREC BPFRRA INFPA", "INFPA@6 PSE@3 RTPA@7"}, {"FJ", "RRA IDREC BPFRRA INFPA RTPA", "INFPA@6 PSE@3 RTPA@21"},
    {"FJ", "RRA IDREC BPFRRA INFPA DAJUD", "INFPA@6 PSE@3"}, {"FJ", "RRA IDREC BPFRRA INFPA QTMESES INFPA", "INFPA@6 PSE@3 RTPA@9"},
    {"FJ", "RRA IDREC BPFRRA INFPA BPFRRA", "INFPA@8 PSE@3"}, {"FJ", "RRA IDREC BPFRRA INFPA IDREC", "PSE@3"},
    {"FJ", "RRA IDREC BPFRRA INFPA RRA", "PSE@3"}, {"FJ", "IDREC BPFDEC INFPA RRA IDREC BPFRRA INFPA", "INFPA@9 PSE@3 RTPA@10"},
    {"FJ", "SCP", "PSE@3"}, {"FJ", "SCP BPFSCP", "PSE@3"}, {"FJ", "SCP BPFSCP RISCP", "PSE@3"}, {"FJ", "SCP BPJSCP", "PSE@3"},
    {"FJ", "PSE", "OPSE@4"}, {"FJ", "SCP BPFSCP PSE", "OPSE@6"}, {"FJ", "PSE OPSE", "OPSE@4 TPSE@5"},
    {"FJ", "PSE OPSE OPSE", "OPSE@4 TPSE@6"}, {"FJ", "PSE OPSE TPSE", "OPSE@4 TPSE@5 RTPSE@6 DTPSE@6"},
    {"FJ", "PSE OPSE TPSE RTPSE", "OPSE@4 TPSE@5 RTPSE@6 DTPSE@6"},
    {"FJ", "PSE OPSE TPSE DTPSE", "OPSE@4 TPSE@5 DTPSE@6 RDTPSE@7"},
    {"FJ", "PSE OPSE TPSE DTPSE RDTPSE", "OPSE@4 TPSE@5 DTPSE@6 RDTPSE@7"},
    {"FJ", "PSE OPSE TPSE RTPSE DTPSE", "OPSE@4 TPSE@5 DTPSE@6 RDTPSE@8"},
    {"FJ", "PSE OPSE TPSE DTPSE DTPSE", "OPSE@4 TPSE@5 DTPSE@6 RDTPSE@8"},
    {"FJ", "PSE OPSE TPSE RTPSE DTPSE RDTPSE TPSE", "OPSE@4 TPSE@5 RTPSE@10 DTPSE@10"},
    {"FJ", "PSE OPSE TPSE DTPSE OPSE", "OPSE@4 TPSE@8"}, {"FJ", "PSE OPSE TPSE OPSE TPSE", "OPSE@4 TPSE@7 RTPSE@8 DTPSE@8"},
    {"J", "FCI", "PSE@3"}, {"J", "FCI IDREC", "PSE@3"}, {"J", "FCI IDREC BPFFCI", "PSE@3"}, {"J", "FCI IDREC BPJFCI", "PSE@3"},
    {"J", "PROC", "PSE@3"}, {"J", "PROC IDREC", "PSE@3"}, {"J", "PROC IDREC BPJPROC", "PSE@3"},
    {"J", "PROC IDREC BPFPROC", "PSE@3 RTPP@6 RTFA@6 RTSP@6 ESPP@6 ESFA@6 ESSP@6 RTPA@6 ESPA@6"},
    {"J", "PROC IDREC BPFPROC RTPA", "PSE@3 RTPP@6 RTFA@6 RTSP@6 ESPP@6 ESFA@6 ESSP@6 RTPA@21 ESPA@6"},
    {"J", "IDREC BPFDEC INFPA PROC IDREC BPFPROC", "PSE@3 RTPP@9 RTFA@9 RTSP@9 ESPP@9 ESFA@9 ESSP@9 RTPA@9 ESPA@9"},
};

/* The number after the name's @ in a list, or 0 if the name is not in it. */
static unsigned after_at(const char *may, const char *name)
{
    char one[16];
    unsigned parent;
    int used;
    for (const char *s = may; sscanf(s, " %15[A-Z]@%u%n", one, &parent, &used) == 2; s += used)
        if (strcmp(one, name) == 0)
            return parent;
    return 0;
}

/* The record after the path, whole and with a wrong count of fields: its place comes before its fields. */
static void test_context(unsigned d, const char *path, const char *may, const char *name)
{
    char line[512];
    uint32_t lines, table[5 * 20] = {0};
    unsigned parent = after_at(may, name), kind = named(name);
    text t = chain(d, path, name, &lines);
    size_t len = t.len;
    good_line(kind, 900, line);
    add_line(&t, line);
    expect(path, &t, parent == 0 ? 12 : parent == 21 ? 21 : 1, lines + (parent == 0 || parent == 21 ? 1 : 2), parent == 0 || parent == 21);
    if (parent != 0 && parent != 21) {
        plain_check(t.bytes, t.len, table, 5 * (lines + 1));
        is_true(table[5 * lines] == kind && table[5 * lines + 3] == parent, name, table[5 * lines], table[5 * lines + 3]);
        is_true(table[5 * lines + 1] == len && table[5 * lines + 2] == t.len - len - 2, "place in the file", lines, 0);
        add_line(&t, "FIMDirf|");
        expect("closed", &t, 0, lines + 2, 0);
    }
    t.len = len;
    add_line(&t, strcat(line, "|"));
    expect("12 before 11", &t, parent == 0 ? 12 : 11, lines + 1, parent == 0);
    drop(&t);
}

static void test_places(void)
{
    char name[16];
    int used;
    for (unsigned i = 0; i < sizeof contexts / sizeof *contexts; i++)
        for (unsigned d = DECPF; d <= DECPJ; d++) {
            if (strchr(contexts[i].declarants, d == DECPF ? 'F' : 'J') == NULL)
                continue;
            for (const char *s = A3_KINDS " " MOVED; sscanf(s, "%15s%n", name, &used) == 1; s += used)
                test_context(d, contexts[i].path, contexts[i].may, name);
        }
    for (const char *s = A3_KINDS; sscanf(s, "%15s%n", name, &used) == 1; s += used) {
        char line[64];
        sprintf(line, "%s|||||{mark}|\r\n", name);
        expect_bytes("12 in line 1", line, 12, 1, 1);
        sprintf(line, DIRF_LINE "\r\n%s|\r\n", name);
        expect_bytes("12 in line 2", line, 12, 2, 1);
        is_true(plain_is_base(edition, named(name)), name, 0, 0);
    }
    expect_bytes("12 in line 3", DIRF_LINE "\r\n" RESPO_LINE "\r\nPSE|\r\n", 12, 3, 1);
}

/* ---- what is closed ---- */

#define PC(n) "INFPC|{cnpj " n "}|A|"
#define PA(n) "INFPA|{cpf " n "}||A||"
#define RRA_PERSON "RRA|1||||||~IDREC|1889|~BPFRRA|{cpf 1}|A|||S|"

/* The parents of lines 4 and on, joined by a blank, of an accepted file. */
static void expect_parents(unsigned d, const char *lines, const char *parents)
{
    text t = head(d, people_blocks(lines, '~'));
    uint32_t table[5 * 40] = {0}, n = 3;
    unsigned parent;
    int used;
    for (const char *s = lines; *s; s += strcspn(s, "~") + (s[strcspn(s, "~")] != 0)) {
        char one[PEOPLE_LINE];
        sprintf(one, "%.*s", (int)strcspn(s, "~"), s);
        add_line(&t, one);
    }
    expect(lines, &t, 0, (uint32_t)count_lf(t.bytes, t.len), 0);
    plain_check(t.bytes, t.len, table, 200);
    for (const char *s = parents; sscanf(s, "%u%n", &parent, &used) == 1; s += used, n++)
        is_true(table[5 * n + 3] == parent, lines, n + 1, table[5 * n + 3]);
    is_true(n == count_lf(t.bytes, t.len), "all parents told", n, 0);
    drop(&t);
}

static void test_closed_groups(unsigned d)
{
    expect_after("21 past a group", d, BPF "~" FOURTEEN("RTRT") "~" PC("1") "~" FOURTEEN("RTRT"), 21, 8, 1);
    expect_after("21 past a group with values", d, BPF "~" FOURTEEN("RTRT") "~" PA("1") "~" FOURTEEN("RTPA")
                 "~" FOURTEEN("RTRT"), 21, 9, 1);
    expect_after("a value closes the group", d, BPF "~" PC("1") "~" FOURTEEN("RTRT") "~" FOURTEEN("RTPP"), 12, 8, 1);
    expect_after("so does another group", d, BPF "~" PC("1") "~" PA("1") "~" FOURTEEN("RTPP"), 12, 8, 1);
    expect_after("so does the next person", d, BPF "~" PC("1") "~BPFDEC|{cpf 111444778}|A||N|N|~" FOURTEEN("RTPP"), 12, 8, 1);
    expect_after("no group of the person before", d, BPF "~" PA("1") "~BPFDEC|{cpf 111444778}|A||N|N|~" FOURTEEN("RTPA"), 12, 8, 1);
    expect_after("21 in one group", d, BPF "~" PC("1") "~" FOURTEEN("RTPP") "~" FOURTEEN("RTPP"), 21, 8, 1);
    expect_after("21 in one group, apart", d, BPF "~" PA("1") "~" FOURTEEN("RTPA") "~" FOURTEEN("ESPA") "~" FOURTEEN("RTPA"), 21, 9, 1);
    expect_after("21 of RIO past INFPA", d, BPF "~RIO|1|A|~" PA("1") "~" FOURTEEN("ESPA") "~RIO|1|A|", 21, 9, 1);
    expect_after("21 in the second group", d, BPF "~" PC("1") "~" PC("2") "~" FOURTEEN("ESFA") "~" FOURTEEN("ESFA"), 21, 9, 1);
    expect_after("21 of RTPA in RRA", d, RRA_PERSON "~" PA("1") "~" FOURTEEN("RTPA") "~" FOURTEEN("RTPA"), 21, 9, 1);
    expect_after("ESPA in RRA", d, RRA_PERSON "~" PA("1") "~" FOURTEEN("RTPA") "~" FOURTEEN("ESPA"), 12, 9, 1);
    expect_after("ESPA in RRA with no INFPA", d, RRA_PERSON "~" FOURTEEN("ESPA"), 12, 7, 1);
    expect_after("RTPA in RRA with no INFPA", d, RRA_PERSON "~" FOURTEEN("RTPA"), 12, 7, 1);
    expect_parents(d, BPF "~" PC("1") "~" FOURTEEN("RTPP") "~" PC("2") "~" FOURTEEN("RTPP") "~FIMDirf|", "3 4 5 6 5 8 0");
    expect_parents(d, BPF "~" PC("1") "~" FOURTEEN("RTPP") "~" FOURTEEN("RTRT") "~" PC("2") "~" FOURTEEN("RTPP") "~" FOURTEEN("RTPO")
                   "~FIMDirf|", "3 4 5 6 5 5 9 5 0");
    expect_parents(d, BPF "~" PA("2") "~" FOURTEEN("ESPA") "~" PC("1") "~" FOURTEEN("ESFA") "~" PA("3") "~" FOURTEEN("ESPA") "~RIO|1|A|"
                   "~BPFDEC|{cpf 111444778}|A||N|N|~" PA("1") "~" FOURTEEN("ESPA") "~RIO|1|A|~FIMDirf|", "3 4 5 6 5 8 5 10 5 4 13 14 13 0");
    expect_parents(d, RRA_PERSON "~" PA("1") "~" FOURTEEN("RTPA") "~" FOURTEEN("DAJUD") "~" PA("2") "~" FOURTEEN("RTPA")
                   "~" FOURTEEN("RTRT")
                   "~FIMDirf|", "3 4 5 6 7 6 6 10 6 0");
    expect_parents(d, BPF "~" PA("1") "~IDREC|0562|~BPFDEC|{cpf 1}|A||N|N|~" PA("1") "~" FOURTEEN("RTPA") "~FIMDirf|", "3 4 5 3 7 8 9 0");
}

/* The values below INFPC that the DECPF list has not, and all eight of the DECPJ list in any order. */
static void test_values_of_groups(void)
{
    static const char *const firms[] = {"RTSP", "RTEP", "ESSP", "ESEP"};
    for (unsigned i = 0; i < 4; i++) {
        char l[512];
        sprintf(l, BPF "~" PC("1") "~%s|1|||||||||||||~FIMDirf|", firms[i]);
        expect_after(firms[i], DECPF, l, 12, 7, 1);
        expect_after(firms[i], DECPJ, l, 0, 8, 0);
        sprintf(l, BPF "~" PC("1") "~%s|1|||||||||||||~%s||||||||||||||", firms[i], firms[i]);
        expect_after(firms[i], DECPJ, l, 21, 8, 1);
        sprintf(l, BPF "~%s|1|||||||||||||", firms[i]);
        expect_after(firms[i], DECPF, l, 12, 6, 1);
        expect_after(firms[i], DECPJ, l, 12, 6, 1);
        sprintf(l, BPF "~" PC("1") "~%s|1||||||||||||0|", firms[i]);
        expect_after("16 in the last month", DECPJ, l, 16, 7, 14);
    }
    expect_parents(DECPJ, BPF "~" PC("1") "~" FOURTEEN("ESEP") "~" FOURTEEN("RTSP") "~" FOURTEEN("ESPP")
                   "~" FOURTEEN("RTEP") "~" FOURTEEN("ESSP")
                   "~" FOURTEEN("RTFA") "~" FOURTEEN("ESFA") "~" FOURTEEN("RTPP") "~FIMDirf|", "3 4 5 6 6 6 6 6 6 6 6 0");
}

/* ---- keys ---- */

#define TITULAR "PSE|~OPSE|{cnpj 1}|A||~TPSE|{cpf 1}|A|1|"

/* Two keys of fields 2 and 3 in one order, with another kind of record between or not: the second passes, or is 20. */
static const struct { const char *a, *b; int rises; } pairs[] = {
    {"|", "|", 0}, {"|", "|20010101", 1}, {"|20010101", "|", 0}, {"|20010101", "|20010101", 0}, {"|20010101", "|20010102", 1},
    {"|20010102", "|20010101", 0}, {"|", "{cpf 0}|", 1}, {"{cpf 0}|", "|", 0}, {"|20991231", "{cpf 0}|", 1},
    {"{cpf 0}|", "|20991231", 0}, {"{cpf 5}|", "{cpf 5}|", 0}, {"{cpf 5}|", "{cpf 5}|19000101", 1},
    {"{cpf 5}|19000101", "{cpf 5}|", 0}, {"{cpf 5}|20010101", "{cpf 5}|20010101", 0}, {"{cpf 5}|20010101", "{cpf 5}|20010102", 1},
    {"{cpf 5}|20010102", "{cpf 5}|20010101", 0}, {"{cpf 5}|20010102", "{cpf 6}|20010101", 1}, {"{cpf 6}|20010101", "{cpf 5}|20010102", 0},
    {"{cpf 5}|20010101", "{cpf 6}|", 1}, {"{cpf 6}|", "{cpf 5}|20010101", 0}, {"{cpf 11444777}|", "11144477735|", 1},
    {"11144477735|", "{cpf 11444777}|", 0}, {"|20010101", "{cpf 5}|19000101", 1},
};

static void test_two_field_keys(unsigned d)
{
    static const struct { const char *before, *name, *end, *between; unsigned lines; } uses[] = {
        {BPF "~", "INFPA", "|A||", "", 6}, {BPF "~", "INFPA", "|A||", PC("9") "~" FOURTEEN("RTPP") "~" FOURTEEN("RTRT") "~", 6},
        {BPF "~", "INFPA", "|A||", FOURTEEN("RTPA") "~", 6},
        {RRA_PERSON "~", "INFPA", "|A||", FOURTEEN("RTPA") "~" FOURTEEN("DAJUD") "~", 7},
        {TITULAR "~", "DTPSE", "|A||1|", "", 7}, {TITULAR "~RTPSE|{cpf 9}|A|||~", "DTPSE", "|A||1|", "RDTPSE|{cnpj 9}|A|||~", 8}};
    for (unsigned u = 0; u < sizeof uses / sizeof *uses; u++)
        for (unsigned i = 0; i < sizeof pairs / sizeof *pairs; i++) {
            char l[900];
            const char *name = uses[u].name, *end = uses[u].end;
            uint32_t last = uses[u].lines + 1;
            for (const char *s = uses[u].between; *s; s++)
                last += *s == '~';
            sprintf(l, "%s%s|%s%s~%s%s|%s%s~FIMDirf|", uses[u].before, name, pairs[i].a, end, uses[u].between, name, pairs[i].b, end);
            expect_after(l, d, l, pairs[i].rises ? 0 : 20, pairs[i].rises ? last + 1 : last, pairs[i].rises ? 0 : 2);
        }
}

/* The order of one kind below one parent, past what stands between, and afresh below the next parent. */
static void test_one_field_keys(unsigned d)
{
    expect_after("INFPC equal", d, BPF "~" PC("1") "~" PC("1"), 20, 7, 2);
    expect_after("INFPC less", d, BPF "~" PC("2") "~" PC("1"), 20, 7, 2);
    expect_after("INFPC past its value", d, BPF "~" PC("2") "~" FOURTEEN("RTPP") "~" PC("2"), 20, 8, 2);
    expect_after("INFPC past another value", d, BPF "~" PC("2") "~" FOURTEEN("RTRT") "~" PC("1"), 20, 8, 2);
    expect_after("INFPC opened again", d, BPF "~" PC("2") "~" FOURTEEN("RTPP") "~" FOURTEEN("RTRT") "~" PC("2"), 20, 9, 2);
    expect_after("INFPC past INFPA", d, BPF "~" PC("2") "~" PA("1") "~" FOURTEEN("RTPA") "~" PC("2"), 20, 9, 2);
    expect_after("INFPA past INFPC", d, BPF "~" PA("2") "~" PC("1") "~" PA("2"), 20, 8, 2);
    expect_after("INFPC and INFPA apart", d, BPF "~" PA("9") "~" PC("1") "~" PC("2") "~" PA("10") "~FIMDirf|", 0, 10, 0);
    expect_after("INFPC afresh", d, BPF "~" PC("2") "~BPFDEC|{cpf 111444778}|A||N|N|~" PC("1") "~FIMDirf|", 0, 9, 0);
    expect_after("INFPA afresh", d, BPF "~" PA("2") "~BPFDEC|{cpf 111444778}|A||N|N|~" PA("1") "~FIMDirf|", 0, 9, 0);
    expect_after("INFPA afresh in the next IDREC", d, BPF "~" PA("2") "~IDREC|0562|~BPFDEC|{cpf 1}|A||N|N|~" PA("2") "~FIMDirf|", 0, 10, 0);
    expect_after("INFPA afresh in RRA", d, BPF "~" PA("2") "~" RRA_PERSON "~" PA("1") "~FIMDirf|", 0, 11, 0);
    expect_after("BPFDEC past a group", d, BPF "~" PC("2") "~" FOURTEEN("RTPP") "~BPFDEC|11144477735|A||N|N|", 20, 8, 2);
    expect_after("IDREC past a group", d, BPF "~" PC("2") "~IDREC|0561|", 20, 7, 2);
    expect_after("OPSE equal", d, "PSE|~OPSE|{cnpj 1}|A||~OPSE|{cnpj 1}|A||", 20, 6, 2);
    expect_after("OPSE less, past all", d, TITULAR "~DTPSE|||A||1|~RDTPSE|{cpf 1}|A|||~OPSE|{cnpj 0}|A||", 20, 9, 2);
    expect_after("OPSE rises", d, TITULAR "~OPSE|{cnpj 2}|A||~FIMDirf|", 0, 8, 0);
    expect_after("TPSE equal", d, TITULAR "~TPSE|{cpf 1}|A|1|", 20, 7, 2);
    expect_after("TPSE less, past all", d, TITULAR "~RTPSE|{cpf 1}|A|||~DTPSE|||A||1|~RDTPSE|{cpf 1}|A|||~TPSE|{cpf 0}|A|1|", 20, 10, 2);
    expect_after("TPSE afresh", d, TITULAR "~OPSE|{cnpj 2}|A||~TPSE|{cpf 0}|A|1|~FIMDirf|", 0, 9, 0);
    expect_after("DTPSE afresh", d, TITULAR "~DTPSE|{cpf 2}||A||1|~TPSE|{cpf 2}|A|1|~DTPSE|{cpf 1}||A||1|~FIMDirf|", 0, 10, 0);
    expect_after("RTPSE afresh", d, TITULAR "~RTPSE|{cnpj 2}|A|||~TPSE|{cpf 2}|A|1|~RTPSE|{cpf 1}|A|||~FIMDirf|", 0, 10, 0);
    expect_after("RDTPSE afresh", d, TITULAR "~DTPSE|||A||1|~RDTPSE|{cnpj 2}|A|||~DTPSE|{cpf 1}||A||1|"
                 "~RDTPSE|{cpf 1}|A|||~FIMDirf|", 0, 11, 0);
    expect_after("RDTPSE apart from RTPSE", d, TITULAR "~RTPSE|{cnpj 2}|A|||~DTPSE|||A||1|~RDTPSE|{cpf 1}|A|||~FIMDirf|", 0, 10, 0);
    expect_after("PSE has no key", d, "SCP|{cnpj 9}|A|~PSE|~OPSE|{cnpj 1}|A||~FIMDirf|", 0, 7, 0);
}

/* Equal keys are 20 whatever stands in the fields after them. */
static void test_keys_alone(unsigned d)
{
    expect_after("INFPC by its CNPJ alone", d, BPF "~" PC("1") "~INFPC|{cnpj 1}|B|", 20, 7, 2);
    expect_after("INFPA by two fields alone", d, BPF "~INFPA|{cpf 1}|20010101|A|03|~INFPA|{cpf 1}|20010101|B|04|", 20, 7, 2);
    expect_after("OPSE by its CNPJ alone", d, "PSE|~OPSE|{cnpj 1}|A|000001|~OPSE|{cnpj 1}|B|000002|", 20, 6, 2);
    expect_after("TPSE by its CPF alone", d, TITULAR "~TPSE|{cpf 1}|B|2|", 20, 7, 2);
    expect_after("RTPSE by its number alone", d, TITULAR "~RTPSE|{cpf 1}|A|1|1|~RTPSE|{cpf 1}|B|2|2|", 20, 8, 2);
    expect_after("DTPSE by two fields alone", d, TITULAR "~DTPSE|||A|03|1|~DTPSE|||B|04|2|", 20, 8, 2);
    expect_after("RDTPSE by its number alone", d, TITULAR "~DTPSE|||A||1|~RDTPSE|{cnpj 1}|A|1|1|~RDTPSE|{cnpj 1}|B|2|2|", 20, 9, 2);
    expect_after("a lesser name", d, BPF "~INFPC|{cnpj 1}|B|~INFPC|{cnpj 2}|A|~FIMDirf|", 0, 8, 0);
    expect_after("lesser fields", d, TITULAR "~DTPSE|||B|04|2|~DTPSE||20010101|A|03|1|~TPSE|{cpf 2}|A|1|~FIMDirf|", 0, 10, 0);
}

/* RTPSE and RDTPSE: all CPFs, rising, before all CNPJs, rising, whatever the digits. */
static void test_refund_keys(unsigned d)
{
    static const struct { const char *a, *b; int rises; } two[] = {
        {"{cpf 1}", "{cpf 2}", 1}, {"{cpf 2}", "{cpf 1}", 0}, {"{cpf 1}", "{cpf 1}", 0}, {"{cnpj 1}", "{cnpj 2}", 1},
        {"{cnpj 2}", "{cnpj 1}", 0}, {"{cnpj 1}", "{cnpj 1}", 0}, {"{cpf 999999999}", "{cnpj 0}", 1}, {"{cnpj 0}", "{cpf 999999999}", 0},
        {"{cpf 1}", "{cnpj 99999999}", 1}, {"{cnpj 99999999}", "{cpf 1}", 0}, {"00000000000", "00000000000000", 1},
        {"00000000000000", "00000000000", 0}, {"{cpf 11222333}", "11222333000181", 1}, {"11222333000181", "{cpf 112223330}", 0}};
    for (unsigned i = 0; i < sizeof two / sizeof *two; i++) {
        char l[512];
        int ok = two[i].rises;
        sprintf(l, TITULAR "~RTPSE|%s|A|||~RTPSE|%s|A|||~FIMDirf|", two[i].a, two[i].b);
        expect_after(l, d, l, ok ? 0 : 20, ok ? 9 : 8, ok ? 0 : 2);
        sprintf(l, TITULAR "~RTPSE|{cnpj 5}|A|||~DTPSE|||A||1|~RDTPSE|%s|A|||~RDTPSE|%s|B|1|2|~FIMDirf|", two[i].a, two[i].b);
        expect_after(l, d, l, ok ? 0 : 20, ok ? 11 : 10, ok ? 0 : 2);
    }
    expect_after("three", d, TITULAR "~RTPSE|{cpf 5}|A|||~RTPSE|{cnpj 1}|A|||~RTPSE|{cpf 6}|A|||", 20, 9, 2);
    expect_after("three", d, TITULAR "~RTPSE|{cpf 5}|A|||~RTPSE|{cpf 6}|A|||~RTPSE|{cnpj 1}|A|||~FIMDirf|", 0, 10, 0);
}

/* ---- the PSE block ---- */

static void test_pse_block(unsigned d)
{
    expect_after("PSE alone", d, "PSE|~FIMDirf|", 0, 5, 0);
    expect_after("PSE twice", d, "PSE|~PSE|", 12, 5, 1);
    expect_after("PSE twice, apart", d, TITULAR "~DTPSE|||A||1|~PSE|", 12, 8, 1);
    expect_after("PSE twice before its fields", d, "PSE|~PSE||", 12, 5, 1);
    expect_after("11 in PSE", d, "PSE||", 11, 4, 0);
    expect_after("PSE after all", d, BPF "~" RRA_PERSON "~SCP|{cnpj 1}|A|~BPFSCP|{cpf 1}|A||~PSE|~FIMDirf|", 0, 12, 0);
    expect_after("SCP after PSE", d, "PSE|~SCP|{cnpj 1}|A|", 12, 5, 1);
    expect_after("RRA after PSE", d, "PSE|~RRA|1||||||", 12, 5, 1);
    expect_after("IDREC after PSE", d, "PSE|~IDREC|0561|", 12, 5, 1);
    expect_after("IDREC in the block", d, "PSE|~OPSE|{cnpj 1}|A||~IDREC|0561|", 12, 6, 1);
    expect_after("FCI after PSE", d, "PSE|~FCI|{cnpj 1}|A|", 12, 5, 1);
    expect_after("PROC after PSE", d, "PSE|~PROC|1|7|||||", 12, 5, 1);
    expect_after("a person in the block", d, "PSE|~OPSE|{cnpj 1}|A||~BPFDEC|{cpf 1}|A||N|N|", 12, 6, 1);
    expect_after("BPFSCP in the block", d, "SCP|{cnpj 1}|A|~PSE|~BPFSCP|{cpf 1}|A||", 12, 6, 1);
    expect_after("RISCP in the block", d, "SCP|{cnpj 1}|A|~BPFSCP|{cpf 1}|A||~PSE|~" FOURTEEN("RISCP"), 12, 7, 1);
    expect_after("RTRT in the block", d, TITULAR "~" FOURTEEN("RTRT"), 12, 7, 1);
    expect_after("INFPA in the block", d, TITULAR "~" PA("1"), 12, 7, 1);
    expect_after("RPDE after PSE", d, "PSE|~RPDE|", 10, 5, 1);
    expect_after("INF after PSE", d, "PSE|~INF|{cpf 1}|A|", 10, 5, 1);
    expect_after("OPSE without PSE", d, "OPSE|{cnpj 1}|A||", 12, 4, 1);
    expect_after("TPSE without OPSE", d, "PSE|~TPSE|{cpf 1}|A|1|", 12, 5, 1);
    expect_after("DTPSE without TPSE", d, "PSE|~OPSE|{cnpj 1}|A||~DTPSE|||A||1|", 12, 6, 1);
    expect_after("RTPSE without TPSE", d, "PSE|~OPSE|{cnpj 1}|A||~RTPSE|{cpf 1}|A|||", 12, 6, 1);
    expect_after("RDTPSE without DTPSE", d, TITULAR "~RTPSE|{cpf 1}|A|||~RDTPSE|{cpf 1}|A|||", 12, 8, 1);
    expect_after("RTPSE after DTPSE", d, TITULAR "~DTPSE|||A||1|~RTPSE|{cpf 1}|A|||", 12, 8, 1);
    expect_after("RTPSE after RDTPSE", d, TITULAR "~RTPSE|{cpf 1}|A|||~DTPSE|||A||1|~RDTPSE|{cpf 1}|A|||~RTPSE|{cpf 2}|A|||", 12, 10, 1);
    expect_after("TPSE of the operator before", d, TITULAR "~OPSE|{cnpj 2}|A||~DTPSE|||A||1|", 12, 8, 1);
    expect_after("DTPSE of the titular before", d, TITULAR "~DTPSE|||A||1|~TPSE|{cpf 2}|A|1|~RDTPSE|{cpf 1}|A|||", 12, 9, 1);
    expect_parents(d, TITULAR "~RTPSE|{cpf 1}|A|||~RTPSE|{cnpj 1}|A|||~DTPSE|||A||1|~RDTPSE|{cpf 1}|A|||"
                   "~RDTPSE|{cnpj 1}|A|||~DTPSE|{cpf 1}||A||1|"
                   "~TPSE|{cpf 2}|A|1|~DTPSE|||A||1|~OPSE|{cnpj 2}|A||~TPSE|{cpf 1}|A|1|~RTPSE|{cpf 1}|A|||~FIMDirf|",
                   "3 4 5 6 6 6 9 9 6 5 13 4 15 16 0");
}

/* ---- fields ---- */

/* A line in its place and by the writer; number 0 for one that passes. */
static void expect_line(const char *before, const char *line, uint32_t lines, uint32_t number, uint32_t field)
{
    char l[1024], name[16];
    uint8_t out[512];
    text t = {0};
    sprintf(name, "%.*s", (int)strcspn(line, "|"), line);
    sprintf(l, "%s%s%s~FIMDirf|", before, *before ? "~" : "", line);
    expect_after(line, DECPJ, l, number, number ? lines + 1 : lines + 2, field);
    add_text(&t, line);
    add_bytes(&t, "", 1);
    plain_written w = write_fields(named(name), (char *)t.bytes, out, sizeof out);
    is_true(w.number == number && w.field == field, line, w.number, w.field);
    is_true(w.count == (number ? 0 : t.len + 1), "count written", w.count, t.len);
    if (number == 0)
        is_true(memcmp(out, t.bytes, t.len - 1) == 0 && memcmp(out + t.len - 1, "\r\n", 2) == 0, line, 0, 0);
    drop(&t);
}

typedef struct { const char *line; uint32_t number, field; } line_case;

#define ALL(c, before, lines) \
    for (unsigned i = 0; i < sizeof c / sizeof *c; i++) \
        expect_line(before, c[i].line, lines, c[i].number, c[i].field)

#define SIXTY "123456789012345678901234567890123456789012345678901234567890"
#define LONGEST SIXTY SIXTY "123456789012345678901234567890"

static void test_group_fields(void)
{
    static const line_case c[] = {
        {"INFPC|11222333000181|" LONGEST "|", 0, 0}, {"INFPC|11222333000181|" LONGEST "1|", 15, 3}, {"INFPC|11222333000181||", 13, 3},
        {"INFPC||A|", 13, 2}, {"INFPC|1122233300018X|A|", 14, 2}, {"INFPC|1122233300018|A|", 15, 2}, {"INFPC|11144477735|A|", 15, 2},
        {"INFPC|" BAD_CNPJ "|A|", 26, 2}, {"INFPC|" BAD_CNPJ "||", 26, 2}, {"INFPC|00000000000000|A|", 0, 0},
        {"INFPA||||A|", 13, 4}, {"INFPA|||A||", 0, 0}, {"INFPA|11144477735|20240229|" SIXTY "|10|", 0, 0},
        {"INFPA|11144477735|20240229|" SIXTY "1|10|", 15, 4}, {"INFPA|" BAD_CPF "|20230229|A||", 26, 2},
        {"INFPA|11222333000181||A||", 15, 2},
        {"INFPA|1114447773X||A||", 14, 2}, {"INFPA|11144477735|20230229|A||", 17, 3}, {"INFPA||18991231|A||", 17, 3},
        {"INFPA||21000101|A||", 17, 3}, {"INFPA||19000101|A||", 0, 0}, {"INFPA||20991231|A||", 0, 0}, {"INFPA||2024022|A||", 15, 3},
        {"INFPA||2024022X|A||", 14, 3}, {"INFPA|||A|3|", 15, 5}, {"INFPA|||A|003|", 15, 5}, {"INFPA|||A|0X|", 14, 5},
        {"INFPA|||A|3,|", 14, 5}};
    ALL(c, BPF, 5);
    for (unsigned n = 0; n < 100; n++) {
        char line[64];
        int ok = n == 3 || n == 4 || n == 6 || n == 8 || n == 10;
        sprintf(line, "INFPA|||A|%02u|", n);
        expect_line(BPF, line, 5, ok ? 0 : 18, ok ? 0 : 5);
        sprintf(line, "DTPSE|||A|%02u|1|", n);
        expect_line(TITULAR, line, 6, ok ? 0 : 18, ok ? 0 : 5);
    }
}

static void test_plan_fields(void)
{
    static const line_case opse[] = {
        {"OPSE|11222333000181|" LONGEST "|000000|", 0, 0}, {"OPSE|11222333000181|" LONGEST "1||", 15, 3},
        {"OPSE|11222333000181|A|99999|", 15, 4},
        {"OPSE|11222333000181|A|1234567|", 15, 4}, {"OPSE|11222333000181|A|12345X|", 14, 4}, {"OPSE||A||", 13, 2},
        {"OPSE|11222333000181|||", 13, 3},
        {"OPSE|" BAD_CNPJ "|A|X|", 26, 2}, {"OPSE|11144477735|A||", 15, 2}, {"OPSE|11222333000181|A|012345|", 0, 0}};
    static const line_case tpse[] = {
        {"TPSE|11144477735|" SIXTY "|999999999|", 0, 0}, {"TPSE|11144477735|A|1|", 0, 0}, {"TPSE|11144477735|A||", 13, 4},
        {"TPSE|11144477735|A|0|", 16, 4}, {"TPSE|11144477735|A|01|", 16, 4}, {"TPSE|11144477735|A|1234567890|", 15, 4},
        {"TPSE|11144477735|A|0123456789|", 15, 4}, {"TPSE|11144477735|A|1,5|", 14, 4}, {"TPSE|11144477735|A|123456789X|", 14, 4},
        {"TPSE|11144477735|" SIXTY "1|1|", 15, 3}, {"TPSE||A|1|", 13, 2}, {"TPSE|" BAD_CPF "|A||", 26, 2},
        {"TPSE|11222333000181|A|1|", 15, 2},
        {"TPSE|11144477735|A|012345678|", 16, 4}, {"TPSE|11144477735||1|", 13, 3}};
    static const line_case dtpse[] = {
        {"DTPSE|||A||1|", 0, 0}, {"DTPSE|11144477735|20240229|" SIXTY "|08|999999999|", 0, 0}, {"DTPSE|||A|||", 13, 6},
        {"DTPSE|||||1|", 13, 4},
        {"DTPSE|||A||0|", 16, 6}, {"DTPSE|||A||1234567890|", 15, 6}, {"DTPSE|||A||X|", 14, 6}, {"DTPSE|" BAD_CPF "||A|||", 26, 2},
        {"DTPSE|11222333000181||A||1|", 15, 2}, {"DTPSE||20230229|A||1|", 17, 3}, {"DTPSE||2023|A||1|", 15, 3},
        {"DTPSE|||" SIXTY "1||1|", 15, 4}};
    ALL(opse, "PSE|", 4);
    ALL(tpse, "PSE|~OPSE|{cnpj 1}|A||", 5);
    ALL(dtpse, TITULAR, 6);
    static const line_case pse[] = {{"PSE|", 0, 0}, {"PSE||", 11, 0}};
    ALL(pse, "", 3);
}

static void test_refund_fields(void)
{
    static const char *const names[] = {"RTPSE", "RDTPSE"};
    static const line_case c[] = {
        {"11144477735|A|||", 0, 0}, {"11222333000181|A|||", 0, 0}, {"11144477735|" LONGEST "|||", 0, 0},
        {"11144477735|" SIXTY "1|||", 0, 0},
        {"11222333000181|" LONGEST "|||", 0, 0}, {"11144477735|" LONGEST "1|||", 15, 3}, {"11144477735|A|999999999|999999999|", 0, 0},
        {"11144477735|A|1||", 0, 0}, {"11144477735|A||1|", 0, 0}, {"11144477735|A|0||", 16, 4}, {"11144477735|A||0|", 16, 5},
        {"11144477735|A|1234567890||", 15, 4}, {"11144477735|A||1234567890|", 15, 5}, {"11144477735|A|1X||", 14, 4},
        {"11144477735|A||-1|", 14, 5},
        {"|A|||", 13, 2}, {"11144477735||||", 13, 3}, {BAD_CPF "||||", 26, 2}, {BAD_CNPJ "|A|0||", 26, 2}, {"1114447773|A|||", 15, 2},
        {"111444777350|A|||", 15, 2}, {"1122233300018|A|||", 15, 2}, {"112223330001810|A|||", 15, 2}, {"1|A|||", 15, 2},
        {"1122233300018X|A|||", 14, 2}};
    for (unsigned k = 0; k < 2; k++)
        for (unsigned i = 0; i < sizeof c / sizeof *c; i++) {
            char line[256];
            sprintf(line, "%s|%s", names[k], c[i].line);
            expect_line(k ? TITULAR "~DTPSE|||A||1|" : TITULAR, line, k ? 7 : 6, c[i].number, c[i].field);
        }
}

/* Field 1 in the writer, for the ten. */
static void test_names_written(void)
{
    char name[16];
    int used;
    for (const char *s = A3_KINDS; sscanf(s, "%15s%n", name, &used) == 1; s += used) {
        char line[512], changed[512];
        unsigned kind = named(name), monthly = source_holds("RTEP ESEP", name);
        good_line(kind, 5, line);
        expect_written(name, kind, line, 0, 0);
        line[0] = 'X';
        expect_written("18 in field 1", kind, line, 18, 1);
        expect_written("13 in field 1", kind, strchr(line, '|'), 13, 1);
        expect_written("short", kind, line + 1, monthly ? 18 : 15, 1);
        sprintf(changed, "XX%s", line);
        expect_written("long", kind, changed, 15, 1);
        sprintf(changed, "%s|", line);
        expect_written("11", kind, changed, 11, 0);
        sprintf(changed, "\r%s", line);
        expect_written("14", kind, changed, 14, 1);
    }
}

/* ---- the order of the numbers ---- */

static void test_numbers_in_order(unsigned d)
{
    expect_after("12 before 20", d, TITULAR "~RTPSE|{cpf 5}|A|||~DTPSE|{cpf 5}||A||1|~RTPSE|{cpf 5}|A|||", 12, 9, 1);
    expect_after("26 before 20", d, BPF "~" PC("99999999") "~INFPC|" BAD_CNPJ "|A|", 26, 7, 2);
    expect_after("18 before 20", d, BPF "~" PA("1") "~INFPA|{cpf 1}||A|01|", 18, 7, 5);
    expect_after("13 before 20", d, TITULAR "~TPSE|{cpf 1}|A||", 13, 7, 4);
    expect_after("16 before 20", d, TITULAR "~RTPSE|{cpf 1}|A|||~RTPSE|{cpf 1}|A|0||", 16, 8, 4);
    expect_after("11 before 20", d, TITULAR "~TPSE|{cpf 1}|A|", 11, 7, 0);
    expect_after("16 before 21", d, BPF "~" PC("1") "~" FOURTEEN("RTPP") "~RTPP|0|||||||||||||", 16, 8, 2);
    expect_after("12 before 21", d, BPF "~" PC("1") "~" FOURTEEN("RTPP") "~" FOURTEEN("RTRT") "~" FOURTEEN("RTPP"), 12, 9, 1);
    expect_after("a refund is never 21", d, TITULAR "~RTPSE|{cpf 1}|A|||~RTPSE|{cpf 1}|A|||", 20, 8, 2);
    static const struct { const char *lines, *last; uint32_t n, number, field; } c[] = {
        {BPF "~" PC("1"), PC("1"), 7, 20, 2}, {BPF "~" PC("1"), PC("2"), 7, 7, 0}, {BPF "~" PA("1"), "INFPA|||A||", 7, 20, 2},
        {BPF "~" PC("1") "~" FOURTEEN("ESPP"), FOURTEEN("ESPP"), 8, 21, 1},
        {BPF "~" PC("1") "~" FOURTEEN("ESPP"), FOURTEEN("ESFA"), 8, 7, 0},
        {TITULAR, "RDTPSE|{cpf 1}|A|||", 7, 12, 1}, {TITULAR, "RTPSE|{cpf 1}|A|||", 7, 7, 0}, {TITULAR, "TPSE|{cpf 1}|A|1|", 7, 20, 2},
        {TITULAR "~RTPSE|{cpf 1}|A|||", "RTPSE|{cpf 1}|A|||", 8, 20, 2}, {"PSE|", "PSE|", 5, 12, 1}, {"PSE|", "FIMDirf|", 5, 7, 0},
        {BPF "~" FOURTEEN("RTRT") "~" PC("1"), FOURTEEN("RTRT"), 8, 21, 1}};
    for (unsigned i = 0; i < sizeof c / sizeof *c; i++) {
        char l[900];
        sprintf(l, "%s~%s", c[i].lines, c[i].last);
        text t = head(d, people_blocks(l, '~'));
        for (char *s = strtok(l, "~"); s != NULL; s = strtok(NULL, "~"))
            add_line(&t, s);
        expect_room(c[i].lines, &t, c[i].n - 1, c[i].number, c[i].n, c[i].field);
        drop(&t);
    }
}

/* ---- cut and closed ---- */

/* Every record of A3 in one file; cut after any line past the third it is closed by FIMDirf, and by no cut line before it. */
static void test_cut_and_closed(unsigned d)
{
    static const char path[] = "IDREC BPFDEC RTRT INFPC RTPP ESFA INFPC RTPP RTPO INFPA RTPA ESPA INFPA RTPA INFPC RIO BPFDEC INFPA ESPA "
        "BPJDEC RTRT RRA IDREC BPFRRA INFPA RTPA RTRT INFPA QTMESES SCP BPFSCP RISCP PSE OPSE TPSE RTPSE RTPSE DTPSE RDTPSE RDTPSE DTPSE "
        "TPSE DTPSE RDTPSE OPSE TPSE RTPSE OPSE";
    uint32_t lines, all;
    text whole = chain(d, path, "", &all);
    for (lines = 3; lines <= all; lines++) {
        size_t len = 0;
        for (uint32_t n = 0; n < lines; len++)
            n += whole.bytes[len] == '\n';
        text t = {0};
        add_bytes(&t, whole.bytes, len);
        plain_answer a = run(t.bytes, t.len, 100);
        is_true(equal(a, (plain_answer){1, lines + 1, 0, lines}), "cut", a.number, lines);
        add_line(&t, "FIMDirf|");
        a = run(t.bytes, t.len, 100);
        is_true(equal(a, (plain_answer){0, lines + 1, 0, lines + 1}), "cut and closed", a.number, lines);
        drop(&t);
    }
    drop(&whole);
}

/* A wrong line in each place is refused for good: nothing after it changes the answer. */
static void test_refused_for_good(unsigned d)
{
    static const char *const wrong_lines[] = {
        TITULAR "~PSE|", TITULAR "~TPSE|{cpf 1}|A|1|", TITULAR "~RDTPSE|{cpf 1}|A|||", BPF "~" PC("1") "~" PC("1"),
        BPF "~" PC("1") "~" FOURTEEN("RTPP") "~" FOURTEEN("RTPP"), BPF "~" FOURTEEN("RTPP"), BPF "~" PA("1") "~INFPA|||A||",
        TITULAR "~DTPSE|||A|||"};
    static const char *const tails[] = {"FIMDirf|\r\n", "DTPSE|||A||1|\r\nFIMDirf|\r\n", "x", "\r\n", "PSE|\r\n", "IDREC|9999|\r\n"};
    for (unsigned i = 0; i < sizeof wrong_lines / sizeof *wrong_lines; i++) {
        char l[600];
        strcpy(l, wrong_lines[i]);
        text t = head(d, people_blocks(l, '~'));
        for (char *s = strtok(l, "~"); s != NULL; s = strtok(NULL, "~"))
            add_line(&t, s);
        plain_answer a = run(t.bytes, t.len, 100);
        is_true(a.number > 1 && a.line == count_lf(t.bytes, t.len), wrong_lines[i], a.number, a.line);
        size_t len = t.len;
        for (unsigned k = 0; k < sizeof tails / sizeof *tails; k++) {
            t.len = len;
            add(&t, tails[k]);
            is_true(equal(a, run(t.bytes, t.len, 100)), "refused for good", i, k);
        }
        drop(&t);
    }
}

void test_groups(void)
{
    test_places();
    for (unsigned d = DECPF; d <= DECPJ; d++) {
        test_closed_groups(d);
        test_two_field_keys(d);
        test_one_field_keys(d);
        test_keys_alone(d);
        test_refund_keys(d);
        test_pse_block(d);
        test_numbers_in_order(d);
        test_cut_and_closed(d);
        test_refused_for_good(d);
    }
    test_values_of_groups();
    test_group_fields();
    test_plan_fields();
    test_refund_fields();
    test_names_written();
}
