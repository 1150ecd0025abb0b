/* Which record may stand directly below which: yes or no, for each declarant.
   Both editions share it; the older one only lacks two of the records. What a
   parent's own place or an earlier line has to say is plain_place.c's. */
#include "plain_inner.h"

#define YES(kind) [kind] = 1

/* The health plan's block, the same under both declarants */
#define BELOW_PSE \
    [PSE] = {YES(OPSE)}, \
    [OPSE] = {YES(TPSE)}, \
    [TPSE] = {YES(RTPSE), YES(DTPSE)}, \
    [DTPSE] = {YES(RDTPSE)}

static const uint8_t below_decpf[KINDS + 1][KINDS + 1] = {
    [DECPF] = {YES(IDREC), YES(RRA), YES(SCP), YES(PSE)},
    [RRA] = {YES(IDREC)},
    [IDREC] = {YES(BPFDEC), YES(BPJDEC), YES(BPFRRA)},
    [SCP] = {YES(BPFSCP), YES(BPJSCP)},
    [BPFDEC] = {
        YES(RTRT), YES(RTPO), YES(RTDP), YES(RTDS), YES(RTIRF), YES(CJAC),
        YES(CJAA), YES(ESRT), YES(ESPO), YES(ESDP), YES(ESDS), YES(ESIR),
        YES(ESDJ), YES(INFPC), YES(INFPA), YES(RIDAC), YES(RIIRP), YES(RIAP),
        YES(RIP65), YES(RIJMRE), YES(RIO)},
    [INFPC] = {YES(RTPP), YES(RTFA), YES(ESPP), YES(ESFA)},
    [INFPA] = {YES(RTPA), YES(ESPA)},
    [BPJDEC] = {YES(RTRT), YES(RTIRF)},
    [BPFRRA] = {
        YES(RTRT), YES(RTPO), YES(RTIRF), YES(DAJUD), YES(QTMESES),
        YES(RIJMRE), YES(INFPA)},
    [BPFSCP] = {YES(RISCP)},
    [BPJSCP] = {YES(RISCP)},
    BELOW_PSE,
};

static const uint8_t below_decpj[KINDS + 1][KINDS + 1] = {
    [DECPJ] = {YES(IDREC), YES(FCI), YES(PROC), YES(RRA), YES(SCP), YES(PSE)},
    [FCI] = {YES(IDREC)},
    [PROC] = {YES(IDREC)},
    [RRA] = {YES(IDREC)},
    [IDREC] = {
        YES(BPFDEC), YES(BPJDEC), YES(BPFFCI), YES(BPJFCI), YES(BPFPROC),
        YES(BPJPROC), YES(BPFRRA)},
    [SCP] = {YES(BPFSCP), YES(BPJSCP)},
    [BPFDEC] = {
        YES(RTRT), YES(RTPO), YES(RTDP), YES(RTDS), YES(RTIRF), YES(CJAC),
        YES(CJAA), YES(ESRT), YES(ESPO), YES(ESDP), YES(ESDS), YES(ESIR),
        YES(ESDJ), YES(INFPC), YES(INFPA), YES(RIDAC), YES(RIIRP), YES(RIAP),
        YES(RIMOG), YES(RIP65), YES(RIBMR), YES(RICAP), YES(RIRPC), YES(RIL96),
        YES(RIPTS), YES(RIJMRE), YES(RIO)},
    [INFPC] = {
        YES(RTPP), YES(RTFA), YES(RTSP), YES(RTEP), YES(ESPP), YES(ESFA),
        YES(ESSP), YES(ESEP)},
    [INFPA] = {YES(RTPA), YES(ESPA)},
    [BPJDEC] = {YES(RTRT), YES(RTIRF)},
    [BPFFCI] = {
        YES(RTRT), YES(RTIRF), YES(CJAC), YES(CJAA), YES(ESRT), YES(ESIR),
        YES(ESDJ), YES(RIP65), YES(RIMOG), YES(RICAP), YES(RIO)},
    [BPJFCI] = {YES(RTRT), YES(RTIRF)},
    [BPFPROC] = {
        YES(RTRT), YES(RTPO), YES(RTDP), YES(RTDS), YES(RTIRF), YES(CJAC),
        YES(CJAA), YES(ESRT), YES(ESPO), YES(ESDP), YES(ESDS), YES(ESIR),
        YES(ESDJ), YES(RTPP), YES(RTFA), YES(RTSP), YES(ESPP), YES(ESFA),
        YES(ESSP), YES(RTPA), YES(ESPA), YES(RIMOG), YES(RIJMRE), YES(RIRSR)},
    [BPJPROC] = {YES(RTRT), YES(RTIRF), YES(RIRSR)},
    [BPFRRA] = {
        YES(RTRT), YES(RTPO), YES(INFPA), YES(RTIRF), YES(RIMOG), YES(RIP65),
        YES(RIJMRE), YES(DAJUD), YES(QTMESES)},
    [BPFSCP] = {YES(RISCP)},
    [BPJSCP] = {YES(RISCP)},
    BELOW_PSE,
};

int plain_below(plain_edition edition, unsigned declarant, unsigned parent, unsigned child)
{
    if (parent > KINDS || child > KINDS || !plain_has(edition, child))
        return 0;
    if (declarant == DECPF)
        return below_decpf[parent][child];
    if (declarant == DECPJ)
        return below_decpj[parent][child];
    return 0;
}
