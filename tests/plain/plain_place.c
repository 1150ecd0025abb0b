/* Where a record may stand among the open ones, what it repeats, how its key rises, and what it closes. */
#include <string.h>

#include "plain_place.h"

enum { DECLARANT_LINE = 3 };

static int is_below(const place *p, opened parent, uint32_t kind)
{
    return plain_below(p->edition, p->declarant, parent.kind, kind);
}

/* The bit of a value kind without a key; RISCP, the last of them, is 61. */
static uint64_t bit(uint32_t kind)
{
    return UINT64_C(1) << kind;
}

/* The block that a beneficiary kind belongs to; NO_KIND is the declarant's. */
static uint32_t block_of(uint32_t kind)
{
    switch (kind) {
    case BPFFCI: case BPJFCI: return FCI;
    case BPFPROC: case BPJPROC: return PROC;
    case BPFRRA: return RRA;
    case BPFSCP: case BPJSCP: return SCP;
    case TPSE: return PSE;
    default: return NO_KIND;
    }
}

static int block_may_stand(const place *p, line *l)
{
    l->parent = DECLARANT_LINE;
    if (!is_below(p, (opened){p->declarant, DECLARANT_LINE}, l->kind))
        return 0;
    /* The blocks' kind numbers rise in the order that they stand in; the health plan's stands once. */
    return l->kind > p->block.kind || (l->kind == p->block.kind && l->kind != PSE);
}

static int beneficiary_may_stand(const place *p, line *l)
{
    opened above = p->block.kind == SCP ? p->block : p->code;
    l->parent = above.line;
    if (above.line == 0 || block_of(l->kind) != p->block.kind)
        return 0;
    /* In each block the BPF kind has the smaller number and stands first. */
    return is_below(p, above, l->kind) && l->kind >= p->beneficiary.kind;
}

/* Below the open group if that may have it, else below the beneficiary: no kind may stand below both. */
static int value_may_stand(const place *p, line *l)
{
    /* The lists give the INFPA of a BPFRRA no ESPA. */
    if (l->kind == ESPA && p->beneficiary.kind == BPFRRA)
        return 0;
    if (is_below(p, p->group, l->kind)) {
        l->parent = p->group.line;
        return 1;
    }
    l->parent = p->beneficiary.line;
    /* The RTPSE of a TPSE stand before its DTPSE. */
    if (l->kind == RTPSE && p->group.kind == DTPSE)
        return 0;
    return is_below(p, p->beneficiary, l->kind);
}

int plain_may_stand(const place *p, line *l)
{
    opened above;
    l->parent = 0;
    if (l->number == 1)
        return l->kind == DIRF;
    if (l->number == 2)
        return l->kind == RESPO;
    if (l->number == DECLARANT_LINE)
        return l->kind == DECPF || l->kind == DECPJ;
    switch (plain_records[l->kind].role) {
    case END:
        return 1;
    case BLOCK:
        return block_may_stand(p, l);
    case CODE:
        above = p->block.line ? p->block : (opened){p->declarant, DECLARANT_LINE};
        l->parent = above.line;
        return is_below(p, above, l->kind);
    case BENEFICIARY:
        return beneficiary_may_stand(p, l);
    case GROUP:
        l->parent = p->beneficiary.line;
        return is_below(p, p->beneficiary, l->kind);
    case VALUE:
        return value_may_stand(p, l);
    default:
        return 0;
    }
}

static int has_key(uint32_t kind)
{
    switch (plain_records[kind].role) {
    case BLOCK: return kind != PSE;
    case CODE: case BENEFICIARY: case GROUP: return 1;
    default: return kind == RTPSE || kind == RDTPSE;
    }
}

static int below_group(const place *p, const line *l)
{
    return p->group.line != 0 && l->parent == p->group.line;
}

int plain_repeated(const place *p, const line *l)
{
    if (plain_records[l->kind].role != VALUE || has_key(l->kind))
        return 0;
    return ((below_group(p, l) ? p->group_seen : p->seen) & bit(l->kind)) != 0;
}

int plain_compare(part a, part b)
{
    size_t len = a.len < b.len ? a.len : b.len;
    int order = len ? memcmp(a.bytes, b.bytes, len) : 0;
    return order ? order : (a.len > b.len) - (a.len < b.len);
}

static int greater(key a, key b)
{
    int order = plain_compare(a.first, b.first);
    return order ? order > 0 : plain_compare(a.second, b.second) > 0;
}

static key key_of(const line *l)
{
    key k = {l->fields[1], {NULL, 0}};
    if (l->kind == PROC || l->kind == RRA || l->kind == INFPA || l->kind == DTPSE)
        k.second = l->fields[2];
    return k;
}

int plain_key_rises(const place *p, const line *l)
{
    if (!has_key(l->kind) || p->last[l->kind].first.bytes == NULL)
        return 1;
    key now = key_of(l), before = p->last[l->kind];
    /* 000 has all CPFs of these two stand before all CNPJs. */
    int by_length = l->kind == RTPSE || l->kind == RDTPSE;
    if (by_length && now.first.len != before.first.len)
        return now.first.len > before.first.len;
    return greater(now, before);
}

static void see_value(place *p, const line *l)
{
    uint64_t mark = has_key(l->kind) ? 0 : bit(l->kind);
    if (below_group(p, l)) {
        p->group_seen |= mark;
    } else {
        p->seen |= mark;
        p->group = (opened){0, 0};
    }
}

/* The order of all that stands deeper starts afresh. */
static void forget_keys(place *p, enum role deeper_than)
{
    for (uint32_t kind = 1; kind <= KINDS; kind++)
        if (plain_records[kind].role > deeper_than)
            p->last[kind] = (key){{NULL, 0}, {NULL, 0}};
}

void plain_open(place *p, const line *l)
{
    const opened now = {l->kind, l->number}, none = {0, 0};
    enum role role = plain_records[l->kind].role;
    switch (role) {
    case DECLARANT:
        p->declarant = l->kind;
        break;
    case BLOCK:
        p->block = now;
        p->code = p->beneficiary = p->group = none;
        break;
    case CODE:
        p->code = now;
        p->beneficiary = p->group = none;
        break;
    case BENEFICIARY:
        p->beneficiary = now;
        p->group = none;
        p->seen = 0;
        break;
    case GROUP:
        p->group = now;
        p->group_seen = 0;
        break;
    case VALUE:
        see_value(p, l);
        break;
    default:
        break;
    }
    forget_keys(p, role);
    if (has_key(l->kind))
        p->last[l->kind] = key_of(l);
}
