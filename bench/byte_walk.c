#include "byte_walk.h"

enum { BAR = '|', LF = '\n' };

/* Where the walk is, the file's end, and the number of the line. */
typedef struct { const uint8_t *at, *end; uint32_t line; } place;

static void next_line(place *p)
{
    while (p->at < p->end && *p->at != LF)
        p->at++;
    if (p->at < p->end)
        p->at++;
    p->line++;
}

static int begins(const place *p, const char *with)
{
    for (const uint8_t *at = p->at; *with != 0; at++, with++)
        if (at == p->end || *at != (uint8_t)*with)
            return 0;
    return 1;
}

/* Whether the line, which has a byte, is no longer below the IDREC before it. */
static int ends_idrec(const place *p)
{
    switch (*p->at) {
    case 'F': return begins(p, "FCI|") || begins(p, "FIMDirf|");
    case 'I': return begins(p, "IDREC|");
    case 'P': return begins(p, "PROC|") || begins(p, "PSE|");
    case 'R': return begins(p, "RRA|");
    case 'S': return begins(p, "SCP|");
    default: return 0;
    }
}

/* Goes to field 2 of the line and along it, as far as it has the key's bytes: below 0 where it is smaller, 0 where it is the key. */
static int compare(place *p, const uint8_t *key, size_t key_len)
{
    while (p->at < p->end && *p->at != BAR)
        p->at++;
    if (p->at < p->end)
        p->at++;
    for (size_t i = 0; i < key_len; i++, p->at++) {
        if (p->at == p->end || *p->at == BAR || *p->at < key[i])
            return -1;
        if (*p->at > key[i])
            return 1;
    }
    return p->at < p->end && *p->at != BAR;
}

plain_found byte_walk(const uint8_t *file, size_t len, uint32_t line, const uint8_t *key, size_t key_len)
{
    place p = {file, file + len, 1};
    plain_found found = {0, 0, 0};
    while (p.line < line && p.at < p.end)
        next_line(&p);
    if (p.line != line || !begins(&p, "IDREC|"))
        return (plain_found){27, 0, 0};
    for (next_line(&p); p.at < p.end && !ends_idrec(&p); next_line(&p)) {
        /* below an IDREC only beneficiaries begin with this */
        if (*p.at != 'B')
            continue;
        found.count++;
        int order = begins(&p, "BPF") ? compare(&p, key, key_len) : 1;
        if (order >= 0) {
            found.line = order == 0 ? p.line : 0;
            break;
        }
    }
    return found;
}
