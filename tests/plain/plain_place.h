/* The open records, and what a line's place among them says of it; for the check alone. */
#ifndef PLAIN_PLACE_H
#define PLAIN_PLACE_H

#include "plain_inner.h"

/* What the order of siblings goes by; first.bytes is NULL where there is no sibling yet. */
typedef struct { part first, second; } key;

/* An open record; line 0 where none is open. */
typedef struct { uint32_t kind, line; } opened;

typedef struct {
    plain_edition edition;              /* the file's, picked at line 1 */
    uint32_t declarant;                 /* its kind */
    opened block;                       /* FCI, PROC, RRA, SCP or PSE */
    opened code;                        /* IDREC or OPSE */
    opened beneficiary;                 /* or TPSE */
    opened group;                       /* INFPC, INFPA or DTPSE */
    uint64_t seen, group_seen;          /* value kinds below the beneficiary and below the group, one bit each */
    key last[KINDS + 1];                /* of each kind, below the parent that is open */
} place;

/* One line as read: its number, its bytes, and what the numbers need of it. */
typedef struct {
    uint32_t number, kind, parent;
    part bytes;
    size_t bars;
    part fields[MOST_FIELDS];
} line;

/* Number 12, the other way round; fills in the parent's line as well. */
int plain_may_stand(const place *p, line *l);

/* Number 21: a value record without a key, once more below its own parent. */
int plain_repeated(const place *p, const line *l);

/* Number 20, the other way round: greater than the one before, if there is one. */
int plain_key_rises(const place *p, const line *l);

/* Opens the record and closes all that stood below its place. */
void plain_open(place *p, const line *l);

#endif
