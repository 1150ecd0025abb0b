/* The check of a file: one pass over its lines. What is open is two words of bits, the kinds that may stand next. */
#include "tuned.h"

#include <string.h>

#include "tuned_fields.h"
#include "tuned_names.h"

enum { MOST_LINES = 65536, CODE_SIZE = 4 };

/* More than any line that passes has, with the bytes behind its fields that are read along with them. */
enum { SLACK = 256 };

typedef struct {
    const uint8_t *at, *end;                            /* the line's begin, and the end of the file */
    uint64_t values, others;                            /* kinds that may stand next */
    uint64_t own, seen;                                 /* values of the open beneficiary itself, and those that have come */
    uint64_t known;                                     /* value kinds of the edition */
    const row *const *rows;                             /* the edition's */
    const next_kinds *next;                             /* the declarant's */
    const uint8_t *block_key, *code_key, *person_key;   /* of the last one, in place; NULL where no code is open */
    const uint8_t *pension_key, *relative_key;          /* of the person's last INFPC, and INFPA or DTPSE; NULL where there is none */
    const uint8_t *refund_key;                          /* the same of RTPSE or RDTPSE */
    unsigned block, person;                             /* the kinds that are open, or KINDS */
    unsigned place;                                     /* the block's */
    int in_tail;
    uint32_t year;                                      /* the edition's */
} check;

/* No number of document 01's. */
enum { ENDED = 99 };

static const breach none = {0, 0}, repeated = {21, 1}, key_not_greater = {20, 2}, ended = {ENDED, 0};

static void stand_at(check *c, unsigned place)
{
    c->values = c->own = c->next[place].values & c->known;
    c->others = c->next[place].others;
}

/* Keys of one size, at least eight digits. */
static int key_rises(const uint8_t *key, const uint8_t *before, unsigned size)
{
    uint64_t a = load_to_compare(key), b = load_to_compare(before);
    return a != b ? a > b : load_to_compare(key + size - 8) > load_to_compare(before + size - 8);
}

/* Field 2, of one byte, and then field 3, each ended by its bar. */
static int pair_rises(const uint8_t *key, const uint8_t *before)
{
    if (*key != *before)
        return *key > *before;
    for (key += 2, before += 2; *key != BAR; key++, before++)
        if (*key != *before)
            return *before == BAR || *key > *before;
    return 0;
}

/* A CPF and then a date, each of which may be empty, the least. */
static int relative_rises(const uint8_t *key, const uint8_t *before)
{
    size_t cpf = *key == BAR ? 0 : CPF_SIZE, cpf_before = *before == BAR ? 0 : CPF_SIZE;
    if (cpf != cpf_before)
        return cpf != 0;
    if (cpf != 0 && memcmp(key, before, CPF_SIZE) != 0)
        return key_rises(key, before, CPF_SIZE);
    key += cpf + 1;
    before += cpf + 1;
    return *key != BAR && (*before == BAR || load_to_compare(key) > load_to_compare(before));
}

/* Every CPF before every CNPJ. */
static int refund_rises(const uint8_t *key, const uint8_t *before)
{
    int person = key[CPF_SIZE] == BAR;
    if (person != (before[CPF_SIZE] == BAR))
        return !person;
    return key_rises(key, before, person ? CPF_SIZE : CNPJ_SIZE);
}

/* INFPC, INFPA and DTPSE: one closes what stood open beside it, and nothing of what may stand below it has come yet. */
static breach open_group(check *c, unsigned kind, const uint8_t *key)
{
    const uint8_t **last = kind == INFPC ? &c->pension_key : &c->relative_key;
    if (*last != NULL && !(kind == INFPC ? key_rises(key, *last, CNPJ_SIZE) : relative_rises(key, *last)))
        return key_not_greater;
    *last = key;
    if (kind == DTPSE) {
        c->refund_key = NULL;
        stand_at(c, OF_DTPSE);
        return none;
    }
    uint64_t below = kind == INFPC ? tuned_pension[c->next != tuned_next[0]] : c->person == BPFRRA ? PAST_ALIMONY : ALIMONY;
    c->values = c->own | below;
    c->seen &= ~below;
    return none;
}

static breach add_refund(check *c, const uint8_t *key)
{
    if (c->refund_key != NULL && !refund_rises(key, c->refund_key))
        return key_not_greater;
    c->refund_key = key;
    return none;
}

static breach open_person(check *c, unsigned kind, const uint8_t *key)
{
    if (c->person == kind && !key_rises(key, c->person_key, c->rows[kind]->size))
        return key_not_greater;
    /* of one kind after another only what a group or a DTPSE left is undone */
    if (c->person != kind || kind == TPSE)
        stand_at(c, OF_BPFDEC + kind - BPFDEC);
    c->person = kind;
    c->values = c->own;
    c->person_key = key;
    c->pension_key = c->relative_key = c->refund_key = NULL;
    c->seen = 0;
    return none;
}

static breach open_code(check *c, unsigned kind, const uint8_t *key)
{
    if (c->code_key != NULL && memcmp(key, c->code_key, kind == IDREC ? CODE_SIZE : CNPJ_SIZE) <= 0)
        return key_not_greater;
    c->code_key = key;
    c->person = KINDS;
    stand_at(c, c->place + 1);
    return none;
}

static int block_rises(const check *c, unsigned kind, const uint8_t *key)
{
    return kind == PROC || kind == RRA ? pair_rises(key, c->block_key) : key_rises(key, c->block_key, c->rows[kind]->size);
}

static breach open_block(check *c, unsigned kind, const uint8_t *key)
{
    uint32_t field = kind == PROC || kind == RRA ? tuned_lawyer(key) : 0;
    if (field != 0)
        return (breach){19, field};
    if (c->block == kind && !block_rises(c, kind, key))
        return key_not_greater;
    c->block = kind;
    c->block_key = key;
    c->code_key = NULL;
    c->person = KINDS;
    c->place = IN_FCI + 2 * (kind - FCI);
    stand_at(c, c->place);
    return none;
}

static breach open_head(check *c, unsigned kind)
{
    uint32_t field = kind == DECPF ? tuned_condition(c->at) : 0;
    if (field != 0)
        return (breach){19, field};
    if (kind == DIRF)
        stand_at(c, FOR_RESPO);
    else if (kind == RESPO)
        stand_at(c, FOR_DECLARANT);
    else if (kind == FIMDIRF)
        return ended;
    else {
        c->next = tuned_next[kind == DECPJ];
        c->place = NO_BLOCK;
        stand_at(c, NO_BLOCK);
    }
    return none;
}

/* 19 to 21, in the order of the numbers, and what the record opens. */
static breach open_record(check *c, unsigned kind, const uint8_t *key)
{
    if (kind < VALUES) {
        if (c->seen & BIT(kind))
            return repeated;
        c->seen |= BIT(kind);
        /* a value of the beneficiary itself closes an INFPC or INFPA */
        if (c->own >> kind & 1)
            c->values = c->own;
        return none;
    }
    if (kind < BPFDEC)
        return kind == RTPSE || kind == RDTPSE ? add_refund(c, key) : open_group(c, kind, key);
    if (kind < IDREC)
        return open_person(c, kind, key);
    if (kind < FCI)
        return open_code(c, kind, key);
    return kind < DIRF ? open_block(c, kind, key) : open_head(c, kind);
}

static breach unplaced(const check *c, unsigned kind)
{
    int unknown = kind == UNKNOWN || (kind < VALUES && !(c->known >> kind & 1));
    return tuned_settle(&(stopped){c->at, c->end, NULL, {NULL, c->at}, kind == LATER ? 10 : unknown ? 9 : 12});
}

static breach check_line(check *c)
{
    unsigned kind = kind_of(c->at);
    if (!(kind < VALUES ? c->values >> kind & 1 : c->others >> (kind - VALUES) & 1))
        return unplaced(c, kind);
    const uint8_t *key = c->at + name_len[kind] + 1;
    walk w = pass_fields((walk){c->rows[kind], key});
    if (w.row->op != DONE || w.at[0] != CR || w.at[1] != LF)
        return tuned_settle(&(stopped){c->at, c->end, c->rows[kind], w, 0});
    breach found = open_record(c, kind, key);
    c->at = w.at + 2;
    return found;
}

/* Goes on in a copy of the last bytes, so that a line may always be read past its end; 1 where no byte is left. */
static int near_end(check *c, uint8_t *tail)
{
    size_t left = (size_t)(c->end - c->at);
    if (!c->in_tail) {
        memcpy(tail, c->at, left);
        memset(tail + left, 0, 2 * SLACK - left);
        c->at = tail;
        c->end = tail + left;
        c->in_tail = 1;
    }
    return left == 0;
}

static check begin(const uint8_t *file, size_t len)
{
    enum edition edition = tuned_edition(file, len);
    check c = {.at = file, .end = file + len, .block = KINDS, .person = KINDS, .next = tuned_next[0]};
    c.known = edition == NEWER ? ~UINT64_C(0) : ~(BIT(RTDS) | BIT(ESDS));
    stand_at(&c, FOR_DIRF);
    c.rows = tuned_rows[edition];
    c.year = edition == NEWER ? 2025 : 2022;
    return c;
}

/* The answer where a line did not pass, or where it is the last. */
static tuned_answer at_line(const check *c, breach found, uint32_t line, size_t room)
{
    if (found.number != ENDED)
        return (tuned_answer){found.number, line, found.field, c->year};
    if (line > room)
        return (tuned_answer){7, line, 0, c->year};
    return c->at == c->end ? (tuned_answer){0, line, 0, c->year} : (tuned_answer){2, line + 1, 0, c->year};
}

tuned_answer tuned_check_room(const uint8_t *file, size_t len, size_t room)
{
    uint8_t tail[2 * SLACK], no_byte = 0;
    check c = begin(len > 0 ? file : &no_byte, len);
    /* the line that the room is too short for is looked at too, since its own fault comes first */
    uint32_t last = room < MOST_LINES ? (uint32_t)room + 1 : MOST_LINES;
    for (uint32_t line = 1; line <= last; line++) {
        if (c.end - c.at < SLACK && near_end(&c, tail))
            return (tuned_answer){1, line, 0, c.year};
        breach found = check_line(&c);
        if (found.number != 0)
            return at_line(&c, found, line, room);
    }
    if (room < MOST_LINES)
        return (tuned_answer){7, last, 0, c.year};
    return (tuned_answer){c.at == c.end ? 1 : 3, MOST_LINES + 1, 0, c.year};
}
