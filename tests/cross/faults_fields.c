/* 13 to 18: which fields the number can be given for, and what stands there instead, with its length. */
#include "faults_inner.h"

#include <string.h>

#include "chance.h"
#include "sound.h"

static int is_obligatory(const plain_row *r) { return r->obligatory; }
static int is_number(const plain_row *r) { return r->format != 'C'; }
static int is_any(const plain_row *r) { return r->size > 0; }
static int has_no_zero_in_front(const plain_row *r) { return r->amount || r->months || r->ddd; }
static int is_date(const plain_row *r) { return r->format == 'D'; }
static int has_values(const plain_row *r) { return r->values != NULL; }

static unsigned nothing(const plain_row *row, uint8_t *text)
{
    (void)row, (void)text;
    return 0;
}

/* One byte that is no digit, or a mask. */
static unsigned wrong_byte(const plain_row *row, uint8_t *text)
{
    if (chance(3) == 0) {
        memcpy(text, "111.444.777-35", 14);
        return 14;
    }
    unsigned len = sound_digits(row->fixed ? row->size : 1 + chance(row->size), text);
    text[chance(len)] = (uint8_t)"./:-, AS\0\x80\xff"[chance(11)];
    return len;
}

/* A byte more than the size, or another length by chance. */
static unsigned wrong_size(const plain_row *row, uint8_t *text)
{
    unsigned len = chance(2) ? row->size + 1 : 1 + chance(row->size + 3);
    memset(text, 'A', len);
    if (row->format != 'C')
        sound_digits(len, text);
    return len;
}

static unsigned zero_in_front(const plain_row *row, uint8_t *text)
{
    unsigned len = sound_digits(row->ddd ? 2 : 1 + chance(row->size), text);
    text[0] = '0';
    return len;
}

static unsigned no_such_date(const plain_row *row, uint8_t *text)
{
    static const char *const dates[] = {"20230229", "19000229", "21000101", "18991231", "20240431", "20241301", "20240001", "20240100",
                                        "20240230", "00000000"};
    (void)row;
    sound_digits(8, text);
    if (chance(3))
        memcpy(text, dates[chance(10)], 8);
    return 8;
}

/* As long as a value, of the same format, and seldom one of them. */
static unsigned no_such_value(const plain_row *row, uint8_t *text)
{
    sound_digits(row->size, text);
    if (row->format == 'C')
        text[chance(row->size)] = (uint8_t)('A' + chance(26));
    return row->size;
}

static const struct {
    int (*wanted)(const plain_row *);
    unsigned (*other)(const plain_row *, uint8_t *);
} in_field[] = {
    [13] = {is_obligatory, nothing}, [14] = {is_number, wrong_byte}, [15] = {is_any, wrong_size},
    [16] = {has_no_zero_in_front, zero_in_front}, [17] = {is_date, no_such_date}, [18] = {has_values, no_such_value},
};
enum { FIRST_IN_FIELD = 13, LAST_IN_FIELD = 18 };

int is_in_field(unsigned number)
{
    return FIRST_IN_FIELD <= number && number <= LAST_IN_FIELD;
}

static int can_be_in(const text_line *line, unsigned f, unsigned number)
{
    plain_row row = plain_field_row(line->edition, line->kind, f);
    return in_field[number].wanted(&row);
}

void break_field_of(text_line *line, unsigned f, unsigned number)
{
    uint8_t text[256];
    plain_row row = plain_field_row(line->edition, line->kind, f);
    set_field(line, f, text, in_field[number].other(&row, text));
}

int break_field(declaration *d, unsigned number)
{
    for (unsigned tries = 0; tries < 100; tries++) {
        text_line *line = any_line(d);
        unsigned count = plain_fields(line->edition, line->kind);
        if (count < 2)
            continue;
        unsigned f = 2 + chance(count - 1);
        if (!can_be_in(line, f, number))
            continue;
        break_field_of(line, f, number);
        return 1;
    }
    return 0;
}
