/* What is asked once a file at most, and of the rarer fields: a field's own number, the order of numbers in a line that did not pass,
   the conditions of DECPF, PROC and RRA, and the edition. */
#include <string.h>

#include "tuned_digits.h"
#include "tuned_inner.h"

enum { MOST_BYTES = 1024, MARK_FIELD = 6, MARK_SIZE = 7, PERSON_NAME = 60 };

const uint8_t tuned_class[256] = {
    ['0'] = A_DIGIT, ['1'] = A_DIGIT, ['2'] = A_DIGIT, ['3'] = A_DIGIT, ['4'] = A_DIGIT, ['5'] = A_DIGIT, ['6'] = A_DIGIT, ['7'] = A_DIGIT,
    ['8'] = A_DIGIT, ['9'] = A_DIGIT, [BAR] = A_BAR, [CR] = A_LINE_END, [LF] = A_LINE_END,
};

/* By the sum's remainder of 11. */
#define ONCE '0', '0', '9', '8', '7', '6', '5', '4', '3', '2', '1'
#define THRICE ONCE, ONCE, ONCE
#define NINE_TIMES THRICE, THRICE, THRICE
const uint8_t tuned_check_digit[SUMS] = {NINE_TIMES, NINE_TIMES, NINE_TIMES, NINE_TIMES, NINE_TIMES, NINE_TIMES};

static int digits_only(const uint8_t *at, size_t len)
{
    while (len > 0 && tuned_class[*at] == A_DIGIT)
        at++, len--;
    return len == 0;
}

static int size_right(const row *r, size_t len)
{
    switch (r->op) {
    case AMOUNT: case DUE: case TEXT: case UP_TO: return len <= r->size;
    case PHONE: return len == 8 || len == 9;
    case EITHER: return len == CPF_SIZE || len == CNPJ_SIZE;
    default: return len == r->size;
    }
}

int tuned_is_date(const uint8_t *at)
{
    static const uint8_t days[] = {0, 31, 29, 31, 30, 31, 30, 31, 31, 30, 31, 30, 31};
    unsigned century = at[0] * 10u + at[1] - '0' * 11, year = at[2] * 10u + at[3] - '0' * 11;
    unsigned month = at[4] * 10u + at[5] - '0' * 11, day = at[6] * 10u + at[7] - '0' * 11;
    if (century - 19 > 1 || month - 1 > 11 || day - 1 >= days[month])
        return 0;
    /* in these two centuries every fourth year is a leap year, but for 1900 */
    return month != 2 || day != 29 || (year % 4 == 0 && (year != 0 || century == 20));
}

static int is_one_of(const char *values, const uint8_t *at, size_t size)
{
    for (; *values != 0; values += size)
        if (memcmp(values, at, size) == 0)
            return 1;
    return 0;
}

/* Of a field that holds a CPF or a CNPJ, whose size is right: whether its check digits are; of any other 1. */
static int identity_right(const row *r, const uint8_t *at, size_t len)
{
    switch (r->op) {
    case CPF: case CNPJ: case EITHER: case OPTIONAL_CPF: return len == CPF_SIZE ? cpf_right(at) : cnpj_right(at);
    default: return 1;
    }
}

uint32_t tuned_rule(const row *r, const uint8_t *at, size_t len)
{
    int any_character = r->op == TEXT || r->op == FLAG || r->op == WORD;
    if (len == 0)
        return r->must ? 13 : 0;
    if (!any_character && !digits_only(at, len))
        return 14;
    if (!size_right(r, len))
        return 15;
    if ((r->op == AMOUNT || r->op == DUE || r->op == DDD) && at[0] == '0')
        return 16;
    if (r->op == DATE && !tuned_is_date(at))
        return 17;
    if (tuned_values[r->values] != NULL && !is_one_of(tuned_values[r->values], at, len))
        return 18;
    return identity_right(r, at, len) ? 0 : 26;
}

static uint32_t count_bars(const uint8_t *at, const uint8_t *end)
{
    uint32_t bars = 0;
    for (; at < end; at++)
        bars += tuned_class[*at] == A_BAR;
    return bars;
}

static size_t to_bar(const uint8_t *at)
{
    size_t len = 0;
    while (tuned_class[at[len]] != A_BAR)
        len++;
    return len;
}

/* 4, 5 or 6, or 0; the line's end is at `to`. */
static uint32_t end_number(const stopped *s, const uint8_t *to)
{
    if (to - s->line > MOST_BYTES)
        return 4;
    if (to == s->end || (*to == CR && to + 1 == s->end))
        return 5;
    return to[0] == CR && to[1] == LF ? 0 : 6;
}

static uint32_t count_fields(const row *r)
{
    uint32_t fields = 1;
    for (; r->op != DONE; r++)
        fields += r->count;
    return fields;
}

breach tuned_settle(const stopped *s)
{
    const uint8_t *most = s->end - s->line > MOST_BYTES ? s->line + MOST_BYTES + 1 : s->end, *to = s->stop.at;
    while (to < most && tuned_class[*to] != A_LINE_END)
        to++;
    uint32_t number = end_number(s, to);
    if (number != 0)
        return (breach){number, 0};
    if (to == s->line || to[-1] != BAR)
        return (breach){8, 0};
    if (s->number != 0)
        return (breach){s->number, 1};
    uint32_t passed = count_bars(s->line, s->stop.at);
    if (passed + count_bars(s->stop.at, to) != count_fields(s->rows))
        return (breach){11, 0};
    return (breach){tuned_rule(s->stop.row, s->stop.at, to_bar(s->stop.at)), passed + 1};
}

uint32_t tuned_condition(const uint8_t *line)
{
    const uint8_t *field[16];
    for (unsigned f = 1; f <= 13; f++) {
        field[f] = line;
        line += to_bar(line) + 1;
    }
    if (*field[8] != 'S')
        return 0;
    if (*field[9] == BAR)
        return 9;
    if (*field[10] == BAR)
        return 10;
    if (*field[10] == '1' && *field[11] != 'S')
        return 11;
    return *field[13] != BAR ? 13 : 0;
}

/* Behind the next bar of a line that passed, which has bytes behind it that may be read. */
static const uint8_t *behind_bar(const uint8_t *at)
{
    uint64_t marks;
    while ((marks = bars(load(at))) == 0)
        at += 8;
    return at + through_mark(marks);
}

uint32_t tuned_lawyer(const uint8_t *key)
{
    /* field 2 is one byte and its bar, and so is 4 where it is filled */
    const uint8_t *kind = behind_bar(key + 2), *number = kind + 2;
    if (*kind == BAR)
        return kind[1] != BAR ? 5 : kind[2] != BAR ? 6 : 0;
    unsigned digits = *number == BAR ? 0 : number[CPF_SIZE] == BAR ? CPF_SIZE : CNPJ_SIZE;
    if (*kind != '1')
        return digits == CPF_SIZE ? 5 : 0;
    if (digits == CNPJ_SIZE)
        return 5;
    const uint8_t *name = number + digits + 1;
    return behind_bar(name) - name > PERSON_NAME + 1 ? 6 : 0;
}

/* Only CR LF ends line 1 here, however far away it is, and what stands behind the sixth bar is not looked at. */
enum edition tuned_edition(const uint8_t *file, size_t len)
{
    size_t bars = 0, begin = 0;
    for (size_t i = 0; i < len; i++) {
        uint8_t class = tuned_class[file[i]];
        if (class == A_LINE_END && file[i] == CR && i + 1 < len && file[i + 1] == LF)
            break;
        if (class != A_BAR)
            continue;
        if (++bars == MARK_FIELD)
            return i - begin == MARK_SIZE && memcmp(file + begin, "XJFSFHB", MARK_SIZE) == 0 ? OLDER : NEWER;
        begin = i + 1;
    }
    return NEWER;
}
