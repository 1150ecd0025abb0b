#include "faults.h"

#include <string.h>

#include "chance.h"
#include "faults_inner.h"

text_line *any_line(declaration *d)
{
    return &d->line[chance(d->count)];
}

int copy_line(declaration *d, unsigned from, unsigned to)
{
    text_line copy = d->line[from], *line = insert_line(d, to);
    if (line)
        *line = copy;
    return line != NULL;
}

int break_line(text_line *line, unsigned number)
{
    return number == CONDITION ? break_conditions(line) : spoil_any(line, 1);
}

static int (*const breakers[])(declaration *) = {
    [1] = not_closed, [2] = after_the_end, [4] = too_long, [5] = cut_short, [6] = wrong_end, [8] = no_last_bar,
    [9] = unknown, [10] = left_for_later, [11] = wrong_count, [12] = misplaced, [CONDITION] = broken_condition, [20] = not_greater,
    [21] = repeated, [WRONG_DIGITS] = wrong_digits,
};

int can_break(unsigned number)
{
    return is_in_field(number) || (number < sizeof breakers / sizeof *breakers && breakers[number] != NULL);
}

unsigned any_rule(unsigned least)
{
    unsigned number;
    do
        number = least + chance(LAST_RULE + 1 - least);
    while (!can_break(number));
    return number;
}

int break_rule(declaration *d, unsigned number)
{
    if (d->count == 0 || !can_break(number))
        return 0;
    return is_in_field(number) ? break_field(d, number) : breakers[number](d);
}

static void put_byte(file_text *file, size_t at, uint8_t byte)
{
    memmove(file->bytes + at + 1, file->bytes + at, file->len - at);
    file->bytes[at] = byte;
    file->len++;
}

void damage_bytes(file_text *file)
{
    if (file->len == 0 || file->len == MOST_FILE)
        return;
    size_t at = chance((uint32_t)file->len);
    switch (chance(6)) {
    case 0:
        file->bytes[at] = (uint8_t)chance(256);
        break;
    case 1:
        file->bytes[at] = (uint8_t)"|\r\n0SN .\0\xc3"[chance(10)];
        break;
    case 2:
        file->len--;
        memmove(file->bytes + at, file->bytes + at + 1, file->len - at);
        break;
    case 3:
        put_byte(file, at, file->bytes[at]);
        break;
    case 4:
        put_byte(file, at, (uint8_t)"|\r\n09A\0\x80"[chance(8)]);
        break;
    default:
        file->len = at;
    }
}
