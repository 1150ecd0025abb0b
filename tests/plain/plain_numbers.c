/* Amounts in centavos and month counts in tenths of a month. */
#include "plain_inner.h"

static plain_number read_digits(const uint8_t *field, size_t len, size_t most)
{
    plain_number out = {0, 0};
    uint64_t value = 0;
    for (size_t i = 0; i < len; i++) {
        if (field[i] < '0' || field[i] > '9') {
            out.number = 14;
            return out;
        }
        /* Past the most digits the value no longer counts. */
        if (i < most)
            value = value * 10 + (uint64_t)(field[i] - '0');
    }
    if (len > most)
        out.number = 15;
    else if (len > 0 && field[0] == '0')
        out.number = 16;
    else
        out.value = value;
    return out;
}

plain_number plain_read_amount(const uint8_t *field, size_t len)
{
    return read_digits(field, len, AMOUNT_DIGITS);
}

plain_number plain_read_months(const uint8_t *field, size_t len)
{
    return read_digits(field, len, MONTHS_DIGITS);
}

static plain_written write_digits(uint64_t value, uint64_t limit,
                                  uint8_t *out, size_t room)
{
    if (value > limit)
        return (plain_written){15, 0, 0};
    size_t count = 0;
    for (uint64_t rest = value; rest > 0; rest /= 10)
        count++;
    if (count > room)
        return (plain_written){24, 0, 0};
    for (size_t i = count; i > 0; i--) {
        out[i - 1] = (uint8_t)('0' + value % 10);
        value /= 10;
    }
    return (plain_written){0, 0, count};
}

plain_written plain_write_amount(uint64_t value, uint8_t *out, size_t room)
{
    return write_digits(value, UINT64_C(9999999999999), out, room);
}

plain_written plain_write_months(uint64_t value, uint8_t *out, size_t room)
{
    return write_digits(value, UINT64_C(9999), out, room);
}
