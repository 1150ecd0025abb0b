/* The calls that are measured. */
#include "calls.h"

#include <stdio.h>
#include <stdlib.h>
#include <string.h>

#include "../include/decklesail.h"
#include "../tests/plain/plain.h"
#include "tuned/tuned.h"

static uint32_t nothing(const uint8_t *file, size_t len, size_t room)
{
    (void)file, (void)len, (void)room;
    return 0;
}

uint32_t count_line_ends(const uint8_t *file, size_t len)
{
    uint32_t lines = 0;
    for (size_t i = 0; i + 1 < len; i++)
        if (file[i] == '\r' && file[i + 1] == '\n')
            lines++;
    return lines;
}

static uint32_t line_ends(const uint8_t *file, size_t len, size_t room)
{
    (void)room;
    return count_line_ends(file, len);
}

static uint32_t plain(const uint8_t *file, size_t len, size_t room)
{
    return plain_check_room(file, len, room).number;
}

static uint32_t tuned(const uint8_t *file, size_t len, size_t room)
{
    return tuned_check_room(file, len, room).number;
}

/* They are no part of a call's stack. */
static uint64_t totals[TOTAL_PLACES];

static uint32_t plain_totals(const uint8_t *file, size_t len, size_t room)
{
    return plain_check_room_totals(file, len, room, totals, TOTAL_PLACES).number;
}

static uint32_t archive_totals(const uint8_t *file, size_t len, size_t room)
{
    return decklesail_totals(file, len, room, totals, TOTAL_PLACES);
}

/* For its stack: what it gives is no number of an answer. */
static uint32_t one_total(const uint8_t *file, size_t len, size_t room)
{
    return (uint32_t)decklesail_total(file, len, room, RTRT);
}

call call_named(const char *name)
{
    static const struct { const char *name; call call; } calls[] = {
        {"nothing", nothing}, {"floor", line_ends}, {"tuned", tuned}, {"plain", plain}, {"archive", decklesail_check_number},
        {"plain+totals", plain_totals}, {"totals", archive_totals}, {"one-total", one_total},
    };
    for (size_t i = 0; i < sizeof calls / sizeof *calls; i++)
        if (strcmp(calls[i].name, name) == 0)
            return calls[i].call;
    fprintf(stderr, "calls: no such call: %s\n", name);
    exit(2);
}
