#include "shrink.h"

#include <stdlib.h>
#include <string.h>

/* One pass with parts of this size; 1 if any could go. */
static int take_out(uint8_t *bytes, size_t *len, size_t part, uint8_t *rest, int (*differs)(const uint8_t *, size_t))
{
    int any = 0;
    for (size_t at = 0; at < *len;) {
        size_t gone = part < *len - at ? part : *len - at, left = *len - gone;
        memcpy(rest, bytes, at);
        memcpy(rest + at, bytes + at + gone, left - at);
        if (differs(rest, left)) {
            memcpy(bytes, rest, left);
            *len = left;
            any = 1;
        } else {
            at += gone;
        }
    }
    return any;
}

void shrink(uint8_t *bytes, size_t *len, int (*differs)(const uint8_t *, size_t))
{
    uint8_t *rest = malloc(*len + 1);
    if (!rest)
        return;
    for (size_t part = *len / 2 + 1; part > 0;)
        if (!take_out(bytes, len, part, rest, differs))
            part /= 2;
    free(rest);
}

void show(FILE *out, const uint8_t *bytes, size_t len)
{
    for (size_t i = 0; i < len; i++) {
        if (bytes[i] == '\r')
            fputs("\\r", out);
        else if (bytes[i] == '\n')
            fputs("\\n\n", out);
        else if (bytes[i] < 32 || bytes[i] > 126 || bytes[i] == '\\')
            fprintf(out, "\\%03o", bytes[i]);
        else
            fputc(bytes[i], out);
    }
    fputc('\n', out);
}
