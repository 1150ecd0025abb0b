/* Makes an input on which two programs differ small, and shows it. */
#ifndef SHRINK_H
#define SHRINK_H

#include <stddef.h>
#include <stdint.h>
#include <stdio.h>

/* Takes parts out, ever smaller ones, for as long as `differs` still says 1 of what is left. */
void shrink(uint8_t *bytes, size_t *len, int (*differs)(const uint8_t *bytes, size_t len));

/* The bytes as printf takes them, each LF also as a new line. */
void show(FILE *out, const uint8_t *bytes, size_t len);

#endif
