/* A declaration as a list of lines, and as the bytes of a file. */
#ifndef DECLARATION_H
#define DECLARATION_H

#include <stddef.h>
#include <stdint.h>

#include "../plain/plain.h"

enum { MOST_LINES = 96, MOST_BYTES = 1200, MOST_FILE = 1 << 17 };

/* One line: its edition and kind when it was made, its bytes, and what ends it. */
typedef struct {
    plain_edition edition;
    unsigned kind, len, end_len;
    uint8_t bytes[MOST_BYTES], end[4];
} text_line;

/* Its edition is the one that its lines were made by; line 1 may come to say another. In a crowd so many more persons, or companies, than
   a few may stand below one record. */
typedef struct {
    plain_edition edition;
    unsigned declarant, count, crowd;
    text_line line[MOST_LINES];
} declaration;

typedef struct {
    size_t len;
    uint8_t bytes[MOST_FILE];
} file_text;

/* An edition as a number: 2025 or 2022. */
unsigned year_of(plain_edition edition);

plain_edition other_than(plain_edition edition);

/* Field f of a line, from 1: 1 and its place, or 0. */
int find_field(const text_line *line, unsigned f, unsigned *start, unsigned *len);

/* Puts other contents into field f, if the line has one. */
void set_field(text_line *line, unsigned f, const void *contents, unsigned len);

/* Puts bytes in before the one at this place, which the line has. */
void put_in(text_line *line, unsigned at, const char *bytes);

void set_end(text_line *line, const char *end);

/* Makes room for a line at place `at`, if there is any left, and gives it. */
text_line *insert_line(declaration *d, unsigned at);

void remove_line(declaration *d, unsigned at);

/* The file that the lines make. */
void write_file(const declaration *d, file_text *file);

#endif
