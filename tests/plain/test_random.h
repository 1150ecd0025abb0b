/* Makers of files by chance, in the edition that is set; for tests alone. */
#ifndef TEST_RANDOM_H
#define TEST_RANDOM_H

#include "test_help.h"

/* A file with any of the blocks, right in all that is asked; if changed, some contents are odd. */
text random_file(int changed);

/* A right file with IDRECs that have many persons, whose numbers stand near each other. */
text crowd_file(void);

/* One change of bytes or of whole lines. */
void change(text *t);

/* One digit changed or two neighbours exchanged; by chance the number may stay right. */
void spoil(char *id, size_t len);

#endif
