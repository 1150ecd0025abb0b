/* The report as a picture. */
#ifndef PICTURE_H
#define PICTURE_H

#include "figures.h"

void picture_print(const figures *f, FILE *to);

#endif
