/* The report as text. */
#ifndef TABLE_H
#define TABLE_H

#include "figures.h"

void table_print(const figures *f);

#endif
