/* What the parts of met share with each other and with nobody else. */
#ifndef MET_INNER_H
#define MET_INNER_H

/* Says so on standard error, and gives 0. */
int not_met(const char *what, ...);

#endif
