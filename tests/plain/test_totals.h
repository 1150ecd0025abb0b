/* The tests of the totals by value record (change A7); for tests alone. */
#ifndef TEST_TOTALS_H
#define TEST_TOTALS_H

/* In the edition that is set. */
void test_totals(unsigned rounds);

#endif
