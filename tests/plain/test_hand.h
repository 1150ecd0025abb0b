/* The tests of the search in tables made by hand (change A6); for tests alone. */
#ifndef TEST_HAND_H
#define TEST_HAND_H

/* The search knows no edition, so these are asked once. */
void test_tables_by_hand(void);

#endif
