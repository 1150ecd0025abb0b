/* The tests of INFPC, INFPA, the PSE block and what stands below them (change A3); for tests alone. */
#ifndef TEST_GROUPS_H
#define TEST_GROUPS_H

/* In the edition that is set. */
void test_groups(void);

#endif
