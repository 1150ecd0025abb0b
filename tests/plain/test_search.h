/* The tests of the fifth number of an entry and of the search by it (change A6); for tests alone. */
#ifndef TEST_SEARCH_H
#define TEST_SEARCH_H

/* In the edition that is set. */
void test_search(unsigned rounds);

#endif
