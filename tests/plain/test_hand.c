/* The search in tables made by hand: every cause of 27 alone, in every place, and what stands right beside it. */
#include <stdlib.h>
#include <string.h>

#include "test_hand.h"
#include "test_words.h"

enum { HAND_LINES = 8, HAND_NUMBERS = 5 * HAND_LINES, HAND_BYTES = 91 };

/* To the search a key is any bytes, so short ones do. */
static const char hand_file[] =
    "IDREC|0561|\r\nBPFDEC|10|\r\nRTRT|\r\nBPFDEC|20|\r\nBPFDEC|30|\r\nBPJDEC|40|\r\nIDREC|0562|\r\nFIMDirf|\r\n";
static const uint32_t hand_table[HAND_NUMBERS] = {
    5, 0, 11, 0, 6,  6, 13, 10, 1, 3,  7, 25, 5, 2, 3,  6, 32, 10, 1, 4,
    6, 44, 10, 1, 5,  44, 56, 10, 1, 6,  5, 68, 11, 0, 7,  73, 81, 8, 0, 8};

enum { KIND, START, LENGTH, PARENT, LAST };
#define NOT {27, 0, 0}                  /* no answer */
#define TOP UINT32_MAX
#define BIG 0x7FFFFFFFu

/* One number of the entry of a line changed, a key below an IDREC, and the answer; line 0 changes nothing. */
typedef struct { uint32_t line; int number; uint32_t value, under; const char *key; plain_found wanted; } by_hand;

static void test_hand(const by_hand *c, size_t n)
{
    for (size_t i = 0; i < n; i++) {
        uint32_t *table = exact_copy(hand_table, sizeof hand_table);
        uint8_t *file = exact_copy(hand_file, HAND_BYTES);
        both b = {file, HAND_BYTES, table, HAND_NUMBERS};
        if (c[i].line != 0)
            table[5 * (c[i].line - 1) + (unsigned)c[i].number] = c[i].value;
        is_found(ask(&b, c[i].under, key_text(c[i].key)), c[i].wanted, "by hand", (uint32_t)i);
        free(table);
        free(file);
    }
}

#define TEST_HAND(cases) test_hand(cases, sizeof (cases) / sizeof *(cases))

static void test_hand_keys(void)
{
    static const by_hand c[] = {
        {0, 0, 0, 1, "10", {0, 2, 1}}, {0, 0, 0, 1, "20", {0, 4, 2}}, {0, 0, 0, 1, "30", {0, 5, 3}}, {0, 0, 0, 1, "40", {0, 0, 4}},
        {0, 0, 0, 1, "", {0, 0, 1}}, {0, 0, 0, 1, "1", {0, 0, 1}}, {0, 0, 0, 1, "100", {0, 0, 2}}, {0, 0, 0, 1, "15", {0, 0, 2}},
        {0, 0, 0, 1, "2", {0, 0, 2}}, {0, 0, 0, 1, "21", {0, 0, 3}}, {0, 0, 0, 1, "31", {0, 0, 4}}, {0, 0, 0, 1, "\xFF", {0, 0, 4}},
        {0, 0, 0, 1, "10|", {0, 0, 2}}, {0, 0, 0, 1, "0561", {0, 0, 1}}, {0, 0, 0, 7, "", {0, 0, 0}}, {0, 0, 0, 7, "10", {0, 0, 0}},
        {0, 0, 0, 0, "10", NOT}, {0, 0, 0, 2, "10", NOT}, {0, 0, 0, 3, "10", NOT}, {0, 0, 0, 6, "40", NOT},
        {0, 0, 0, 8, "10", NOT}, {0, 0, 0, 9, "10", NOT}, {0, 0, 0, 10, "", NOT},
        {0, 0, 0, TOP, "10", NOT}, {0, 0, 0, TOP - 1, "", NOT}, {0, 0, 0, 0x80000001, "10", NOT},
    };
    TEST_HAND(c);
}

/* Each cause at the IDREC, at the first, a later and the stopping entry, and behind it, where it is none. */
static void test_hand_kinds(void)
{
    static const by_hand c[] = {
        {1, KIND, 6, 1, "20", NOT}, {1, KIND, 0, 1, "20", NOT}, {1, KIND, 65, 1, "20", NOT},
        {2, KIND, 7, 1, "20", NOT}, {4, KIND, 5, 1, "30", NOT}, {4, KIND, 66, 1, "20", NOT},
        {5, KIND, 73, 1, "30", NOT}, {5, KIND, 0, 1, "25", NOT}, {6, KIND, 59, 1, "35", NOT},
        {5, KIND, 73, 1, "20", {0, 4, 2}}, {6, KIND, 7, 1, "30", {0, 5, 3}}, {3, KIND, 6, 1, "20", {0, 4, 2}},
        {3, KIND, 5, 3, "", {0, 0, 0}}, {2, KIND, 44, 1, "20", {0, 0, 1}},
        {2, KIND, 44, 1, "10", {0, 0, 1}}, {4, KIND, 50, 1, "20", {0, 0, 2}},
        {4, KIND, 54, 1, "30", {0, 0, 2}}, {4, KIND, 62, 1, "30", {0, 0, 2}}, {4, KIND, 49, 1, "20", {0, 4, 2}},
        {4, KIND, 52, 1, "20", {0, 4, 2}}, {4, KIND, 56, 1, "30", {0, 5, 3}}, {4, KIND, 60, 1, "30", {0, 5, 3}},
        {6, KIND, 6, 1, "40", {0, 6, 4}}, {6, KIND, 6, 1, "41", {0, 0, 4}}, {2, KIND, 5, 2, "10", NOT},
        {6, KIND, 5, 6, "40", {0, 0, 0}}, {1, PARENT, TOP, 1, "20", {0, 4, 2}}, {4, PARENT, 0, 1, "20", {0, 4, 2}},
        {2, PARENT, TOP, 1, "30", {0, 5, 3}}, {5, PARENT, 7, 1, "30", {0, 5, 3}}, {6, PARENT, 9, 1, "40", {0, 0, 4}},
        {2, KIND, 6 + 0x100, 1, "10", NOT}, {2, KIND, 6 + 0x10000, 1, "10", NOT}, {2, KIND, TOP, 1, "10", NOT},
    };
    TEST_HAND(c);
}

static void test_hand_lasts(void)
{
    static const by_hand c[] = {
        {1, LAST, 0, 1, "10", NOT}, {1, LAST, 1, 1, "10", {0, 0, 0}}, {1, LAST, 2, 1, "20", {0, 0, 1}},
        {1, LAST, 3, 1, "20", {0, 0, 1}}, {1, LAST, 4, 1, "20", {0, 4, 2}}, {1, LAST, 8, 1, "30", {0, 5, 3}},
        {1, LAST, 9, 1, "10", NOT}, {1, LAST, TOP, 1, "10", NOT}, {7, LAST, 6, 7, "10", NOT},
        {7, LAST, 8, 7, "10", NOT}, {7, LAST, 9, 7, "10", NOT}, {7, LAST, 0, 7, "", NOT},
        {2, LAST, 1, 1, "10", NOT}, {2, LAST, 0, 1, "20", NOT}, {2, LAST, 2, 1, "20", NOT},
        {2, LAST, 2, 1, "10", {0, 2, 1}}, {2, LAST, 9, 1, "10", NOT}, {2, LAST, 8, 1, "10", {0, 2, 1}},
        {2, LAST, 6, 1, "20", {0, 0, 1}}, {2, LAST, 7, 1, "20", {0, 0, 1}}, {2, LAST, 8, 1, "20", {0, 0, 1}}, {2, LAST, 9, 1, "20", NOT},
        {4, LAST, 3, 1, "30", NOT}, {4, LAST, 3, 1, "20", NOT}, {4, LAST, 5, 1, "30", {0, 0, 3}},
        {4, LAST, 8, 1, "30", {0, 0, 2}}, {4, LAST, 9, 1, "30", NOT}, {4, LAST, TOP, 1, "30", NOT},
        {5, LAST, 4, 1, "30", NOT}, {5, LAST, 4, 1, "25", NOT}, {5, LAST, 9, 1, "25", NOT},
        {5, LAST, 8, 1, "25", {0, 0, 3}}, {5, LAST, 4, 1, "20", {0, 4, 2}}, {6, LAST, 5, 1, "40", NOT},
        {6, LAST, 9, 1, "35", NOT}, {6, LAST, 8, 1, "35", {0, 0, 4}}, {6, LAST, 0, 1, "30", {0, 5, 3}},
        {3, LAST, 0, 1, "30", {0, 5, 3}}, {8, LAST, 0, 1, "40", {0, 0, 4}}, {7, LAST, 0, 1, "40", {0, 0, 4}},
    };
    TEST_HAND(c);
}

static void test_hand_places(void)
{
    static const by_hand c[] = {
        {1, START, 80, 1, "20", {0, 4, 2}}, {1, START, 81, 1, "20", NOT}, {1, LENGTH, 91, 1, "20", {0, 4, 2}},
        {1, LENGTH, 92, 1, "20", NOT}, {1, START, TOP - 10, 1, "20", NOT}, {1, START, TOP, 1, "20", NOT},
        {1, LENGTH, TOP, 1, "20", NOT}, {7, LENGTH, TOP - 67, 7, "20", NOT}, {7, LENGTH, 23, 7, "", {0, 0, 0}},
        {7, LENGTH, 24, 7, "", NOT}, {2, START, 81, 1, "20", {0, 4, 2}}, {2, START, 82, 1, "20", NOT},
        {2, LENGTH, 78, 1, "10", {0, 2, 1}}, {2, LENGTH, 79, 1, "10", NOT}, {2, LENGTH, TOP - 12, 1, "10", NOT},
        {2, LENGTH, TOP - 11, 1, "10", NOT}, {2, LENGTH, TOP, 1, "10", NOT},
        {4, LENGTH, 59, 1, "30", {0, 5, 3}}, {4, LENGTH, 60, 1, "30", NOT}, {4, START, TOP - 9, 1, "30", NOT},
        {4, START, TOP - 8, 1, "30", NOT}, {4, START, TOP, 1, "30", NOT}, {4, START, BIG, 1, "30", NOT},
        {5, LENGTH, 47, 1, "30", {0, 5, 3}}, {5, LENGTH, 48, 1, "30", NOT}, {5, LENGTH, 48, 1, "25", NOT},
        {5, LENGTH, TOP - 43, 1, "25", NOT}, {5, LENGTH, 48, 1, "20", {0, 4, 2}}, {6, LENGTH, 35, 1, "40", {0, 0, 4}},
        {6, LENGTH, 36, 1, "40", NOT}, {6, LENGTH, 36, 1, "35", NOT}, {6, LENGTH, 36, 1, "30", {0, 5, 3}},
        {3, LENGTH, TOP, 1, "30", {0, 5, 3}}, {7, START, TOP, 1, "40", {0, 0, 4}}, {2, START, 44, 1, "30", {0, 2, 1}},
        {2, START, 44, 1, "25", {0, 0, 1}}, {2, START, 56, 1, "40", {0, 2, 1}}, {6, START, 13, 1, "10", {0, 2, 1}},
        {6, START, 13, 1, "40", {0, 0, 4}},
        /* No field 2, or an empty one. */
        {2, LENGTH, 9, 1, "", {0, 2, 1}}, {2, LENGTH, 9, 1, "10", {0, 0, 2}}, {2, LENGTH, 7, 1, "", {0, 2, 1}},
        {2, LENGTH, 6, 1, "", {0, 2, 1}}, {2, LENGTH, 0, 1, "", {0, 2, 1}},
        {2, LENGTH, 0, 1, "20", {0, 4, 2}}, {2, LENGTH, 0, 1, "1", {0, 0, 2}},
        {4, LENGTH, 9, 1, "30", {0, 5, 3}}, {4, LENGTH, 9, 1, "20", {0, 0, 3}},
        {6, LENGTH, 0, 1, "", {0, 0, 1}}, {2, START, 25, 1, "\r\nBPFDEC", {0, 0, 2}},
    };
    TEST_HAND(c);
}

/* Any one number of the table by hand, or two, changed to any that may matter, each line and many keys. */
static void test_hand_sweep(void)
{
    static const char *const keys[] = {"", "1", "10", "15", "20", "21", "30", "31", "40", "\xFF"};
    uint32_t table[HAND_NUMBERS];
    const both b = {(const uint8_t *)hand_file, HAND_BYTES, table, HAND_NUMBERS};
    for (unsigned i = 0; i < HAND_NUMBERS; i++)
        for (uint32_t v = 0; v < 200; v++) {
            memcpy(table, hand_table, sizeof table);
            table[i] = v < 100 ? v : v < 196 ? TOP - (v - 100) : BIG + (v - 196);
            if (below_n(2))
                table[below_n(HAND_NUMBERS)] = below_n(4) ? below_n(12) : below_n(100);
            for (uint32_t line = 0; line < HAND_LINES + 3; line++)
                for (unsigned k = below_n(2); k < 10; k += 2)
                    ask(&b, line, key_text(keys[k]));
        }
}

/* Every count of numbers, of which whole entries alone are the table; then pointers that are none. */
static void test_hand_short(void)
{
    for (size_t n = 0; n <= HAND_NUMBERS; n++) {
        uint32_t *table = exact_copy(hand_table, 4 * n);
        both b = {(const uint8_t *)hand_file, HAND_BYTES, table, n};
        plain_found wanted = n >= 30 ? (plain_found){0, 4, 2} : (plain_found){27, 0, 0};
        is_found(ask(&b, 1, key_text("20")), wanted, "a short table", (uint32_t)n);
        wanted.number = n >= 35 ? 0 : 27;
        is_found(ask(&b, 7, key_text("")), (plain_found){wanted.number, 0, 0}, "a table cut at its last IDREC", (uint32_t)n);
        free(table);
    }
    for (size_t len = 0; len <= HAND_BYTES; len++) {
        uint8_t *file = exact_copy(hand_file, len);
        both b = {file, len, hand_table, HAND_NUMBERS};
        plain_found f = ask(&b, 1, key_text("20"));
        is_true(f.number == (len >= 42 ? 0 : 27), "a short file", len, f.number);
        free(file);
    }
    static const uint32_t empty[] = {5, 0, 0, 0, 3, 6, 0, 0, 0, 2, 60, 0, 0, 0, 3};
    is_found(plain_search(NULL, 0, empty, 15, 1, NULL, 0), (plain_found){0, 2, 1}, "no file and no key", 0);
    is_found(plain_search(NULL, 0, empty, 15, 1, (const uint8_t *)"1", 1), (plain_found){0, 0, 2}, "no file", 0);
    is_found(plain_search(NULL, 0, NULL, 0, 1, NULL, 0), (plain_found){27, 0, 0}, "nothing at all", 0);
    is_found(plain_search_reading(NULL, 0, 1, NULL, 0), (plain_found){27, 0, 0}, "nothing to read", 0);
    is_found(plain_search_reading(NULL, 0, 0, NULL, 0), (plain_found){27, 0, 0}, "nothing asked", 0);
}

/* Lines longer than the check takes, and lines with CR, LF and bars wherever they like: the table alone says where a line ends. */
static void test_odd_lines(void)
{
    static uint8_t file[70000];
    memset(file, 'A', sizeof file);
    file[2000] = file[69999] = '|';
    const uint32_t table[] = {5, 0, 0, 0, 3, 6, 0, 70000, 0, 2, 6, 1990, 40000, 0, 3};
    const both b = {file, sizeof file, table, 15};
    key k = {file + 2001, 67998}, shorter = {file + 2001, 67997};
    is_found(ask(&b, 1, k), (plain_found){0, 2, 1}, "a long key", 0);
    is_found(ask(&b, 1, shorter), (plain_found){0, 0, 1}, "one byte less", 0);
    file[30000] = '\r', file[30001] = '\n', file[30002] = 0;
    is_found(ask(&b, 1, k), (plain_found){0, 2, 1}, "a line end in a key", 0);
    file[40000] = '|';
    is_found(ask(&b, 1, k), (plain_found){0, 0, 2}, "a shorter field is less", 0);
    is_found(ask(&b, 1, (key){file + 2001, 37999}), (plain_found){0, 2, 1}, "found by its own bytes", 0);
    is_found(ask(&b, 1, key_text("A")), (plain_found){0, 0, 1}, "a proper beginning is less", 0);
}

/* More entries than a file has lines: an IDREC, persons with an empty key, one with the key 10, and as much once more. */
static void test_long_table(void)
{
    enum { HALF = 70000 };
    const uint8_t *file = (const uint8_t *)hand_file;
    uint32_t *table = calloc(2 * HALF, 20);
    for (uint32_t n = 1; n <= 2 * HALF; n++) {
        uint32_t *entry = table + 5 * (n - 1), in_half = (n - 1) % HALF + 1;
        entry[KIND] = in_half == 1 ? 5 : 6;
        entry[START] = 13;
        entry[LENGTH] = in_half == HALF ? 10 : 0;
        entry[LAST] = in_half == 1 ? n + HALF - 1 : n;
    }
    for (uint32_t line = 1; line < 2 * HALF; line += HALF) {
        plain_found f = plain_search(file, HAND_BYTES, table, 10 * HALF, line, file + 20, 2);
        is_found(f, (plain_found){0, line + HALF - 1, HALF - 1}, "a long table", line);
        f = plain_search(file, HAND_BYTES, table, 10 * HALF, line, file + 20, 1);
        is_found(f, (plain_found){0, 0, HALF - 1}, "nobody in a long table", line);
    }
    free(table);
}

/* An end past 32 bits is inside a file that is longer still. */
static void test_far_file(void)
{
    const uint64_t len = (UINT64_C(1) << 32) + 5;
    uint32_t table[] = {5, 0, 11, 0, 2, 6, TOP - 4, 10, 1, 2};
    uint8_t *file = sizeof(size_t) > 4 ? far_area((size_t)len) : NULL;
    if (file == NULL)
        return;
    memcpy(file + (size_t)TOP - 4, "BPFDEC|10|", 10);
    is_found(plain_search(file, (size_t)len, table, 10, 1, (const uint8_t *)"10", 2), (plain_found){0, 2, 1}, "a far end", 0);
    is_found(plain_search(file, (size_t)len - 1, table, 10, 1, (const uint8_t *)"10", 2), (plain_found){27, 0, 0}, "past a far end", 0);
    far_drop(file, (size_t)len);
}

void test_tables_by_hand(void)
{
    test_hand_keys();
    test_hand_kinds();
    test_hand_lasts();
    test_hand_places();
    test_hand_sweep();
    test_hand_short();
    test_odd_lines();
    test_long_table();
    test_far_file();
}
