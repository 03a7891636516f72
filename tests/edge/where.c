/* Where a number lies: both values of the membership questions, on plain sets and on signed ones, and the neighbours that the range at an
   index so told then is. Writes how many were asked, and ends with status 1 at one that answers otherwise. */
#include "wimblorque.h"

int printf(const char *format, ...);

enum { NO, YES };
#define LAST 18446744073709551615ull

static const uint64_t empty[] = {0}, one[] = {1, 5, 9}, two[] = {2, 5, 9, 20, 29}, full[] = {1, 0, LAST}, ends[] = {2, 0, 0, LAST, LAST};
/* one range, and behind it words that are not read */
static const uint64_t spare[] = {1, 5, 9, 7, 7};
/* -9..-5 and -1..3, as words */
static const uint64_t keys[] = {2, 9223372036854775799u, 9223372036854775803u, 9223372036854775807u, 9223372036854775811u};
static uint64_t longest[WIMBLORQUE_SET_WORDS(WIMBLORQUE_MOST_RANGES)];
static int asked, wrong;

#define EMPTY empty, sizeof empty / 8
#define ONE one, sizeof one / 8
#define TWO two, sizeof two / 8
#define FULL full, sizeof full / 8
#define ENDS ends, sizeof ends / 8
#define SPARE spare, sizeof spare / 8
#define KEYS keys, sizeof keys / 8
#define LONGEST longest, sizeof longest / 8

/* An answer with all that it must hold: two values if it is accepted, and none if it is refused. */
static void answers(const char *what, uint64_t x, wimblorque_answer a, uint64_t status, uint64_t first, uint64_t second) {
    const uint64_t count = status == WIMBLORQUE_ACCEPTED ? 2 : 0;
    asked++;
    if (a.status != status || a.place != 0 || a.count != count || a.first != first || a.second != second || a.third != 0) {
        printf("%s, %llu: status %d, count %d, values %d, %d, %d\n", what, (unsigned long long)x, (int)a.status, (int)a.count,
               (int)a.first, (int)a.second, (int)a.third);
        wrong = 1;
    }
}

/* What must be true of a range beside x. */
static void holds(const char *what, uint64_t x, int truth) {
    if (!truth) {
        printf("%s, %llu: a neighbour, or the range that holds it, is another\n", what, (unsigned long long)x);
        wrong = 1;
    }
}

/* A number in a plain set. The range below has its high below x; the one at the index told holds x, or has its low above x, or there is
   none. */
static void lies(const char *what, const uint64_t *block, size_t words, uint64_t x, uint64_t first, uint64_t second) {
    const wimblorque_answer below = wimblorque_set_range_at(block, words, second - 1), at = wimblorque_set_range_at(block, words, second);
    answers(what, x, wimblorque_set_member(block, words, x), WIMBLORQUE_ACCEPTED, first, second);
    holds(what, x, second == 0 ? below.count == 0 : below.count == 2 && below.second < x);
    if (first == YES) {
        holds(what, x, at.count == 2 && at.first <= x && x <= at.second);
    } else {
        holds(what, x, second == block[0] ? at.count == 0 : at.count == 2 && x < at.first);
    }
}

/* The same of a key in a signed set. */
static void lies_signed(const char *what, const uint64_t *block, size_t words, int64_t x, uint64_t first, uint64_t second) {
    const wimblorque_answer below = wimblorque_signed_range_at(block, words, second - 1);
    const wimblorque_answer at = wimblorque_signed_range_at(block, words, second);
    answers(what, (uint64_t)x, wimblorque_signed_member(block, words, x), WIMBLORQUE_ACCEPTED, first, second);
    holds(what, (uint64_t)x, second == 0 ? below.count == 0 : below.count == 2 && (int64_t)below.second < x);
    if (first == YES) {
        holds(what, (uint64_t)x, at.count == 2 && (int64_t)at.first <= x && x <= (int64_t)at.second);
    } else {
        holds(what, (uint64_t)x, second == block[0] ? at.count == 0 : at.count == 2 && x < (int64_t)at.first);
    }
}

/* No range, one range, two ranges; the ends of the line. */
static void plain(void) {
    lies("no range", EMPTY, 0, NO, 0);
    lies("no range", EMPTY, LAST, NO, 0);
    lies("before one range", ONE, 0, NO, 0);
    lies("before one range", ONE, 4, NO, 0);
    lies("the low of one range", ONE, 5, YES, 0);
    lies("in one range", ONE, 7, YES, 0);
    lies("the high of one range", ONE, 9, YES, 0);
    lies("after one range", ONE, 10, NO, 1);
    lies("after one range", ONE, LAST, NO, 1);
    lies("in one range, with words behind it", SPARE, 9, YES, 0);
    lies("after one range, with words behind it", SPARE, 10, NO, 1);
    lies("before two ranges", TWO, 4, NO, 0);
    lies("the low of the first", TWO, 5, YES, 0);
    lies("the high of the first", TWO, 9, YES, 0);
    lies("between two ranges, at the first", TWO, 10, NO, 1);
    lies("between two ranges", TWO, 12, NO, 1);
    lies("between two ranges, at the second", TWO, 19, NO, 1);
    lies("the low of the second", TWO, 20, YES, 1);
    lies("the high of the second", TWO, 29, YES, 1);
    lies("after two ranges", TWO, 30, NO, 2);
    lies("after two ranges", TWO, LAST, NO, 2);
    lies("all numbers", FULL, 0, YES, 0);
    lies("all numbers", FULL, LAST, YES, 0);
    lies("the first of all numbers", ENDS, 0, YES, 0);
    lies("all but the ends", ENDS, 1, NO, 1);
    lies("all but the ends", ENDS, LAST - 1, NO, 1);
    lies("the last of all numbers", ENDS, LAST, YES, 1);
}

/* The same with keys, in the order of the keys. */
static void with_keys(void) {
    lies_signed("no range of keys", EMPTY, INT64_MIN, NO, 0);
    lies_signed("no range of keys", EMPTY, INT64_MAX, NO, 0);
    lies_signed("before the keys", KEYS, INT64_MIN, NO, 0);
    lies_signed("before the keys", KEYS, -10, NO, 0);
    lies_signed("the low of the first keys", KEYS, -9, YES, 0);
    lies_signed("the high of the first keys", KEYS, -5, YES, 0);
    lies_signed("between the keys", KEYS, -4, NO, 1);
    lies_signed("between the keys", KEYS, -2, NO, 1);
    lies_signed("the low of the second keys", KEYS, -1, YES, 1);
    lies_signed("in the second keys", KEYS, 0, YES, 1);
    lies_signed("the high of the second keys", KEYS, 3, YES, 1);
    lies_signed("after the keys", KEYS, 4, NO, 2);
    lies_signed("after the keys", KEYS, INT64_MAX, NO, 2);
    lies_signed("all keys", FULL, INT64_MIN, YES, 0);
    lies_signed("all keys", FULL, INT64_MAX, YES, 0);
    lies_signed("the least key", ENDS, INT64_MIN, YES, 0);
    lies_signed("all but the least and the greatest", ENDS, INT64_MIN + 1, NO, 1);
    lies_signed("all but the least and the greatest", ENDS, 0, NO, 1);
    lies_signed("all but the least and the greatest", ENDS, INT64_MAX - 1, NO, 1);
    lies_signed("the greatest key", ENDS, INT64_MAX, YES, 1);
}

/* As many ranges as a set may have: 4i + 1 and 4i + 2. */
static void long_list(void) {
    static const uint64_t some[] = {0, 1, 2, 2046, 2047, 2048, 4093, 4094};
    longest[0] = WIMBLORQUE_MOST_RANGES;
    for (uint64_t i = 0; i < WIMBLORQUE_MOST_RANGES; i++) {
        longest[1 + 2 * i] = 4 * i + 1;
        longest[2 + 2 * i] = 4 * i + 2;
    }
    for (unsigned k = 0; k < sizeof some / sizeof some[0]; k++) {
        const uint64_t i = some[k];
        lies("before a range of many", LONGEST, 4 * i, NO, i);
        lies("the low of a range of many", LONGEST, 4 * i + 1, YES, i);
        lies("the high of a range of many", LONGEST, 4 * i + 2, YES, i);
        lies("after a range of many", LONGEST, 4 * i + 3, NO, i + 1);
    }
}

/* A refused question has no values. */
static void refused(void) {
    static const uint64_t too_many[] = {2, 5, 9}, touching[] = {2, 5, 9, 10, 12};
    answers("no words", 7, wimblorque_set_member(touching, 0, 7), WIMBLORQUE_NO_BLOCK, 0, 0);
    answers("a count too large", 7, wimblorque_set_member(too_many, 3, 7), WIMBLORQUE_COUNT, 0, 0);
    answers("touching ranges", 7, wimblorque_set_member(touching, 5, 7), WIMBLORQUE_ORDER, 0, 0);
    answers("no words, signed", 7, wimblorque_signed_member(touching, 0, 7), WIMBLORQUE_NO_BLOCK, 0, 0);
    answers("a count too large, signed", 7, wimblorque_signed_member(too_many, 3, 7), WIMBLORQUE_COUNT, 0, 0);
    answers("touching ranges, signed", 7, wimblorque_signed_member(touching, 5, 7), WIMBLORQUE_ORDER, 0, 0);
}

int main(void) {
    plain();
    with_keys();
    long_list();
    refused();
    if (!wrong) {
        printf("%d questions where a number lies: yes or no, how many ranges lie below it, and its neighbours\n", asked);
    }
    return wrong;
}
