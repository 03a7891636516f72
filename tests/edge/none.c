/* Every question that finds nothing is accepted, with 0 values and with 0 in all three of them; and what it finds beside that has its
   values. Writes how many were asked, and ends with status 1 at one that answers otherwise. */
#include "wimblorque.h"

int printf(const char *format, ...);

static const uint64_t set[] = {2, 5, 9, 20, 29}, empty[] = {0}, full[] = {1, 0, 18446744073709551615ull};
static const uint64_t map[] = {2, 5, 9, 7, 20, 29, 0};
/* -9..-5 and -1..3, as words */
static const uint64_t keys[] = {2, 9223372036854775799u, 9223372036854775803u, 9223372036854775807u, 9223372036854775811u};
static int asked, wrong;

#define SET set, sizeof set / 8
#define EMPTY empty, sizeof empty / 8
#define FULL full, sizeof full / 8
#define MAP map, sizeof map / 8
#define KEYS keys, sizeof keys / 8

/* The values due: how many, and the first two of them. */
static void answers(const char *what, wimblorque_answer a, uint64_t count, uint64_t first, uint64_t second) {
    asked++;
    if (a.status != WIMBLORQUE_ACCEPTED || a.place != 0 || a.count != count || a.first != first || a.second != second) {
        printf("%s: status %d, count %d, values %d, %d, %d\n", what, (int)a.status, (int)a.count, (int)a.first, (int)a.second,
               (int)a.third);
        wrong = 1;
    }
}

static void nothing(const char *what, wimblorque_answer a) {
    answers(what, a, 0, 0, 0);
    wrong |= a.third != 0;
}

int main(void) {
    nothing("range at, past the last", wimblorque_set_range_at(SET, 2));
    nothing("range at, of the empty set", wimblorque_set_range_at(EMPTY, 0));
    nothing("size of the empty set", wimblorque_set_size(EMPTY));
    nothing("least member above the last", wimblorque_set_least_member(SET, 30));
    nothing("least non-member of all numbers", wimblorque_set_least_non_member(FULL, 0));
    nothing("window below the first", wimblorque_set_window(SET, 0, 4));
    nothing("window in a gap", wimblorque_set_window(SET, 10, 19));
    nothing("window above the last", wimblorque_set_window(SET, 30, 99));
    nothing("window of the empty set", wimblorque_set_window(EMPTY, 0, 99));
    nothing("signed range at, past the last", wimblorque_signed_range_at(KEYS, 2));
    nothing("signed range at, of the empty set", wimblorque_signed_range_at(EMPTY, 0));
    nothing("least member above the last key", wimblorque_signed_least_member(KEYS, 4));
    nothing("least non-member of all keys", wimblorque_signed_least_non_member(FULL, INT64_MIN));
    nothing("signed window below the first", wimblorque_signed_window(KEYS, INT64_MIN, -10));
    nothing("signed window in a gap", wimblorque_signed_window(KEYS, -4, -2));
    nothing("signed window above the last", wimblorque_signed_window(KEYS, 4, INT64_MAX));
    nothing("signed window of the empty set", wimblorque_signed_window(EMPTY, -9, 9));
    nothing("difference above the greatest key", wimblorque_key_difference(0, INT64_MIN));
    nothing("difference below the least key", wimblorque_key_difference(-2, INT64_MAX));
    nothing("map window below the first", wimblorque_map_window(MAP, 0, 4));
    nothing("map window in a gap", wimblorque_map_window(MAP, 10, 19));
    nothing("map window above the last", wimblorque_map_window(MAP, 30, 99));
    nothing("map window of the empty map", wimblorque_map_window(EMPTY, 0, 99));
    nothing("look up in a gap", wimblorque_map_look_up(MAP, 10));
    nothing("look up in the empty map", wimblorque_map_look_up(EMPTY, 5));
    nothing("site over factory, in neither", wimblorque_map_site_over_factory(MAP, MAP, 10));
    nothing("site over factory, of empty maps", wimblorque_map_site_over_factory(EMPTY, EMPTY, 5));
    answers("window of the first range", wimblorque_set_window(SET, 0, 5), 2, 1, 2);
    answers("window of both ranges", wimblorque_set_window(SET, 9, 20), 2, 1, 4);
    answers("signed range at 0", wimblorque_signed_range_at(KEYS, 0), 2, (uint64_t)-9, (uint64_t)-5);
    answers("least member above a gap", wimblorque_signed_least_member(KEYS, -4), 1, (uint64_t)-1, 0);
    answers("signed window of both ranges", wimblorque_signed_window(KEYS, -5, -1), 2, 1, 4);
    answers("greatest difference", wimblorque_key_difference(-1, INT64_MIN), 1, INT64_MAX, 0);
    answers("least difference", wimblorque_key_difference(-1, INT64_MAX), 1, (uint64_t)INT64_MIN, 0);
    answers("a difference of 0", wimblorque_key_difference(INT64_MIN, INT64_MIN), 1, 0, 0);
    answers("map window of the second entry", wimblorque_map_window(MAP, 29, 99), 2, 4, 3);
    answers("site over factory, in the site", wimblorque_map_site_over_factory(MAP, EMPTY, 5), 3, 1, 3);
    answers("site over factory, in the factory", wimblorque_map_site_over_factory(EMPTY, MAP, 25), 3, 4, 3);
    answers("a value of 0", wimblorque_map_look_up(MAP, 25), 1, 0, 0);
    if (!wrong) {
        printf("%d questions that find nothing, or nearly: 0 values where there is nothing\n", asked);
    }
    return wrong;
}
