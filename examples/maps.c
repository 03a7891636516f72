/* Maps from serials to calibration records: assigned, asked, laid over one another, cut down to a list. */
#include <inttypes.h>
#include <stdio.h>
#include <stdlib.h>

#include "wimblorque.h"
#include "wimblorque_refusals.h"

enum { ENTRIES = 8, WORDS = WIMBLORQUE_MAP_WORDS(ENTRIES), SET_WORDS = WIMBLORQUE_SET_WORDS(ENTRIES) };

/* The answer, or the end of the program with the refusal in words. */
static wimblorque_answer got(wimblorque_answer a) {
    if (a.status != WIMBLORQUE_ACCEPTED) {
        printf("refused: %s\n", wimblorque_refusal_sentence(a.status));
        exit(1);
    }
    return a;
}

/* A map's word 0 is the number of its entries, each of which has three words. */
static void show(const char *what, const uint64_t *map) {
    printf("%s:", what);
    for (uint64_t i = 0; i < map[0]; i++) {
        printf(" %" PRIu64 "..%" PRIu64 " is %" PRIu64, map[1 + 3 * i], map[2 + 3 * i], map[3 + 3 * i]);
    }
    printf("\n");
}

int main(void) {
    static uint64_t factory[WORDS], site[WORDS], both[WORDS], ours[WORDS], list[SET_WORDS];
    got(wimblorque_map_make_empty(factory, WORDS));
    got(wimblorque_map_assign(factory, WORDS, 1000, 1999, 7));
    got(wimblorque_map_assign(factory, WORDS, 2000, 2999, 8));
    got(wimblorque_map_assign(site, WORDS, 1990, 2009, 21)); /* a block of zeros is an empty map, too */
    /* the output is always another block than the inputs */
    got(wimblorque_map_overlay(site, WORDS, factory, WORDS, both, WORDS));
    show("site over factory", both);
    got(wimblorque_set_insert(list, SET_WORDS, 1500, 2004));
    got(wimblorque_map_restriction(both, WORDS, list, SET_WORDS, ours, WORDS));
    show("of the packs 1500..2004", ours);
    const wimblorque_answer found = got(wimblorque_map_look_up(both, WORDS, 2000));
    printf("pack 2000: record %" PRIu64 "\n", found.first);
    const wimblorque_answer none = got(wimblorque_map_look_up(both, WORDS, 5000));
    printf("pack 5000: %s\n", none.count == 0 ? "no record" : "a record");
    const wimblorque_answer part = got(wimblorque_map_window(both, WORDS, 1995, 2500));
    printf("the entries that meet 1995..2500: words %" PRIu64 " to %" PRIu64 " of the block\n", part.first,
           part.first + part.second - 1);
    return 0;
}
