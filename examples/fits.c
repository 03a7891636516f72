/* Room for a run of numbers, and for a tray, a run from a multiple of 2^j on: where it would go, and taking it. */
#include <inttypes.h>
#include <stdio.h>

#include "wimblorque.h"
#include "wimblorque_refusals.h"

enum { WORDS = WIMBLORQUE_SET_WORDS(4) };

/* What a fit answered: its place, or why there is none. */
static void say(const char *what, wimblorque_answer a) {
    if (a.status == WIMBLORQUE_ACCEPTED) {
        printf("%s: %" PRIu64 "\n", what, a.first);
    } else {
        printf("%s: %s %s\n", what, wimblorque_refusal_name(a.status), wimblorque_refusal_sentence(a.status));
    }
}

int main(void) {
    /* 0..3, 8..9 and 12..99 are taken; a count and then low and high of each range is all that a block is */
    static uint64_t taken[WORDS] = {3, 0, 3, 8, 9, 12, 99};
    say("first fit of 2 in 0..200", wimblorque_set_first_fit(taken, WORDS, 0, 200, 2));
    say("best fit of 2 in 0..200", wimblorque_set_best_fit(taken, WORDS, 0, 200, 2));
    /* a tray starts at a multiple of 2^j: here j is 2, and there is no multiple of 4 in 10..11 */
    say("best fit of 2 from a multiple of 2^2 in 0..200", wimblorque_set_best_fit_aligned(taken, WORDS, 0, 200, 2, 2));
    say("first fit of 5 in 0..50", wimblorque_set_first_fit(taken, WORDS, 0, 50, 5));
    say("reserve 2, best", wimblorque_set_reserve_best(taken, WORDS, 0, 200, 2));
    say("reserve 2, best, again", wimblorque_set_reserve_best(taken, WORDS, 0, 200, 2));
    say("reserve 16 from a multiple of 2^4, first", wimblorque_set_reserve_first_aligned(taken, WORDS, 0, 200, 16, 4));
    for (uint64_t i = 0; i < taken[0]; i++) {
        printf("%" PRIu64 "..%" PRIu64 "\n", taken[1 + 2 * i], taken[2 + 2 * i]);
    }
    return 0;
}
