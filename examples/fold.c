/* Two bulletins folded into one: applying the fold gives the list that applying one after the other gives. */
#include <inttypes.h>
#include <stdio.h>
#include <stdlib.h>

#include "wimblorque.h"
#include "wimblorque_refusals.h"

enum { WORDS = WIMBLORQUE_SET_WORDS(8) };

/* Ends the program with the refusal in words. */
static void need(wimblorque_answer a) {
    if (a.status != WIMBLORQUE_ACCEPTED) {
        printf("refused: %s\n", wimblorque_refusal_sentence(a.status));
        exit(1);
    }
}

static void show(const char *what, const uint64_t *set) {
    printf("%s:", what);
    for (uint64_t i = 0; i < set[0]; i++) {
        printf(" %" PRIu64 "..%" PRIu64, set[1 + 2 * i], set[2 + 2 * i]);
    }
    printf("\n");
}

int main(void) {
    static uint64_t list[WORDS] = {1, 2, 6};
    static const uint64_t released1[WORDS] = {1, 1, 4}, withdrawn1[WORDS] = {0};
    static const uint64_t released2[WORDS] = {1, 9, 9}, withdrawn2[WORDS] = {1, 3, 3};
    static uint64_t released[WORDS], withdrawn[WORDS], once[WORDS], other[WORDS];
    need(wimblorque_bulletin_fold(released1, WORDS, withdrawn1, WORDS, released2, WORDS, withdrawn2, WORDS, released, WORDS,
                                  withdrawn, WORDS));
    show("fold, released", released);
    show("fold, withdrawn", withdrawn);
    need(wimblorque_bulletin_apply(list, WORDS, released, WORDS, withdrawn, WORDS, once, WORDS));
    show("the fold applied", once);
    /* one after the other, in two blocks by turns: from list into other, and from other back into list */
    need(wimblorque_bulletin_apply(list, WORDS, released1, WORDS, withdrawn1, WORDS, other, WORDS));
    need(wimblorque_bulletin_apply(other, WORDS, released2, WORDS, withdrawn2, WORDS, list, WORDS));
    show("one after the other", list);
    const wimblorque_answer same = wimblorque_set_equal(once, WORDS, list, WORDS);
    need(same);
    printf("%s\n", same.first == 1 ? "the same" : "not the same");
    return 0;
}
