/* A label scanner takes its filter as prefix blocks: the numbers that agree with a start in all but their last e bits. Reads a list of
   released packs from a file and writes its filter, by the quick way and by the audit, which must agree.
   prefixes LIST */
#include <inttypes.h>
#include <stdio.h>
#include <stdlib.h>

#include "wimblorque.h"
#include "wimblorque_refusals.h"

enum { RANGES = 100, WORDS = WIMBLORQUE_SET_WORDS(RANGES), BYTES = WIMBLORQUE_SET_BYTES(RANGES) };
enum { FILTER_WORDS = WIMBLORQUE_PREFIX_WORDS_OF(RANGES) }; /* enough for any list of so many ranges */

/* Ends the program with the refusal in words. */
static void need(wimblorque_answer a) {
    if (a.status != WIMBLORQUE_ACCEPTED) {
        printf("refused: %s\n", wimblorque_refusal_sentence(a.status));
        exit(1);
    }
}

/* What the scanner shows of its filter: start and last of each prefix block, and how many bits of a number it compares. */
static void show(const uint64_t *filter) {
    printf("%" PRIu64 " prefix blocks\n", filter[0]);
    for (uint64_t i = 0; i < filter[0]; i++) {
        const uint64_t start = filter[1 + 2 * i], e = filter[2 + 2 * i];
        printf("%" PRIu64 "..%" PRIu64 ": the first %" PRIu64 " bits of %016" PRIx64 "\n", start, wimblorque_prefix_last(start, e),
               64 - e, start);
    }
}

/* Whether a scanner with this filter lets a pack pass. All but the last e bits are compared; a shift in C must not be by 64. */
static int passes(const uint64_t *filter, uint64_t pack) {
    for (uint64_t i = 0; i < filter[0]; i++) {
        const uint64_t start = filter[1 + 2 * i], e = filter[2 + 2 * i];
        if (e == 64 || start >> e == pack >> e) {
            return 1;
        }
    }
    return 0;
}

int main(int argc, char **argv) {
    static uint8_t bytes[BYTES];
    static uint64_t list[WORDS], filter[FILTER_WORDS], audited[FILTER_WORDS], few[WIMBLORQUE_PREFIX_WORDS(3)];
    FILE *file = argc == 2 ? fopen(argv[1], "rb") : NULL;
    if (file == NULL) {
        fprintf(stderr, "usage: prefixes LIST\n");
        return 2;
    }
    const size_t length = fread(bytes, 1, sizeof bytes, file);
    fclose(file);
    need(wimblorque_set_read(bytes, length, list, WORDS));
    need(wimblorque_set_prefix_blocks(list, WORDS, filter, FILTER_WORDS));
    show(filter);
    need(wimblorque_set_audit_blocks(list, WORDS, audited, FILTER_WORDS));
    int same = 1;
    for (size_t i = 0; i < FILTER_WORDS; i++) {
        same = same && filter[i] == audited[i];
    }
    printf("the audit finds %s\n", same ? "the same" : "another filter");
    for (uint64_t pack = 999; pack <= 1000; pack++) {
        printf("pack %" PRIu64 ": %s\n", pack, passes(filter, pack) ? "passes" : "does not pass");
    }
    /* a scanner with room for three: the output is too small, and stays as it was */
    const wimblorque_answer a = wimblorque_set_prefix_blocks(list, WORDS, few, sizeof few / sizeof few[0]);
    printf("into room for three: %s\n", wimblorque_refusal_name(a.status));
    return 0;
}
