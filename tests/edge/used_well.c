/* No misuse: no compiler may warn of anything here. Two blocks by turns, one block for two inputs, results used, keys cast, prefix
   blocks, trays, both headers. */
#include "wimblorque_refusals.h"

int used_well(uint64_t *list, uint64_t *next, const uint64_t *released, const uint64_t *withdrawn, uint8_t *bytes, unsigned n);

int used_well(uint64_t *list, uint64_t *next, const uint64_t *released, const uint64_t *withdrawn, uint8_t *bytes, unsigned n) {
    static uint64_t block[WIMBLORQUE_SET_WORDS(4)], map[WIMBLORQUE_MAP_WORDS(4)];
    static uint8_t form[WIMBLORQUE_BULLETIN_BYTES(2, 3)];
    const size_t room = WIMBLORQUE_SET_WORDS(n) + WIMBLORQUE_MAP_WORDS(n) + WIMBLORQUE_SET_BYTES(n) + WIMBLORQUE_MAP_BYTES(n);
    wimblorque_answer a = wimblorque_bulletin_apply(list, 9, released, 9, withdrawn, 9, next, 9);
    if (a.status != WIMBLORQUE_ACCEPTED) {
        return wimblorque_refusal_name(a.status) != wimblorque_refusal_sentence(a.status);
    }
    a = wimblorque_set_union(next, 9, next, 9, list, 9);
    if (a.status == WIMBLORQUE_ROOM || room > WIMBLORQUE_SET_CAPACITY(n) + WIMBLORQUE_MAP_CAPACITY(room)) {
        return 2;
    }
    a = wimblorque_map_make_empty(map, sizeof map / sizeof map[0]);
    if (a.status != WIMBLORQUE_ACCEPTED || wimblorque_set_make_empty(block, sizeof block / sizeof block[0]).status != 0) {
        return 3;
    }
    if (wimblorque_signed_insert(block, sizeof block / sizeof block[0], -5, n).status != WIMBLORQUE_ACCEPTED) {
        return 4;
    }
    static uint64_t pairs[WIMBLORQUE_PREFIX_WORDS_OF(1)];
    const size_t pair_words = sizeof pairs / sizeof pairs[0];
    a = wimblorque_set_prefix_blocks(next, WIMBLORQUE_SET_WORDS(1), pairs, pair_words);
    if (a.status != WIMBLORQUE_ACCEPTED || pairs[0] > WIMBLORQUE_PREFIX_CAPACITY(pair_words) + WIMBLORQUE_PREFIX_WORDS(n)) {
        return 6;
    }
    if (wimblorque_set_audit_blocks(next, 3, pairs, pair_words).status != 0 || wimblorque_prefix_last(pairs[1], pairs[2]) < pairs[1]) {
        return 7;
    }
    a = wimblorque_set_reserve_first_aligned(next, 9, 0, UINT64_MAX, n, 4);
    if (a.status == WIMBLORQUE_ALIGN || wimblorque_set_best_fit_aligned(next, 9, 0, UINT64_MAX, n, 4).first % 16 != 0) {
        return 8;
    }
    const int64_t least = (int64_t)wimblorque_signed_range_at(block, sizeof block / sizeof block[0], 0).first;
    if (wimblorque_key_of_word(block[1]) != least || wimblorque_word_of_key(least) != block[1]) {
        return 5;
    }
    return wimblorque_is_member(bytes, sizeof form, 7) && wimblorque_member(form, sizeof form, 8) == 1;
}
