/* NULL with length 0, for every pointer of every call: the answer must be the one that a block of no words, or a buffer of no bytes,
   gets at any other address. Writes how many were tried, and ends with status 1 at one that differs. */
#include "wimblorque.h"

int printf(const char *format, ...);

/* What is lent in the place that is tried: nothing, at NULL or at an address. */
static uint64_t *words_at;
static uint8_t *bytes_at;

/* Blocks and buffers for the places that are not tried. */
static uint64_t set[9] = {1, 5, 9}, other[9] = {1, 20, 29}, map[10] = {1, 5, 9, 7}, out[9], second[9];
static uint8_t form[28] = {0xC5, 0x3B, 0x01, 0x00, 0x01, 0xEB, 0x8D, 0xC5, 0x3B, 0x10, 0, 0, 0, 0, 0, 0, 0, 5,
                           0,    0,    0,    0,    0,    0,    0,    9,    0x3F, 0x08};
static uint8_t bytes[128], signed_form[28], map_form[36], bulletin_form[51];

#define NO words_at, 0
#define NO_BYTES bytes_at, 0
#define SET set, 9
#define OTHER other, 9
#define MAP map, 10
#define OUT out, 9
#define SECOND second, 9
#define FORM form, sizeof form
#define SIGNED_FORM signed_form, sizeof signed_form
#define MAP_FORM map_form, sizeof map_form
#define BULLETIN_FORM bulletin_form, sizeof bulletin_form
#define BYTES bytes, sizeof bytes

/* Every pointer of every call, one after the other; then some at once. */
static wimblorque_answer tried(unsigned number) {
    switch (number) {
    case 0: return wimblorque_set_member(NO, 7);
    case 1: return wimblorque_set_range_at(NO, 0);
    case 2: return wimblorque_set_size(NO);
    case 3: return wimblorque_set_least_member(NO, 0);
    case 4: return wimblorque_set_least_non_member(NO, 0);
    case 5: return wimblorque_set_window(NO, 0, 9);
    case 6: return wimblorque_set_equal(NO, OTHER);
    case 7: return wimblorque_set_equal(SET, NO);
    case 8: return wimblorque_set_within(NO, OTHER);
    case 9: return wimblorque_set_within(SET, NO);
    case 10: return wimblorque_set_disjoint(NO, OTHER);
    case 11: return wimblorque_set_disjoint(SET, NO);
    case 12: return wimblorque_set_make_empty(NO);
    case 13: return wimblorque_set_insert(NO, 1, 2);
    case 14: return wimblorque_set_remove(NO, 1, 2);
    case 15: return wimblorque_set_union(NO, OTHER, OUT);
    case 16: return wimblorque_set_union(SET, NO, OUT);
    case 17: return wimblorque_set_union(SET, OTHER, NO);
    case 18: return wimblorque_set_intersection(NO, OTHER, OUT);
    case 19: return wimblorque_set_intersection(SET, NO, OUT);
    case 20: return wimblorque_set_intersection(SET, OTHER, NO);
    case 21: return wimblorque_set_difference(NO, OTHER, OUT);
    case 22: return wimblorque_set_difference(SET, NO, OUT);
    case 23: return wimblorque_set_difference(SET, OTHER, NO);
    case 24: return wimblorque_set_symmetric_difference(NO, OTHER, OUT);
    case 25: return wimblorque_set_symmetric_difference(SET, NO, OUT);
    case 26: return wimblorque_set_symmetric_difference(SET, OTHER, NO);
    case 27: return wimblorque_set_complement(NO, OUT);
    case 28: return wimblorque_set_complement(SET, NO);
    case 29: return wimblorque_set_prefix_blocks(NO, OUT);
    case 30: return wimblorque_set_prefix_blocks(SET, NO);
    case 31: return wimblorque_set_audit_blocks(NO, OUT);
    case 32: return wimblorque_set_audit_blocks(SET, NO);
    case 33: return wimblorque_set_first_fit(NO, 0, 9, 1);
    case 34: return wimblorque_set_best_fit(NO, 0, 9, 1);
    case 35: return wimblorque_set_reserve_first(NO, 0, 9, 1);
    case 36: return wimblorque_set_reserve_best(NO, 0, 9, 1);
    case 37: return wimblorque_set_first_fit_aligned(NO, 0, 9, 1, 2);
    case 38: return wimblorque_set_best_fit_aligned(NO, 0, 9, 1, 2);
    case 39: return wimblorque_set_reserve_first_aligned(NO, 0, 9, 1, 2);
    case 40: return wimblorque_set_reserve_best_aligned(NO, 0, 9, 1, 2);
    case 41: return wimblorque_signed_member(NO, -7);
    case 42: return wimblorque_signed_range_at(NO, 0);
    case 43: return wimblorque_signed_least_member(NO, -7);
    case 44: return wimblorque_signed_least_non_member(NO, -7);
    case 45: return wimblorque_signed_window(NO, -9, 9);
    case 46: return wimblorque_signed_insert(NO, -2, 1);
    case 47: return wimblorque_signed_remove(NO, -2, 1);
    case 48: return wimblorque_signed_first_fit(NO, -9, 9, 1);
    case 49: return wimblorque_signed_best_fit(NO, -9, 9, 1);
    case 50: return wimblorque_signed_reserve_first(NO, -9, 9, 1);
    case 51: return wimblorque_signed_reserve_best(NO, -9, 9, 1);
    case 52: return wimblorque_map_look_up(NO, 7);
    case 53: return wimblorque_map_assign(NO, 1, 2, 3);
    case 54: return wimblorque_map_erase(NO, 1, 2);
    case 55: return wimblorque_map_window(NO, 0, 9);
    case 56: return wimblorque_map_site_over_factory(NO, MAP, 7);
    case 57: return wimblorque_map_site_over_factory(MAP, NO, 7);
    case 58: return wimblorque_map_overlay(NO, MAP, OUT);
    case 59: return wimblorque_map_overlay(MAP, NO, OUT);
    case 60: return wimblorque_map_overlay(MAP, MAP, NO);
    case 61: return wimblorque_map_restriction(NO, SET, OUT);
    case 62: return wimblorque_map_restriction(MAP, NO, OUT);
    case 63: return wimblorque_map_restriction(MAP, SET, NO);
    case 64: return wimblorque_map_domain(NO, OUT);
    case 65: return wimblorque_map_domain(MAP, NO);
    case 66: return wimblorque_bulletin_apply(NO, SET, OTHER, OUT);
    case 67: return wimblorque_bulletin_apply(SET, NO, OTHER, OUT);
    case 68: return wimblorque_bulletin_apply(SET, OTHER, NO, OUT);
    case 69: return wimblorque_bulletin_apply(SET, SET, OTHER, NO);
    case 70: return wimblorque_bulletin_fold(NO, OTHER, SET, OTHER, OUT, SECOND);
    case 71: return wimblorque_bulletin_fold(SET, NO, SET, OTHER, OUT, SECOND);
    case 72: return wimblorque_bulletin_fold(SET, OTHER, NO, OTHER, OUT, SECOND);
    case 73: return wimblorque_bulletin_fold(SET, OTHER, SET, NO, OUT, SECOND);
    case 74: return wimblorque_bulletin_fold(SET, OTHER, SET, OTHER, NO, SECOND);
    case 75: return wimblorque_bulletin_fold(SET, OTHER, SET, OTHER, OUT, NO);
    case 76: return wimblorque_set_read(NO_BYTES, OUT);
    case 77: return wimblorque_set_read(FORM, NO);
    case 78: return wimblorque_signed_read(NO_BYTES, OUT);
    case 79: return wimblorque_signed_read(SIGNED_FORM, NO);
    case 80: return wimblorque_map_read(NO_BYTES, OUT);
    case 81: return wimblorque_map_read(MAP_FORM, NO);
    case 82: return wimblorque_bulletin_read(NO_BYTES, OUT, SECOND);
    case 83: return wimblorque_bulletin_read(BULLETIN_FORM, NO, SECOND);
    case 84: return wimblorque_bulletin_read(BULLETIN_FORM, OUT, NO);
    case 85: return wimblorque_set_judge_form(NO_BYTES);
    case 86: return (wimblorque_answer){.status = wimblorque_member(NO_BYTES, 7)};
    case 87: return wimblorque_set_write(NO, BYTES, 0);
    case 88: return wimblorque_set_write(SET, NO_BYTES, 0);
    case 89: return wimblorque_signed_write(NO, BYTES, 0);
    case 90: return wimblorque_signed_write(SET, NO_BYTES, 0);
    case 91: return wimblorque_map_write(NO, BYTES, 0);
    case 92: return wimblorque_map_write(MAP, NO_BYTES, 0);
    case 93: return wimblorque_bulletin_write(NO, OTHER, BYTES, 0);
    case 94: return wimblorque_bulletin_write(SET, NO, BYTES, 0);
    case 95: return wimblorque_bulletin_write(SET, OTHER, NO_BYTES, 0);
    case 96: return wimblorque_set_equal(NO, NO);
    case 97: return wimblorque_set_write(NO, NO_BYTES, 0);
    case 98: return wimblorque_bulletin_write(SET, OTHER, NO_BYTES, 1);
    case 99: return wimblorque_set_read(NO_BYTES, NO);
    default: return (wimblorque_answer){.status = 0};
    }
}

enum { TRIES = 100 };

int main(void) {
    static uint64_t a_word;
    static uint8_t a_byte;
    if (wimblorque_signed_write(SET, SIGNED_FORM, 0).first != sizeof signed_form
        || wimblorque_map_write(MAP, MAP_FORM, 0).first != sizeof map_form
        || wimblorque_bulletin_write(SET, OTHER, BULLETIN_FORM, 0).first != sizeof bulletin_form) {
        return 1;
    }
    for (unsigned i = 0; i < TRIES; i++) {
        words_at = NULL;
        bytes_at = NULL;
        const wimblorque_answer at_null = tried(i);
        words_at = &a_word;
        bytes_at = &a_byte;
        const wimblorque_answer elsewhere = tried(i);
        const int named = at_null.status == WIMBLORQUE_NO_BLOCK || at_null.status == WIMBLORQUE_SHORT
                          || at_null.status == WIMBLORQUE_NO_SPACE;
        if (!named || at_null.status != elsewhere.status || at_null.place != elsewhere.place || at_null.count != 0) {
            printf("NULL, try %u: status %d at %d, elsewhere %d at %d\n", i, (int)at_null.status, (int)at_null.place,
                   (int)elsewhere.status, (int)elsewhere.place);
            return 1;
        }
    }
    printf("NULL with length 0: %d tries answered as they must be\n", TRIES);
    return 0;
}
