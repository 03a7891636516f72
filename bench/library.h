/* The calls that are measured, as one table: the proved library and the plain C beside it each fill one. Every entry has the
   arguments, the duties and the answers that include/wimblorque.h gives for the call of that name. */
#ifndef LIBRARY_H
#define LIBRARY_H

#include "wimblorque.h"

typedef wimblorque_answer two_call(const uint64_t *one, size_t one_words, const uint64_t *two, size_t two_words, uint64_t *out,
                          size_t out_words);
typedef wimblorque_answer one_call(const uint64_t *set, size_t words, uint64_t *out, size_t out_words);
typedef wimblorque_answer edit_call(uint64_t *block, size_t words, uint64_t a, uint64_t b);
typedef wimblorque_answer ask_call(const uint64_t *block, size_t words, uint64_t x);
typedef wimblorque_answer fit_call(const uint64_t *block, size_t words, uint64_t a, uint64_t b, uint64_t k);
typedef wimblorque_answer tray_call(const uint64_t *block, size_t words, uint64_t a, uint64_t b, uint64_t k, uint64_t j);

typedef struct library {
    ask_call *set_range_at;
    ask_call *set_member;
    edit_call *set_insert;
    edit_call *set_remove;
    two_call *set_union;
    two_call *set_intersection;
    two_call *set_difference;
    two_call *set_symmetric_difference;
    one_call *set_complement;
    one_call *set_prefix_blocks;
    one_call *set_audit_blocks;
    fit_call *set_first_fit;
    fit_call *set_best_fit;
    tray_call *set_first_fit_aligned;
    tray_call *set_best_fit_aligned;
    wimblorque_answer (*bulletin_apply)(const uint64_t *list, size_t list_words, const uint64_t *released, size_t released_words,
                                        const uint64_t *withdrawn, size_t withdrawn_words, uint64_t *out, size_t out_words);
    wimblorque_answer (*bulletin_fold)(const uint64_t *released1, size_t released1_words, const uint64_t *withdrawn1,
                                       size_t withdrawn1_words, const uint64_t *released2, size_t released2_words,
                                       const uint64_t *withdrawn2, size_t withdrawn2_words, uint64_t *released,
                                       size_t released_words, uint64_t *withdrawn, size_t withdrawn_words);
    two_call *map_overlay;
    wimblorque_answer (*set_judge_form)(const uint8_t *bytes, size_t length);
    /* the pack-insert check on the byte form of a list: 1, 0, or 16 plus the refusal */
    uint64_t (*member)(const uint8_t *bytes, size_t length, uint64_t x);
    wimblorque_answer (*set_read)(const uint8_t *bytes, size_t length, uint64_t *out, size_t out_words);
    wimblorque_answer (*set_write)(const uint64_t *block, size_t words, uint8_t *bytes, size_t length, size_t p);
} library;

extern const library proved_library;
extern const library plain_library;

#endif
