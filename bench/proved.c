/* The proved library, as a table of calls. */
#include "library.h"

const library proved_library = {
    .set_range_at = wimblorque_set_range_at,
    .set_member = wimblorque_set_member,
    .set_insert = wimblorque_set_insert,
    .set_remove = wimblorque_set_remove,
    .set_union = wimblorque_set_union,
    .set_intersection = wimblorque_set_intersection,
    .set_difference = wimblorque_set_difference,
    .set_symmetric_difference = wimblorque_set_symmetric_difference,
    .set_complement = wimblorque_set_complement,
    .set_prefix_blocks = wimblorque_set_prefix_blocks,
    .set_audit_blocks = wimblorque_set_audit_blocks,
    .set_first_fit = wimblorque_set_first_fit,
    .set_best_fit = wimblorque_set_best_fit,
    .set_first_fit_aligned = wimblorque_set_first_fit_aligned,
    .set_best_fit_aligned = wimblorque_set_best_fit_aligned,
    .bulletin_apply = wimblorque_bulletin_apply,
    .bulletin_fold = wimblorque_bulletin_fold,
    .map_overlay = wimblorque_map_overlay,
    .set_judge_form = wimblorque_set_judge_form,
    .member = wimblorque_member,
    .set_read = wimblorque_set_read,
    .set_write = wimblorque_set_write,
};
