/* The measured calls, each on one job. */
#include "bench.h"

#define OF(b) (b).words, (b).length

/* The range at index 0: all of its cost is the judge's. */
static wimblorque_answer judge(const library *lib, job *t) {
    return lib->set_range_at(OF(t->one), 0);
}

static wimblorque_answer member(const library *lib, job *t) {
    return lib->set_member(OF(t->one), t->x);
}

static wimblorque_answer insert(const library *lib, job *t) {
    return lib->set_insert(OF(t->out), t->insert[0], t->insert[1]);
}

static wimblorque_answer removal(const library *lib, job *t) {
    return lib->set_remove(OF(t->out), t->removal[0], t->removal[1]);
}

static wimblorque_answer either(const library *lib, job *t) {
    return lib->set_union(OF(t->one), OF(t->two), OF(t->out));
}

static wimblorque_answer both(const library *lib, job *t) {
    return lib->set_intersection(OF(t->one), OF(t->two), OF(t->out));
}

static wimblorque_answer difference(const library *lib, job *t) {
    return lib->set_difference(OF(t->one), OF(t->two), OF(t->out));
}

static wimblorque_answer symmetric_difference(const library *lib, job *t) {
    return lib->set_symmetric_difference(OF(t->one), OF(t->version), OF(t->out));
}

static wimblorque_answer complement(const library *lib, job *t) {
    return lib->set_complement(OF(t->one), OF(t->out));
}

static wimblorque_answer apply(const library *lib, job *t) {
    return lib->bulletin_apply(OF(t->one), OF(t->released2), OF(t->withdrawn2), OF(t->out));
}

static wimblorque_answer fold(const library *lib, job *t) {
    return lib->bulletin_fold(OF(t->released1), OF(t->withdrawn1), OF(t->released2), OF(t->withdrawn2), OF(t->out), OF(t->out2));
}

static wimblorque_answer overlay(const library *lib, job *t) {
    return lib->map_overlay(OF(t->upper), OF(t->lower), OF(t->merged));
}

static wimblorque_answer judge_of_bytes(const library *lib, job *t) {
    return lib->set_judge_form(t->form, t->form_length);
}

/* The check that a cart makes when a pack is inserted: its answer, told as the other calls tell theirs. */
static wimblorque_answer member_of_bytes(const library *lib, job *t) {
    uint64_t r = lib->member(t->form, t->form_length, t->x);
    return r < 16 ? (wimblorque_answer){.count = 1, .first = r} : (wimblorque_answer){.status = r};
}

static wimblorque_answer reading(const library *lib, job *t) {
    return lib->set_read(t->form, t->form_length, OF(t->out));
}

/* The same of the old form. */
static wimblorque_answer judge_of_old_bytes(const library *lib, job *t) {
    return lib->set_judge_form(t->old_form, t->form_length);
}

static wimblorque_answer reading_old(const library *lib, job *t) {
    return lib->set_read(t->old_form, t->form_length, OF(t->out));
}

static wimblorque_answer writing(const library *lib, job *t) {
    return lib->set_write(OF(t->one), t->bytes, t->bytes_length, 0);
}

static wimblorque_answer prefix_blocks(const library *lib, job *t) {
    return lib->set_prefix_blocks(OF(t->one), OF(t->pairs));
}

static wimblorque_answer audit_blocks(const library *lib, job *t) {
    return lib->set_audit_blocks(OF(t->one), OF(t->pairs));
}

/* Only the numbers behind the last range are as many as the run, so that the walk goes over all ranges: no first fit of this list takes
   longer, and one that finds its gap halfway takes the judge and half of the walk. */
static wimblorque_answer first_fit(const library *lib, job *t) {
    return lib->set_first_fit(OF(t->one), t->window[0], t->window[1], t->long_run);
}

/* All gaps have to be looked at, whatever the run is. With this one about half of the random gaps are long enough. */
static wimblorque_answer best_fit(const library *lib, job *t) {
    return lib->set_best_fit(OF(t->one), t->window[0], t->window[1], t->run);
}

/* The window begins at the last range's low: all that there is beside the judge is to find that range. */
static wimblorque_answer first_fit_at_the_last(const library *lib, job *t) {
    return lib->set_first_fit(OF(t->one), t->late, t->window[1], t->long_run);
}

/* First fit and best fit of trays, which start at a multiple of 16: few numbers of a gap this long lie below its first multiple. */
static wimblorque_answer aligned_first_fit(const library *lib, job *t) {
    return lib->set_first_fit_aligned(OF(t->one), t->window[0], t->window[1], t->long_run, t->exponent);
}

static wimblorque_answer aligned_best_fit(const library *lib, job *t) {
    return lib->set_best_fit_aligned(OF(t->one), t->window[0], t->window[1], t->run, t->exponent);
}

const measure measures[] = {
    {"judge", judge, NULL, false, false, false, false},
    {"member", member, icl_member, false, false, false, false},
    {"insert", insert, icl_insert, true, false, false, false},
    {"remove", removal, icl_remove, true, false, false, false},
    {"union", either, icl_union, false, true, false, false},
    {"intersection", both, icl_intersection, false, true, false, false},
    {"difference", difference, icl_difference, false, true, false, false},
    {"symmetric difference", symmetric_difference, icl_symmetric_difference, false, true, false, false},
    {"complement", complement, icl_complement, false, true, false, false},
    {"apply", apply, icl_apply, false, true, false, false},
    {"fold", fold, icl_fold, false, true, false, false},
    {"overlay", overlay, icl_overlay, false, true, false, false},
    {"judge of bytes", judge_of_bytes, NULL, false, false, false, false},
    {"member of bytes", member_of_bytes, NULL, false, false, false, false},
    {"read", reading, NULL, false, true, false, false},
    {"judge of old bytes", judge_of_old_bytes, NULL, false, false, false, false},
    {"read of old bytes", reading_old, NULL, false, true, false, false},
    {"write", writing, NULL, false, true, false, false},
    {"prefix blocks", prefix_blocks, NULL, false, true, true, false},
    {"audit of blocks", audit_blocks, NULL, false, true, true, false},
    {"first fit", first_fit, NULL, false, false, false, false},
    {"best fit", best_fit, NULL, false, false, false, false},
    {"first fit at the last range", first_fit_at_the_last, NULL, false, false, false, false},
    {"aligned first fit", aligned_first_fit, NULL, false, false, false, true},
    {"aligned best fit", aligned_best_fit, NULL, false, false, false, true},
};
const size_t measure_count = sizeof measures / sizeof *measures;
