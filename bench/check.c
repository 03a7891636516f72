/* Before anything is timed: the proved library, the plain C and Boost.ICL give the same result words on the inputs that are timed, and
   the first two give the same refusals, and change nothing, on damaged ones. */
#include <stdio.h>
#include <stdlib.h>
#include <string.h>

#include "bench.h"

/* All that a call leaves: its answer, and every word and byte of the results. */
typedef struct outcome {
    wimblorque_answer answer;
    uint8_t *results;
} outcome;

/* How many bytes of the results a measure is asked about. */
static size_t extent(const measure *m, const job *t) {
    return t->results_size + (m->pairs ? t->pairs_size : 0);
}

/* Prepares the results as before a call: the first set in place, or words that a call has to write over. */
static void prepare(const measure *m, job *t) {
    memset(t->results, 0xA5, extent(m, t));
    if (m->in_place) {
        memcpy(t->out.words, t->one.words, t->one.length * sizeof(uint64_t));
    }
}

static outcome outcome_of(const measure *m, const library *lib, job *t) {
    outcome o = {.results = malloc(extent(m, t))};
    prepare(m, t);
    o.answer = m->call(lib, t);
    if (!o.results) {
        exit(1);
    }
    memcpy(o.results, t->results, extent(m, t));
    return o;
}

static void disagree(const measure *m, const job *t, const char *who, const char *what) {
    fprintf(stderr, "bench: %s, %zu ranges: %s and the proved library differ on %s; nothing is measured\n", m->name, t->ranges, who,
            what);
    exit(1);
}

/* The proved library's outcome, which the plain C's equals. */
static outcome agreed(const measure *m, job *t, const char *what) {
    outcome proved = outcome_of(m, &proved_library, t), plain = outcome_of(m, &plain_library, t);
    if (memcmp(&proved.answer, &plain.answer, sizeof proved.answer) != 0 ||
        memcmp(proved.results, plain.results, extent(m, t)) != 0) {
        disagree(m, t, "the plain C", what);
    }
    if (proved.answer.status != 0) {
        prepare(m, t);
        if (memcmp(t->results, proved.results, extent(m, t)) != 0) {
            disagree(m, t, "a refused call", "what was there before");
        }
    }
    free(plain.results);
    return proved;
}

/* Whether Boost.ICL gives the words that stand in the job's results, or yes or no as it was answered. How many ranges lie below a number it
   does not tell, but by a walk over all of them; so that value, the second of the answer, is compared with the plain C's only. */
static bool icl_agrees(const measure *m, job *t, const outcome *proved) {
    uint64_t found = 0;
    memcpy(t->results, proved->results, t->results_size);
    icl_prepare(t->icl, m->in_place);
    m->icl(t->icl);
    bool sets = m->icl != icl_member && m->icl != icl_overlay, second = m->icl == icl_fold;
    uint64_t spare[8];
    block none = {spare, 1};
    icl_results(t->icl, sets ? t->out : none, second ? t->out2 : none, m->icl == icl_overlay ? t->merged : none, &found);
    return memcmp(t->results, proved->results, t->results_size) == 0 && (m->icl != icl_member || found == proved->answer.first);
}

void check_job(job *t) {
    for (size_t i = 0; i < measure_count; i++) {
        outcome proved = agreed(&measures[i], t, "the inputs");
        if (proved.answer.status != 0) {
            disagree(&measures[i], t, "an accepted call", "the inputs");
        }
        if (measures[i].icl && !icl_agrees(&measures[i], t, &proved)) {
            disagree(&measures[i], t, "Boost.ICL", "the inputs");
        }
        free(proved.results);
    }
}

/* Damages an input block: no words, a count that is too large, ends that are not in order, a range that touches or meets the next. */
static void damage_block(block *b, unsigned how) {
    switch (how) {
    case 0: b->length = 0; break;
    case 1: b->words[0] = UINT64_MAX; break;
    case 2: b->words[0] = (b->length - 1) / 2 + 1; break;
    case 3: b->words[1] = b->words[2] + 1; break;
    case 4: b->words[2] = b->words[b->words[0] > 1 ? 3 : 2] - 1; break;
    case 5: b->words[2] = UINT64_MAX; break;
    }
}

/* Makes the first set the one range low..high. */
static void one_range(job *t, uint64_t low, uint64_t high) {
    t->one.words[0] = 1;
    t->one.words[1] = low;
    t->one.words[2] = high;
}

/* Leaves so many words more than the prefix blocks of the first set need. */
static void fit_pairs(job *t, int more) {
    plain_library.set_prefix_blocks(t->one.words, t->one.length, t->pairs.words, t->pairs.length);
    t->pairs.length = (size_t)((int)(2 * t->pairs.words[0]) + 1 + more);
}

/* Damages an argument, an output or the bytes. */
static void damage_other(job *t, unsigned how) {
    switch (how) {
    case 0: t->insert[1] = t->insert[0] - 1, t->removal[1] = t->removal[0] - 1; break;
    case 1: t->out.length = 0, t->merged.length = 0, t->pairs.length = 0; break;
    case 2: t->out2.length = 0; break;
    case 3: t->out.length = 3, t->merged.length = 4, t->pairs.length = 4; break;
    case 4: t->out2.length = 1; break;
    case 5: t->one.length = t->out.length = 1 + 2 * t->ranges; break;
    case 6: t->form_length--; break;
    case 7: t->form_length++; break;
    case 8: t->form_length = 2; break;
    case 9: t->bytes_length = t->form_length - 1; break;
    case 10: memcpy(t->withdrawn2.words, t->released2.words, t->released2.length * 8); break;
    case 11: memcpy(t->withdrawn1.words, t->released1.words, t->released1.length * 8); break;
    case 12: t->insert[0] = 0, t->removal[0] = 0; break;
    case 13: t->insert[1] = UINT64_MAX, t->removal[1] = UINT64_MAX; break;
    case 14: t->insert[1] = t->removal[0] - 1; break;
    case 15: t->one.words[0] = 0, t->form[4] = 0, t->old_form[4] = 0; break;
    case 16: t->removal[0]++, t->removal[1]--; break;
    case 17: fit_pairs(t, 0); break;
    case 18: fit_pairs(t, -1); break;
    case 19: fit_pairs(t, 1); break;
    case 20: one_range(t, 0, UINT64_MAX); break;
    case 21: one_range(t, 1, UINT64_MAX - 1); break;
    }
}

/* Makes both windows go up to b, from a and from `late` on, and both runs as long. */
static void fit_in(job *t, uint64_t a, uint64_t late, uint64_t b, uint64_t run) {
    t->window[0] = a;
    t->late = late;
    t->window[1] = b;
    t->long_run = t->run = run;
}

/* Damages the windows or the runs of the fits, or lays them elsewhere: about the middle range, about a part of the gap below it, in sets of
   no range or of one, and where the one gap begins at the last multiple of a tray's power of two, or beside it. */
static void damage_fit(job *t, unsigned how) {
    const uint64_t low = t->removal[0], high = t->removal[1], from = t->insert[0], to = t->insert[1], first = t->window[0];
    const uint64_t power = UINT64_C(1) << t->exponent % 64, last = -power;
    switch (how) {
    case 0: t->window[1] = first - 1; break;
    case 1: t->long_run = t->run = 0; break;
    case 2: t->long_run = t->run = UINT64_MAX; break;
    case 3: t->long_run = t->run = 1; break;
    case 4: fit_in(t, 0, from, UINT64_MAX, t->run); break;
    case 5: fit_in(t, first, from, low - 1, t->run); break;
    case 6: fit_in(t, first, from, low, t->run); break;
    case 7: fit_in(t, low, high, high, 1); break;
    case 8: fit_in(t, low - 1, low, UINT64_MAX, t->run); break;
    case 9: fit_in(t, high, high + 1, UINT64_MAX, t->run); break;
    case 10: fit_in(t, from, from, to, to - from + 1); break;
    case 11: fit_in(t, from, from, to, to - from + 2); break;
    case 12: t->one.words[0] = 0, fit_in(t, 0, 1, UINT64_MAX, UINT64_MAX); break;
    case 13: t->one.words[0] = 0, fit_in(t, 0, UINT64_MAX, UINT64_MAX, 1); break;
    case 14: one_range(t, 0, UINT64_MAX), fit_in(t, 0, UINT64_MAX, UINT64_MAX, 1); break;
    case 15: one_range(t, 0, UINT64_MAX - 1), fit_in(t, 0, UINT64_MAX, UINT64_MAX, 1); break;
    case 16: one_range(t, 0, 0), fit_in(t, 0, 1, UINT64_MAX, UINT64_MAX); break;
    case 17: one_range(t, UINT64_MAX, UINT64_MAX), fit_in(t, 0, UINT64_MAX, UINT64_MAX, UINT64_MAX); break;
    case 18: one_range(t, 0, last - 2), fit_in(t, 0, last, UINT64_MAX, power); break;
    case 19: one_range(t, 0, last - 1), fit_in(t, 0, last, UINT64_MAX - 1, power); break;
    case 20: one_range(t, 0, last), fit_in(t, 0, last, UINT64_MAX, 1); break;
    case 21: t->one.words[0] = 0, fit_in(t, 1, last, power, 1); break;
    case 22: t->one.words[0] = 0, fit_in(t, 1, last, power, 2); break;
    case 23: fit_in(t, first, from, high, UINT64_MAX >> 1); break;
    case 24: break; /* as it was */
    }
}

/* The exponents of trays that each damage to the fits is tried with; the last five are refused. */
static const uint64_t exponents[] = {0,  1,  2,  3,  12, 31, 32, 47, 48, 49, 50, 56, 59, 62, 63, 64, 65, UINT64_C(1) << 32,
                                     (UINT64_C(1) << 32) + 4, UINT64_MAX};

enum { BLOCKS = 9, BLOCK_DAMAGES = 6, OTHER_DAMAGES = 22, FIT_DAMAGES = 25, BYTES = 7 + 21 + 21 };
enum { OTHERS = BLOCKS * BLOCK_DAMAGES, FITS = OTHERS + OTHER_DAMAGES, OF_BYTES = FITS + FIT_DAMAGES, TRAYS = OF_BYTES + BYTES };
enum { DAMAGES = TRAYS + FIT_DAMAGES * sizeof exponents / sizeof *exponents };

/* Damage number k of a job: to each block in each way, then to the rest, to the fits, and to each byte of the first records of both forms;
   the lowest bit of a mark's second byte makes the other mark of it. Then to the fits again, with each exponent. */
static void damage(job *t, unsigned k) {
    block *blocks[] = {&t->one,       &t->two,        &t->version, &t->released1, &t->withdrawn1,
                       &t->released2, &t->withdrawn2, &t->upper,   &t->lower};
    if (k < OTHERS) {
        damage_block(blocks[k / BLOCK_DAMAGES], k % BLOCK_DAMAGES);
    } else if (k < FITS) {
        damage_other(t, k - OTHERS);
    } else if (k < OF_BYTES) {
        damage_fit(t, k - FITS);
    } else if (k < TRAYS) {
        t->form[k - OF_BYTES] ^= 1;
        t->old_form[k - OF_BYTES] ^= 1;
    } else {
        t->exponent = exponents[(k - TRAYS) / FIT_DAMAGES];
        damage_fit(t, (k - TRAYS) % FIT_DAMAGES);
    }
}

void check_damaged(job *t) {
    uint8_t *inputs = malloc(t->inputs_size);
    if (!inputs) {
        exit(1);
    }
    memcpy(inputs, t->inputs, t->inputs_size);
    for (unsigned k = 0; k < DAMAGES; k++) {
        job damaged = *t;
        damage(&damaged, k);
        for (size_t i = 0; i < measure_count; i++) {
            char what[32];
            snprintf(what, sizeof what, "damage %u", k);
            if (k < TRAYS || measures[i].tray) {
                free(agreed(&measures[i], &damaged, what).results);
            }
        }
        memcpy(t->inputs, inputs, t->inputs_size);
    }
    free(inputs);
}
