/* What the parts of the benchmark share: an input of every measured call, the calls, and Boost.ICL's side. */
#ifndef BENCH_H
#define BENCH_H

#include <stdbool.h>

#include "library.h"

/* A lent block. */
typedef struct block {
    uint64_t *words;
    size_t length;
} block;

typedef struct icl_job icl_job;

/* Inputs for one call of each measure, and room for its results. */
typedef struct job {
    size_t ranges;
    /* two sets, and another version of the first: about half of its ends moved */
    block one, two, version;
    /* two bulletins */
    block released1, withdrawn1, released2, withdrawn2;
    /* two maps */
    block upper, lower;
    /* the byte form of the first set, and its old form, which is as long; behind each stands one byte more */
    uint8_t *form, *old_form;
    size_t form_length;
    /* a number to ask for, a range to insert into a gap and one to remove, both in the middle of the first set */
    uint64_t x, insert[2], removal[2];
    /* two windows: from the low of the first set's first range on, and from the low of its last range on, both up to the last number. And
       two lengths of a run: one more than the longest gap between ranges, so that it fits behind the last range and nowhere else; and half
       of that gap, for which about half of the random gaps are long enough, and all of the regular ones. And of a tray the exponent of the
       power of two that its start is a multiple of */
    uint64_t window[2], late, long_run, run, exponent;
    /* results; of prefix blocks, pairs */
    block out, out2, merged, pairs;
    uint8_t *bytes;
    size_t bytes_length;
    /* all input words and bytes, and all result words and bytes, in one piece each; the pairs, which are many times the rest, stand
       behind the other results, and only the measures that write them are asked about them */
    uint8_t *inputs, *results;
    size_t inputs_size, results_size, pairs_size;
    icl_job *icl;
} job;

enum { RANDOM, REGULAR, SHAPES };

/* inputs.c: a job with sets of so many ranges and maps of a third as many entries. Every result fits its output. */
job make_job(size_t ranges, int shape, double where);
void free_job(job *t);
size_t entries_for(size_t ranges);

/* One measured call: what it is to a table of calls, and to Boost.ICL if that has it. */
typedef struct measure {
    const char *name;
    wimblorque_answer (*call)(const library *lib, job *t);
    void (*icl)(icl_job *t);
    bool in_place;
    bool bulk;
    bool pairs;
    bool tray;
} measure;

/* measures.c */
extern const measure measures[];
extern const size_t measure_count;

/* check.c: ends the program with a message unless the contenders agree on these inputs, and on damaged ones. */
void check_job(job *t);
void check_damaged(job *t);

/* icl.cpp: the containers of a job, built beforehand; the operations; and the results as words. */
#ifdef __cplusplus
extern "C" {
#endif
icl_job *icl_make(const job *t);
void icl_free(icl_job *t);
/* before a call that is timed: no old results, and a fresh copy of the first set for a change in place */
void icl_prepare(icl_job *t, bool in_place);
void icl_results(const icl_job *t, block out, block out2, block merged, uint64_t *found);
void icl_member(icl_job *t);
void icl_insert(icl_job *t);
void icl_remove(icl_job *t);
void icl_union(icl_job *t);
void icl_intersection(icl_job *t);
void icl_difference(icl_job *t);
void icl_symmetric_difference(icl_job *t);
void icl_complement(icl_job *t);
void icl_apply(icl_job *t);
void icl_fold(icl_job *t);
void icl_overlay(icl_job *t);
#ifdef __cplusplus
}
#endif

#endif
