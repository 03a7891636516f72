/* Makes the inputs: random ones, whose ranges and gaps have lengths drawn alike, so that half of the numbers are members, and regular
   ones, whose ranges and gaps are all alike. The numbers are the same in every run. */
#include <stdio.h>
#include <stdlib.h>
#include <string.h>

#include "bench.h"

static uint64_t state = 20260101;

/* The next number of a fixed sequence (splitmix64). */
static uint64_t draw(void) {
    uint64_t z = state += 0x9E3779B97F4A7C15;
    z = (z ^ z >> 30) * 0xBF58476D1CE4E5B9;
    z = (z ^ z >> 27) * 0x94D049BB133111EB;
    return z ^ z >> 31;
}

/* n items of s words; a value is one of 16. Regular ones are shifted by so many eighths of an item and its gap. */
static void fill(block b, size_t s, size_t n, int shape, uint64_t base, unsigned eighths) {
    uint64_t step = (UINT64_C(1) << 62) / n, next = base + step / 8 * eighths;
    b.words[0] = n;
    for (size_t i = 0; i < n; i++) {
        uint64_t *item = b.words + s * i + 1;
        item[0] = shape == REGULAR ? next : next + 2 + draw() % step;
        item[1] = item[0] + (shape == REGULAR ? step / 2 - 1 : draw() % step);
        next = shape == REGULAR ? next + step : item[1];
        if (s == 3) {
            item[2] = draw() % 16;
        }
    }
}

/* The set `from` with some of its ends moved: half of them by chance, or each high. None comes near the next. */
static void move_ends(block from, block to, int shape) {
    size_t last = 2 * from.words[0];
    memcpy(to.words, from.words, (last + 1) * sizeof *to.words);
    for (size_t k = 2; k < last; k++) {
        uint64_t down = (from.words[k] - from.words[k - 1]) / 3, up = (from.words[k + 1] - from.words[k]) / 3;
        if (shape == REGULAR) {
            to.words[k] += k % 2 == 0 ? up / 2 : 0;
        } else if (draw() % 2 == 0) {
            to.words[k] = from.words[k] - down + draw() % (down + up + 1);
        }
    }
}

/* A bulletin from the ranges of a set: each is released or withdrawn, by chance or in turn. */
static void share_out(block from, block released, block withdrawn, int shape) {
    released.words[0] = withdrawn.words[0] = 0;
    for (size_t i = 0; i < from.words[0]; i++) {
        bool first = shape == REGULAR ? i % 2 == 0 : draw() % 2 == 0;
        uint64_t *to = first ? released.words : withdrawn.words;
        memcpy(to + 2 * to[0] + 1, from.words + 2 * i + 1, 2 * sizeof *to);
        to[0]++;
    }
}

/* The windows and runs of the fits. */
static void choose_runs(job *t) {
    const uint64_t *w = t->one.words;
    size_t n = w[0];
    uint64_t longest = 0;
    for (size_t i = 1; i < n; i++) {
        uint64_t gap = w[2 * i + 1] - w[2 * i] - 1;
        longest = gap > longest ? gap : longest;
    }
    t->window[0] = w[1];
    t->window[1] = UINT64_MAX;
    t->late = w[2 * n - 1];
    t->long_run = longest + 1;
    t->run = longest / 2;
    t->exponent = 4;
}

/* The arguments: a number at a part of the way through the first set, a range within its middle gap, and its middle range. */
static void choose_arguments(job *t, double where) {
    const uint64_t *w = t->one.words;
    size_t n = w[0], i = (size_t)(where * (double)(n - 1)), k = n / 2;
    t->x = w[2 * i + 1] + draw() % (w[2 * i + 3] - w[2 * i + 1]);
    while (w[2 * k + 1] - w[2 * k] < 9) {
        k--;
    }
    uint64_t third = (w[2 * k + 1] - w[2 * k]) / 3;
    t->insert[0] = w[2 * k] + third;
    t->insert[1] = w[2 * k + 1] - third;
    t->removal[0] = w[2 * k + 1];
    t->removal[1] = w[2 * k + 2];
}

/* The entries of a job's maps: their overlay has about twice as many, and a map has 2,730 at the most. */
size_t entries_for(size_t ranges) {
    return ranges / 3;
}

/* Cuts a piece of so many words from the arena. */
static block cut(uint8_t **arena, size_t words) {
    block b = {(uint64_t *)*arena, words};
    *arena += words * sizeof(uint64_t);
    return b;
}

/* The memory of a job. A set block has room for about 2 ranges in 100 more than it has; so the ranges of two inputs together are
   more than any output has room for, and the result has to be counted, whatever the size. An output of prefix blocks has the words that
   the header names as enough, and these are not counted beforehand. */
static job empty_job(size_t n) {
    size_t entries = entries_for(n), set = 1 + 2 * (n + n / 50 + 2), map = 1 + 3 * (entries + 1);
    size_t overlay = 1 + 3 * (2 * entries + entries / 22 + 1), form = 7 + 21 * n;
    size_t pairs = WIMBLORQUE_PREFIX_WORDS_OF(n);
    job t = {.ranges = n, .form_length = form, .bytes_length = form + 8, .pairs_size = pairs * 8};
    t.inputs_size = (8 * set + 2 * map) * 8 + 2 * (form + 1);
    t.results_size = ((2 * set + overlay) * 8 + t.bytes_length + 7) / 8 * 8;
    t.inputs = calloc(t.inputs_size, 1);
    t.results = calloc(t.results_size + t.pairs_size, 1);
    if (!t.inputs || !t.results) {
        fputs("bench: no memory\n", stderr);
        exit(1);
    }
    uint8_t *p = t.inputs, *q = t.results;
    block *sets[] = {&t.one, &t.two, &t.version, &t.released1, &t.withdrawn1, &t.released2, &t.withdrawn2};
    for (size_t i = 0; i < 7; i++) {
        *sets[i] = cut(&p, set);
    }
    t.upper = cut(&p, map);
    t.lower = cut(&p, map);
    t.form = p;
    t.old_form = p + form + 1;
    t.out = cut(&q, set);
    t.out2 = cut(&q, set);
    t.merged = cut(&q, overlay);
    t.bytes = q;
    q = t.results + t.results_size;
    t.pairs = cut(&q, pairs);
    return t;
}

/* Ends a record of the old form with a body of n bytes: its mark, its kind and Fletcher's check. No contender writes it any more. */
static void end_old_record(uint8_t *p, uint8_t kind, size_t n) {
    unsigned a = 0, b = 0;
    p[0] = 0xC5;
    p[1] = 0x3A;
    p[2] = kind;
    for (size_t i = 2; i < n + 3; i++) {
        a = (a + p[i]) % 255;
        b = (b + a) % 255;
    }
    p[n + 3] = (uint8_t)b;
    p[n + 4] = (uint8_t)a;
}

/* The old form of the set whose new form stands there: the same records with the other mark and check. */
static void write_old_form(job *t) {
    memcpy(t->old_form, t->form, t->form_length);
    end_old_record(t->old_form, 0x01, 2);
    for (size_t p = 7; p < t->form_length; p += 21) {
        end_old_record(t->old_form + p, 0x10, 16);
    }
}

/* Draws the sets, bulletins, maps and arguments of a job. */
static void draw_inputs(job *t, int shape, double where) {
    size_t n = t->ranges;
    uint64_t base = draw() >> 3;
    fill(t->one, 2, n, shape, base, 0);
    fill(t->two, 2, n, shape, base, 2);
    move_ends(t->one, t->version, shape);
    fill(t->out, 2, n, shape, base, 1);
    share_out(t->out, t->released1, t->withdrawn1, shape);
    fill(t->out, 2, n, shape, base, 2);
    share_out(t->out, t->released2, t->withdrawn2, shape);
    fill(t->upper, 3, entries_for(n), shape, base, 0);
    fill(t->lower, 3, entries_for(n), shape, base, 2);
    choose_arguments(t, where);
    choose_runs(t);
    plain_library.set_write(t->one.words, t->one.length, t->form, t->form_length, 0);
    write_old_form(t);
}

/* Whether every measured call is accepted. */
static bool all_fit(job *t) {
    for (size_t i = 0; i < measure_count; i++) {
        memcpy(t->out.words, t->one.words, t->one.length * sizeof(uint64_t));
        if (measures[i].call(&plain_library, t).status != 0) {
            return false;
        }
    }
    return true;
}

job make_job(size_t ranges, int shape, double where) {
    job t = empty_job(ranges);
    int tries = 0;
    do {
        if (tries++ == 100000) {
            fputs("bench: no inputs found whose results fit\n", stderr);
            exit(1);
        }
        memset(t.inputs, 0, t.inputs_size);
        draw_inputs(&t, shape, where);
    } while (!all_fit(&t));
    t.icl = icl_make(&t);
    return t;
}

void free_job(job *t) {
    icl_free(t->icl);
    free(t->inputs);
    free(t->results);
}
