/* The measured calls in plain C, as a C programmer would write them who has the same duties: inputs are judged, the refusals are the
   same and come in the same order, a refused call changes nothing, and an accepted one leaves 0 in every word behind the items. It is
   only measured against, and proved by nothing. */
#include <stdbool.h>
#include <string.h>

#include "library.h"

enum { SET_LIMIT = 4095, MAP_LIMIT = 2730, RECORD = 21 };

#define LAST UINT64_MAX

/* An answer with no values. */
static wimblorque_answer told(uint64_t status, uint64_t place) {
    return (wimblorque_answer){.status = status, .place = place};
}

/* An accepted call's answer with one value. */
static wimblorque_answer value(uint64_t v) {
    return (wimblorque_answer){.count = 1, .first = v};
}

static size_t room_for(size_t words, size_t item, size_t limit) {
    size_t room = (words - 1) / item;
    return room < limit ? room : limit;
}

/* ---- judging ---- */

/* Whether n ranges are sound: one walk that ends nowhere early and collects what is wrong. */
static bool ranges_sound(const uint64_t *w, size_t n) {
    bool wrong = n > 0 && w[1] > w[2];
    for (size_t i = 2; i < 2 * n; i += 2) {
        wrong |= (w[i + 1] <= w[i]) | (w[i + 1] - w[i] == 1) | (w[i + 1] > w[i + 2]);
    }
    return !wrong;
}

/* 0 where the block is a sound set, else the refusal. */
static uint64_t judge_set(const uint64_t *w, size_t words) {
    if (words == 0) {
        return WIMBLORQUE_NO_BLOCK;
    }
    if (w[0] > room_for(words, 2, SET_LIMIT)) {
        return WIMBLORQUE_COUNT;
    }
    return ranges_sound(w, w[0]) ? 0 : WIMBLORQUE_ORDER;
}

/* 0 where the block is a sound map, else the refusal. */
static uint64_t judge_map(const uint64_t *w, size_t words) {
    if (words == 0) {
        return WIMBLORQUE_NO_BLOCK;
    }
    if (w[0] > room_for(words, 3, MAP_LIMIT)) {
        return WIMBLORQUE_COUNT;
    }
    size_t n = w[0];
    bool wrong = n > 0 && w[1] > w[2];
    for (size_t i = 1; i < n; i++) {
        const uint64_t *e = w + 3 * i - 2, *f = e + 3;
        wrong |= (f[0] <= e[1]) | ((f[0] - e[1] == 1) & (f[2] == e[2])) | (f[0] > f[1]);
    }
    return wrong ? WIMBLORQUE_ORDER : 0;
}

/* The first refusal of k input sets. */
static wimblorque_answer judge_sets(const uint64_t *const *sets, const size_t *words, size_t k) {
    for (size_t i = 0; i < k; i++) {
        uint64_t refusal = judge_set(sets[i], words[i]);
        if (refusal) {
            return told(refusal, i);
        }
    }
    return told(0, 0);
}

static wimblorque_answer set_range_at(const uint64_t *w, size_t words, uint64_t i) {
    uint64_t refusal = judge_set(w, words);
    if (refusal) {
        return told(refusal, 0);
    }
    if (i >= w[0]) {
        return told(0, 0);
    }
    return (wimblorque_answer){.count = 2, .first = w[2 * i + 1], .second = w[2 * i + 2]};
}

/* ---- searching and editing ---- */

/* How many of n sound ranges have their low (end = 1) or high (end = 2) below x: a binary search. */
static size_t ends_below(const uint64_t *w, size_t n, size_t end, uint64_t x) {
    size_t from = 0;
    while (n > 0) {
        size_t half = n / 2;
        bool below = w[2 * (from + half) + end] < x;
        from = below ? from + half + 1 : from;
        n = below ? n - half - 1 : half;
    }
    return from;
}

static wimblorque_answer set_member(const uint64_t *w, size_t words, uint64_t x) {
    uint64_t refusal = judge_set(w, words);
    if (refusal) {
        return told(refusal, 0);
    }
    size_t i = ends_below(w, w[0], 2, x);
    return (wimblorque_answer){.count = 2, .first = i < w[0] && w[2 * i + 1] <= x, .second = i};
}

/* The ranges from i up to j give way to the k ranges of `fresh`, if there is room; 0 behind the last. */
static wimblorque_answer replace(uint64_t *w, size_t words, size_t i, size_t j, const uint64_t *fresh, size_t k) {
    size_t n = w[0], count = n - (j - i) + k;
    if (count > room_for(words, 2, SET_LIMIT)) {
        return told(WIMBLORQUE_ROOM, 0);
    }
    memmove(w + 2 * (i + k) + 1, w + 2 * j + 1, 2 * (n - j) * sizeof *w);
    memcpy(w + 2 * i + 1, fresh, 2 * k * sizeof *w);
    w[0] = count;
    memset(w + 2 * count + 1, 0, (words - 2 * count - 1) * sizeof *w);
    return told(0, 0);
}

/* The refusal of a change of a..b in place, before its room is known, or 0. */
static uint64_t judge_change(const uint64_t *w, size_t words, uint64_t a, uint64_t b) {
    uint64_t refusal = judge_set(w, words);
    return refusal == 0 && a > b ? WIMBLORQUE_BACKWARDS : refusal;
}

static wimblorque_answer set_insert(uint64_t *w, size_t words, uint64_t a, uint64_t b) {
    uint64_t refusal = judge_change(w, words, a, b);
    if (refusal) {
        return told(refusal, 0);
    }
    /* the ranges from i up to j touch or meet a..b */
    size_t n = w[0];
    size_t i = a == 0 ? 0 : ends_below(w, n, 2, a - 1);
    size_t j = b >= LAST - 1 ? n : ends_below(w, n, 1, b + 2);
    uint64_t fresh[2] = {a, b};
    if (i < j) {
        uint64_t low = w[2 * i + 1], high = w[2 * j];
        fresh[0] = low < a ? low : a;
        fresh[1] = high > b ? high : b;
    }
    return replace(w, words, i, j, fresh, 1);
}

static wimblorque_answer set_remove(uint64_t *w, size_t words, uint64_t a, uint64_t b) {
    uint64_t refusal = judge_change(w, words, a, b);
    if (refusal) {
        return told(refusal, 0);
    }
    /* the ranges from i up to j meet a..b; at most two pieces of them stay */
    size_t n = w[0], k = 0;
    size_t i = ends_below(w, n, 2, a);
    size_t j = b == LAST ? n : ends_below(w, n, 1, b + 1);
    uint64_t fresh[4];
    if (i < j && w[2 * i + 1] < a) {
        fresh[2 * k] = w[2 * i + 1];
        fresh[2 * k++ + 1] = a - 1;
    }
    if (i < j && w[2 * j] > b) {
        fresh[2 * k] = b + 1;
        fresh[2 * k++ + 1] = w[2 * j];
    }
    return replace(w, words, i, j, fresh, k);
}

/* ---- fits ----
   The gaps of a window are the one in front of its first range, those between its ranges, and the one behind its last. The first and the
   last of them are clipped, so that they stand outside the walk, which looks at nothing but the ends of neighbours. */

/* What a fit walks: the ranges from i up to j, which begin in the window, behind `from`; from there on a number may be free. */
typedef struct walk {
    size_t i, j;
    uint64_t from;
} walk;

/* The refusal of a fit, before a gap is looked for, or 0. */
static uint64_t judge_fit(const uint64_t *w, size_t words, uint64_t a, uint64_t b, uint64_t k) {
    uint64_t refusal = judge_change(w, words, a, b);
    return refusal == 0 && k == 0 ? WIMBLORQUE_ZERO_RUN : refusal;
}

/* Finds the window's ranges by two binary searches. False if the range that holds a goes on to b: then there is no gap at all. */
static bool window_begins(const uint64_t *w, uint64_t a, uint64_t b, walk *v) {
    size_t n = w[0], i = ends_below(w, n, 2, a);
    v->from = a;
    if (i < n && w[2 * i + 1] <= a) {
        if (w[2 * i + 2] >= b) {
            return false;
        }
        v->from = w[2 * i + 2] + 1;
        i++;
    }
    v->i = i;
    v->j = b == LAST ? n : ends_below(w, n, 1, b + 1);
    return true;
}

static wimblorque_answer set_first_fit(const uint64_t *w, size_t words, uint64_t a, uint64_t b, uint64_t k) {
    uint64_t refusal = judge_fit(w, words, a, b, k);
    walk v;
    if (refusal || !window_begins(w, a, b, &v)) {
        return told(refusal ? refusal : WIMBLORQUE_NO_GAP, 0);
    }
    size_t i = v.i, j = v.j;
    if (i == j) {
        return b - v.from >= k - 1 ? value(v.from) : told(WIMBLORQUE_NO_GAP, 0);
    }
    if (w[2 * i + 1] - v.from >= k) {
        return value(v.from);
    }
    for (i++; i < j; i++) {
        if (w[2 * i + 1] - w[2 * i] > k) {
            return value(w[2 * i] + 1);
        }
    }
    return w[2 * j] < b && b - w[2 * j] >= k ? value(w[2 * j] + 1) : told(WIMBLORQUE_NO_GAP, 0);
}

/* The shortest gap that is long enough is the one of which the least is left. Of one that is too short that number wraps, and is then above
   LAST - k, which what is left of the others is not: so the walk asks only which is less, and that by selects. */
static wimblorque_answer set_best_fit(const uint64_t *w, size_t words, uint64_t a, uint64_t b, uint64_t k) {
    uint64_t refusal = judge_fit(w, words, a, b, k);
    walk v;
    if (refusal || !window_begins(w, a, b, &v)) {
        return told(refusal ? refusal : WIMBLORQUE_NO_GAP, 0);
    }
    size_t i = v.i, j = v.j;
    if (i == j) {
        return b - v.from >= k - 1 ? value(v.from) : told(WIMBLORQUE_NO_GAP, 0);
    }
    uint64_t least = w[2 * i + 1] - v.from - k, place = v.from;
    for (i++; i < j; i++) {
        uint64_t left = w[2 * i + 1] - w[2 * i] - 1 - k;
        place = left < least ? w[2 * i] + 1 : place;
        least = left < least ? left : least;
    }
    if (w[2 * j] < b && b - w[2 * j] - k < least) {
        least = b - w[2 * j] - k;
        place = w[2 * j] + 1;
    }
    return least <= LAST - k ? value(place) : told(WIMBLORQUE_NO_GAP, 0);
}

/* ---- trays: fits that start at a multiple of 2^j ----
   The numbers of a gap below its first multiple are lost: as many as its low end lacks to one, which is never more than 2^j - 1. */

/* The refusal of a tray, before a gap is looked for, or 0. */
static uint64_t judge_tray(const uint64_t *w, size_t words, uint64_t a, uint64_t b, uint64_t k, uint64_t j) {
    uint64_t refusal = judge_fit(w, words, a, b, k);
    return refusal == 0 && j > 63 ? WIMBLORQUE_ALIGN : refusal;
}

/* Whether low..low + rest holds k numbers behind the lost ones. */
static inline bool holds(uint64_t rest, uint64_t lost, uint64_t k) {
    return (rest >= lost) & (rest - lost >= k - 1);
}

/* The low end of the gap behind the window's last range, or of the whole window where it has none. False if there is no such gap. */
static bool gap_behind(const uint64_t *w, const walk *v, uint64_t b, uint64_t *low) {
    *low = v->i == v->j ? v->from : w[2 * v->j] + 1;
    return v->i == v->j || w[2 * v->j] < b;
}

static wimblorque_answer set_first_fit_aligned(const uint64_t *w, size_t words, uint64_t a, uint64_t b, uint64_t k, uint64_t j) {
    uint64_t refusal = judge_tray(w, words, a, b, k, j);
    walk v;
    if (refusal || !window_begins(w, a, b, &v)) {
        return told(refusal ? refusal : WIMBLORQUE_NO_GAP, 0);
    }
    uint64_t mask = (UINT64_C(1) << j) - 1, low = v.from;
    for (size_t i = v.i; i < v.j; i++) {
        if (holds(w[2 * i + 1] - 1 - low, -low & mask, k)) {
            return value(low + (-low & mask));
        }
        low = w[2 * i + 2] + 1;
    }
    bool found = gap_behind(w, &v, b, &low) && holds(b - low, -low & mask, k);
    return found ? value(low + (-low & mask)) : told(WIMBLORQUE_NO_GAP, 0);
}

/* A gap in front of a range has fewer than 2^64 numbers: so by how much its high end is above its low end is below LAST. That is made LAST
   where the gap is too short, and then the walk asks only which is less, and that by selects. */
static wimblorque_answer set_best_fit_aligned(const uint64_t *w, size_t words, uint64_t a, uint64_t b, uint64_t k, uint64_t j) {
    uint64_t refusal = judge_tray(w, words, a, b, k, j);
    walk v;
    if (refusal || !window_begins(w, a, b, &v)) {
        return told(refusal ? refusal : WIMBLORQUE_NO_GAP, 0);
    }
    uint64_t mask = (UINT64_C(1) << j) - 1, low = v.from, least = LAST, place = 0;
    for (size_t i = v.i; i < v.j; i++) {
        uint64_t rest = w[2 * i + 1] - 1 - low, lost = -low & mask;
        rest |= (uint64_t)holds(rest, lost, k) - 1;
        place = rest < least ? low + lost : place;
        least = rest < least ? rest : least;
        low = w[2 * i + 2] + 1;
    }
    if (gap_behind(w, &v, b, &low) && holds(b - low, -low & mask, k) && (b - low < least || least == LAST)) {
        return value(low + (-low & mask));
    }
    return least < LAST ? value(place) : told(WIMBLORQUE_NO_GAP, 0);
}

/* ---- operations on two and three sets ----
   A set changes at its edges: a low, where it begins, and the number behind a high, where it ends. Edge i of a set is found at word
   i + 1; an end at 2^64 is none. Merging takes the least edge next and keeps it where the result changes. Edge k of the result,
   counted from 1, goes to word k: the last one found is written again until there is a next, so that nothing is tested. */

static size_t edges_of(const uint64_t *w) {
    size_t n = w[0];
    return n > 0 && w[2 * n] == LAST ? 2 * n - 1 : 2 * n;
}

static inline uint64_t edge(const uint64_t *w, size_t i) {
    return w[i + 1] + (i & 1);
}

/* A result as far as it is known: its edges so far, the last of them as a word, and where they go, if anywhere. */
typedef struct result {
    uint64_t *out;
    size_t edges;
    uint64_t word;
} result;

/* From `at` on a number is in the result, or is not. The new word is chosen by a mask, since a branch would be mispredicted. */
static inline void change(result *r, uint64_t at, size_t in) {
    uint64_t changes = (r->edges ^ in) & 1;
    r->word ^= (r->word ^ (at - (r->edges & 1))) & -changes;
    r->edges += changes;
    if (r->out) {
        r->out[r->edges] = r->word;
    }
}

/* The ranges of the result; if they were written, its last end, its count and the zeros behind. */
static inline size_t finish(const result *r, size_t words) {
    size_t n = (r->edges + 1) / 2;
    if (r->out) {
        if (r->edges & 1) {
            r->out[r->edges + 1] = LAST;
        }
        r->out[0] = n;
        memset(r->out + 2 * n + 1, 0, (words - 2 * n - 1) * sizeof *r->out);
    }
    return n;
}

/* A table says what is kept: bit a + 2b + 4c for a number in the first set (a), the second (b) and the third (c). This is the table
   that is left of it once one set, of weight 1, 2 or 4, stays inside or outside. */
static unsigned fixed(unsigned table, unsigned weight, size_t inside) {
    unsigned left = 0;
    for (unsigned v = 0; v < 4; v++) {
        unsigned low = v & (weight - 1), high = v - low;
        left |= (table >> (low + 2 * high + weight * (inside & 1)) & 1) << v;
    }
    return left;
}

/* Merges the edges of one set from i on. */
static inline void merge_one(result *r, const uint64_t *a, size_t i, unsigned table) {
    for (size_t end = edges_of(a); i < end; i++) {
        change(r, edge(a, i), table >> ((i + 1) & 1));
    }
}

/* Merges the edges of two sets from i and j on. */
static inline void merge_two(result *r, const uint64_t *a, size_t i, const uint64_t *b, size_t j, unsigned table) {
    size_t end_a = edges_of(a), end_b = edges_of(b);
    while (i < end_a && j < end_b) {
        uint64_t x = edge(a, i), y = edge(b, j);
        i += x <= y;
        j += y <= x;
        change(r, x < y ? x : y, table >> ((i & 1) + 2 * (j & 1)));
    }
    merge_one(r, a, i, fixed(table, 2, j));
    merge_one(r, b, j, fixed(table, 1, i));
}

/* Merges the edges of three sets. */
static inline void merge_three(result *r, const uint64_t *a, const uint64_t *b, const uint64_t *c, unsigned table) {
    size_t i = 0, j = 0, k = 0, end_a = edges_of(a), end_b = edges_of(b), end_c = edges_of(c);
    while (i < end_a && j < end_b && k < end_c) {
        uint64_t x = edge(a, i), y = edge(b, j), z = edge(c, k);
        uint64_t least = x < y ? x : y;
        i += (x <= y) & (x <= z);
        j += (y <= x) & (y <= z);
        k += z <= least;
        change(r, z < least ? z : least, table >> ((i & 1) + 2 * (j & 1) + 4 * (k & 1)));
    }
    if (i == end_a) {
        merge_two(r, b, j, c, k, fixed(table, 1, i));
    } else if (j == end_b) {
        merge_two(r, a, i, c, k, fixed(table, 2, j));
    } else {
        merge_two(r, a, i, b, j, fixed(table, 4, k));
    }
}

/* What the table keeps of two sets, into out, or only counted. */
static inline size_t from_two(const uint64_t *a, const uint64_t *b, unsigned table, uint64_t *out, size_t words) {
    result r = {out, 0, 0};
    merge_two(&r, a, 0, b, 0, table);
    return finish(&r, words);
}

static inline wimblorque_answer two_sets(const uint64_t *a, size_t a_words, const uint64_t *b, size_t b_words, uint64_t *out,
                                size_t out_words, unsigned table) {
    wimblorque_answer judged = judge_sets((const uint64_t *[]){a, b}, (size_t[]){a_words, b_words}, 2);
    if (judged.status) {
        return judged;
    }
    if (out_words == 0) {
        return told(WIMBLORQUE_NO_BLOCK, 2);
    }
    size_t room = room_for(out_words, 2, SET_LIMIT);
    if (a[0] + b[0] > room && from_two(a, b, table, NULL, 0) > room) {
        return told(WIMBLORQUE_ROOM, 2);
    }
    from_two(a, b, table, out, out_words);
    return told(0, 0);
}

static wimblorque_answer set_union(const uint64_t *a, size_t a_words, const uint64_t *b, size_t b_words, uint64_t *out,
                                   size_t out_words) {
    return two_sets(a, a_words, b, b_words, out, out_words, 0xE);
}

static wimblorque_answer set_intersection(const uint64_t *a, size_t a_words, const uint64_t *b, size_t b_words, uint64_t *out,
                                          size_t out_words) {
    return two_sets(a, a_words, b, b_words, out, out_words, 0x8);
}

static wimblorque_answer set_difference(const uint64_t *a, size_t a_words, const uint64_t *b, size_t b_words, uint64_t *out,
                                        size_t out_words) {
    return two_sets(a, a_words, b, b_words, out, out_words, 0x2);
}

static wimblorque_answer set_symmetric_difference(const uint64_t *a, size_t a_words, const uint64_t *b, size_t b_words,
                                                  uint64_t *out, size_t out_words) {
    return two_sets(a, a_words, b, b_words, out, out_words, 0x6);
}

static wimblorque_answer set_complement(const uint64_t *a, size_t words, uint64_t *out, size_t out_words) {
    uint64_t refusal = judge_set(a, words);
    if (refusal) {
        return told(refusal, 0);
    }
    if (out_words == 0) {
        return told(WIMBLORQUE_NO_BLOCK, 1);
    }
    size_t n = a[0], edges = edges_of(a);
    bool from_0 = n > 0 && a[1] == 0;
    if (n + 1 - from_0 - (edges & 1) > room_for(out_words, 2, SET_LIMIT)) {
        return told(WIMBLORQUE_ROOM, 1);
    }
    result r = {out, 0, 0};
    change(&r, 0, !from_0);
    merge_one(&r, a, from_0, 1);
    finish(&r, out_words);
    return told(0, 0);
}

/* ---- prefix blocks ----
   The block of 2^h numbers in which a range lies, h the least, is the range itself, or has a middle that the range goes across. Below the
   middle the sizes are the binary digits of the length there, from the least on, and from the middle on those of the length there, from
   the greatest down. So a range is counted by counting ones. */

/* Prefix blocks as far as they are known, and where they go, if anywhere. */
typedef struct pairs {
    uint64_t *out;
    size_t count;
} pairs;

static inline void note(pairs *p, uint64_t start, unsigned e) {
    if (p->out) {
        p->out[2 * p->count + 1] = start;
        p->out[2 * p->count + 2] = e;
    }
    p->count++;
}

/* 2^h - 1 */
static inline uint64_t ones_of(unsigned h) {
    return h == 64 ? LAST : ((uint64_t)1 << h) - 1;
}

/* Stores the prefix blocks from low up to the middle and from there up to high. */
static inline void store_range(pairs *p, uint64_t low, uint64_t middle, uint64_t high) {
    uint64_t *w = p->out + 2 * p->count + 1, at = low;
    for (uint64_t left = middle - low; left != 0; left &= left - 1, w += 2) {
        w[0] = at;
        w[1] = (unsigned)__builtin_ctzll(left);
        at += left & -left;
    }
    for (uint64_t left = high + 1 - middle; left != 0; w += 2) {
        unsigned e = 63 - (unsigned)__builtin_clzll(left);
        w[0] = at;
        w[1] = e;
        at += (uint64_t)1 << e;
        left ^= (uint64_t)1 << e;
    }
    p->count = (size_t)(w - p->out) / 2;
}

static inline void take_range(pairs *p, uint64_t low, uint64_t high) {
    uint64_t differ = low ^ high;
    unsigned h = differ == 0 ? 0 : 64 - (unsigned)__builtin_clzll(differ);
    if (differ == ones_of(h) && (low & differ) == 0) {
        note(p, low, h);
        return;
    }
    uint64_t middle = high & ~ones_of(h - 1);
    if (p->out) {
        store_range(p, low, middle, high);
    } else {
        p->count += (size_t)(__builtin_popcountll(middle - low) + __builtin_popcountll(high + 1 - middle));
    }
}

/* The prefix blocks of a sound set, into out, or only counted. */
static inline size_t take_set(const uint64_t *w, uint64_t *out) {
    pairs p = {out, 0};
    for (size_t i = 1; i < 2 * w[0]; i += 2) {
        take_range(&p, w[i], w[i + 1]);
    }
    return p.count;
}

/* An audit as far as it has come: the set, the first word of the first range that ends at or past the block that is asked about, the
   words behind the last range, and the prefix blocks. */
typedef struct audit {
    const uint64_t *range, *end;
    pairs kept;
} audit;

/* Audits the block of ones + 1 = 2^e numbers from start on. The second half takes the place of the whole. */
static void audit_block(audit *t, uint64_t start, unsigned e, uint64_t ones) {
    while (t->range != t->end && t->range[0] <= start + ones) {
        if (t->range[0] <= start && start + ones <= t->range[1]) {
            note(&t->kept, start, e);
            t->range += t->range[1] == start + ones ? 2 : 0;
            return;
        }
        e--;
        ones /= 2;
        audit_block(t, start, e, ones);
        start += ones + 1;
    }
}

/* The same by the audit. */
static size_t audit_set(const uint64_t *w, uint64_t *out) {
    audit t = {w + 1, w + 1 + 2 * w[0], {out, 0}};
    audit_block(&t, 0, 64, LAST);
    return t.kept.count;
}

typedef size_t method(const uint64_t *set, uint64_t *out);

static inline wimblorque_answer blocks_into(const uint64_t *w, size_t words, uint64_t *out, size_t out_words, method *found) {
    uint64_t refusal = judge_set(w, words);
    if (refusal) {
        return told(refusal, 0);
    }
    if (out_words == 0) {
        return told(WIMBLORQUE_NO_BLOCK, 1);
    }
    /* they are counted beforehand only where the output may be too small */
    size_t room = (out_words - 1) / 2;
    if (room < WIMBLORQUE_MOST_PREFIXES * w[0] && room < found(w, NULL)) {
        return told(WIMBLORQUE_ROOM, 1);
    }
    size_t n = found(w, out);
    out[0] = n;
    memset(out + 2 * n + 1, 0, (out_words - 2 * n - 1) * sizeof *out);
    return told(0, 0);
}

static wimblorque_answer set_prefix_blocks(const uint64_t *w, size_t words, uint64_t *out, size_t out_words) {
    return blocks_into(w, words, out, out_words, take_set);
}

static wimblorque_answer set_audit_blocks(const uint64_t *w, size_t words, uint64_t *out, size_t out_words) {
    return blocks_into(w, words, out, out_words, audit_set);
}

/* ---- bulletins ---- */

/* Whether two sets share a number. */
static bool overlap(const uint64_t *a, const uint64_t *b) {
    size_t i = 1, j = 1;
    while (i < 2 * a[0] && j < 2 * b[0]) {
        bool before = a[i + 1] < b[j], behind = b[j + 1] < a[i];
        if (!before && !behind) {
            return true;
        }
        i += 2 * before;
        j += 2 * behind;
    }
    return false;
}

/* A number is kept that is in the first set and not in the third, or is in the second. */
enum { AMENDED = 0xCE };

/* The list s without w, then joined with r; into out, or only counted. */
static inline size_t amend(const uint64_t *s, const uint64_t *r, const uint64_t *w, uint64_t *out, size_t words) {
    result into = {out, 0, 0};
    merge_three(&into, s, r, w, AMENDED);
    return finish(&into, words);
}

/* Whether the amended list has more ranges than there is room for. Nothing is counted where even all ranges would fit. */
static bool no_room(const uint64_t *s, const uint64_t *r, const uint64_t *w, size_t words) {
    size_t room = room_for(words, 2, SET_LIMIT);
    return s[0] + r[0] + w[0] > room && amend(s, r, w, NULL, 0) > room;
}

static wimblorque_answer bulletin_apply(const uint64_t *s, size_t s_words, const uint64_t *r, size_t r_words, const uint64_t *w,
                               size_t w_words, uint64_t *out, size_t out_words) {
    wimblorque_answer judged = judge_sets((const uint64_t *[]){s, r, w}, (size_t[]){s_words, r_words, w_words}, 3);
    if (judged.status) {
        return judged;
    }
    if (out_words == 0) {
        return told(WIMBLORQUE_NO_BLOCK, 3);
    }
    if (overlap(r, w)) {
        return told(WIMBLORQUE_OVERLAP, 0);
    }
    if (no_room(s, r, w, out_words)) {
        return told(WIMBLORQUE_ROOM, 3);
    }
    amend(s, r, w, out, out_words);
    return told(0, 0);
}

static wimblorque_answer bulletin_fold(const uint64_t *r1, size_t r1_words, const uint64_t *w1, size_t w1_words, const uint64_t *r2,
                              size_t r2_words, const uint64_t *w2, size_t w2_words, uint64_t *r, size_t r_words, uint64_t *w,
                              size_t w_words) {
    wimblorque_answer judged = judge_sets((const uint64_t *[]){r1, w1, r2, w2}, (size_t[]){r1_words, w1_words, r2_words, w2_words}, 4);
    if (judged.status) {
        return judged;
    }
    if (r_words == 0 || w_words == 0) {
        return told(WIMBLORQUE_NO_BLOCK, r_words == 0 ? 4 : 5);
    }
    if (overlap(r1, w1) || overlap(r2, w2)) {
        return told(WIMBLORQUE_OVERLAP, 0);
    }
    if (no_room(r1, r2, w2, r_words)) {
        return told(WIMBLORQUE_ROOM, 4);
    }
    if (no_room(w1, w2, r2, w_words)) {
        return told(WIMBLORQUE_ROOM, 5);
    }
    amend(r1, r2, w2, r, r_words);
    amend(w1, w2, r2, w, w_words);
    return told(0, 0);
}

/* ---- overlay ---- */

/* The entries of a map so far: how many, the high and the value of the last, and where they go, if anywhere. */
typedef struct entries {
    uint64_t *out;
    size_t count;
    uint64_t high;
    uint64_t value;
} entries;

/* One more entry, or the last one goes on. */
static inline void lay(entries *m, uint64_t low, uint64_t high, uint64_t value) {
    bool joins = m->count > 0 && m->value == value && low - m->high == 1;
    m->count += !joins;
    m->high = high;
    m->value = value;
    if (m->out) {
        uint64_t *e = m->out + 3 * m->count - 2;
        if (!joins) {
            e[0] = low;
        }
        e[1] = high;
        e[2] = value;
    }
}

/* The upper entries and what the lower ones have between them; into out, or only counted. */
static inline size_t overlaid(const uint64_t *upper, const uint64_t *lower, uint64_t *out, size_t words) {
    entries m = {out, 0, 0, 0};
    const uint64_t *l = lower + 1, *end = l + 3 * lower[0];
    uint64_t from = 0;
    for (const uint64_t *u = upper + 1, *last = u + 3 * upper[0]; u < last; u += 3) {
        while (l < end && l[0] < u[0]) {
            uint64_t low = l[0] > from ? l[0] : from, high = l[1] < u[0] ? l[1] : u[0] - 1;
            if (low <= high) {
                lay(&m, low, high, l[2]);
            }
            if (l[1] > high) {
                break;
            }
            l += 3;
        }
        lay(&m, u[0], u[1], u[2]);
        while (l < end && l[1] <= u[1]) {
            l += 3;
        }
        from = u[1] + 1;
    }
    for (; l < end; l += 3) {
        lay(&m, l[0] > from ? l[0] : from, l[1], l[2]);
    }
    if (out) {
        out[0] = m.count;
        memset(out + 3 * m.count + 1, 0, (words - 3 * m.count - 1) * sizeof *out);
    }
    return m.count;
}

static wimblorque_answer map_overlay(const uint64_t *upper, size_t upper_words, const uint64_t *lower, size_t lower_words,
                                     uint64_t *out, size_t out_words) {
    uint64_t refusal = judge_map(upper, upper_words);
    if (refusal) {
        return told(refusal, 0);
    }
    refusal = judge_map(lower, lower_words);
    if (refusal) {
        return told(refusal, 1);
    }
    if (out_words == 0) {
        return told(WIMBLORQUE_NO_BLOCK, 2);
    }
    size_t room = room_for(out_words, 3, MAP_LIMIT);
    if (2 * upper[0] + lower[0] > room && overlaid(upper, lower, NULL, 0) > room) {
        return told(WIMBLORQUE_ROOM, 2);
    }
    overlaid(upper, lower, out, out_words);
    return told(0, 0);
}

/* ---- the byte form of a set: read with the old mark, C5 3A, and with the new one, C5 3B, and written with the new one ---- */

/* The bytes of a word in the other order: the machines that are measured are little-endian, the byte form is not. */
static inline uint64_t turned(uint64_t v) {
    v = (v >> 8 & 0x00FF00FF00FF00FF) | (v & 0x00FF00FF00FF00FF) << 8;
    v = (v >> 16 & 0x0000FFFF0000FFFF) | (v & 0x0000FFFF0000FFFF) << 16;
    return v >> 32 | v << 32;
}

static inline uint64_t get8(const uint8_t *p) {
    uint64_t v;
    memcpy(&v, p, sizeof v);
    return turned(v);
}

static inline void put8(uint8_t *p, uint64_t v) {
    v = turned(v);
    memcpy(p, &v, sizeof v);
}

static unsigned get2(const uint8_t *p) {
    return (unsigned)(p[0] << 8 | p[1]);
}

/* Fletcher's check of n bytes, at most 33: the sums stay small, and the remainders are taken once. */
static inline unsigned fletcher_of(const uint8_t *p, size_t n) {
    unsigned a = 0, b = 0;
    for (size_t i = 0; i < n; i++) {
        a += p[i];
        b += a;
    }
    return b % 255 << 8 | a % 255;
}

/* The CRC's register with one byte behind, in eight steps at once. */
static inline unsigned crc_byte(unsigned s, unsigned x) {
    unsigned y = (s >> 8 ^ x) & 0xFF, t = y ^ y >> 4;
    return (s << 8 ^ t << 12 ^ t << 5 ^ t) & 0xFFFF;
}

/* The check of the start of a set. */
static inline unsigned crc_start(unsigned n) {
    return crc_byte(crc_byte(crc_byte(0xFFFF, 0x01), n >> 8), n & 0xFF);
}

/* How often the fourth power of the polynomial, x^64 + x^48 + x^20 + 1, goes into a word with 64 zeros behind. */
static inline uint64_t carried(uint64_t u) {
    uint64_t v = u ^ u >> 32;
    return v ^ v >> 16 ^ v >> 44;
}

/* The check of a range, from its words and with no table: the low with the register over the kind on top is folded into the high by that
   power, and what is left is divided by the polynomial. A table of eight or sixteen times 256 was tried, and takes longer. */
static inline unsigned crc_range(uint64_t low, uint64_t high) {
    uint64_t q = carried(low ^ (uint64_t)crc_byte(0xFFFF, 0x10) << 48);
    q = carried(high ^ q ^ q << 20 ^ q << 48);
    uint64_t r = q ^ q >> 8 ^ q >> 22 ^ q >> 32;
    unsigned c = (unsigned)(r ^ r >> 4 ^ r >> 11 ^ r >> 16) & 0xFFFF;
    return (c ^ c << 5 ^ c << 12) & 0xFFFF;
}

enum { OLD = 0x3A, NEW = 0x3B }; /* the second byte of the mark */

/* The verdict on a record of a kind with a body of n bytes, up to its check. */
static inline uint64_t judge_head(const uint8_t *p, size_t left, uint8_t mark, uint8_t kind, size_t n) {
    if (left < 3) {
        return WIMBLORQUE_SHORT;
    }
    if (p[0] != 0xC5 || p[1] != mark) {
        return WIMBLORQUE_MARK;
    }
    if (p[2] != kind) {
        return WIMBLORQUE_KIND;
    }
    return left < n + 5 ? WIMBLORQUE_SHORT : 0;
}

/* The verdict on the n ranges behind the start, all with one mark, which is known where this stands. */
static inline wimblorque_answer judge_ranges(const uint8_t *bytes, size_t length, size_t n, uint8_t mark) {
    size_t p = 7;
    uint64_t before = 0;
    for (size_t i = 0; i < n; i++, p += RECORD) {
        uint64_t refusal = judge_head(bytes + p, length - p, mark, 0x10, 16);
        if (refusal) {
            return told(refusal, p);
        }
        uint64_t low = get8(bytes + p + 3), high = get8(bytes + p + 11);
        if ((mark == OLD ? fletcher_of(bytes + p + 2, 17) : crc_range(low, high)) != get2(bytes + p + 19)) {
            return told(WIMBLORQUE_CHECK, p);
        }
        if (low > high || (i > 0 && (low <= before || low - before == 1))) {
            return told(WIMBLORQUE_CONTENT, p);
        }
        before = high;
    }
    return told(p < length ? WIMBLORQUE_TRAILING : 0, p < length ? p : 0);
}

/* The verdict on the bytes as the form of a set: the first mark decides how they are judged. */
static wimblorque_answer judge_form(const uint8_t *bytes, size_t length) {
    bool old = length > 1 && bytes[1] == OLD;
    uint64_t refusal = judge_head(bytes, length, old ? OLD : NEW, 0x01, 2);
    if (refusal) {
        return told(refusal, 0);
    }
    unsigned n = get2(bytes + 3);
    if ((old ? fletcher_of(bytes + 2, 3) : crc_start(n)) != get2(bytes + 5)) {
        return told(WIMBLORQUE_CHECK, 0);
    }
    if (n > SET_LIMIT) {
        return told(WIMBLORQUE_CONTENT, 0);
    }
    return old ? judge_ranges(bytes, length, n, OLD) : judge_ranges(bytes, length, n, NEW);
}

static wimblorque_answer set_judge_form(const uint8_t *bytes, size_t length) {
    wimblorque_answer judged = judge_form(bytes, length);
    return judged.status ? judged : value((length - 7) / RECORD);
}

/* How many of the n sound ranges in records have their high below x: a binary search. */
static size_t records_below(const uint8_t *bytes, size_t n, uint64_t x) {
    size_t from = 0;
    while (n > 0) {
        size_t half = n / 2;
        bool below = get8(bytes + 7 + RECORD * (from + half) + 11) < x;
        from = below ? from + half + 1 : from;
        n = below ? n - half - 1 : half;
    }
    return from;
}

static uint64_t member(const uint8_t *bytes, size_t length, uint64_t x) {
    wimblorque_answer judged = judge_form(bytes, length);
    if (judged.status) {
        return judged.status;
    }
    size_t n = (length - 7) / RECORD, i = records_below(bytes, n, x);
    return i < n && get8(bytes + 7 + RECORD * i + 3) <= x;
}

static wimblorque_answer set_read(const uint8_t *bytes, size_t length, uint64_t *out, size_t out_words) {
    wimblorque_answer judged = judge_form(bytes, length);
    if (judged.status) {
        return judged;
    }
    if (out_words == 0) {
        return told(WIMBLORQUE_NO_BLOCK, 0);
    }
    size_t n = (length - 7) / RECORD;
    if (n > room_for(out_words, 2, SET_LIMIT)) {
        return told(WIMBLORQUE_ROOM, 0);
    }
    out[0] = n;
    for (size_t i = 0; i < n; i++) {
        out[2 * i + 1] = get8(bytes + 7 + RECORD * i + 3);
        out[2 * i + 2] = get8(bytes + 7 + RECORD * i + 11);
    }
    memset(out + 2 * n + 1, 0, (out_words - 2 * n - 1) * sizeof *out);
    return told(0, 0);
}

/* Writes the mark and the kind, and behind a body of n bytes the check. */
static inline void frame(uint8_t *p, uint8_t kind, size_t n, unsigned check) {
    p[0] = 0xC5;
    p[1] = NEW;
    p[2] = kind;
    p[n + 3] = (uint8_t)(check >> 8);
    p[n + 4] = (uint8_t)check;
}

static wimblorque_answer set_write(const uint64_t *w, size_t words, uint8_t *bytes, size_t length, size_t p) {
    uint64_t refusal = judge_set(w, words);
    if (refusal) {
        return told(refusal, 0);
    }
    size_t n = w[0], size = 7 + RECORD * n;
    if (p > length || length - p < size) {
        return told(WIMBLORQUE_NO_SPACE, 0);
    }
    bytes += p;
    bytes[3] = (uint8_t)(n >> 8);
    bytes[4] = (uint8_t)n;
    frame(bytes, 0x01, 2, crc_start((unsigned)n));
    for (size_t i = 0; i < n; i++) {
        uint8_t *record = bytes + 7 + RECORD * i;
        uint64_t low = w[2 * i + 1], high = w[2 * i + 2];
        put8(record + 3, low);
        put8(record + 11, high);
        frame(record, 0x10, 16, crc_range(low, high));
    }
    return value(size);
}

const library plain_library = {
    .set_range_at = set_range_at,
    .set_member = set_member,
    .set_insert = set_insert,
    .set_remove = set_remove,
    .set_union = set_union,
    .set_intersection = set_intersection,
    .set_difference = set_difference,
    .set_symmetric_difference = set_symmetric_difference,
    .set_complement = set_complement,
    .set_prefix_blocks = set_prefix_blocks,
    .set_audit_blocks = set_audit_blocks,
    .set_first_fit = set_first_fit,
    .set_best_fit = set_best_fit,
    .set_first_fit_aligned = set_first_fit_aligned,
    .set_best_fit_aligned = set_best_fit_aligned,
    .bulletin_apply = bulletin_apply,
    .bulletin_fold = bulletin_fold,
    .map_overlay = map_overlay,
    .set_judge_form = set_judge_form,
    .member = member,
    .set_read = set_read,
    .set_write = set_write,
};
