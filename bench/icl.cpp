// Boost.ICL's side: interval sets and maps of closed intervals, built beforehand, and the measured operations on them.
#include <boost/icl/closed_interval.hpp>
#include <boost/icl/interval_map.hpp>
#include <boost/icl/interval_set.hpp>

#include "bench.h"

namespace icl = boost::icl;
using range = icl::closed_interval<uint64_t>;
using range_set = icl::interval_set<uint64_t, std::less, range>;
// A value of 0 is a value here: the map keeps it.
using range_map =
    icl::interval_map<uint64_t, uint64_t, icl::partial_enricher, std::less, icl::inplace_plus, icl::inter_section, range>;

struct icl_job {
    range_set one, two, version, released1, withdrawn1, released2, withdrawn2, all;
    range_map upper, lower;
    range inserted, removed;
    uint64_t x;
    // results
    range_set out, out2;
    range_map merged;
    uint64_t found;
};

static range_set set_of(block b) {
    range_set set;
    for (size_t i = 0; i < b.words[0]; i++) {
        set.insert(set.end(), range(b.words[2 * i + 1], b.words[2 * i + 2]));
    }
    return set;
}

static range_map map_of(block b) {
    range_map map;
    for (size_t i = 0; i < b.words[0]; i++) {
        map.set({range(b.words[3 * i + 1], b.words[3 * i + 2]), b.words[3 * i + 3]});
    }
    return map;
}

icl_job *icl_make(const job *t) {
    auto *j = new icl_job;
    j->one = set_of(t->one);
    j->two = set_of(t->two);
    j->version = set_of(t->version);
    j->released1 = set_of(t->released1);
    j->withdrawn1 = set_of(t->withdrawn1);
    j->released2 = set_of(t->released2);
    j->withdrawn2 = set_of(t->withdrawn2);
    j->all.insert(range(0, UINT64_MAX));
    j->upper = map_of(t->upper);
    j->lower = map_of(t->lower);
    j->inserted = range(t->insert[0], t->insert[1]);
    j->removed = range(t->removal[0], t->removal[1]);
    j->x = t->x;
    return j;
}

void icl_free(icl_job *j) {
    delete j;
}

void icl_prepare(icl_job *j, bool in_place) {
    j->out.clear();
    j->out2.clear();
    j->merged.clear();
    if (in_place) {
        j->out = j->one;
    }
}

static void words_of(const range_set &set, block b) {
    size_t i = 0;
    for (const range &r : set) {
        if (2 * i + 3 > b.length) {
            break;
        }
        b.words[2 * i + 1] = r.lower();
        b.words[2 * i + 2] = r.upper();
        i++;
    }
    b.words[0] = set.iterative_size();
}

void icl_results(const icl_job *j, block out, block out2, block merged, uint64_t *found) {
    words_of(j->out, out);
    words_of(j->out2, out2);
    size_t i = 0;
    for (const auto &entry : j->merged) {
        if (3 * i + 4 > merged.length) {
            break;
        }
        merged.words[3 * i + 1] = entry.first.lower();
        merged.words[3 * i + 2] = entry.first.upper();
        merged.words[3 * i + 3] = entry.second;
        i++;
    }
    merged.words[0] = j->merged.iterative_size();
    *found = j->found;
}

void icl_member(icl_job *j) {
    j->found = icl::contains(j->one, j->x);
}

void icl_insert(icl_job *j) {
    j->out += j->inserted;
}

void icl_remove(icl_job *j) {
    j->out -= j->removed;
}

void icl_union(icl_job *j) {
    j->out = j->one;
    j->out += j->two;
}

void icl_intersection(icl_job *j) {
    j->out = j->one & j->two;
}

void icl_difference(icl_job *j) {
    j->out = j->one;
    j->out -= j->two;
}

void icl_symmetric_difference(icl_job *j) {
    j->out = j->one;
    j->out ^= j->version;
}

void icl_complement(icl_job *j) {
    j->out = j->all;
    j->out -= j->one;
}

void icl_apply(icl_job *j) {
    j->out = j->one;
    j->out -= j->withdrawn2;
    j->out += j->released2;
}

void icl_fold(icl_job *j) {
    j->out = j->released1;
    j->out -= j->withdrawn2;
    j->out += j->released2;
    j->out2 = j->withdrawn1;
    j->out2 -= j->released2;
    j->out2 += j->withdrawn2;
}

void icl_overlay(icl_job *j) {
    j->merged = j->lower;
    for (const auto &entry : j->upper) {
        j->merged.set(entry);
    }
}
