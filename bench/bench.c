/* Times every measured call of the proved library beside the plain C and Boost.ICL, in turn in one process, and writes a table to
   standard output and every time to a file. */
#include <stdio.h>
#include <stdlib.h>
#include <string.h>
#include <time.h>

#include "bench.h"

enum { PROVED, PLAIN, ICL, CONTENDERS };
enum { SIZES = 4, ROUNDS = 41, MEASURES = 25 };

/* The inputs of a size are as many as make about 16,000 ranges. The contenders go through all of them in each round, so that no
   branch predictor learns one small input by heart. */
static const size_t sizes[SIZES] = {10, 100, 1000, 4000};
static const size_t inputs_of[SIZES] = {1600, 160, 16, 4};
static const char *const shapes[SHAPES] = {"random", "regular"};

/* Nanoseconds per call: the least and the median of the rounds. */
typedef struct timing {
    double least, median;
} timing;

static timing timings[SHAPES][SIZES][MEASURES][CONTENDERS];

static double now(void) {
    struct timespec t;
    clock_gettime(CLOCK_MONOTONIC, &t);
    return (double)t.tv_sec * 1e9 + (double)t.tv_nsec;
}

/* Brings back what a call changes in place, and drops Boost.ICL's old results. Not timed. */
static void restore(const measure *m, job *jobs, size_t count, int who) {
    for (size_t i = 0; i < count; i++) {
        if (who == ICL) {
            icl_prepare(jobs[i].icl, m->in_place);
        } else if (m->in_place) {
            memcpy(jobs[i].out.words, jobs[i].one.words, jobs[i].one.length * sizeof(uint64_t));
        }
    }
}

/* The time of one call on each of the jobs, for one call. */
static double time_once(const measure *m, job *jobs, size_t count, int who) {
    uint64_t refused = 0;
    restore(m, jobs, count, who);
    double begin = now();
    if (who == ICL) {
        for (size_t i = 0; i < count; i++) {
            m->icl(jobs[i].icl);
        }
    } else {
        const library *lib = who == PROVED ? &proved_library : &plain_library;
        for (size_t i = 0; i < count; i++) {
            refused |= m->call(lib, &jobs[i]).status;
        }
    }
    double end = now();
    if (refused) {
        fprintf(stderr, "bench: %s: a timed call was refused\n", m->name);
        exit(1);
    }
    return (end - begin) / (double)count;
}

static int by_size(const void *a, const void *b) {
    double x = *(const double *)a, y = *(const double *)b;
    return (x > y) - (x < y);
}

/* The times of one measure, of one size and contender, in every round. */
static double rounds[SIZES][CONTENDERS][ROUNDS];

/* Times one measure: in each round every size, and for each size the contenders in turn, forwards and backwards by turns, so that
   none always finds the caches as another one left them, and a slow while of the machine is one for all sizes. */
static void time_measure(const measure *m, job *const *jobs, timing (*result)[MEASURES][CONTENDERS], size_t index) {
    for (int r = 0; r < ROUNDS; r++) {
        for (int s = 0; s < SIZES; s++) {
            for (int k = 0; k < CONTENDERS; k++) {
                int who = r % 2 == 0 ? k : CONTENDERS - 1 - k;
                rounds[s][who][r] = who == ICL && !m->icl ? 0 : time_once(m, jobs[s], inputs_of[s], who);
            }
        }
    }
    for (int s = 0; s < SIZES; s++) {
        for (int who = 0; who < CONTENDERS; who++) {
            qsort(rounds[s][who], ROUNDS, sizeof(double), by_size);
            result[s][index][who] = (timing){rounds[s][who][0], rounds[s][who][ROUNDS / 2]};
        }
    }
}

/* The inputs of a size and shape, which every contender was given once and answered alike. */
static job *checked_jobs(int shape, int size) {
    size_t count = inputs_of[size];
    job *jobs = malloc(count * sizeof *jobs);
    if (!jobs) {
        fputs("bench: no memory\n", stderr);
        exit(1);
    }
    for (size_t i = 0; i < count; i++) {
        jobs[i] = make_job(sizes[size], shape, ((double)i + 0.5) / (double)count);
        check_job(&jobs[i]);
    }
    check_damaged(&jobs[0]);
    return jobs;
}

/* Times every measure on inputs of a shape. */
static void time_shape(int shape) {
    job *jobs[SIZES];
    for (int s = 0; s < SIZES; s++) {
        jobs[s] = checked_jobs(shape, s);
    }
    for (size_t i = 0; i < measure_count; i++) {
        time_measure(&measures[i], jobs, timings[shape], i);
    }
    for (int s = 0; s < SIZES; s++) {
        for (size_t i = 0; i < inputs_of[s]; i++) {
            free_job(&jobs[s][i]);
        }
        free(jobs[s]);
    }
}

/* A time with its unit, in three places. */
static void print_time(double ns) {
    if (ns == 0) {
        printf("%12s", "-");
    } else if (ns < 1000) {
        printf("%9.1f ns", ns);
    } else {
        printf("%9.2f us", ns / 1000);
    }
}

static void print_ratio(double over, double under, int wide) {
    if (over == 0 || under == 0) {
        printf("%*s", wide, "-");
    } else {
        printf("%*.2f", wide, over / under);
    }
}

/* The rows of a measure; in the last, how the proved library's time grows from the size before. */
static void print_measure(int shape, size_t m) {
    bool maps = strcmp(measures[m].name, "overlay") == 0;
    for (int s = 0; s < SIZES; s++) {
        const timing *t = timings[shape][s][m];
        printf("%-28s%7zu", s == 0 ? measures[m].name : "", maps ? entries_for(sizes[s]) : sizes[s]);
        print_time(t[PROVED].least);
        print_time(t[PLAIN].least);
        print_time(t[ICL].least);
        print_ratio(t[PROVED].least, t[PLAIN].least, 14);
        print_ratio(t[ICL].least, t[PROVED].least, 12);
        print_ratio(s + 1 == SIZES ? t[PROVED].least : 0, timings[shape][s - (s > 0)][m][PROVED].least, 8);
        printf("\n");
    }
}

/* Every time, one line for a call and contender's two numbers. */
static void write_file(const char *path) {
    FILE *f = fopen(path, "w");
    if (!f) {
        perror(path);
        exit(1);
    }
    fprintf(f, "shape,measure,bulk,ranges,proved,plain,icl,proved_median,plain_median,icl_median\n");
    for (int shape = 0; shape < SHAPES; shape++) {
        for (size_t m = 0; m < measure_count; m++) {
            for (int s = 0; s < SIZES; s++) {
                const timing *t = timings[shape][s][m];
                size_t n = strcmp(measures[m].name, "overlay") == 0 ? entries_for(sizes[s]) : sizes[s];
                fprintf(f, "%s,%s,%d,%zu,%.2f,%.2f,%.2f,%.2f,%.2f,%.2f\n", shapes[shape], measures[m].name, measures[m].bulk, n,
                        t[PROVED].least, t[PLAIN].least, t[ICL].least, t[PROVED].median, t[PLAIN].median, t[ICL].median);
            }
        }
    }
    fclose(f);
}

int main(int argc, char **argv) {
    if (argc != 2) {
        fputs("usage: bench FILE\n", stderr);
        return 2;
    }
    for (int shape = 0; shape < SHAPES; shape++) {
        time_shape(shape);
        printf("%s ranges, time per call, the least of %d rounds\n", shapes[shape], ROUNDS);
        printf("%-28s%7s%12s%12s%12s%14s%12s%8s\n", "", "ranges", "proved", "plain C", "Boost.ICL", "proved/plain", "ICL/proved",
               "growth");
        for (size_t m = 0; m < measure_count; m++) {
            print_measure(shape, m);
        }
        printf("\n");
        fflush(stdout);
    }
    write_file(argv[1]);
    return 0;
}
