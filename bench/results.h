/* A results file as the reports see it: read strictly, judged by document 01's counts, and never
 * trusted. Only a run that `has_number` has times that may be shown. */
#ifndef BENCH_RESULTS_H
#define BENCH_RESULTS_H

#include "format.h"

#include <stdint.h>

enum { MOST_CASES = 100, MOST_TEXT = 120, MOST_NAME = 24, MOST_WORDS = 200 };

/* What a file says of itself, one fact a line, in this order. */
enum {
    VERSION, RELEASE, COMMIT, COMMITTED, TREE, BENCH, YARDSTICK, KIT, DATE, PROCESSOR,
    GCC, CLANG, MODE, SEED, LIMIT, FACTS
};

struct run {
    int present, status, has_number;
    uint64_t refusal, points, additions, found;
    unsigned counts;              /* how many of the three were given */
    unsigned rounds;              /* times that were given */
    double time[MOST_ROUNDS];     /* nanoseconds a point, a round each */
    char verdict[MOST_WORDS];     /* how it ended, in words */
};

struct bench_case {
    char name[MOST_TEXT], detail[MOST_TEXT];
    int job;
    unsigned base, degree, n, m, rounds;
    uint64_t asked; /* points */
    struct run run[ENGINES];
};

struct results {
    char fact[FACTS][MOST_TEXT];
    char fault[MOST_WORDS]; /* why the file cannot be read; empty: it can */
    struct bench_case *cases;
    unsigned case_count;
};

/* Reads and judges a file. A fault is told in `fault`; what was read before it is of no use. */
void read_results(const char *path, struct results *results);

int same_case(const struct bench_case *a, const struct bench_case *b);

/* The checksum of the yardstick of a degree, 12 digits; empty: the file has none. */
const char *yardstick_of(const struct results *results, unsigned degree);
enum { SUM_DIGITS = 12 };

/* "whole walk, n = 14, m = 2, many zeros", short enough for a line. */
void case_title(const struct bench_case *c, char title[MOST_WORDS]);

/* Least, quartiles and median of a run's times. */
struct spread { double least, lower, median, upper; };
struct spread spread_of(const struct run *r);

/* A run's time against the plain walk's of the same rounds; both have numbers. The rounds are cut
 * into GROUPS, as they came, each round its own group where there are fewer. A group's ratio is the
 * run's least time in it by the plain walk's least time in it. */
enum { GROUPS = 5 };
struct ratio { double low, middle, high; unsigned groups; };
struct ratio ratio_to_plain(const struct bench_case *c, const struct run *r);

#endif
