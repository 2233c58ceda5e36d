/* Counts that a finished whole walk must have, by document 01 and tickets C-12, C-21 and C-22. */
#ifndef BENCH_RULE_H
#define BENCH_RULE_H

#include <stdint.h>

/* base^n */
static inline uint64_t points_of_walk(unsigned base, unsigned n) {
    uint64_t points = 1;
    while (n-- > 0)
        points *= base;
    return points;
}

/* Additions of a whole walk of degree 2 or 3: one for each position of a place, up to the degree. */
static inline uint64_t additions_of_walk(unsigned base, unsigned degree, unsigned n) {
    uint64_t moves = points_of_walk(base, n) - 1;
    if (degree == 2) return 2 * moves - n;
    return 3 * moves - 2 * n - n * (n + 1) / 2;
}

/* C-22, the theorem of Chevalley and Warning: with degree times m below n, the number of common
 * zeros is divisible by the base. Whether a finished whole walk that found so many breaks this. */
static inline int breaks_rule(unsigned base, unsigned degree, unsigned n, unsigned m, uint64_t found) {
    return degree * m < n && found % base != 0;
}

#endif
