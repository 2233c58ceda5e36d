/* The releases that are compared: gathered, marked, put in order and judged. */
#ifndef BENCH_RELEASES_H
#define BENCH_RELEASES_H

#include "results.h"

enum { MOST_RELEASES = 12, MOST_MARKS = 40, MOST_MARK = 2 * MOST_WORDS };

struct release {
    const char *path;
    struct results results;
    int faulty, lacking; /* marked, and why: no number is shown; or cases are missing */
    unsigned mark_count;
    char mark[MOST_MARKS][MOST_MARK];
};
extern struct release *releases[MOST_RELEASES]; /* in the order shown: that of their commits, marked ones last */
extern unsigned release_count, good_count;      /* the good ones have no mark */

/* All cases that any file has, each with the releases' own where they have it. */
struct row { const struct bench_case *any, *of[MOST_RELEASES]; };
extern struct row rows[MOST_RELEASES * MOST_CASES];
extern unsigned row_count;

/* Reads all files; ends the program where there is nothing to compare. */
void read_releases(int count, char **paths);
void stop_comparing(const char *format, ...);

int is_marked(const struct release *r);
const char *name_of(const struct release *r);
char letter(unsigned k);

/* Whether a release's number of a case may be shown, and the number. The good ones have all but those of a degree that came
 * after them. */
int has_ratio(const struct row *row, unsigned k);
struct ratio ratio_at(const struct row *row, unsigned k);

/* The good release before a good one that has a number of the case too, or -1; and the two compared, in words. */
int good_before(const struct row *row, unsigned k);
const char *judged(const struct row *row, unsigned k);

/* Best: none of the good ones is faster, and one is slower. */
int is_best(const struct row *row, unsigned k);

/* What a case's line says in place of a number. */
const char *words_at(const struct row *row, unsigned k);

/* The summary's lines, of the last good release against the first and the one before; how many. */
unsigned summarise(char lines[2][MOST_MARK]);

extern const double least_difference; /* smaller ones come from where code lies in memory */

#endif
