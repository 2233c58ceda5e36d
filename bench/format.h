/* Words of a results file, for the runner that writes it and the reports that read it. README.md
 * beside this file describes the whole format. */
#ifndef BENCH_FORMAT_H
#define BENCH_FORMAT_H

#define RESULTS_TITLE "vayudrit-bench"
#define RESULTS_VERSION "3"
#define RESULTS_EARLIER "2" /* read, too: degree 2 alone, and its yardstick alone */

enum { MOST_ROUNDS = 200 };

/* Engines, in the order of their lines in a case. PLAIN is the yardstick. */
enum { PLAIN, UNROLLED, PLAIN_CLANG, UNROLLED_CLANG, LIBRARY, ENGINES };
static const char *const engine_names[ENGINES] = {"plain gcc", "unrolled gcc", "plain clang",
                                                  "unrolled clang", "vayudrit"};

/* What a case asks for: a walk of all points from place 0 by as many calls as it takes, calls of
 * one point each from places above 0, or evaluations at points. */
enum { WALKS, CALLS, EVALUATIONS, JOBS };
static const char *const job_names[JOBS] = {"walk", "calls", "evaluations"};

/* How a run ended. The first three are document 01's stops, in its order. */
enum { RUN_ENDED, RUN_FULL, RUN_SPENT, RUN_REFUSED, RUN_MISCOUNTED, RUN_CRASHED, RUN_TIMED_OUT, STATUSES };
static const char *const status_words[STATUSES] = {"ended", "full", "spent", "refused", "miscounted",
                                                   "crashed", "timed out"};

#endif
