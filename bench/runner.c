/* Runs the library and the C walks on the same systems, in turn, and writes the cases of a
 * results file (README.md has the format).
 *
 *   runner [--tiny | --quick | --long] [--seed S] [--limit SECONDS] [--rounds R]
 *
 * A run is a child process, so that a crash or a hang is a word in its line and no more. What it
 * reports is held against document 01's counts, against records worked out by the reference and
 * against the plain walk's list, whose entries the reference evaluates. Times are written only
 * if every round ended and agreed: the processor time of each. */
#define _DEFAULT_SOURCE /* mmap with MAP_ANONYMOUS, alarm */
#include "format.h"
#include "../tests/reference/interface.h"
#include "../tests/reference/random.h"
#include "rule.h"
#include "walks.h"

#include <inttypes.h>
#include <signal.h>
#include <stdio.h>
#include <stdlib.h>
#include <string.h>
#include <sys/mman.h>
#include <sys/wait.h>
#include <time.h>
#include <unistd.h>

search_function plain_gcc, unrolled_gcc, plain_clang, unrolled_clang;
search_function plain_cubic_gcc, unrolled_cubic_gcc, plain_cubic_clang, unrolled_cubic_clang;
evaluate_function evaluate_gcc, evaluate_clang, evaluate_cubic_gcc, evaluate_cubic_clang;

/* For each degree, 2 and 3. NULL: not there. */
struct engine { search_function *search; evaluate_function *evaluate; };
static const struct engine engines[ENGINES][2] = {
    [PLAIN] = {{plain_gcc, evaluate_gcc}, {plain_cubic_gcc, evaluate_cubic_gcc}},
    [UNROLLED] = {{unrolled_gcc, NULL}, {unrolled_cubic_gcc, NULL}},
#ifdef HAVE_CLANG
    [PLAIN_CLANG] = {{plain_clang, evaluate_clang}, {plain_cubic_clang, evaluate_cubic_clang}},
    [UNROLLED_CLANG] = {{unrolled_clang, NULL}, {unrolled_cubic_clang, NULL}},
#endif
    [LIBRARY] = {{vayudrit_search, vayudrit_evaluate}, {vayudrit_search, vayudrit_evaluate}},
};
/* A round: the library directly after its yardstick. */
static const unsigned turns[ENGINES] = {PLAIN, LIBRARY, UNROLLED, PLAIN_CLANG, UNROLLED_CLANG};
enum { BASE = 3, MOST_STARTS = 1000, SHORT_LIST = 4096 };

/* ---- rows ---- */

enum mode { TINY = 1, QUICK = 2, USUAL = 4, LONG = 8 };

#define EVALUATE 0     /* the budget of a row of evaluations */
#define ALL UINT64_MAX /* no limit: of the points, or of the list but for the room for zeros */

/* One job for every engine. A walk or calls are done when the last call says "ended". Without
 * starts: one record from place 0, called with this budget and list over and over. With starts: that
 * many records, each called once; the last of them stands before the walk's last place, the others
 * anywhere else but at place 0. Evaluations are at so many points ("starts"), of whose unknowns so
 * many ("list") are not 0. */
static const struct row {
    const char *name;
    unsigned degree, n, m;
    const char *detail;
    uint64_t budget, list;
    unsigned starts, rounds, modes;
} rows[] = {
    {"whole walk", 2, 7, 7, "few zeros", ALL, SHORT_LIST, 0, 2, TINY},
    {"whole walk", 2, 7, 2, "many zeros", ALL, ALL, 0, 2, TINY},
    {"list of one", 2, 7, 3, "many zeros", ALL, 1, 0, 2, TINY},
    {"budget of 100", 2, 7, 7, "few zeros", 100, SHORT_LIST, 0, 2, TINY},
    {"one point a call", 2, 20, 20, "few zeros", 1, SHORT_LIST, 10, 2, TINY},
    {"evaluation", 2, 20, 64, "13 unknowns not 0", EVALUATE, 13, 10, 2, TINY},
    {"whole walk", 3, 7, 7, "few zeros", ALL, SHORT_LIST, 0, 2, TINY},
    {"whole walk", 3, 7, 2, "many zeros", ALL, ALL, 0, 2, TINY},
    {"list of one", 3, 7, 3, "many zeros", ALL, 1, 0, 2, TINY},
    {"budget of 100", 3, 7, 7, "few zeros", 100, SHORT_LIST, 0, 2, TINY},
    {"one point a call", 3, 20, 20, "few zeros", 1, SHORT_LIST, 10, 2, TINY},
    {"evaluation", 3, 20, 64, "13 unknowns not 0", EVALUATE, 13, 10, 2, TINY},

    {"whole walk", 2, 12, 12, "few zeros", ALL, SHORT_LIST, 0, 15, QUICK},
    {"whole walk", 2, 12, 2, "many zeros", ALL, ALL, 0, 15, QUICK},
    {"list of one", 2, 12, 12, "few zeros", ALL, 1, 0, 15, QUICK},
    {"list of one", 2, 8, 3, "many zeros", ALL, 1, 0, 15, QUICK},
    {"budget of 1000", 2, 12, 12, "few zeros", 1000, SHORT_LIST, 0, 15, QUICK},
    {"budget of 1", 2, 8, 8, "few zeros", 1, SHORT_LIST, 0, 15, QUICK},
    {"one point a call", 2, 20, 20, "few zeros", 1, SHORT_LIST, 200, 15, QUICK},
    {"evaluation", 2, 20, 64, "13 unknowns not 0", EVALUATE, 13, 200, 15, QUICK},
    {"whole walk", 3, 12, 12, "few zeros", ALL, SHORT_LIST, 0, 15, QUICK},
    {"whole walk", 3, 12, 2, "many zeros", ALL, ALL, 0, 15, QUICK},
    {"list of one", 3, 8, 3, "many zeros", ALL, 1, 0, 15, QUICK},
    {"budget of 1000", 3, 12, 12, "few zeros", 1000, SHORT_LIST, 0, 15, QUICK},
    {"one point a call", 3, 20, 20, "few zeros", 1, SHORT_LIST, 50, 15, QUICK},
    {"evaluation", 3, 20, 64, "13 unknowns not 0", EVALUATE, 13, 200, 15, QUICK},

    {"whole walk", 2, 14, 14, "few zeros", ALL, SHORT_LIST, 0, 40, USUAL | LONG},
    {"whole walk", 2, 15, 15, "few zeros", ALL, SHORT_LIST, 0, 30, USUAL | LONG},
    {"whole walk", 2, 16, 16, "few zeros", ALL, SHORT_LIST, 0, 20, USUAL | LONG},
    {"whole walk", 2, 17, 17, "few zeros", ALL, SHORT_LIST, 0, 9, USUAL | LONG},
    {"whole walk", 2, 18, 18, "few zeros", ALL, SHORT_LIST, 0, 5, USUAL | LONG},
    {"whole walk", 2, 20, 20, "few zeros", ALL, SHORT_LIST, 0, 3, LONG},
    {"whole walk", 2, 14, 1, "many zeros", ALL, ALL, 0, 30, USUAL | LONG},
    {"whole walk", 2, 14, 2, "many zeros", ALL, ALL, 0, 30, USUAL | LONG},
    {"whole walk", 2, 16, 2, "many zeros", ALL, ALL, 0, 9, USUAL | LONG},
    {"whole walk", 2, 20, 6, "many zeros", ALL, ALL, 0, 3, LONG},
    {"list of one", 2, 16, 16, "few zeros", ALL, 1, 0, 20, USUAL | LONG},
    {"list of one", 2, 10, 3, "many zeros", ALL, 1, 0, 20, USUAL | LONG},
    {"budget of 1000", 2, 14, 14, "few zeros", 1000, SHORT_LIST, 0, 30, USUAL | LONG},
    {"budget of 1", 2, 10, 10, "few zeros", 1, SHORT_LIST, 0, 20, USUAL | LONG},
    {"one point a call", 2, 20, 20, "few zeros", 1, SHORT_LIST, 1000, 30, USUAL | LONG},
    {"evaluation", 2, 20, 64, "20 unknowns not 0", EVALUATE, 20, 1000, 50, USUAL | LONG},
    {"evaluation", 2, 20, 64, "13 unknowns not 0", EVALUATE, 13, 1000, 50, USUAL | LONG},
    {"evaluation", 2, 20, 64, "5 unknowns not 0", EVALUATE, 5, 1000, 50, USUAL | LONG},
    {"evaluation", 2, 20, 64, "0 unknowns not 0", EVALUATE, 0, 1000, 50, USUAL | LONG},

    {"whole walk", 3, 13, 13, "few zeros", ALL, SHORT_LIST, 0, 40, USUAL | LONG},
    {"whole walk", 3, 14, 14, "few zeros", ALL, SHORT_LIST, 0, 30, USUAL | LONG},
    {"whole walk", 3, 15, 15, "few zeros", ALL, SHORT_LIST, 0, 20, USUAL | LONG},
    {"whole walk", 3, 16, 16, "few zeros", ALL, SHORT_LIST, 0, 15, USUAL | LONG},
    {"whole walk", 3, 17, 17, "few zeros", ALL, SHORT_LIST, 0, 7, USUAL | LONG},
    {"whole walk", 3, 18, 18, "few zeros", ALL, SHORT_LIST, 0, 5, USUAL | LONG},
    {"whole walk", 3, 20, 20, "few zeros", ALL, SHORT_LIST, 0, 3, LONG},
    {"whole walk", 3, 14, 1, "many zeros", ALL, ALL, 0, 20, USUAL | LONG},
    {"whole walk", 3, 14, 2, "many zeros", ALL, ALL, 0, 20, USUAL | LONG},
    {"list of one", 3, 15, 15, "few zeros", ALL, 1, 0, 15, USUAL | LONG},
    {"list of one", 3, 10, 3, "many zeros", ALL, 1, 0, 15, USUAL | LONG},
    {"budget of 1000", 3, 14, 14, "few zeros", 1000, SHORT_LIST, 0, 20, USUAL | LONG},
    {"one point a call", 3, 20, 20, "few zeros", 1, SHORT_LIST, 300, 30, USUAL | LONG},
    {"evaluation", 3, 20, 64, "20 unknowns not 0", EVALUATE, 20, 1000, 30, USUAL | LONG},
    {"evaluation", 3, 20, 64, "13 unknowns not 0", EVALUATE, 13, 1000, 30, USUAL | LONG},
    {"evaluation", 3, 20, 64, "5 unknowns not 0", EVALUATE, 5, 1000, 30, USUAL | LONG},
    {"evaluation", 3, 20, 64, "0 unknowns not 0", EVALUATE, 0, 1000, 30, USUAL | LONG},
};

static int job_of(const struct row *row) {
    return row->budget == EVALUATE ? EVALUATIONS : row->starts > 0 ? CALLS : WALKS;
}

/* ---- the system of a row, and what is known of its runs before any ---- */

struct task {
    const struct row *row;
    size_t words;               /* of a table */
    unsigned starts;            /* records, 1 or more */
    uint64_t end;               /* 3^n */
    uint64_t points, additions; /* of a run that does all */
    uint64_t capacity;          /* entries of room for zeros, twice as many as may be expected */
    uint64_t table[2 * MOST_MONOMIALS], coefficients[2 * MOST_MONOMIALS];
    uint64_t at[MOST_STARTS]; /* the points of evaluations */
    uint64_t before[MOST_STARTS][RECORD_WORDS], after[MOST_STARTS][RECORD_WORDS];
    uint64_t found, *list;      /* the plain walk's, later */
};

static void stop_bench(const char *why) {
    fprintf(stderr, "runner: %s\n", why);
    exit(1);
}

/* The random words of a row depend on seed and row alone, whatever other rows there are. */
static void seed_row(const struct row *row, uint64_t seed) {
    random_state = seed;
    for (const char *c = row->name; *c != '\0'; c++)
        random_state = random_word() ^ (unsigned char)*c;
    random_state = random_word() ^ ((row->degree - 2) << 16 | row->n << 8 | row->m);
    if (job_of(row) == EVALUATIONS) random_state += row->list;
}

static void open_at(const struct task *t, uint64_t place, uint64_t *record) {
    const struct row *row = t->row;
    if (reference_open(row->n, row->m, t->table, t->words, place, record, RECORD_WORDS) != 0)
        stop_bench("the reference does not open the record");
}

static void set_coefficients(struct task *t) {
    if (reference_coefficients(t->row->n, t->row->m, t->table, t->words, t->coefficients, t->words) != 0)
        stop_bench("the reference does not turn the table");
}

/* The system at a point, high then low, by the reference. */
static void value_at(const struct task *t, uint64_t point, uint64_t value[2]) {
    if (reference_evaluate(t->row->n, t->row->m, t->coefficients, t->words, point, value, 2) != 0)
        stop_bench("the reference does not evaluate the system");
}

/* A random table of differences, every trit as likely as another: it belongs to one dense
 * system. The constant is then set so that a random point is a zero. */
static void draw_table(struct task *t) {
    uint64_t value[2];
    for (size_t k = 0; k < t->words; k += 2) {
        t->table[k] = t->table[k + 1] = 0;
        for (unsigned e = 0; k > 0 && e < t->row->m; e++) {
            uint64_t trit = random_word() % 3;
            t->table[k] |= (uint64_t)(trit != 0) << e;
            t->table[k + 1] |= (uint64_t)(trit == 2) << e;
        }
    }
    set_coefficients(t);
    value_at(t, random_word() % t->end, value);
    t->table[0] = value[0];
    t->table[1] = value[0] ^ value[1]; /* the negative */
    set_coefficients(t);
}

/* A point with so many unknowns that are not 0. */
static uint64_t draw_point(unsigned n, uint64_t not_zero) {
    uint64_t point = 0;
    for (unsigned left = n; left > 0; left--) {
        uint64_t taken = random_word() % left < not_zero;
        point = 3 * point + taken * (1 + random_word() % 2);
        not_zero -= taken;
    }
    return point;
}

/* Evaluations: the values by the reference are what the runs are held against. */
static void set_evaluations(struct task *t) {
    uint64_t value[2];
    t->points = t->starts = t->row->starts;
    t->additions = t->found = 0;
    t->capacity = 2 * t->points;
    t->list = malloc(8 * t->capacity);
    if (t->list == NULL) stop_bench("no memory");
    for (unsigned s = 0; s < t->starts; s++) {
        t->at[s] = draw_point(t->row->n, t->row->list);
        value_at(t, t->at[s], value);
        memcpy(t->list + 2 * s, value, sizeof value);
        t->found += value[0] == 0;
    }
}

static void set_walk(struct task *t) {
    const struct row *row = t->row;
    t->starts = row->starts > 0 ? row->starts : 1;
    t->points = row->starts > 0 ? row->starts : t->end;
    t->additions = row->starts > 0 ? 0 : additions_of_walk(BASE, row->degree, row->n);
    t->capacity = SHORT_LIST + (row->n > row->m ? 2 * power_of_three(row->n - row->m) : 0);
    t->list = NULL;
    open_at(t, 0, t->before[0]);
    open_at(t, t->end, t->after[0]);
    for (unsigned s = 0; s < row->starts; s++) {
        uint64_t place = s + 1 < row->starts ? 1 + random_word() % (t->end - 2) : t->end - 1;
        open_at(t, place, t->before[s]);
        open_at(t, place + 1, t->after[s]);
        t->additions += cost_of(place, row->degree);
    }
}

static void set_task(struct task *t, const struct row *row) {
    t->row = row;
    t->words = 2 * monomials(row->n, row->degree);
    t->end = power_of_three(row->n);
    draw_table(t);
    if (job_of(row) == EVALUATIONS) set_evaluations(t);
    else set_walk(t);
}

/* ---- one run, in a child ---- */

/* What a run reports, shared with its child. It has crashed unless it says otherwise. */
struct report {
    int status;
    uint64_t refusal, points, additions, found;
    double ns;
    uint64_t record[MOST_STARTS][RECORD_WORDS];
    uint64_t list[];
};

static const uint64_t untouched = 0xa5a5a5a5a5a5a5a5;

/* One call. Gives the stop if the call has moved on as its own counts say, and one of the other
 * words if not. Bytes are words here, lowest byte first. */
static int call(const struct task *t, search_function *search, uint64_t *record, struct report *r,
                uint64_t length) {
    const struct row *row = t->row;
    uint64_t answer[ANSWER_WORDS], from = record[RECORD_PLACE];
    r->refusal = search(row->n, row->m, (const uint8_t *)t->table, 8 * t->words,
                        (uint8_t *)record, 8 * RECORD_WORDS, row->budget,
                        (uint8_t *)(r->list + r->found), 8 * length, (uint8_t *)answer, 40);
    if (r->refusal != 0) return RUN_REFUSED;
    r->points += answer[ANSWER_POINTS];
    r->additions += answer[ANSWER_ADDITIONS];
    if (answer[ANSWER_FOUND] > length || answer[ANSWER_PLACE] != record[RECORD_PLACE]
        || answer[ANSWER_PLACE] != from + answer[ANSWER_POINTS] || answer[ANSWER_STOP] > SPENT
        || (answer[ANSWER_STOP] == ENDED) != (answer[ANSWER_PLACE] == t->end))
        return RUN_MISCOUNTED;
    r->found += answer[ANSWER_FOUND];
    return (int)answer[ANSWER_STOP];
}

/* Whether a whole walk goes on after a call that stopped so: only where the row's budget or list
 * was really used up, and the room for zeros is not. */
static int goes_on(const struct task *t, const struct report *r, int stop, uint64_t points,
                   uint64_t found) {
    const struct row *row = t->row;
    if (r->found == t->capacity) return 0;
    return (stop == FULL && found == row->list) || (stop == SPENT && points == row->budget);
}

/* Evaluates at all points; the values go where a walk has its list. */
static int evaluate(const struct task *t, evaluate_function *evaluate, struct report *r) {
    for (unsigned s = 0; s < t->starts; s++) {
        uint64_t *value = r->list + 2 * s;
        r->refusal = evaluate(t->row->n, t->row->m, t->coefficients, t->words, t->at[s], value, 2);
        if (r->refusal != 0) return RUN_REFUSED;
        r->points++;
        r->found += value[0] == 0;
    }
    return RUN_ENDED;
}

/* A whole run; the word for how it ended. */
static int walk(const struct task *t, search_function *search, struct report *r) {
    int status = ENDED;
    for (unsigned s = 0; s < t->starts; s++) {
        uint64_t points, found, room;
        do {
            points = r->points, found = r->found, room = t->capacity - found;
            status = call(t, search, r->record[s], r, room < t->row->list ? room : t->row->list);
        } while (t->row->starts == 0
                 && goes_on(t, r, status, r->points - points, r->found - found));
        if (s + 1 < t->starts && status != SPENT) break;
    }
    return status;
}

/* One point on copies, so that the engine's code is in memory before the clock starts. */
static void warm_up(const struct task *t, const struct engine *engine) {
    const struct row *row = t->row;
    uint64_t record[RECORD_WORDS], list[2], answer[ANSWER_WORDS];
    if (job_of(row) == EVALUATIONS) {
        engine->evaluate(row->n, row->m, t->coefficients, t->words, t->at[0], list, 2);
        return;
    }
    memcpy(record, t->before[0], sizeof record);
    engine->search(row->n, row->m, (const uint8_t *)t->table, 8 * t->words, (uint8_t *)record,
                   sizeof record, 1, (uint8_t *)list, sizeof list, (uint8_t *)answer, sizeof answer);
}

static double now(void) {
    struct timespec t;
    clock_gettime(CLOCK_PROCESS_CPUTIME_ID, &t);
    return 1e9 * (double)t.tv_sec + (double)t.tv_nsec;
}

static void run(const struct task *t, const struct engine *engine, struct report *r, unsigned limit) {
    pid_t child;
    int end;
    memset(r, 0, sizeof *r);
    r->status = RUN_CRASHED;
    fflush(NULL);
    if ((child = fork()) == 0) {
        double start;
        int status;
        alarm(limit);
        if (job_of(t->row) != EVALUATIONS) memcpy(r->record, t->before, t->starts * sizeof *r->record);
        for (uint64_t k = 0; k < t->capacity; k++) /* also brings the pages in before the clock */
            r->list[k] = untouched;
        warm_up(t, engine);
        start = now();
        status = job_of(t->row) == EVALUATIONS ? evaluate(t, engine->evaluate, r) : walk(t, engine->search, r);
        r->ns = now() - start;
        r->status = status;
        _exit(0);
    }
    if (child < 0 || waitpid(child, &end, 0) != child) stop_bench("no child process");
    if (WIFSIGNALED(end)) r->status = WTERMSIG(end) == SIGALRM ? RUN_TIMED_OUT : RUN_CRASHED;
}

/* ---- judging ---- */

/* Whether a run made its points and additions, left the records that the reference has, and
 * nothing behind its zeros. */
static int counts_agree(const struct task *t, const struct report *r) {
    if (r->points != t->points || r->additions != t->additions || r->found > t->capacity) return 0;
    for (uint64_t k = r->found; k < t->capacity; k++)
        if (r->list[k] != untouched) return 0;
    return memcmp(r->record, t->after, t->starts * sizeof *t->after) == 0;
}

static int agrees(const struct task *t, const struct report *r) {
    if (job_of(t->row) == EVALUATIONS)
        return r->points == t->points && r->additions == 0 && r->found == t->found
               && memcmp(r->list, t->list, 8 * t->capacity) == 0;
    return counts_agree(t, r) && r->found == t->found
           && memcmp(r->list, t->list, r->found * sizeof *t->list) == 0;
}

/* Takes the plain walk's list as the row's: no entry is wrong, as far as some thousand of them
 * tell, and in a whole walk they come in the order of places. */
static void take_yardstick(struct task *t, const struct report *r) {
    uint64_t value[2], place, last = 0;
    if (r->status != ENDED || !counts_agree(t, r)) stop_bench("the plain walk fails: no yardstick");
    for (uint64_t k = 0; k < r->found; k += 1 + r->found / 2000) {
        value_at(t, r->list[k], value);
        reference_place(t->row->n, r->list[k], &place, 1);
        if (value[0] != 0 || (t->row->starts == 0 && k > 0 && place <= last))
            stop_bench("the plain walk lists what is no zero: no yardstick");
        last = place;
    }
    t->found = r->found;
    t->list = malloc(8 * r->found + 8);
    if (t->list == NULL) stop_bench("no memory");
    memcpy(t->list, r->list, 8 * r->found);
}

/* ---- rows and lines ---- */

/* The runs of an engine over its rounds: their times, or the first that went wrong. */
struct result { int status; uint64_t refusal, points, additions, found; double ns[MOST_ROUNDS]; };

static void run_round(const struct task *t, const struct engine *engine, struct report *r,
                      struct result *result, unsigned round, unsigned limit) {
    if (result->status != RUN_ENDED) return;
    run(t, engine, r, limit);
    if (r->status == RUN_ENDED && !agrees(t, r)) r->status = RUN_MISCOUNTED;
    result->status = r->status;
    result->refusal = r->refusal;
    result->points = r->points, result->additions = r->additions, result->found = r->found;
    result->ns[round] = r->ns;
}

/* A refused run has no counts, nor has one that did not come back. */
static void print_result(const char *engine, const struct result *result, unsigned rounds) {
    printf("run\t%s\t%s", engine, status_words[result->status]);
    if (result->status == RUN_REFUSED) printf(" %" PRIu64, result->refusal);
    putchar('\n');
    if (result->status <= RUN_SPENT || result->status == RUN_MISCOUNTED)
        printf("points\t%" PRIu64 "\nadditions\t%" PRIu64 "\nfound\t%" PRIu64 "\n", result->points,
               result->additions, result->found);
    if (result->status != RUN_ENDED) return;
    fputs("times", stdout);
    for (unsigned k = 0; k < rounds; k++)
        printf("\t%.4f", result->ns[k] / (double)result->points);
    putchar('\n');
}

static const struct engine *engine_of(unsigned k, const struct row *row) { return &engines[k][row->degree - 2]; }

static int has_job(unsigned k, const struct row *row) {
    const struct engine *engine = engine_of(k, row);
    return job_of(row) == EVALUATIONS ? engine->evaluate != NULL : engine->search != NULL;
}

static void print_row(const struct task *t, const struct result *results, unsigned rounds) {
    const struct row *row = t->row;
    printf("case\t%s\t%s\t%d\t%u\t%u\t%u\t%s\t%" PRIu64 "\t%u\n", row->name,
           job_names[job_of(row)], BASE, row->degree, row->n, row->m, row->detail,
           t->points, rounds);
    for (unsigned k = 0; k < ENGINES; k++)
        if (has_job(k, row)) print_result(engine_names[k], &results[k], rounds);
    if (fflush(stdout) != 0) stop_bench("the results cannot be written");
}

struct options { unsigned mode, limit, rounds; uint64_t seed; };

static void run_row(const struct row *row, const struct options *o) {
    static struct task t;
    static struct result results[ENGINES];
    unsigned rounds = o->rounds > 0 ? o->rounds : row->rounds;
    struct report *r;
    size_t size;
    memset(results, 0, sizeof results);
    seed_row(row, o->seed);
    set_task(&t, row);
    size = sizeof *r + 8 * t.capacity;
    r = mmap(NULL, size, PROT_READ | PROT_WRITE, MAP_SHARED | MAP_ANONYMOUS, -1, 0);
    if (r == MAP_FAILED) stop_bench("no memory");
    if (job_of(row) != EVALUATIONS) {
        run(&t, engine_of(PLAIN, row), r, o->limit);
        take_yardstick(&t, r);
    }
    for (unsigned k = 0; k < rounds * ENGINES; k++) {
        unsigned engine = turns[k % ENGINES];
        if (has_job(engine, row))
            run_round(&t, engine_of(engine, row), r, &results[engine], k / ENGINES, o->limit);
    }
    print_row(&t, results, rounds);
    free(t.list);
    munmap(r, size);
}

static uint64_t number_of(const char *text, uint64_t least, uint64_t most) {
    size_t digits = text != NULL ? strspn(text, "0123456789") : 0;
    uint64_t number = digits > 0 && digits < 19 ? strtoull(text, NULL, 10) : UINT64_MAX;
    if (digits == 0 || text[digits] != '\0' || number < least || number > most)
        stop_bench("an option lacks its number: --seed 0 to 10^18 - 1, --limit 1 to 86400, --rounds 1 to 200");
    return number;
}

static struct options read_options(int count, char **given) {
    struct options o = {USUAL, 600, 0, 0};
    for (int k = 1; k < count; k++) {
        if (strcmp(given[k], "--tiny") == 0) o.mode = TINY;
        else if (strcmp(given[k], "--quick") == 0) o.mode = QUICK;
        else if (strcmp(given[k], "--long") == 0) o.mode = LONG;
        else if (strcmp(given[k], "--seed") == 0) o.seed = number_of(given[++k], 0, UINT64_MAX - 1);
        else if (strcmp(given[k], "--limit") == 0) o.limit = (unsigned)number_of(given[++k], 1, 86400);
        else if (strcmp(given[k], "--rounds") == 0)
            o.rounds = (unsigned)number_of(given[++k], 1, MOST_ROUNDS);
        else
            stop_bench("usage: runner [--tiny | --quick | --long] [--seed S] [--limit SECONDS] [--rounds R]");
    }
    return o;
}

int main(int count, char **given) {
    struct options o = read_options(count, given);
    unsigned done = 0;
    for (const struct row *row = rows; row < rows + sizeof rows / sizeof *rows; row++) {
        if ((row->modes & o.mode) == 0) continue;
        fprintf(stderr, "%s, n = %u, m = %u, degree %u\n", row->name, row->n, row->m, row->degree);
        run_row(row, &o);
        done++;
    }
    printf("end\t%u\n", done);
    if (fflush(stdout) != 0 || fclose(stdout) != 0) stop_bench("the results cannot be written");
    return 0;
}
