/* Gathering, marking, ordering and judging of releases. */
#include "releases.h"

#include <math.h>
#include <stdarg.h>
#include <stdio.h>
#include <stdlib.h>
#include <string.h>

enum { LEAST_GROUPS = 3 };

const double least_difference = 0.03;

static struct release store[MOST_RELEASES];
struct release *releases[MOST_RELEASES];
unsigned release_count, good_count;
struct row rows[MOST_RELEASES * MOST_CASES];
unsigned row_count;

int is_marked(const struct release *r) { return r->faulty || r->lacking; }
char letter(unsigned k) { return (char)('A' + k); }

/* The name, or the file's where that is not known. */
const char *name_of(const struct release *r) {
    const char *slash = strrchr(r->path, '/');
    return r->results.fact[RELEASE][0] != '\0' ? r->results.fact[RELEASE] : slash != NULL ? slash + 1 : r->path;
}

static void mark(struct release *r, const char *format, ...) {
    va_list given;
    if (r->mark_count == MOST_MARKS) return;
    va_start(given, format);
    vsnprintf(r->mark[r->mark_count++], MOST_MARK, format, given);
    va_end(given);
}

void stop_comparing(const char *format, ...) {
    va_list given;
    fputs("bench/compare: ", stderr);
    va_start(given, format);
    vfprintf(stderr, format, given);
    va_end(given);
    fputc('\n', stderr);
    exit(1);
}

/* ---- gathering ---- */

static void gather_cases(void) {
    for (unsigned k = 0; k < release_count; k++) {
        const struct results *results = &releases[k]->results;
        for (unsigned c = 0; results->fault[0] == '\0' && c < results->case_count; c++) {
            unsigned row = 0;
            while (row < row_count && !same_case(rows[row].any, &results->cases[c]))
                row++;
            if (row == row_count) rows[row_count++].any = &results->cases[c];
        }
    }
}

/* Finds each release's own of each case, once the order of the releases is known. */
static void find_cases(void) {
    for (struct row *row = rows; row < rows + row_count; row++)
        for (unsigned k = 0; k < release_count; k++) {
            const struct results *results = &releases[k]->results;
            row->of[k] = NULL;
            for (unsigned c = 0; results->fault[0] == '\0' && c < results->case_count; c++)
                if (same_case(row->any, &results->cases[c])) row->of[k] = &results->cases[c];
        }
}

/* ---- marks ---- */

static void mark_runs(struct release *r, const struct bench_case *c) {
    char title[MOST_WORDS];
    case_title(c, title);
    for (int k = ENGINES - 1; k >= 0; k--) { /* the library first */
        int required = k == PLAIN || k == LIBRARY;
        if (c->run[k].has_number || (!required && !c->run[k].present)) continue;
        r->faulty = 1;
        if (k == LIBRARY) mark(r, "%s: %s", title, c->run[k].present ? c->run[k].verdict : "no run of the library");
        else mark(r, "%s: %s: %s", title, engine_names[k], c->run[k].verdict);
    }
}

/* Whether a file has cases of the same base and degree as this one. */
static int has_kind(const struct release *r, const struct bench_case *c) {
    const struct results *results = &r->results;
    for (unsigned k = 0; results->fault[0] == '\0' && k < results->case_count; k++)
        if (results->cases[k].base == c->base && results->cases[k].degree == c->degree) return 1;
    return 0;
}

/* Whether a case is of a degree that came after this release: it has no case of it, and those that have are later. */
static int came_after(const struct row *row, unsigned k) {
    const char *committed = releases[k]->results.fact[COMMITTED];
    if (has_kind(releases[k], row->any)) return 0;
    for (unsigned other = 0; other < release_count; other++)
        if (has_kind(releases[other], row->any) && strcmp(committed, releases[other]->results.fact[COMMITTED]) >= 0)
            return 0;
    return 1;
}

static void mark_release(unsigned k) {
    struct release *r = releases[k];
    if (r->results.fault[0] != '\0') {
        mark(r, "%s", r->results.fault);
        r->faulty = 1;
        return;
    }
    if (strcmp(r->results.fact[COMMIT], "unknown") == 0 || strcmp(r->results.fact[COMMITTED], "unknown") == 0) {
        mark(r, "the file does not say which commit it comes from");
        r->faulty = 1;
    }
    for (const struct row *row = rows; row < rows + row_count; row++)
        if (row->of[k] != NULL) mark_runs(r, row->of[k]);
    for (const struct row *row = rows; row < rows + row_count; row++) {
        char title[MOST_WORDS];
        if (row->of[k] != NULL || came_after(row, k)) continue;
        case_title(row->any, title);
        mark(r, "lacks the case %s", title);
        r->lacking = 1;
    }
}

static int has_yardstick(const struct release *r, unsigned degree) {
    return r->results.fault[0] == '\0' && yardstick_of(&r->results, degree)[0] != '\0';
}

/* A ratio means something beside another only if both are to the same plain walk: the newest's. */
static void mark_yardsticks(unsigned degree) {
    const struct release *newest = NULL;
    for (unsigned k = 0; k < release_count; k++)
        if (has_yardstick(releases[k], degree)) newest = releases[k];
    for (unsigned k = 0; newest != NULL && k < release_count; k++) {
        struct release *r = releases[k];
        if (!has_yardstick(r, degree)) continue;
        if (strncmp(yardstick_of(&r->results, degree), yardstick_of(&newest->results, degree), SUM_DIGITS) == 0) continue;
        mark(r, "measured against another plain walk%s than release %s: measure it again",
             degree == 3 ? " of degree 3" : "", name_of(newest));
        r->faulty = 1;
    }
}

/* With the same seed a case is the same system: both have the same counts, or one is wrong and
 * nothing says which. */
static void mark_disagreement(unsigned a, unsigned b) {
    if (strcmp(releases[a]->results.fact[SEED], releases[b]->results.fact[SEED]) != 0) return;
    for (const struct row *row = rows; row < rows + row_count; row++) {
        char title[MOST_WORDS];
        const struct run *of_a = row->of[a] != NULL ? &row->of[a]->run[LIBRARY] : NULL;
        const struct run *of_b = row->of[b] != NULL ? &row->of[b]->run[LIBRARY] : NULL;
        if (of_a == NULL || of_b == NULL || !of_a->has_number || !of_b->has_number) continue;
        if (of_a->found == of_b->found && of_a->additions == of_b->additions) continue;
        case_title(row->any, title);
        for (unsigned k = 0; k < 2; k++) {
            struct release *r = releases[k == 0 ? a : b];
            mark(r, "%s: other counts than release %s on the same system", title, name_of(releases[k == 0 ? b : a]));
            r->faulty = 1;
        }
    }
}

/* ---- order ---- */

/* By commit, then by measurement; files that cannot be read come last. */
static int compare_moments(const void *a, const void *b) {
    const struct release *x = *(struct release *const *)a, *y = *(struct release *const *)b;
    int bad_x = x->results.fault[0] != '\0', bad_y = y->results.fault[0] != '\0';
    int order = bad_x - bad_y;
    if (order == 0) order = strcmp(x->results.fact[COMMITTED], y->results.fact[COMMITTED]);
    if (order == 0) order = strcmp(x->results.fact[DATE], y->results.fact[DATE]);
    return order != 0 ? order : strcmp(x->path, y->path);
}

static void move_marked_last(void) {
    struct release *order[MOST_RELEASES];
    unsigned count = 0;
    for (int last = 0; last < 2; last++) {
        for (unsigned k = 0; k < release_count; k++)
            if (is_marked(releases[k]) == last) order[count++] = releases[k];
        if (!last) good_count = count;
    }
    memcpy(releases, order, sizeof order);
}

/* The same measurements under two names are one file given twice. */
static void check_different(const struct release *a, const struct release *b) {
    const struct results *x = &a->results, *y = &b->results;
    if (strcmp(a->path, b->path) == 0) stop_comparing("%s is given twice", a->path);
    if (x->fault[0] != '\0' || y->fault[0] != '\0' || x->case_count != y->case_count) return;
    if (memcmp(x->cases, y->cases, x->case_count * sizeof *x->cases) == 0)
        stop_comparing("%s and %s hold the same measurements: one file twice", a->path, b->path);
}

void read_releases(int count, char **paths) {
    if (count < 2) stop_comparing("two results files or more are needed; see bench/compare --help");
    if (count > MOST_RELEASES) stop_comparing("no more than %d results files can be compared", MOST_RELEASES);
    for (int k = 0; k < count; k++) {
        releases[k] = &store[k];
        store[k].path = paths[k];
        read_results(paths[k], &store[k].results);
        for (int other = 0; other < k; other++)
            check_different(&store[other], &store[k]);
    }
    release_count = (unsigned)count;
    qsort(releases, release_count, sizeof *releases, compare_moments);
    gather_cases();
    find_cases();
    for (unsigned k = 0; k < release_count; k++)
        mark_release(k);
    mark_yardsticks(2);
    mark_yardsticks(3);
    for (unsigned a = 0; a < release_count; a++)
        for (unsigned b = a + 1; b < release_count; b++)
            mark_disagreement(a, b);
    move_marked_last();
    find_cases();
}

/* ---- numbers ---- */

int has_ratio(const struct row *row, unsigned k) {
    return row->of[k] != NULL && !releases[k]->faulty && row->of[k]->run[LIBRARY].has_number;
}

struct ratio ratio_at(const struct row *row, unsigned k) {
    return ratio_to_plain(row->of[k], &row->of[k]->run[LIBRARY]);
}

enum { FASTER, SLOWER, NO_DIFFERENCE, TOO_FEW_ROUNDS, JUDGEMENTS };
static const char *const judgements[JUDGEMENTS] = {"faster", "slower", "no difference", "too few rounds"};

/* Half as wide again on either side: groups of one run lie closer together than runs do. */
static struct ratio widened(struct ratio r) {
    double half = (r.high - r.low) / 2;
    return (struct ratio){r.low - half, r.middle, r.high + half, r.groups};
}

static int judge_ratios(struct ratio now, struct ratio before) {
    struct ratio a = widened(now), b = widened(before);
    if (now.groups < LEAST_GROUPS || before.groups < LEAST_GROUPS) return TOO_FEW_ROUNDS;
    if ((a.low <= b.high && b.low <= a.high) || fabs(now.middle / before.middle - 1) < least_difference)
        return NO_DIFFERENCE;
    return now.middle < before.middle ? FASTER : SLOWER;
}

int good_before(const struct row *row, unsigned k) {
    while (k-- > 0)
        if (k < good_count && has_ratio(row, k)) return (int)k;
    return -1;
}

const char *judged(const struct row *row, unsigned k) {
    return judgements[judge_ratios(ratio_at(row, k), ratio_at(row, (unsigned)good_before(row, k)))];
}

/* The good release with the least number, if this one has any. Others may differ from it by nothing. */
static unsigned least_at(const struct row *row, unsigned least) {
    for (unsigned k = 0; k < good_count; k++)
        if (has_ratio(row, k) && ratio_at(row, k).middle < ratio_at(row, least).middle) least = k;
    return least;
}

int is_best(const struct row *row, unsigned k) {
    int slower = 0;
    if (k >= good_count || !has_ratio(row, k)) return 0;
    if (judge_ratios(ratio_at(row, least_at(row, k)), ratio_at(row, k)) != NO_DIFFERENCE) return 0;
    for (unsigned other = 0; other < good_count; other++)
        slower = slower || (has_ratio(row, other) && judge_ratios(ratio_at(row, k), ratio_at(row, other)) == FASTER);
    return slower;
}

/* One line: the last good release against an earlier good one, over the cases that both have. */
static void write_summary(char text[MOST_MARK], unsigned before) {
    unsigned last = good_count - 1, cases = 0, count[JUDGEMENTS] = {0};
    double log_now = 0, log_before = 0;
    int length;
    for (const struct row *row = rows; row < rows + row_count; row++) {
        if (!has_ratio(row, last) || !has_ratio(row, before)) continue;
        cases++;
        count[judge_ratios(ratio_at(row, last), ratio_at(row, before))]++;
        log_now += log(ratio_at(row, last).middle);
        log_before += log(ratio_at(row, before).middle);
    }
    length = snprintf(text, MOST_MARK, "%c %s against %c %s, %u cases", letter(last), name_of(releases[last]),
                      letter(before), name_of(releases[before]), cases);
    if (cases < row_count)
        length += snprintf(text + length, MOST_MARK - (size_t)length, " (%u more of a degree that came later)",
                           row_count - cases);
    length += snprintf(text + length, MOST_MARK - (size_t)length, ":");
    for (int k = 0; k < JUDGEMENTS; k++)
        if (count[k] > 0)
            length += snprintf(text + length, MOST_MARK - (size_t)length, " %s in %u,", judgements[k], count[k]);
    text[--length] = '.'; /* the last comma */
    if (count[FASTER] + count[SLOWER] > 0)
        snprintf(text + length, MOST_MARK - (size_t)length, "; %.2f of its time on (geometric) average.",
                 exp((log_now - log_before) / cases));
}

unsigned summarise(char lines[2][MOST_MARK]) {
    if (good_count < 2) {
        snprintf(lines[0], MOST_MARK, "No summary: %s.", good_count == 1 ? "only one release is without a mark"
                                                                         : "no release is without a mark");
        return 1;
    }
    write_summary(lines[0], 0);
    if (good_count > 2) write_summary(lines[1], good_count - 2);
    return good_count > 2 ? 2 : 1;
}

const char *words_at(const struct row *row, unsigned k) {
    if (releases[k]->results.fault[0] != '\0') return releases[k]->results.fault;
    if (row->of[k] == NULL) return came_after(row, k) ? "of a degree that came later" : "no such case";
    if (!row->of[k]->run[LIBRARY].present) return "no run of the library";
    if (!row->of[k]->run[LIBRARY].has_number) return row->of[k]->run[LIBRARY].verdict;
    return "ended, but the release is marked";
}
