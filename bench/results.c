/* Reading and judging of a results file. */
#include "results.h"
#include "rule.h"

#include <ctype.h>
#include <inttypes.h>
#include <setjmp.h>
#include <stdarg.h>
#include <stdio.h>
#include <stdlib.h>
#include <string.h>

enum { MOST_LINE = 4000, MOST_FIELDS = MOST_ROUNDS + 1, CASE_FIELDS = 10 };

static const double least_ns = 0.05; /* no processor examines twenty points in a nanosecond */
static const double most_ns = 1e12;

static const char *const fact_names[FACTS] = {
    RESULTS_TITLE, "release", "commit", "committed", "tree", "bench", "yardstick", "kit", "date", "processor",
    "gcc", "clang", "mode", "seed", "limit"};

/* ---- reading ---- */

/* A file while it is read. */
static struct results *now;
static struct bench_case *this_case;
static struct run *this_run;
static unsigned line_number, field_count, last_engine;
static char line[MOST_LINE], *field[MOST_FIELDS];
static jmp_buf given_up;

static void bad(const char *format, ...) {
    int length = snprintf(now->fault, MOST_WORDS, "line %u: ", line_number);
    va_list given;
    va_start(given, format);
    vsnprintf(now->fault + length, MOST_WORDS - (size_t)length, format, given);
    va_end(given);
    longjmp(given_up, 1);
}

/* A whole number, digits only. */
static uint64_t whole(const char *text, uint64_t least, uint64_t most) {
    size_t digits = strspn(text, "0123456789");
    int padded = digits > 1 && text[0] == '0';
    uint64_t number = digits < 19 ? strtoull(text, NULL, 10) : UINT64_MAX;
    if (digits == 0 || padded || text[digits] != '\0') bad("'%.20s' is not a whole number", text);
    if (number < least || number > most) bad("the number %.20s is out of its range", text);
    return number;
}

/* A time: digits, a point perhaps, no sign and no exponent. */
static double decimal(const char *text) {
    char *end;
    double number = strtod(text, &end);
    if (!isdigit((unsigned char)text[0]) || text[strspn(text, "0123456789.")] != '\0' || *end != '\0'
        || number > most_ns)
        bad("'%.20s' is not a time", text);
    return number;
}

/* The next line, cut into its fields; whether there is one. */
static int next_line(FILE *file) {
    size_t length;
    line_number++;
    if (fgets(line, MOST_LINE, file) == NULL) {
        if (ferror(file)) bad("cannot be read");
        return 0;
    }
    length = strcspn(line, "\n");
    if (line[length] != '\n') bad("the line is cut off, or too long");
    line[length] = '\0';
    for (size_t k = 0; k < length; k++)
        if (line[k] != '\t' && !isprint((unsigned char)line[k])) bad("a character out of place");
    field_count = 0;
    for (char *text = line;; text++) {
        if (field_count == MOST_FIELDS) bad("too many fields");
        field[field_count++] = text;
        text += strcspn(text, "\t");
        if (*text == '\0') return 1;
        *text = '\0';
    }
}

static void take_text(char to[MOST_TEXT], const char *text) {
    size_t length = strlen(text);
    if (length == 0 || length >= MOST_TEXT || text[0] == ' ' || text[length - 1] == ' ' || strstr(text, "  ") != NULL)
        bad("an empty or overlong text, or spaces out of place");
    strcpy(to, text);
}

/* A moment, "2026-11-15T11:49:10Z": so written, earlier ones come first in the order of letters. */
static int is_moment(const char *text) {
    static const char form[] = "dddd-dd-ddTdd:dd:ddZ";
    if (strlen(text) != sizeof form - 1) return 0;
    for (size_t k = 0; form[k] != '\0'; k++)
        if (form[k] == 'd' ? !isdigit((unsigned char)text[k]) : text[k] != form[k]) return 0;
    return 1;
}

static int is_sum(const char *text, size_t length) {
    return strlen(text) == length && text[strspn(text, "0123456789abcdef")] == '\0';
}

static int is_earlier(const struct results *results) { return strcmp(results->fact[VERSION], RESULTS_EARLIER) == 0; }

/* Two sums with a space between them, of degree 2 and of degree 3; an earlier file has the first. */
static int are_yardsticks(const char *text) {
    char first[SUM_DIGITS + 1] = "";
    if (is_earlier(now)) return is_sum(text, SUM_DIGITS);
    strncpy(first, text, SUM_DIGITS);
    return is_sum(first, SUM_DIGITS) && text[SUM_DIGITS] == ' ' && is_sum(text + SUM_DIGITS + 1, SUM_DIGITS);
}

const char *yardstick_of(const struct results *results, unsigned degree) {
    if (degree == 2) return results->fact[YARDSTICK];
    return is_earlier(results) ? "" : results->fact[YARDSTICK] + SUM_DIGITS + 1;
}

static int is_one_of(const char *text, const char *a, const char *b, const char *c) {
    return strcmp(text, a) == 0 || strcmp(text, b) == 0 || strcmp(text, c) == 0;
}

static void check_fact(int k, const char *text) {
    int right = 1;
    if (k == VERSION && strcmp(text, RESULTS_VERSION) != 0 && !is_earlier(now))
        bad("version %.20s; versions %s and %s are read here", text, RESULTS_EARLIER, RESULTS_VERSION);
    if (k == RELEASE) right = strlen(text) <= MOST_NAME;
    if (k == COMMIT || k == BENCH) right = is_sum(text, 40) || strcmp(text, "unknown") == 0;
    if (k == COMMITTED) right = is_moment(text) || strcmp(text, "unknown") == 0;
    if (k == YARDSTICK) right = are_yardsticks(text);
    if (k == TREE) right = is_one_of(text, "clean", "changed", "unknown");
    if (k == DATE) right = is_moment(text);
    if (k == SEED) whole(text, 0, UINT64_MAX - 1);
    if (k == LIMIT) whole(text, 1, 86400);
    if (!right) bad("'%.40s' is no %s", text, fact_names[k]);
}

static int place_of(const char *name, const char *const *names, int count) {
    for (int k = 0; k < count; k++)
        if (strcmp(name, names[k]) == 0) return k;
    return -1;
}

static void read_facts(FILE *file) {
    for (int k = 0; k < FACTS; k++) {
        int place;
        if (!next_line(file)) bad("the file breaks off where '%s' should stand", fact_names[k]);
        place = place_of(field[0], fact_names, FACTS);
        if (k == VERSION && place != VERSION) bad("not a results file of this benchmark");
        if (place >= 0 && place < k) bad("a second '%s'", field[0]);
        if (place != k) bad("'%.40s' where '%s' should stand", field[0], fact_names[k]);
        if (field_count != 2) bad("not one value for '%s'", field[0]);
        take_text(now->fact[k], field[1]);
        check_fact(k, field[1]);
    }
}

static void read_case(void) {
    struct bench_case *c = &now->cases[now->case_count];
    if (field_count != CASE_FIELDS) bad("%u fields of a case, not %d", field_count, CASE_FIELDS);
    if (now->case_count == MOST_CASES) bad("too many cases");
    memset(c, 0, sizeof *c);
    take_text(c->name, field[1]);
    c->job = place_of(field[2], job_names, JOBS);
    if (c->job < 0) bad("no known job: '%.40s'", field[2]);
    c->base = (unsigned)whole(field[3], 3, 5);
    c->degree = (unsigned)whole(field[4], 2, 3);
    if (c->base == 4) bad("the number 4 is out of its range");
    if (c->degree > 2 && is_earlier(now)) bad("degree 3 in a file that has no yardstick for it");
    c->n = (unsigned)whole(field[5], 1, c->base == 3 ? 20 : 13);
    c->m = (unsigned)whole(field[6], 1, 256);
    take_text(c->detail, field[7]);
    c->asked = whole(field[8], 1, c->job == EVALUATIONS ? UINT32_MAX : points_of_walk(c->base, c->n));
    c->rounds = (unsigned)whole(field[9], 1, MOST_ROUNDS);
    if (c->job == WALKS && c->asked != points_of_walk(c->base, c->n)) bad("a walk asks for all points");
    for (unsigned k = 0; k < now->case_count; k++)
        if (same_case(&now->cases[k], c)) bad("this case stands a second time");
    now->case_count++;
    this_case = c, this_run = NULL;
}

static int status_of(const char *text, uint64_t *refusal) {
    int status = place_of(text, status_words, STATUSES);
    if (strncmp(text, "refused ", 8) == 0) {
        *refusal = whole(text + 8, 1, UINT32_MAX);
        return RUN_REFUSED;
    }
    if (status < 0 || status == RUN_REFUSED) bad("no known end of a run: '%.40s'", text);
    return status;
}

static void read_run(void) {
    int engine;
    if (this_case == NULL) bad("a run before any case");
    if (field_count != 3) bad("%u fields of a run, not 3", field_count);
    engine = place_of(field[1], engine_names, ENGINES);
    if (engine < 0) bad("no known engine: '%.40s'", field[1]);
    if (this_case->run[engine].present) bad("a second run of '%s' in this case", field[1]);
    if (this_run != NULL && engine < (int)last_engine) bad("the run of '%s' is out of order", field[1]);
    this_run = &this_case->run[engine];
    last_engine = (unsigned)engine;
    this_run->present = 1;
    this_run->status = status_of(field[2], &this_run->refusal);
}

/* points, additions, found: in this order. */
static void read_count(unsigned place) {
    if (this_run == NULL) bad("'%s' without a run", field[0]);
    if (field_count != 2) bad("not one value for '%s'", field[0]);
    if (this_run->counts > place) bad("a second '%s' of this run", field[0]);
    if (this_run->counts < place || this_run->rounds > 0) bad("'%s' is out of order", field[0]);
    *(place == 0 ? &this_run->points : place == 1 ? &this_run->additions : &this_run->found) =
        whole(field[1], 0, UINT64_MAX - 1);
    this_run->counts++;
}

static void read_times(void) {
    if (this_run == NULL) bad("times without a run");
    if (this_run->rounds > 0) bad("a second line of times of this run");
    for (unsigned k = 1; k < field_count; k++)
        this_run->time[k - 1] = decimal(field[k]);
    this_run->rounds = field_count - 1;
}

static void read_cases(FILE *file) {
    static const char *const counts[] = {"points", "additions", "found"};
    while (next_line(file)) {
        int count = place_of(field[0], counts, 3);
        if (strcmp(field[0], "case") == 0) read_case();
        else if (strcmp(field[0], "run") == 0) read_run();
        else if (count >= 0) read_count((unsigned)count);
        else if (strcmp(field[0], "times") == 0) read_times();
        else if (strcmp(field[0], "end") == 0) {
            if (field_count != 2 || whole(field[1], 0, MOST_CASES) != now->case_count)
                bad("the end tells another number of cases than there are");
            if (next_line(file)) bad("a line after the end");
            if (now->case_count == 0) bad("no cases");
            return;
        } else if (place_of(field[0], fact_names, FACTS) >= 0) bad("'%s' is out of order", field[0]);
        else bad("no known line: '%.40s'", field[0]);
    }
    bad("the file breaks off: the benchmark was stopped before its end");
}

int same_case(const struct bench_case *a, const struct bench_case *b) {
    return strcmp(a->name, b->name) == 0 && strcmp(a->detail, b->detail) == 0 && a->job == b->job && a->base == b->base
           && a->degree == b->degree && a->n == b->n && a->m == b->m && a->asked == b->asked;
}

/* ---- judging ---- */

static int says(struct run *r, const char *format, ...) {
    va_list given;
    va_start(given, format);
    vsnprintf(r->verdict, MOST_WORDS, format, given);
    va_end(given);
    return 0;
}

/* A run that did not end: which word, and how far it came. */
static void tell_stop(const struct bench_case *c, struct run *r) {
    if (r->status == RUN_REFUSED) says(r, "refused %" PRIu64, r->refusal);
    else if (r->counts == 3 && (r->status == RUN_FULL || r->status == RUN_SPENT))
        says(r, "%s after %" PRIu64 " of %" PRIu64 " points", status_words[r->status], r->points, c->asked);
    else says(r, "%s", status_words[r->status]);
}

/* Whether the counts are possible at all; if not, the verdict says why. */
static int counts_right(const struct bench_case *c, struct run *r) {
    uint64_t least = 0, most = 0;
    if (r->counts < 3) return says(r, "miscounted: counts are missing");
    if (r->points != c->asked) return says(r, "miscounted: %" PRIu64 " of %" PRIu64 " points", r->points, c->asked);
    if (r->found > r->points) return says(r, "miscounted: more zeros than points");
    if (c->job == WALKS) least = most = additions_of_walk(c->base, c->degree, c->n);
    if (c->job == CALLS) least = r->points, most = c->degree * r->points;
    if (r->additions < least || r->additions > most)
        return says(r, "miscounted: %" PRIu64 " additions, which the cost rule excludes", r->additions);
    if (c->job == WALKS && breaks_rule(c->base, c->degree, c->n, c->m, r->found))
        return says(r, "miscounted: breaks C-22's rule, found %" PRIu64 " is not divisible by %u", r->found, c->base);
    return 1;
}

static int times_right(const struct bench_case *c, struct run *r) {
    if (r->rounds != c->rounds) return says(r, "times of %u rounds, not of %u", r->rounds, c->rounds);
    for (unsigned k = 0; k < r->rounds; k++)
        if (!(r->time[k] >= least_ns))
            return says(r, "a time of %.4f ns a point, which no processor reaches", r->time[k]);
    return 1;
}

static void judge(struct bench_case *c, struct run *r) {
    const struct run *plain = &c->run[PLAIN];
    r->has_number = 0;
    if (!r->present) says(r, "no run");
    else if (r->status != RUN_ENDED) tell_stop(c, r);
    else if (!counts_right(c, r)) return;
    else if (r != plain && !plain->has_number) says(r, "unchecked: the plain walk has no number");
    else if (r->found != plain->found || r->additions != plain->additions)
        says(r, "miscounted: other counts than the plain walk");
    else if (times_right(c, r)) {
        says(r, "ended");
        r->has_number = 1;
    }
}

void read_results(const char *path, struct results *results) {
    FILE *volatile file = fopen(path, "r");
    memset(results, 0, sizeof *results);
    results->cases = malloc(MOST_CASES * sizeof *results->cases);
    now = results, this_case = NULL, this_run = NULL, line_number = 0;
    if (file == NULL || results->cases == NULL) {
        snprintf(results->fault, MOST_WORDS, "the file is not there or cannot be opened");
        return;
    }
    if (setjmp(given_up) == 0) {
        read_facts(file);
        read_cases(file);
        for (struct bench_case *c = now->cases; c < now->cases + now->case_count; c++)
            for (int k = 0; k < ENGINES; k++)
                judge(c, &c->run[k]);
    }
    fclose(file);
}

/* ---- numbers ---- */

static int compare_numbers(const void *a, const void *b) {
    double x = *(const double *)a, y = *(const double *)b;
    return (x > y) - (x < y);
}

/* Between the two numbers nearest to this part of the way. */
static double at_part(const double *sorted, unsigned count, double part) {
    double way = part * (count - 1);
    unsigned k = (unsigned)way;
    return k + 1 < count ? sorted[k] + (way - k) * (sorted[k + 1] - sorted[k]) : sorted[k];
}

static void sort(double *numbers, unsigned count) { qsort(numbers, count, sizeof *numbers, compare_numbers); }

struct spread spread_of(const struct run *r) {
    double sorted[MOST_ROUNDS];
    memcpy(sorted, r->time, sizeof sorted);
    sort(sorted, r->rounds);
    return (struct spread){sorted[0], at_part(sorted, r->rounds, 0.25), at_part(sorted, r->rounds, 0.5),
                           at_part(sorted, r->rounds, 0.75)};
}

static double least_of(const double *numbers, unsigned from, unsigned to) {
    double least = numbers[from];
    for (unsigned k = from + 1; k < to; k++)
        if (numbers[k] < least) least = numbers[k];
    return least;
}

struct ratio ratio_to_plain(const struct bench_case *c, const struct run *r) {
    double ratio[GROUPS];
    unsigned groups = r->rounds < GROUPS ? r->rounds : GROUPS;
    for (unsigned g = 0; g < groups; g++) {
        unsigned from = g * r->rounds / groups, to = (g + 1) * r->rounds / groups;
        ratio[g] = least_of(r->time, from, to) / least_of(c->run[PLAIN].time, from, to);
    }
    sort(ratio, groups);
    return (struct ratio){ratio[0], at_part(ratio, groups, 0.5), ratio[groups - 1], groups};
}

void case_title(const struct bench_case *c, char title[MOST_WORDS]) {
    int length = snprintf(title, MOST_WORDS, "%s, n = %u, m = %u", c->name, c->n, c->m);
    if (c->degree != 2) length += snprintf(title + length, MOST_WORDS - (size_t)length, ", degree %u", c->degree);
    if (c->base != 3) length += snprintf(title + length, MOST_WORDS - (size_t)length, ", base %u", c->base);
    snprintf(title + length, MOST_WORDS - (size_t)length, ", %s", c->detail);
}
