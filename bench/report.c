/* Makes the table, a summary for machines and a picture from one results file.
 *
 *   report RESULTS FOLDER      writes table.txt, summary.tsv and picture.svg
 *
 * A run has a number only if it ended, examined the points asked for with document 01's count of
 * additions, and agrees with its case's plain walk (results.c). Any other run is shown by the
 * words for what it did, with no time, no ratio and no bar, whatever its lines say of time.
 * Exit is 0 if every run has a number, 2 if one has none, and 1 if a line cannot be read; then
 * nothing is written. */
#include "output.h"
#include "results.h"

#include <inttypes.h>

static struct results results;

#define FOR_CASES(c) \
    for (const struct bench_case *c = results.cases; c < results.cases + results.case_count; c++)
#define FOR_RUNS(k, c) for (int k = 0; k < ENGINES; k++) if (shown(c, k))

/* Clang's walks are there if clang is; the plain walk and the library have to be. */
static int shown(const struct bench_case *c, int k) {
    return c->run[k].present || k == PLAIN || k == LIBRARY;
}

/* The fastest or slowest median of a case's runs that have one; 0: none has. */
static double extreme(const struct bench_case *c, int slowest) {
    double best = 0;
    for (int k = 0; k < ENGINES; k++) {
        if (!c->run[k].has_number) continue;
        double median = spread_of(&c->run[k]).median;
        if (best == 0 || (slowest ? median > best : median < best)) best = median;
    }
    return best;
}

/* ---- table and summary ---- */

static void write_line(FILE *f, const struct bench_case *c, int k) {
    const struct run *r = &c->run[k];
    fprintf(f, "  %-15s", engine_names[k]);
    if (r->has_number) {
        struct spread ns = spread_of(r);
        struct ratio plain = ratio_to_plain(c, r);
        fprintf(f, " %9.2f %9.2f %9.2f %9.3f %8.3f to %-8.3f  ended: additions %" PRIu64 ", found %" PRIu64 "\n",
                ns.least, ns.median, ns.upper - ns.lower, plain.middle, plain.low, plain.high, r->additions, r->found);
    } else {
        fprintf(f, " %9s %9s %9s %9s %8s    %-8s  %s\n", "-", "-", "-", "-", "-", "-", r->verdict);
    }
}

static void write_table(FILE *f) {
    FOR_CASES(c) {
        char title[MOST_WORDS];
        case_title(c, title);
        fprintf(f, "%s: %" PRIu64 " points, %u rounds\n", title, c->asked, c->rounds);
        fprintf(f, "  %-15s %9s %9s %9s %9s %8s to %-8s\n", "", "least", "median", "spread", "to plain", "low", "high");
        FOR_RUNS(k, c) write_line(f, c, k);
        fputc('\n', f);
    }
    fputs("Processor time in nanoseconds a point. Spread: from the lower to the upper quartile of the rounds.\n"
          "To plain: a run's least time by that of the plain walk (gcc), in five groups of rounds; the middle,\n"
          "lowest and highest of the five.\n"
          "The C walks check nothing they are lent. The library judges table and record at each call.\n", f);
    fprintf(f, "Library: release %s, commit %.12s, tree %s; kit %s\n", results.fact[RELEASE], results.fact[COMMIT],
            results.fact[TREE], results.fact[KIT]);
    fprintf(f, "Measured %s on %s; C at -O3 by %s; clang: %s; seed %s\n", results.fact[DATE], results.fact[PROCESSOR],
            results.fact[GCC], results.fact[CLANG], results.fact[SEED]);
}

static void write_summary(FILE *f) {
    fputs("case\tn\tm\tdegree\tdetail\tengine\tverdict\tleast_ns\tmedian_ns\tspread_ns\tto_plain\tto_fastest\n", f);
    FOR_CASES(c) FOR_RUNS(k, c) {
        const struct run *r = &c->run[k];
        fprintf(f, "%s\t%u\t%u\t%u\t%s\t%s\t%s\t", c->name, c->n, c->m, c->degree, c->detail, engine_names[k],
                r->verdict);
        if (r->has_number) {
            struct spread ns = spread_of(r);
            fprintf(f, "%.4f\t%.4f\t%.4f\t%.4f\t%.4f\n", ns.least, ns.median, ns.upper - ns.lower,
                    ratio_to_plain(c, r).middle, ns.median / extreme(c, 0));
        } else {
            fputs("\t\t\t\t\n", f);
        }
    }
}

/* ---- picture ---- */

enum { WIDE = 860, LEFT = 140, BAR_END = 600, BAR = 14, LINE = 20, TOP = 64, HEAD = 32, GAP = 14 };

static const char *colour_of(int engine) {
    if (engine == LIBRARY) return "#d55e00";
    return engine == PLAIN || engine == PLAIN_CLANG ? "#b4bcc6" : "#56b4e9";
}

/* A bar and its numbers, or, where there is no number, the words alone. */
static void draw_run(FILE *f, const struct bench_case *c, int k, double y) {
    const struct run *r = &c->run[k];
    write_text(f, LEFT - 8, y + BAR - 3, "engine", "%s", engine_names[k]);
    if (!r->has_number) {
        write_text(f, LEFT, y + BAR - 3, "words", "%s: no time", r->verdict);
        return;
    }
    double median = spread_of(r).median, length = (BAR_END - LEFT) * median / extreme(c, 1);
    fprintf(f, "<rect x=\"%d\" y=\"%.1f\" width=\"%.2f\" height=\"%d\" fill=\"%s\"/>\n", LEFT, y, length, BAR,
            colour_of(k));
    write_text(f, LEFT + length + 6, y + BAR - 3, "number", "ended: %.2f ns, %.2f of plain", median,
               ratio_to_plain(c, r).middle);
}

static unsigned picture_height(void) {
    unsigned high = TOP + GAP;
    FOR_CASES(c) {
        high += HEAD + GAP;
        FOR_RUNS(k, c) high += LINE;
    }
    return high;
}

static void write_picture(FILE *f) {
    double y = TOP;
    unsigned high = picture_height();
    fprintf(f, "<svg xmlns=\"http://www.w3.org/2000/svg\" width=\"%d\" height=\"%u\" viewBox=\"0 0 %d %u\">\n"
            "<style>text { font: 12px sans-serif; fill: #222 } .title { font-size: 17px; font-weight: bold } "
            ".row { font-weight: bold } .engine { text-anchor: end } .note { fill: #555 } "
            ".words { fill: #a03000; font-style: italic }</style>\n<rect width=\"%d\" height=\"%u\" fill=\"#fff\"/>\n",
            WIDE, high, WIDE, high, WIDE, high);
    write_text(f, 16, 28, "title", "Nanoseconds a point: release %s", results.fact[RELEASE]);
    write_text(f, 16, 48, "note", "Median of the rounds; shorter is better. Each case has a scale of its own from 0. "
               "Runs that did not end as asked have no bar.");
    FOR_CASES(c) {
        char title[MOST_WORDS];
        case_title(c, title);
        write_text(f, 16, y + 22, "row", "%s: %" PRIu64 " points", title, c->asked);
        y += HEAD;
        FOR_RUNS(k, c) {
            draw_run(f, c, k, y);
            y += LINE;
        }
        y += GAP;
    }
    fputs("</svg>\n", f);
}

int main(int count, char **given) {
    int all = 1;
    if (count != 3) {
        fputs("usage: report RESULTS FOLDER\n", stderr);
        return 1;
    }
    read_results(given[1], &results);
    if (results.fault[0] != '\0') {
        fprintf(stderr, "report: %s: %s\n", given[1], results.fault);
        return 1;
    }
    FOR_CASES(c) FOR_RUNS(k, c) all = all && c->run[k].has_number;
    write_file(given[2], "table.txt", write_table);
    write_file(given[2], "summary.tsv", write_summary);
    write_file(given[2], "picture.svg", write_picture);
    return all ? 0 : 2;
}
