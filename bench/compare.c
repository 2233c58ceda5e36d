/* Compares releases: a table and a picture from two or more results files.
 *
 *   compare FOLDER RESULTS RESULTS [..]      writes table.txt and picture.svg
 *
 * Compared is the library's time against the plain C walk of the same run. A release is marked if
 * its file cannot be read or does not say where it comes from, if one of its runs has no number
 * (it did not end, was refused, miscounted, breaks C-22's rule), if it was measured against another
 * plain walk, or if it lacks a case that another has, unless that is of a degree that came after it.
 * What is marked is told before anything else,
 * stands last, and is never best, never first and never in the summary. The order of the files given
 * does not matter: releases stand in the order of their commits. Exit is 0 if no release is marked,
 * 2 if one is, and 1 if nothing can be compared; then nothing is written. */
#include "output.h"
#include "releases.h"

#include <inttypes.h>

/* ---- table ---- */

enum { MARKS_SHOWN = 5 };

static void write_marks(FILE *f) {
    if (good_count == release_count) return;
    fputs("MARKED: not to be taken for results\n", f);
    for (unsigned k = good_count; k < release_count; k++) {
        const struct release *r = releases[k];
        for (unsigned m = 0; m < r->mark_count && m < MARKS_SHOWN; m++)
            fprintf(f, "  %c %s: %s\n", letter(k), name_of(r), r->mark[m]);
        if (r->mark_count > MARKS_SHOWN)
            fprintf(f, "  %c %s: and %u more\n", letter(k), name_of(r), r->mark_count - MARKS_SHOWN);
    }
    fputc('\n', f);
}

static void write_releases(FILE *f) {
    fputs("Releases, in the order of their commits, marked ones last\n", f);
    for (unsigned k = 0; k < release_count; k++) {
        const struct release *r = releases[k];
        const char(*fact)[MOST_TEXT] = r->results.fact;
        fprintf(f, "  %c %s%s", letter(k), name_of(r), is_marked(r) ? " (MARKED)" : "");
        if (r->results.fault[0] == '\0')
            fprintf(f, ": commit %.12s of %s, tree %s; kit %s\n"
                    "    measured %s on %s, %s, %s; mode %s, seed %s", fact[COMMIT], fact[COMMITTED], fact[TREE],
                    fact[KIT], fact[DATE], fact[PROCESSOR], fact[GCC], fact[CLANG], fact[MODE], fact[SEED]);
        fputc('\n', f);
    }
    fputc('\n', f);
}

static void write_case(FILE *f, const struct row *row) {
    char title[MOST_WORDS];
    case_title(row->any, title);
    fprintf(f, "%s: %" PRIu64 " points\n", title, row->any->asked);
    fprintf(f, "  %-26s %9s %9s %9s %11s %7s\n", "", "to plain", "lowest", "highest", "ns a point", "rounds");
    for (unsigned k = 0; k < release_count; k++) {
        fprintf(f, "  %c %-24s", letter(k), name_of(releases[k]));
        if (!has_ratio(row, k)) {
            fprintf(f, " %9s %9s %9s %11s %7s  %s\n", "-", "-", "-", "-", "-", words_at(row, k));
            continue;
        }
        struct ratio ratio = ratio_at(row, k);
        fprintf(f, " %9.3f %9.3f %9.3f %11.2f %7u  ended", ratio.middle, ratio.low, ratio.high,
                spread_of(&row->of[k]->run[LIBRARY]).median, row->of[k]->rounds);
        if (k < good_count && good_before(row, k) >= 0)
            fprintf(f, "; against %c: %s", letter((unsigned)good_before(row, k)), judged(row, k));
        if (is_best(row, k)) fputs("; best", f);
        if (is_marked(releases[k])) fputs("; marked: lacks cases", f);
        fputc('\n', f);
    }
    fputc('\n', f);
}

static void write_table(FILE *f) {
    char lines[2][MOST_MARK];
    unsigned count = summarise(lines);
    write_marks(f);
    for (unsigned k = 0; k < count; k++)
        fprintf(f, "%s\n", lines[k]);
    fputc('\n', f);
    write_releases(f);
    for (const struct row *row = rows; row < rows + row_count; row++)
        write_case(f, row);
    fprintf(f, "To plain: the library's least time by that of the plain C walk (divisions, gcc -O3) of the same\n"
            "run; the middle, lowest and highest of %d groups of rounds. Below 1 is faster than plain. Releases\n"
            "have no difference if their ranges from lowest to highest, made half as wide again on either side,\n"
            "overlap, or if they differ by less than %.0f in 100. Nanoseconds a point (median) are told, not\n"
            "compared: they are the machine's.\n", GROUPS,
            100 * least_difference);
}

/* ---- picture ---- */

enum { WIDE = 1200, EDGE = 30, COLUMNS = 2, PANEL = 560, PANEL_GAP = 20, NAME_END = 34, BARS = 180, BAR = 26, LINE = 36,
       PANEL_HEAD = 64, PANEL_FOOT = 26, TEXT = 30 };

static double panel_height(void) { return PANEL_HEAD + LINE * release_count + PANEL_FOOT; }

/* From 0 to the slowest, or to plain where all are faster. */
static double scale_of(const struct row *row) {
    double most = 1;
    for (unsigned k = 0; k < release_count; k++)
        if (has_ratio(row, k) && ratio_at(row, k).high > most) most = ratio_at(row, k).high;
    return BARS / most;
}

/* The bar ends at the middle, a line goes from the lowest to the highest. A marked release's bar is hollow. */
static void draw_bar(FILE *f, const struct row *row, unsigned k, double x, double y) {
    struct ratio ratio = ratio_at(row, k);
    double scale = scale_of(row), centre = y + BAR / 2.0;
    const char *paint = k >= good_count ? "fill=\"none\" stroke=\"#777\" stroke-width=\"2\" stroke-dasharray=\"5 4\""
                        : k == good_count - 1 ? "fill=\"#0072b2\"" : "fill=\"#9fb6c9\"";
    fprintf(f, "<rect class=\"bar\" x=\"%.1f\" y=\"%.1f\" width=\"%.2f\" height=\"%d\" %s/>\n", x, y,
            scale * ratio.middle, BAR, paint);
    fprintf(f, "<path class=\"range\" d=\"M%.1f %.1fV%.1fM%.1f %.1fH%.1fM%.1f %.1fV%.1f\"/>\n", x + scale * ratio.low,
            centre - 6, centre + 6, x + scale * ratio.low, centre, x + scale * ratio.high, x + scale * ratio.high,
            centre - 6, centre + 6);
    const char *words = k >= good_count ? "lacks cases" : good_before(row, k) >= 0 ? judged(row, k) : "";
    write_text(f, x + BARS + 12, y + BAR - 6, is_best(row, k) ? "best" : "", "ended, %.*f \xc3\x97 plain%s%s",
               ratio.middle < 10 ? 2 : 1, ratio.middle, words[0] == '\0' ? "" : ", ", words);
}

/* The words of a release without a bar: of a fault in its file without the line, of a verdict its first part. */
static void draw_words(FILE *f, const struct row *row, unsigned k, double x, double y) {
    const char *words = words_at(row, k);
    if (releases[k]->results.fault[0] != '\0' && strstr(words, ": ") != NULL) words = strstr(words, ": ") + 2;
    write_text(f, x + 8, y + BAR - 6, "words", "%.*s", (int)strcspn(words, ":"), words);
}

/* The lines of 0 and of plain go down to the last bar. */
static double height_of_bars(const struct row *row) {
    unsigned lines = 0;
    for (unsigned k = 0; k < release_count; k++)
        if (has_ratio(row, k)) lines = k + 1;
    return (double)LINE * lines;
}

static void draw_panel(FILE *f, const struct row *row, double x, double y) {
    double bars = x + NAME_END, plain = bars + scale_of(row), down = height_of_bars(row);
    char title[MOST_WORDS];
    case_title(row->any, title);
    write_text(f, x, y + 24, "case", "%s", title);
    if (down > 0) {
        write_text(f, plain, y + 52, plain > bars + 40 ? "plain middle" : "plain", "plain");
        fprintf(f, "<path class=\"zero\" d=\"M%.1f %.1fv%.1f\"/>\n", bars, y + PANEL_HEAD - 6.0, down);
    }
    for (unsigned k = 0; k < release_count; k++) {
        double line = y + PANEL_HEAD + LINE * k;
        write_text(f, x + 4, line + BAR - 6, is_marked(releases[k]) ? "letter words" : "letter", "%c", letter(k));
        if (has_ratio(row, k)) draw_bar(f, row, k, bars, line);
        else draw_words(f, row, k, bars, line);
    }
    if (down > 0) fprintf(f, "<path class=\"one\" d=\"M%.1f %.1fv%.1f\"/>\n", plain, y + PANEL_HEAD - 6.0, down);
}

/* A line of text that wraps at so many characters; the height after it. */
static double write_wrapped(FILE *f, double x, double y, const char *kind, size_t wide, const char *text) {
    while (*text != '\0') {
        size_t length = strlen(text);
        if (length > wide)
            for (length = wide; length > wide / 2 && text[length] != ' ';)
                length--;
        write_text(f, x, y, kind, "%.*s", (int)length, text);
        text += length + strspn(text + length, " ");
        y += TEXT;
    }
    return y;
}

static double draw_marks(FILE *f, double y) {
    enum { SHOWN = 3 };
    if (good_count == release_count) return y;
    y = write_wrapped(f, EDGE, y, "words heavy", 90, "MARKED, not to be taken for results:");
    for (unsigned k = good_count; k < release_count; k++)
        for (unsigned m = 0; m < releases[k]->mark_count && m <= SHOWN; m++) {
            char text[MOST_MARK + 40];
            const struct release *r = releases[k];
            if (m < SHOWN) snprintf(text, sizeof text, "%c %s: %s", letter(k), name_of(r), r->mark[m]);
            else snprintf(text, sizeof text, "%c and %u more", letter(k), r->mark_count - SHOWN);
            y = write_wrapped(f, EDGE, y, "words", 104, text);
        }
    return y + 8;
}

/* Which commit a letter stands for, and where it was measured. */
static double draw_release(FILE *f, unsigned k, double y) {
    const char(*fact)[MOST_TEXT] = releases[k]->results.fact;
    int marked = is_marked(releases[k]), clean = strcmp(fact[TREE], "clean") == 0;
    write_text(f, EDGE, y, marked ? "words" : "", "%c  %s: commit %.7s of %.10s%s, measured %.10s on %s%s", letter(k),
               name_of(releases[k]), fact[COMMIT], fact[COMMITTED], clean ? "" : " with changes", fact[DATE],
               fact[PROCESSOR], marked ? " (marked)" : "");
    return y + TEXT;
}

static double draw_head(FILE *f) {
    char lines[2][MOST_MARK];
    unsigned count = summarise(lines);
    double y = 52;
    write_text(f, EDGE, y, "title", "Time against a plain C walk, by release");
    y = draw_marks(f, y + 40);
    for (unsigned k = 0; k < count; k++)
        y = write_wrapped(f, EDGE, y, "heavy", 98, lines[k]);
    y += 8;
    for (unsigned k = 0; k < release_count; k++)
        if (releases[k]->results.fault[0] == '\0') y = draw_release(f, k, y);
    y = write_wrapped(f, EDGE, y + 8, "note", 108, "Plain is a C loop with divisions (evaluation: all terms added), "
                      "gcc -O3, on the same systems in the same run: 1 is as fast as plain, 0.5 takes half its time. "
                      "Shorter is better. Each case has a scale of its own from 0; the dashed line is plain. The thin "
                      "line shows the lowest and highest of five groups of rounds. Faster, slower: than the release "
                      "above. Only runs that ended with the right counts have a bar.");
    return y + 6;
}

static void write_picture(FILE *f) {
    FILE *nowhere = fopen("/dev/null", "w"); /* the head is as high as its text, so it is laid out first */
    double top = nowhere != NULL ? draw_head(nowhere) : 600;
    unsigned lines = (row_count + COLUMNS - 1) / COLUMNS;
    double high = top + lines * panel_height() + 10;
    if (nowhere != NULL) fclose(nowhere);
    fprintf(f, "<svg xmlns=\"http://www.w3.org/2000/svg\" width=\"%d\" height=\"%.0f\" viewBox=\"0 0 %d %.0f\">\n"
            "<style>text { font: 21px Arial, Helvetica, \"Liberation Sans\", sans-serif; fill: #1a1a1a }\n"
            ".title { font-size: 34px; font-weight: bold } .heavy, .case, .letter, .best { font-weight: bold }\n"
            ".note, .plain { fill: #555 } .plain { font-size: 18px } .middle { text-anchor: middle }\n"
            ".words { fill: #a83c00 } .zero, .one, .range { stroke: #1a1a1a; stroke-width: 2; fill: none }\n"
            ".one { stroke-dasharray: 6 4 }</style>\n<title>Time against a plain C walk, by release</title>\n"
            "<rect width=\"%d\" height=\"%.0f\" fill=\"#fff\"/>\n", WIDE, high, WIDE, high, WIDE, high);
    draw_head(f);
    for (unsigned k = 0; k < row_count; k++)
        draw_panel(f, &rows[k], EDGE + (k % COLUMNS) * (PANEL + PANEL_GAP), top + (k / COLUMNS) * panel_height());
    fputs("</svg>\n", f);
}

int main(int count, char **given) {
    if (count < 2) stop_comparing("usage: compare FOLDER RESULTS RESULTS [..]");
    read_releases(count - 2, given + 2);
    write_file(given[1], "table.txt", write_table);
    write_file(given[1], "picture.svg", write_picture);
    return good_count == release_count ? 0 : 2;
}
