/* The program of document 01, "Graph files", as the second program has it: a graph file on
 * standard input, every layout or the refusal on standard output. The reader and the search are
 * those of reference.c; this file only writes.
 *
 * Exit is 0 when everything was read and written, whatever the answer is. */
#include "reference.h"

#include <inttypes.h>
#include <stdio.h>
#include <stdlib.h>

enum { LIST = 6561 };

static void fail(const char *what) {
    fprintf(stderr, "layouts_model: %s\n", what);
    exit(1);
}

/* "Each further line: place, point, digits with x0 first." */
static void write_layout(uint64_t n, uint64_t point) {
    uint64_t place;
    if (reference_place(n, point, &place, 1) != 0) abort();
    printf("%" PRIu64 " %" PRIu64 " ", place, point);
    for (uint64_t k = 0; k < n; k++, point /= 3)
        putchar('0' + (int)(point % 3));
    putchar('\n');
}

/* "searches it whole": list after list until the search says that it ended. */
static void write_search(const struct graph *g, const uint64_t *coefficients) {
    static uint64_t table[READER_WORDS], list[LIST];
    uint64_t record[RECORD_WORDS], answer[ANSWER_WORDS] = {[ANSWER_STOP] = SPENT};
    uint64_t points = 0, additions = 0, found = 0;
    size_t size = 2 * monomials(g->n, 2);
    if (reference_differences(g->n, g->m, coefficients, size, table, size) != 0
        || reference_open(g->n, g->m, table, size, 0, record, RECORD_WORDS) != 0)
        abort();
    printf("vars %" PRIu64 " eqs %" PRIu64 "\n", g->n, g->m);
    while (answer[ANSWER_STOP] != ENDED) {
        if (reference_search_words(g->n, g->m, table, size, record, RECORD_WORDS, UINT64_MAX,
                                   list, LIST, answer, ANSWER_WORDS) != 0)
            abort();
        for (uint64_t k = 0; k < answer[ANSWER_FOUND]; k++)
            write_layout(g->n, list[k]);
        points += answer[ANSWER_POINTS];
        additions += answer[ANSWER_ADDITIONS];
        found += answer[ANSWER_FOUND];
    }
    printf("points %" PRIu64 " additions %" PRIu64 " found %" PRIu64 " ended\n",
           points, additions, found);
}

int main(void) {
    static uint8_t text[READER_BYTES + 1]; /* one byte above the border tells 15 */
    static uint64_t words[READER_WORDS];
    struct graph graph;
    size_t length = fread(text, 1, sizeof text, stdin);
    uint64_t refusal;
    if (ferror(stdin)) fail("standard input could not be read");
    refusal = reference_read(text, length, words, READER_WORDS, &graph);
    if (refusal != 0)
        printf("refused %" PRIu64 " line %" PRIu64 "\n", refusal, graph.line);
    else
        write_search(&graph, words);
    if (fflush(stdout) != 0 || ferror(stdout)) fail("standard output could not be written");
    return 0;
}
