/* See tidy.h. Plain: the e lines of a text that the reader takes become pairs, which are sorted and written without repeats. */
#include "tidy.h"

#include <stdio.h>
#include <stdlib.h>
#include <string.h>

struct pair { unsigned low, high; };

static int by_vertices(const void *x, const void *y) {
    const struct pair *a = x, *b = y;
    if (a->low != b->low) return a->low < b->low ? -1 : 1;
    return a->high < b->high ? -1 : a->high > b->high;
}

/* The e lines of a text that was taken, smaller vertex first; counts comments and lines with the larger vertex first. */
static size_t take_pairs(const char *text, struct pair *pairs, uint64_t *comments, uint64_t *turned) {
    size_t count = 0;
    for (const char *line = text; *line != 0;) {
        unsigned a, b;
        const char *end = strchr(line, '\n');
        if (*line == 'c') ++*comments;
        if (*line == 'e' && sscanf(line, "e %u %u", &a, &b) == 2) {
            *turned += a > b;
            pairs[count++] = a < b ? (struct pair){a, b} : (struct pair){b, a};
        }
        line = end == NULL ? line + strlen(line) : end + 1;
    }
    return count;
}

uint64_t reference_tidy(const uint8_t *text, size_t text_len, uint8_t *out, size_t out_len, uint64_t *told, size_t told_len) {
    static uint64_t words[READER_WORDS];
    static char copy[READER_BYTES + 1];
    static struct pair pairs[MOST_EDGE_LINES];
    char tidied[4096];
    struct graph graph;
    uint64_t refusal, comments = 0, turned = 0;
    size_t count, kept = 0, bytes;
    if (text_len <= READER_BYTES && told_len != TIDY_WORDS) return 2; /* "told has 4 words, else 2", asked after 15 */
    refusal = reference_read(text, text_len, words, READER_WORDS, &graph);
    if (refusal != 0) return refusal + 256 * graph.line;
    for (size_t k = 0; k < text_len; k++) /* comments hold any bytes */
        copy[k] = text[k] == 0 ? 1 : (char)text[k];
    copy[text_len] = 0;
    count = take_pairs(copy, pairs, &comments, &turned);
    qsort(pairs, count, sizeof pairs[0], by_vertices);
    for (size_t k = 0; k < count; k++)
        if (k == 0 || by_vertices(&pairs[k - 1], &pairs[k]) != 0) pairs[kept++] = pairs[k];
    bytes = (size_t)sprintf(tidied, "p edge %u %u\n", (unsigned)graph.n, (unsigned)kept);
    for (size_t k = 0; k < kept; k++)
        bytes += (size_t)sprintf(tidied + bytes, "e %u %u\n", pairs[k].low, pairs[k].high);
    if (bytes > out_len) return 18; /* "asked last, when the lent output is too short for the whole text" */
    memcpy(out, tidied, bytes);
    told[0] = bytes;
    told[1] = comments;
    told[2] = count - kept;
    told[3] = turned;
    return 0;
}
