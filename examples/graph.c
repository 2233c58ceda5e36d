/* From the text of a graph file to its layouts: reads a file from standard input and prints the points at which the two
   ends of each edge differ, 64 at a time. Compiles as C99 and as C++. */
#include "vayudrit.h"

#include <stdio.h>

enum { ENTRIES = 64 };

static uint64_t words[VAYUDRIT_MAX_TABLE_WORDS], differences[VAYUDRIT_MAX_TABLE_WORDS], opened[VAYUDRIT_RECORD_WORDS];
static uint8_t text[VAYUDRIT_MAX_TEXT_BYTES + 1], table[8 * VAYUDRIT_MAX_TABLE_WORDS], record[VAYUDRIT_RECORD_BYTES];
static uint8_t list[8 * ENTRIES], answer[VAYUDRIT_ANSWER_BYTES];

/* Words as bytes, the lowest first, and back. */
static void put_words(const uint64_t *from, size_t count, uint8_t *bytes)
{
    for (size_t i = 0; i < 8 * count; i++)
        bytes[i] = (uint8_t)(from[i / 8] >> (8 * (i % 8)));
}

static uint64_t word_at(const uint8_t *bytes, size_t i)
{
    uint64_t w = 0;
    for (size_t k = 8; k-- > 0;)
        w = w << 8 | bytes[8 * i + k];
    return w;
}

static int refused(const char *what, uint64_t r)
{
    printf("%s: refused %d line %d\n", what, (int)VAYUDRIT_NUMBER(r), (int)VAYUDRIT_LINE(r));
    return 1;
}

int main(void)
{
    uint64_t told[VAYUDRIT_GRAPH_WORDS], n, m, r, found = 0;
    size_t length = fread(text, 1, sizeof text, stdin), count;

    r = vayudrit_read_graph(text, length, words, VAYUDRIT_MAX_TABLE_WORDS, told, VAYUDRIT_GRAPH_WORDS);
    if (r != VAYUDRIT_DONE)
        return refused("read_graph", r);
    n = told[0];
    m = told[1];
    count = VAYUDRIT_TABLE_WORDS(n);
    r = vayudrit_differences(n, m, words, count, differences, count);
    if (r != VAYUDRIT_DONE)
        return refused("differences", r);
    r = vayudrit_open(n, m, differences, count, 0, opened, VAYUDRIT_RECORD_WORDS);
    if (r != VAYUDRIT_DONE)
        return refused("open", r);
    put_words(differences, count, table);
    put_words(opened, VAYUDRIT_RECORD_WORDS, record);

    printf("unknowns %d, equations %d\n", (int)n, (int)m);
    do {
        r = vayudrit_search(n, m, table, VAYUDRIT_TABLE_BYTES(n), record, sizeof record, UINT64_MAX, list, sizeof list,
                            answer, sizeof answer);
        if (r != VAYUDRIT_DONE)
            return refused("search", r);
        for (size_t i = 0; i < word_at(answer, 4); i++)
            printf("point %d\n", (int)word_at(list, i));
        found += word_at(answer, 4);
    } while (word_at(answer, 0) != VAYUDRIT_ENDED);
    printf("ended, found %d\n", (int)found);
    return 0;
}
