/* vayudrit_read_graph against the second program's reader, on the texts in the named files.
 *
 *   graph_compare FILE...
 *
 * Each text is read with lengths of the lent words at and around their borders; the answer and every lent word are compared. */
#include "reference.h"
#include "vayudrit.h"

#include <inttypes.h>
#include <stdio.h>
#include <stdlib.h>
#include <string.h>

enum { ROOM = READER_WORDS + 3, TOLD_ROOM = 4, BYTES = 70000 };

static void fill(uint64_t *words, size_t count) {
    for (size_t k = 0; k < count; k++)
        words[k] = UINT64_C(0x9e3779b97f4a7c15) * (k + 1);
}

/* "the refusal's number plus 256 times its line, and nothing altered"; 2 for told_words not 2, asked with 2 after 15 */
static uint64_t expected(const uint8_t *text, size_t length, uint64_t *words, size_t words_count, uint64_t *told, size_t told_words) {
    struct graph graph;
    uint64_t refusal;
    if (length <= READER_BYTES && told_words != 2) return 2;
    refusal = reference_read(text, length, words, words_count, &graph);
    if (refusal != 0) return refusal + 256 * graph.line;
    told[0] = graph.n;
    told[1] = graph.m;
    return 0;
}

static int agrees(const char *name, const uint8_t *text, size_t length, size_t words_count, size_t told_words) {
    static uint64_t words[2][ROOM], told[2][TOLD_ROOM];
    uint64_t number[2];
    for (int k = 0; k < 2; k++) {
        fill(words[k], ROOM);
        fill(told[k], TOLD_ROOM);
    }
    number[0] = expected(text, length, words[0], words_count, told[0], told_words);
    number[1] = vayudrit_read_graph(text, length, words[1], words_count, told[1], told_words);
    if (number[0] == number[1] && memcmp(words[0], words[1], sizeof words[0]) == 0 && memcmp(told[0], told[1], sizeof told[0]) == 0)
        return 1;
    printf("%s with %zu and %zu words: expected %" PRIu64 ", given %" PRIu64 "\n", name, words_count, told_words, number[0], number[1]);
    return 0;
}

int main(int count, char **names) {
    static uint8_t text[BYTES];
    unsigned calls = 0, differences = 0;
    for (int k = 1; k < count; k++) {
        FILE *file = fopen(names[k], "rb");
        size_t length;
        if (file == NULL) exit(2);
        length = fread(text, 1, sizeof text, file);
        fclose(file);
        for (size_t words_count = READER_WORDS - 1; words_count <= ROOM; words_count++)
            for (size_t told_words = words_count == READER_WORDS ? 0 : 2; told_words <= (words_count == READER_WORDS ? TOLD_ROOM : 2); told_words++, calls++)
                differences += !agrees(names[k], text, length, words_count, told_words);
    }
    printf("graph texts from C: %u calls compared, %u differ\n", calls, differences);
    return differences != 0;
}
