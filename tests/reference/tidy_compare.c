/* vayudrit_tidy against the second program, on the texts in the named files.
 *
 *   tidy_compare FILE...
 *
 * Each text is tidied with outputs of no byte, one too short, exact and longer, and with other numbers of words told; the answer and
 * every lent byte are compared. What was written is read back by both readers and tidied again. */
#include "tidy.h"
#include "vayudrit.h"

#include <inttypes.h>
#include <stdio.h>
#include <stdlib.h>
#include <string.h>

enum { ROOM = VAYUDRIT_MAX_TIDY_BYTES + 8, TOLD_ROOM = TIDY_WORDS + 2, BYTES = 70000 };

static unsigned calls, differences, taken, refused[19];

static void fill(void *bytes, size_t count) {
    for (size_t k = 0; k < count; k++)
        ((uint8_t *)bytes)[k] = (uint8_t)(0x9d * (k + 1));
}

static void differ(const char *name, const char *what) {
    printf("%s: %s\n", name, what);
    differences++;
}

/* One call of both; the bytes written are left in out. Gives what the second program says. */
static uint64_t compare(const char *name, const uint8_t *text, size_t length, uint8_t *out, size_t out_bytes, uint64_t *told, size_t told_words) {
    static uint8_t bytes[2][ROOM];
    static uint64_t words[2][TOLD_ROOM];
    uint64_t number[2];
    for (int k = 0; k < 2; k++) {
        fill(bytes[k], ROOM);
        fill(words[k], sizeof words[k]);
    }
    number[0] = reference_tidy(text, length, bytes[0], out_bytes, words[0], told_words);
    number[1] = vayudrit_tidy(text, length, bytes[1], out_bytes, words[1], told_words);
    calls++;
    if (number[0] != number[1] || memcmp(bytes[0], bytes[1], ROOM) != 0 || memcmp(words[0], words[1], sizeof words[0]) != 0) {
        printf("%s with %zu bytes and %zu words: expected %" PRIu64 ", given %" PRIu64 "\n", name, out_bytes, told_words, number[0], number[1]);
        differences++;
    }
    memcpy(out, bytes[1], ROOM);
    memcpy(told, words[1], sizeof words[1]);
    return number[0];
}

/* "Reading what was written gives the same set of edges, and tidying a second time changes no byte." */
static void again(const char *name, const uint8_t *text, size_t length, const uint8_t *out, size_t bytes) {
    static uint64_t words[2][READER_WORDS], counts[2][VAYUDRIT_GRAPH_WORDS];
    uint8_t second[ROOM];
    uint64_t told[TOLD_ROOM];
    if (vayudrit_read_graph(text, length, words[0], READER_WORDS, counts[0], VAYUDRIT_GRAPH_WORDS) != 0
        || vayudrit_read_graph(out, bytes, words[1], READER_WORDS, counts[1], VAYUDRIT_GRAPH_WORDS) != 0
        || memcmp(counts[0], counts[1], sizeof counts[0]) != 0)
        differ(name, "what was written is read to another graph");
    /* the set of the edges: the equations in another order, so that each is looked for */
    for (uint64_t e = 0; e < counts[0][1]; e++) {
        uint64_t f = 0, n = counts[0][0];
        size_t k = 1;
        while (f < counts[1][1] && k < VAYUDRIT_TABLE_WORDS(n)) {
            for (k = 0; k < VAYUDRIT_TABLE_WORDS(n) && (words[0][k] >> e & 1) == (words[1][k] >> f & 1); k++)
                ;
            f++;
        }
        if (k < VAYUDRIT_TABLE_WORDS(n)) differ(name, "an edge is lost");
    }
    if (compare(name, out, bytes, second, bytes, told, TIDY_WORDS) != 0 || memcmp(out, second, bytes) != 0)
        differ(name, "tidied again, it is another text");
    if (told[0] != bytes || told[1] != 0 || told[2] != 0 || told[3] != 0) differ(name, "there is something left to tidy");
}

static void try_text(const char *name, const uint8_t *text, size_t length) {
    uint8_t out[ROOM];
    uint64_t told[TOLD_ROOM], number = compare(name, text, length, out, VAYUDRIT_MAX_TIDY_BYTES, told, TIDY_WORDS);
    size_t bytes = number == 0 ? (size_t)told[0] : 20;
    refused[number % 256]++;
    if (number == 0) {
        taken++;
        again(name, text, length, out, bytes);
    }
    for (size_t words = 0; words <= TOLD_ROOM; words++)
        compare(name, text, length, out, bytes, told, words);
    for (size_t less = 1; less <= bytes; less += less + 3)
        if (compare(name, text, length, out, bytes - less, told, TIDY_WORDS) != (number == 0 ? 18 : number)) differ(name, "too short, and no 18");
    compare(name, text, length, out, 0, told, TIDY_WORDS);
    for (size_t room = bytes; room <= bytes + 3 && room <= ROOM; room++)
        compare(name, text, length, out, room, told, TIDY_WORDS);
}

int main(int count, char **names) {
    static uint8_t text[BYTES];
    for (int k = 1; k < count; k++) {
        FILE *file = fopen(names[k], "rb");
        size_t length;
        if (file == NULL) exit(2);
        length = fread(text, 1, sizeof text, file);
        fclose(file);
        try_text(names[k], text, length);
    }
    for (int number = 10; number <= 16; number++)
        if (count > 1000 && refused[number] == 0) differ("the texts", "a refusal does not occur");
    printf("tidied texts from C: %d texts, %u of them taken, %u calls compared, %u differ\n", count - 1, taken, calls, differences);
    return differences != 0;
}
