/* The first program with libvayudrit: lists the pairs of colours that differ, x0*x0 + x0*x1 + x1*x1 + 2 = 0, four
   points at a time. Compiles as C99 and as C++. */
#include "vayudrit.h"

#include <stdio.h>

enum { N = 2, M = 1, ENTRIES = 8 };

/* Words as bytes, the lowest first, and back. */
static void put_words(const uint64_t *words, size_t count, uint8_t *bytes)
{
    for (size_t i = 0; i < 8 * count; i++)
        bytes[i] = (uint8_t)(words[i / 8] >> (8 * (i % 8)));
}

static uint64_t word_at(const uint8_t *bytes, size_t i)
{
    uint64_t w = 0;
    for (size_t k = 8; k-- > 0;)
        w = w << 8 | bytes[8 * i + k];
    return w;
}

static int refused(const char *what, uint64_t refusal)
{
    printf("%s: refused %d\n", what, (int)VAYUDRIT_NUMBER(refusal));
    if (VAYUDRIT_NUMBER(refusal) == VAYUDRIT_REFUSED_PAIR)
        printf("entry %d\n", (int)VAYUDRIT_ENTRY(refusal));
    return 1;
}

int main(void)
{
    static const int8_t rows[M * VAYUDRIT_MONOMIALS(N)] = {2, 0, 0, 1, 1, 1};
    static const char *const stops[3] = {"ended", "full", "spent"};
    uint64_t coefficients[VAYUDRIT_TABLE_WORDS(N)], differences[VAYUDRIT_TABLE_WORDS(N)];
    uint64_t opened[VAYUDRIT_RECORD_WORDS];
    uint8_t table[VAYUDRIT_TABLE_BYTES(N)], record[VAYUDRIT_RECORD_BYTES];
    uint8_t answer[VAYUDRIT_ANSWER_BYTES], list[8 * ENTRIES];
    uint64_t r;

    r = vayudrit_pack(N, M, rows, M * VAYUDRIT_MONOMIALS(N), coefficients, VAYUDRIT_TABLE_WORDS(N));
    if (r != VAYUDRIT_DONE)
        return refused("pack", r);
    r = vayudrit_differences(N, M, coefficients, VAYUDRIT_TABLE_WORDS(N), differences, VAYUDRIT_TABLE_WORDS(N));
    if (r != VAYUDRIT_DONE)
        return refused("differences", r);
    r = vayudrit_open(N, M, differences, VAYUDRIT_TABLE_WORDS(N), 0, opened, VAYUDRIT_RECORD_WORDS);
    if (r != VAYUDRIT_DONE)
        return refused("open", r);
    put_words(differences, VAYUDRIT_TABLE_WORDS(N), table);
    put_words(opened, VAYUDRIT_RECORD_WORDS, record);

    do {
        r = vayudrit_search(N, M, table, sizeof table, record, sizeof record, 4, list, sizeof list, answer,
                            sizeof answer);
        if (r != VAYUDRIT_DONE)
            return refused("search", r);
        for (size_t i = 0; i < word_at(answer, 4); i++) {
            int64_t balanced;
            r = vayudrit_balanced(N, word_at(list, i), &balanced, 1);
            if (r != VAYUDRIT_DONE)
                return refused("balanced", r);
            printf("point %d, balanced %d\n", (int)word_at(list, i), (int)balanced);
        }
        printf("%s at place %d: points %d, additions %d, found %d\n", stops[word_at(answer, 0)],
               (int)word_at(answer, 1), (int)word_at(answer, 2), (int)word_at(answer, 3), (int)word_at(answer, 4));
    } while (word_at(answer, 0) != VAYUDRIT_ENDED);
    return 0;
}
