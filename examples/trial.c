/* A trial with a three-way interaction. Three treatments have levels 0, 1 and 2; the third works the other way round where
   the first two differ: the effect is x0 + x1 + x2*(1 + (x0 - x1)*(x0 - x1)) modulo 3, since the bracket is 1 where they
   are equal and 2, which is -1, where they differ. Lists the settings whose effect is 0, twelve points at a time, with a
   cubic table; counts those of each effect by evaluating. Compiles as C99 and as C++. */
#include "vayudrit.h"

#include <stdio.h>

enum { N = 3, M = 1, ENTRIES = 12 };

/* Words as bytes, the lowest first, and back. */
static void put_words(const uint64_t *words, size_t count, uint8_t *bytes)
{
    for (size_t i = 0; i < 8 * count; i++)
        bytes[i] = (uint8_t)(words[i / 8] >> (8 * (i % 8)));
}

static uint64_t word_at(const uint8_t *bytes, size_t i)
{
    uint64_t w = 0;
    for (size_t k = 8; k-- > 0;)
        w = w << 8 | bytes[8 * i + k];
    return w;
}

static int refused(const char *what, uint64_t refusal)
{
    printf("%s: refused %d\n", what, (int)VAYUDRIT_NUMBER(refusal));
    return 1;
}

int main(void)
{
    static const int8_t rows[M * VAYUDRIT_MONOMIALS3(N)] = {
        0,                    /* 1 */
        1, 1, 1,              /* x0, x1, x2 */
        0, 0, 0, 0, 0, 0,     /* x0*x0, x0*x1, x0*x2, x1*x1, x1*x2, x2*x2 */
        0, 1, 0, -2, 0, 1, 0, /* x0*x0*x1, x0*x0*x2, x0*x1*x1, x0*x1*x2, x0*x2*x2, x1*x1*x2, x1*x2*x2 */
    };
    static const char *const stops[3] = {"ended", "full", "spent"};
    uint64_t coefficients[VAYUDRIT_TABLE3_WORDS(N)], differences[VAYUDRIT_TABLE3_WORDS(N)];
    uint64_t opened[VAYUDRIT_RECORD_WORDS], value[2];
    uint8_t table[VAYUDRIT_TABLE3_BYTES(N)], record[VAYUDRIT_RECORD_BYTES];
    uint8_t answer[VAYUDRIT_ANSWER_BYTES], list[8 * ENTRIES];
    uint64_t r;
    int settings[3] = {0, 0, 0};

    r = vayudrit_pack(N, M, rows, M * VAYUDRIT_MONOMIALS3(N), coefficients, VAYUDRIT_TABLE3_WORDS(N));
    if (r != VAYUDRIT_DONE)
        return refused("pack", r);
    r = vayudrit_differences(N, M, coefficients, VAYUDRIT_TABLE3_WORDS(N), differences, VAYUDRIT_TABLE3_WORDS(N));
    if (r != VAYUDRIT_DONE)
        return refused("differences", r);
    r = vayudrit_open(N, M, differences, VAYUDRIT_TABLE3_WORDS(N), 0, opened, VAYUDRIT_RECORD_WORDS);
    if (r != VAYUDRIT_DONE)
        return refused("open", r);
    put_words(differences, VAYUDRIT_TABLE3_WORDS(N), table);
    put_words(opened, VAYUDRIT_RECORD_WORDS, record);

    do {
        r = vayudrit_search(N, M, table, sizeof table, record, sizeof record, 12, list, sizeof list, answer,
                            sizeof answer);
        if (r != VAYUDRIT_DONE)
            return refused("search", r);
        for (size_t i = 0; i < word_at(answer, 4); i++) {
            int point = (int)word_at(list, i);
            printf("treatments at levels %d, %d, %d\n", point % 3, point / 3 % 3, point / 9);
        }
        printf("%s at place %d: points %d, additions %d, found %d\n", stops[word_at(answer, 0)],
               (int)word_at(answer, 1), (int)word_at(answer, 2), (int)word_at(answer, 3), (int)word_at(answer, 4));
    } while (word_at(answer, 0) != VAYUDRIT_ENDED);

    for (uint64_t point = 0; point < 27; point++) {
        r = vayudrit_evaluate(N, M, coefficients, VAYUDRIT_TABLE3_WORDS(N), point, value, 2);
        if (r != VAYUDRIT_DONE)
            return refused("evaluate", r);
        settings[value[0] + value[1]]++;
    }
    printf("settings of effect 0, 1, 2: %d, %d, %d\n", settings[0], settings[1], settings[2]);
    return 0;
}
