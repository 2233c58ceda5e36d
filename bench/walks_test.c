/* Holds the C walks of both degrees against the reference: random small systems, walked to the end by
 * calls of random budgets and lists; answers, records and whole lists must be the same after each. */
#include "walks.h"

#include <stdio.h>
#include <stdlib.h>

search_function plain, unrolled, plain_cubic, unrolled_cubic;

enum { LENT = 300 };

static uint64_t state = 1;

static uint64_t below(uint64_t bound) { /* a random number below the bound */
    state = state * 6364136223846793005 + 1442695040888963407;
    return (state >> 33) % bound;
}

struct lent { uint8_t record[8 * RECORD_WORDS], list[8 * LENT], answer[8 * ANSWER_WORDS]; };

static void walk_system(uint64_t n, uint64_t m, unsigned degree, search_function *walk) {
    uint64_t table[2 * MOST_MONOMIALS] = {0};
    size_t size = 16 * monomials(n, degree);
    struct lent ours = {{0}, {0}, {1}}, theirs;
    for (size_t k = 0; k < monomials(n, degree); k++)
        for (uint64_t e = 0, full = below(4); e < m; e++) {
            uint64_t trit = full > 0 ? below(3) : 0;
            table[2 * k] |= (uint64_t)(trit > 0) << e;
            table[2 * k + 1] |= (uint64_t)(trit > 1) << e;
        }
    reference_open(n, m, table, size / 8, 0, (uint64_t *)(void *)ours.record, RECORD_WORDS);
    for (theirs = ours; ours.answer[0] != ENDED;) {
        uint64_t budget = below(3) > 0 ? 1 + below(1000) : UINT64_MAX;
        size_t list_len = 8 * (1 + below(below(2) > 0 ? LENT : 4));
        walk(n, m, (uint8_t *)table, size, ours.record, sizeof ours.record, budget, ours.list, list_len,
             ours.answer, sizeof ours.answer);
        reference_search(n, m, (uint8_t *)table, size, theirs.record, sizeof theirs.record, budget,
                         theirs.list, list_len, theirs.answer, sizeof theirs.answer);
        if (memcmp(&ours, &theirs, sizeof ours) != 0) {
            printf("a C walk differs from the reference at n = %d, m = %d, degree %u\n", (int)n, (int)m, degree);
            exit(1);
        }
    }
}

int main(void) {
    for (unsigned k = 0; k < 350; k++) {
        uint64_t n = 1 + k % 7, m = below(4) > 0 ? 1 + below(n) : 1 + below(64);
        walk_system(n, m, 2, plain);
        walk_system(n, m, 2, unrolled);
        if (n == 1 || k % 2 == 0) continue; /* at n = 1 a record opens as quadratic */
        walk_system(n, m, 3, plain_cubic);
        walk_system(n, m, 3, unrolled_cubic);
    }
    puts("the C walks agree with the reference");
    return 0;
}
