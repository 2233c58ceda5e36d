/* A stand-in for the library: the plain walks and evaluations behind its interface, so that the
 * benchmark can be tried without it. Compiled with -DFAULT=K it carries a fault; the runner has to
 * say in words what came of it. Beside each fault stand the words of a walk and of evaluations, and
 * those of degree 3 where they are others. */
#define WALK stub_walk
#define EVALUATE stub_evaluate
#include "plain.c"
#include "evaluate.c"
#undef WALK
#undef EVALUATE
#define WALK stub_walk_cubic
#define EVALUATE stub_evaluate_cubic
#include "plain_cubic.c"
#include "evaluate_cubic.c"
#include "../tests/reference/interface.h"

#include <stdlib.h>

enum fault {
    GIVES_UP = 1,      /* spent, ended */
    FILLS_UP,          /* full, ended */
    REFUSES,           /* refused 5, refused 5 */
    GIVES_UP_AS_ENDED, /* miscounted, ended */
    NO_POINTS,         /* miscounted, ended */
    CLAIMS_ALL,        /* miscounted, ended */
    ONE_ADDITION_LESS, /* miscounted, ended */
    ONE_ZERO_LESS,     /* miscounted, ended */
    WRONG_ZERO,        /* miscounted, ended */
    ENTRY_PAST_FOUND,  /* miscounted, ended */
    STALE_RECORD,      /* miscounted, ended */
    ABORTS,            /* crashed, crashed */
    LEAVES,            /* crashed, crashed */
    HANGS,             /* timed out, ended */
    WRONG_VALUE,       /* ended, miscounted */
    NO_DEGREE_3,       /* ended, ended, refused 2, refused 2 */
    STALE_SECOND_SLOT, /* ended, ended, miscounted, ended */
    TWO_ADDITIONS      /* ended, ended, miscounted, ended */
};

uint64_t vayudrit_search(uint64_t n, uint64_t m, const uint8_t *table, size_t table_len,
                         uint8_t *record, size_t record_len, uint64_t budget, uint8_t *list,
                         size_t list_len, uint8_t *answer, size_t answer_len) {
    uint64_t word[ANSWER_WORDS], end = take_record(n, record).end;
    int cubic = degree_of(n, table_len / 8) == 3;
    search_function *walk = cubic ? stub_walk_cubic : stub_walk;
    if (FAULT == REFUSES) return 5;
    if (FAULT == NO_DEGREE_3 && cubic) return 2;
    if (FAULT == ABORTS) abort();
    if (FAULT == LEAVES) exit(0);
    for (volatile int hangs = FAULT == HANGS && m == 2; hangs;) {}
    if ((FAULT == GIVES_UP || FAULT == GIVES_UP_AS_ENDED) && budget > 10) budget = 10;
    if (FAULT == FILLS_UP) list_len = 8;
    walk(n, m, table, table_len, record, record_len, budget, list, list_len, answer, answer_len);
    memcpy(word, answer, sizeof word);
    if (FAULT == GIVES_UP_AS_ENDED || FAULT == NO_POINTS) word[ANSWER_STOP] = ENDED;
    if (FAULT == NO_POINTS) word[ANSWER_POINTS] = 0;
    if (FAULT == CLAIMS_ALL) memset(list, 0xa5, 8 * word[ANSWER_FOUND]), word[ANSWER_FOUND] = 0;
    if (FAULT == ONE_ADDITION_LESS) word[ANSWER_ADDITIONS]--;
    if (FAULT == ONE_ZERO_LESS && word[ANSWER_FOUND] > 0) word[ANSWER_FOUND]--;
    if (FAULT == WRONG_ZERO && word[ANSWER_FOUND] > 0) list[0] ^= 1;
    if (FAULT == ENTRY_PAST_FOUND && 8 * word[ANSWER_FOUND] < list_len) list[8 * word[ANSWER_FOUND]] = 0;
    if (FAULT == STALE_RECORD && word[ANSWER_PLACE] == end) record[8 * RECORD_VALUE] ^= 1;
    if (FAULT == STALE_SECOND_SLOT && cubic) record[8 * second_slot(0, 1)] ^= 1;
    if (FAULT == TWO_ADDITIONS && cubic) word[ANSWER_ADDITIONS] = 2 * word[ANSWER_POINTS];
    memcpy(answer, word, sizeof word);
    return 0;
}

uint64_t vayudrit_evaluate(uint64_t n, uint64_t m, const uint64_t *coefficients, size_t coefficients_len,
                           uint64_t point, uint64_t *value, size_t value_len) {
    int cubic = degree_of(n, coefficients_len) == 3;
    evaluate_function *evaluate = cubic ? stub_evaluate_cubic : stub_evaluate;
    if (FAULT == REFUSES) return 5;
    if (FAULT == NO_DEGREE_3 && cubic) return 2;
    if (FAULT == ABORTS) abort();
    if (FAULT == LEAVES) exit(0);
    evaluate(n, m, coefficients, coefficients_len, point, value, value_len);
    if (FAULT == WRONG_VALUE) value[0] ^= 1;
    return 0;
}
