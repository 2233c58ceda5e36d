/* The plain C walk of degree 3: the loop that C-12 describes, and nothing else. All positions of a
 * place are found by division; end, list and budget are asked after each point. */
#include "cubic.h"

search_function WALK; /* the function's name, given when compiling */

uint64_t WALK(uint64_t n, uint64_t m, const uint8_t *table, size_t table_len, uint8_t *record,
              size_t record_len, uint64_t budget, uint8_t *list, size_t list_len,
              uint8_t *answer, size_t answer_len) {
    struct cubic_walk x = take_cubic(n, record);
    uint64_t entries = list_len / 8, stop = ENDED;
    (void)m, (void)table_len, (void)record_len, (void)answer_len;
    while (x.w.at.place < x.w.end) {
        examine_cubic(&x, table, list);
        if (x.w.at.place == x.w.end) break;
        if (x.w.found == entries) { stop = FULL; break; }
        if (x.w.points == budget) { stop = SPENT; break; }
    }
    give_cubic(&x, stop, record, answer);
    return 0;
}
