/* The plain C walk: the loop that document 01 describes, and nothing else. Both positions of a
 * place are found by division; end, list and budget are asked after each point. */
#include "walks.h"

search_function WALK; /* the function's name, given when compiling */

uint64_t WALK(uint64_t n, uint64_t m, const uint8_t *table, size_t table_len, uint8_t *record,
              size_t record_len, uint64_t budget, uint8_t *list, size_t list_len,
              uint8_t *answer, size_t answer_len) {
    struct walk w = take_record(n, record);
    uint64_t entries = list_len / 8, stop = ENDED;
    (void)m, (void)table_len, (void)record_len, (void)answer_len;
    while (w.at.place < w.end) {
        examine(&w, table, list);
        if (w.at.place == w.end) break;
        if (w.found == entries) { stop = FULL; break; }
        if (w.points == budget) { stop = SPENT; break; }
    }
    give_answer(&w, stop, record, answer);
    return 0;
}
