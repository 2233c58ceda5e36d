/* The C walk unrolled by hand, in blocks of 81 places. Inside of a block the positions are
 * known and nothing is asked but "is the value zero". With h the first position of a block's
 * head, the place 3k+1 has the positions 0 and that of 3k, the place 3k+2 has 0 and 0, and so on
 * one level up. A block in which the list would fill up is undone and walked place by place, as
 * are the places before the first whole block, of that one, and after the last. */
#include "blocks.h"

search_function WALK; /* the function's name, given when compiling */

/* Value and low slots are locals of `blocks`; the entry of xb*xc is tbc there. */
#define NOTE(k) if (value.high == 0) *hit++ = (uint8_t)(k);
#define MOVE(b, change) slot##b = plus(slot##b, change); value = plus(value, slot##b);
#define WALK_3(k, x0h) \
    NOTE(k) MOVE(0, x0h) NOTE(k + 1) MOVE(0, x00) NOTE(k + 2)
#define WALK_9(k, x0h, x1h) \
    WALK_3(k, x0h) MOVE(1, x1h) WALK_3(k + 3, x01) MOVE(1, x11) WALK_3(k + 6, x01)
#define WALK_27(k, x0h, x1h, x2h) \
    WALK_9(k, x0h, x1h) MOVE(2, x2h) WALK_9(k + 9, x02, x12) MOVE(2, x22) WALK_9(k + 18, x02, x12)
#define WALK_81(x0h, x1h, x2h, x3h) \
    WALK_27(0, x0h, x1h, x2h) MOVE(3, x3h) WALK_27(27, x03, x13, x23) \
    MOVE(3, x33) WALK_27(54, x03, x13, x23)
#define ENTRY(b, c) const vector x##b##c = entry(n, table, b, c);

/* Walks blocks from the head of one, while they end at or before the limit and leave an entry of
 * the list free. */
static void walk_blocks(struct walk *w, const uint8_t *table, uint64_t limit, uint8_t *list,
                        uint64_t entries) {
    const uint64_t n = w->at.n;
    uint8_t hits[BLOCK];
    ENTRY(0, 0) ENTRY(0, 1) ENTRY(0, 2) ENTRY(0, 3) ENTRY(1, 1) ENTRY(1, 2) ENTRY(1, 3)
    ENTRY(2, 2) ENTRY(2, 3) ENTRY(3, 3)
    vector slot0 = w->at.slot[0], slot1 = w->at.slot[1], slot2 = w->at.slot[2];
    vector slot3 = w->at.slot[3];
    while (w->at.place + BLOCK <= limit) {
        uint64_t left = w->at.place / BLOCK, h = next_position(&left, LEVELS);
        uint64_t additions = w->additions;
        uint8_t *hit = hits;
        const vector old_value = w->at.value, old_slot = w->at.slot[h];
        move(w, table, h, left);
        vector value = w->at.value;
        WALK_81(entry(n, table, 0, h), entry(n, table, 1, h), entry(n, table, 2, h),
                entry(n, table, 3, h))
        if (w->found + (uint64_t)(hit - hits) >= entries) {
            w->at.value = old_value, w->at.slot[h] = old_slot, w->additions = additions;
            break;
        }
        if (hit > hits) list_hits(w, list, hits, hit);
        w->at.value = value;
        w->at.slot[0] = slot0, w->at.slot[1] = slot1, w->at.slot[2] = slot2;
        w->at.slot[3] = slot3;
        w->at.place += BLOCK;
        w->points += BLOCK;
        w->additions += 2 * (BLOCK - 1);
    }
}

uint64_t WALK(uint64_t n, uint64_t m, const uint8_t *table, size_t table_len, uint8_t *record,
              size_t record_len, uint64_t budget, uint8_t *list, size_t list_len,
              uint8_t *answer, size_t answer_len) {
    struct walk w = take_record(n, record);
    uint64_t entries = list_len / 8, stop = ENDED, last = w.end;
    (void)m, (void)table_len, (void)record_len, (void)answer_len;
    if (budget < w.end - w.at.place) last = w.at.place + budget;
    while (w.at.place < w.end) {
        if (w.at.place % BLOCK == 0 && w.at.place > 0)
            walk_blocks(&w, table, last, list, entries);
        if (w.at.place < last) examine(&w, table, list);
        if (w.at.place == w.end) break;
        if (w.found == entries) { stop = FULL; break; }
        if (w.points == budget) { stop = SPENT; break; }
    }
    give_answer(&w, stop, record, answer);
    return 0;
}
