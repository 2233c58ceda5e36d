/* The C walk of degree 3 unrolled by hand, in blocks of 81 places. Inside of a block the positions
 * are known and nothing is asked but "is the value zero". With c, d the first positions of a head 3k,
 * the place 3k+1 has the positions 0, c, d and the place 3k+2 has 0, 0, c; and so on one level up. A
 * block needs a head of two positions or more, so that those with one, places 3^k, are walked place by
 * place, as are the places before the first whole block and after the last. A block in which the list
 * would fill up is undone and walked place by place. */
#include "blocks.h"
#include "cubic.h"

search_function WALK; /* the function's name, given when compiling */

/* Value, low slots and their second slots are locals of `walk_blocks`; the entry of xb*xc*xd is xbcd
 * there, and the positions of a block's head are h and i. */
#define NOTE(k) if (value.high == 0) *hit++ = (uint8_t)(k);
#define MOVE(b, c, d) \
    second##b##c = plus(second##b##c, x##b##c##d); slot##b = plus(slot##b, second##b##c); value = plus(value, slot##b);
#define WALK_3(k, c, d) NOTE(k) MOVE(0, c, d) NOTE(k + 1) MOVE(0, 0, c) NOTE(k + 2)
#define WALK_9(k, c, d) WALK_3(k, c, d) MOVE(1, c, d) WALK_3(k + 3, 1, c) MOVE(1, 1, c) WALK_3(k + 6, 1, 1)
#define WALK_27(k, c, d) WALK_9(k, c, d) MOVE(2, c, d) WALK_9(k + 9, 2, c) MOVE(2, 2, c) WALK_9(k + 18, 2, 2)
#define WALK_81(c, d) WALK_27(0, c, d) MOVE(3, c, d) WALK_27(27, 3, c) MOVE(3, 3, c) WALK_27(54, 3, 3)
#define ENTRY(b, c, d) const vector x##b##c##d = triple(x, table, b, c, d);
#define SECOND(b, c) vector second##b##c = *second_of(x, b, c);
#define KEEP(b, c) *second_of(x, b, c) = second##b##c;
#define LOW_PAIRS(DO) \
    DO(0, 0) DO(0, 1) DO(0, 2) DO(0, 3) DO(1, 1) DO(1, 2) DO(1, 3) DO(2, 2) DO(2, 3) DO(3, 3)

/* Walks blocks from the head of one, while they end at or before the limit, leave an entry of the
 * list free, and their heads have two positions. */
static void walk_blocks(struct cubic_walk *x, const uint8_t *table, uint64_t limit, uint8_t *list, uint64_t entries) {
    struct walk *w = &x->w;
    uint8_t hits[BLOCK];
    ENTRY(0, 0, 1) ENTRY(0, 0, 2) ENTRY(0, 0, 3) ENTRY(0, 1, 1) ENTRY(0, 1, 2) ENTRY(0, 1, 3) ENTRY(0, 2, 2)
    ENTRY(0, 2, 3) ENTRY(0, 3, 3) ENTRY(1, 1, 2) ENTRY(1, 1, 3) ENTRY(1, 2, 2) ENTRY(1, 2, 3) ENTRY(1, 3, 3)
    ENTRY(2, 2, 3) ENTRY(2, 3, 3)
    vector slot0 = w->at.slot[0], slot1 = w->at.slot[1], slot2 = w->at.slot[2], slot3 = w->at.slot[3];
    LOW_PAIRS(SECOND)
    while (w->at.place + BLOCK <= limit) {
        uint64_t left = w->at.place / BLOCK, h = next_position(&left, LEVELS), rest = left;
        if (left == 0) break;
        uint64_t i = next_position(&rest, h), additions = w->additions;
        uint8_t *hit = hits;
        const vector old_value = w->at.value, old_slot = w->at.slot[h], old_second = *second_of(x, h, i);
        move_cubic(x, table, h, left);
        vector value = w->at.value;
        ENTRY(0, 0, h) ENTRY(0, 1, h) ENTRY(0, 2, h) ENTRY(0, 3, h) ENTRY(1, 1, h) ENTRY(1, 2, h) ENTRY(1, 3, h)
        ENTRY(2, 2, h) ENTRY(2, 3, h) ENTRY(3, 3, h) ENTRY(0, h, i) ENTRY(1, h, i) ENTRY(2, h, i) ENTRY(3, h, i)
        SECOND(0, h) SECOND(1, h) SECOND(2, h) SECOND(3, h)
        WALK_81(h, i)
        if (w->found + (uint64_t)(hit - hits) >= entries) {
            w->at.value = old_value, w->at.slot[h] = old_slot, *second_of(x, h, i) = old_second;
            w->additions = additions;
            break;
        }
        if (hit > hits) list_hits(w, list, hits, hit);
        w->at.value = value;
        w->at.slot[0] = slot0, w->at.slot[1] = slot1, w->at.slot[2] = slot2, w->at.slot[3] = slot3;
        LOW_PAIRS(KEEP)
        KEEP(0, h) KEEP(1, h) KEEP(2, h) KEEP(3, h)
        w->at.place += BLOCK;
        w->points += BLOCK;
        w->additions += 3 * (BLOCK - 1);
    }
}

uint64_t WALK(uint64_t n, uint64_t m, const uint8_t *table, size_t table_len, uint8_t *record,
              size_t record_len, uint64_t budget, uint8_t *list, size_t list_len,
              uint8_t *answer, size_t answer_len) {
    struct cubic_walk x = take_cubic(n, record);
    uint64_t entries = list_len / 8, stop = ENDED, last = x.w.end;
    (void)m, (void)table_len, (void)record_len, (void)answer_len;
    if (budget < x.w.end - x.w.at.place) last = x.w.at.place + budget;
    while (x.w.at.place < x.w.end) {
        if (x.w.at.place % BLOCK == 0 && x.w.at.place > 0)
            walk_blocks(&x, table, last, list, entries);
        if (x.w.at.place < last) examine_cubic(&x, table, list);
        if (x.w.at.place == x.w.end) break;
        if (x.w.found == entries) { stop = FULL; break; }
        if (x.w.points == budget) { stop = SPENT; break; }
    }
    give_cubic(&x, stop, record, answer);
    return 0;
}
