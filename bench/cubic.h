/* What the cubic C walks and the cubic C evaluation add to walks.h: second slots, entries of triples, and C-12's rule of
 * examining a place. */
#ifndef BENCH_CUBIC_H
#define BENCH_CUBIC_H

#include "walks.h"

enum { PAIRS = 210 };

/* A walk of degree 3: one of degree 2 and its second slots. With the pair's number added, `triples` of b is the number of
 * the entry of xb*xc*xd, of all b at the walk's n. */
struct cubic_walk { struct walk w; vector second[PAIRS]; uint64_t triples[MOST_UNKNOWNS]; };

/* The number of a pair b <= c among n unknowns, in the order of the products. */
static inline uint64_t pair_of(uint64_t n, uint64_t b, uint64_t c) { return b * n - b * (b + 1) / 2 + c; }

static inline struct cubic_walk take_cubic(uint64_t n, const uint8_t *record) {
    struct cubic_walk x = {.w = take_record(n, record)};
    uint64_t next = 1 + n + n * (n + 1) / 2; /* the number of the first triple of b */
    memcpy(x.second, record + sizeof x.w.at, sizeof x.second);
    for (uint64_t b = 0; b < n; b++) { /* they go as the pairs from b on but for b, b */
        x.triples[b] = next - pair_of(n, b, b) - 1;
        next += (n - b) * (n - b + 1) / 2 - 1;
    }
    return x;
}

static inline void give_cubic(const struct cubic_walk *x, uint64_t stop, uint8_t *record, uint8_t *answer) {
    give_answer(&x->w, stop, record, answer);
    memcpy(record + sizeof x->w.at, x->second, sizeof x->second);
}

/* The table's entry of xb*xc*xd, b <= c <= d, not all equal. */
static inline vector triple(const struct cubic_walk *x, const uint8_t *table, uint64_t b, uint64_t c, uint64_t d) {
    vector v;
    memcpy(&v, table + 16 * (x->triples[b] + pair_of(x->w.at.n, c, d)), sizeof v);
    return v;
}

static inline vector *second_of(struct cubic_walk *x, uint64_t b, uint64_t c) {
    return &x->second[pair_of(MOST_UNKNOWNS, b, c)];
}

/* Moves to a place whose first position is b: where it has a third position the second slot is brought up to date, where
 * it has a second one that is added to the slot, and the slot to the value. */
static inline void move_cubic(struct cubic_walk *x, const uint8_t *table, uint64_t b, uint64_t left) {
    vector *slot = &x->w.at.slot[b];
    if (left > 0) {
        uint64_t c = next_position(&left, b);
        vector *second = second_of(x, b, c);
        if (left > 0) {
            *second = plus(*second, triple(x, table, b, c, next_position(&left, c)));
            x->w.additions++;
        }
        *slot = plus(*slot, *second);
        x->w.additions++;
    }
    x->w.at.value = plus(x->w.at.value, *slot);
    x->w.additions++;
}

/* Examines the walk's place, whichever it is. */
static inline void examine_cubic(struct cubic_walk *x, const uint8_t *table, uint8_t *list) {
    uint64_t left = x->w.at.place;
    if (left > 0) {
        uint64_t b = next_position(&left, 0);
        move_cubic(x, table, b, left);
    }
    if (x->w.at.value.high == 0) list_point(&x->w, list, point_of(x->w.at.place));
    x->w.at.place++;
    x->w.points++;
}

#endif
