/* What the C walks and the C evaluation share: vectors of trits, the record, and document 01's rule of examining
 * a place. They check nothing that they are lent; the library does. Bytes are read as words in
 * place, so the machine must store the lowest byte first. */
#ifndef BENCH_WALKS_H
#define BENCH_WALKS_H

#include "../tests/reference/reference.h" /* for its names of document 01's numbers */

#include <string.h>

/* A search, with the parameters of vayudrit_search. */
typedef uint64_t search_function(uint64_t n, uint64_t m, const uint8_t *table, size_t table_len,
                                 uint8_t *record, size_t record_len, uint64_t budget,
                                 uint8_t *list, size_t list_len,
                                 uint8_t *answer, size_t answer_len);

/* An evaluation at a point, with the parameters of vayudrit_evaluate. */
typedef uint64_t evaluate_function(uint64_t n, uint64_t m, const uint64_t *coefficients, size_t coefficients_len,
                                   uint64_t point, uint64_t *value, size_t value_len);

/* Up to 64 trits: 0 is 00, 1 is 10, 2 is 11, high first. */
typedef struct { uint64_t high, low; } vector;

static inline vector plus(vector a, vector b) {
    uint64_t s = a.high ^ b.low, t = a.low ^ b.high;
    return (vector){(t ^ b.low) | (s ^ a.low), s & t};
}

/* A walk record in words, and what one call has counted. */
struct walk {
    struct record { uint64_t n, m, place; vector value, slot[MOST_UNKNOWNS]; } at;
    uint64_t end, points, additions, found;
};

static inline struct walk take_record(uint64_t n, const uint8_t *record) {
    struct walk w = {.end = 1};
    memcpy(&w.at, record, sizeof w.at);
    while (n-- > 0)
        w.end *= 3;
    return w;
}

static inline void give_answer(const struct walk *w, uint64_t stop, uint8_t *record,
                               uint8_t *answer) {
    uint64_t words[] = {stop, w->at.place, w->points, w->additions, w->found};
    memcpy(record, &w->at, sizeof w->at);
    memcpy(answer, words, sizeof words);
}

/* The table's entry of xb*xc, b <= c. */
static inline vector entry(uint64_t n, const uint8_t *table, uint64_t b, uint64_t c) {
    vector v;
    memcpy(&v, table + 16 * (1 + n + b * (2 * n - b + 1) / 2 + c - b), sizeof v);
    return v;
}

/* Digit k of the point is digit k of the place minus digit k+1, modulo 3. */
static inline uint64_t point_of(uint64_t place) {
    uint64_t point = 0, power = 1;
    for (; place > 0; place /= 3, power *= 3)
        point += (place % 3 + 3 - place / 3 % 3) % 3 * power;
    return point;
}

static inline void list_point(struct walk *w, uint8_t *list, uint64_t point) {
    memcpy(list + 8 * w->found++, &point, sizeof point);
}

/* The first position of a number that is not 0, counted on from b. The number becomes what is
 * left of it: less 1 at that position, and without the zeros below. */
static inline uint64_t next_position(uint64_t *left, uint64_t b) {
    for (; *left % 3 == 0; *left /= 3)
        b++;
    *left -= 1;
    return b;
}

/* Moves to a place whose first position is b: its slot is brought up to date, unless nothing is
 * left of the place and so this is the unknown's first move, and added to the value. */
static inline void move(struct walk *w, const uint8_t *table, uint64_t b, uint64_t left) {
    if (left > 0) {
        vector change = entry(w->at.n, table, b, next_position(&left, b));
        w->at.slot[b] = plus(w->at.slot[b], change);
        w->additions++;
    }
    w->at.value = plus(w->at.value, w->at.slot[b]);
    w->additions++;
}

/* Examines the walk's place, whichever it is. */
static inline void examine(struct walk *w, const uint8_t *table, uint8_t *list) {
    uint64_t left = w->at.place;
    if (left > 0) {
        uint64_t b = next_position(&left, 0);
        move(w, table, b, left);
    }
    if (w->at.value.high == 0) list_point(w, list, point_of(w->at.place));
    w->at.place++;
    w->points++;
}

#endif
