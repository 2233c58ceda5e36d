/* What the two unrolled C walks share: blocks of 81 places, and the points of a block's zeros. */
#ifndef BENCH_BLOCKS_H
#define BENCH_BLOCKS_H

#include "walks.h"

enum { BLOCK = 81, LEVELS = 4 };

/* Lists the points of a block's hits: those of the head but for the lowest digits, which depend
 * on the place in the block and on the head's digit above. */
static void list_hits(struct walk *w, uint8_t *list, const uint8_t *hits, const uint8_t *end) {
    static uint8_t lowest[3 * BLOCK]; /* of the point of a place below 3 * BLOCK */
    uint64_t blocks = w->at.place / BLOCK, above = BLOCK * point_of(blocks);
    const uint8_t *low = lowest + blocks % 3 * BLOCK;
    if (lowest[1] == 0)
        for (unsigned k = 0; k < sizeof lowest; k++)
            lowest[k] = (uint8_t)(point_of(k) % BLOCK);
    for (; hits < end; hits++)
        list_point(w, list, above + low[*hits]);
}

#endif
