/* The plain C evaluation of a cubic system at a point: every coefficient times its unknowns, added
 * up. It checks nothing, and passes over nothing. */
#include "walks.h"

evaluate_function EVALUATE; /* the function's name, given when compiling */

/* A vector times 0, 1 or 2, without branches, so that the time is the same at every point. */
static vector times(const uint64_t *entry, unsigned factor) {
    uint64_t high = entry[0] & -(uint64_t)(factor != 0);
    return (vector){high, (entry[1] & high) ^ (high & -(uint64_t)(factor == 2))};
}

uint64_t EVALUATE(uint64_t n, uint64_t m, const uint64_t *coefficients, size_t coefficients_len, uint64_t point,
                  uint64_t *value, size_t value_len) {
    const uint64_t *next = coefficients + 2;
    vector sum = {coefficients[0], coefficients[1]};
    unsigned x[MOST_UNKNOWNS];
    (void)m, (void)coefficients_len, (void)value_len;
    for (unsigned i = 0; i < n; i++, point /= 3)
        x[i] = point % 3;
    for (unsigned i = 0; i < n; i++, next += 2)
        sum = plus(sum, times(next, x[i]));
    for (unsigned i = 0; i < n; i++)
        for (unsigned j = i; j < n; j++, next += 2)
            sum = plus(sum, times(next, x[i] * x[j] % 3));
    for (unsigned i = 0; i < n; i++)
        for (unsigned j = i; j < n; j++)
            for (unsigned k = i < j ? j : j + 1; k < n; k++, next += 2)
                sum = plus(sum, times(next, x[i] * x[j] * x[k] % 3));
    value[0] = sum.high, value[1] = sum.low;
    return 0;
}
