/* The plain C evaluation at a point: every coefficient times its unknowns, added up. It checks
 * nothing, and passes over nothing. */
#include "walks.h"

evaluate_function EVALUATE; /* the function's name, given when compiling */

/* Without branches, so that the time is the same at every point. */
static vector plus_times(vector sum, const uint64_t *entry, unsigned factor) {
    uint64_t kept = -(uint64_t)(factor != 0), turned = -(uint64_t)(factor == 2);
    return plus(sum, (vector){entry[0] & kept, (entry[1] ^ (entry[0] & turned)) & kept});
}

uint64_t EVALUATE(uint64_t n, uint64_t m, const uint64_t *coefficients, size_t coefficients_len, uint64_t point,
                  uint64_t *value, size_t value_len) {
    vector sum = {coefficients[0], coefficients[1]};
    unsigned x[MOST_UNKNOWNS];
    (void)m, (void)coefficients_len, (void)value_len;
    for (unsigned i = 0; i < n; i++, point /= 3)
        x[i] = point % 3;
    coefficients += 2;
    for (unsigned i = 0; i < n; i++, coefficients += 2)
        sum = plus_times(sum, coefficients, x[i]);
    for (unsigned i = 0; i < n; i++)
        for (unsigned j = i; j < n; j++, coefficients += 2)
            sum = plus_times(sum, coefficients, x[i] * x[j] % 3);
    value[0] = sum.high, value[1] = sum.low;
    return 0;
}
