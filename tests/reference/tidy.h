/* C-23 of document 02, as the second program has it: a graph file written back tidied. The reader is that of reference.c. */
#ifndef REFERENCE_TIDY_H
#define REFERENCE_TIDY_H

#include "reference.h"

enum { TIDY_WORDS = 4 }; /* bytes, comments, repeated, larger first */

/* A refusal's number plus 256 times its line, or 0. out and told are altered only then. */
uint64_t reference_tidy(const uint8_t *text, size_t text_len, uint8_t *out, size_t out_len, uint64_t *told, size_t told_len);

#endif
