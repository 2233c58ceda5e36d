/* The text of a graph file, read from standard input and printed tidied, with what it had in a line after it. Compiles as
   C99 and as C++. */
#include "vayudrit.h"

#include <stdio.h>

static uint8_t text[VAYUDRIT_MAX_TEXT_BYTES + 1], tidied[VAYUDRIT_MAX_TIDY_BYTES];

int main(void)
{
    uint64_t told[VAYUDRIT_TIDY_WORDS], r;
    size_t length = fread(text, 1, sizeof text, stdin);

    r = vayudrit_tidy(text, length, tidied, sizeof tidied, told, VAYUDRIT_TIDY_WORDS);
    if (r != VAYUDRIT_DONE) {
        printf("refused %d line %d\n", (int)VAYUDRIT_NUMBER(r), (int)VAYUDRIT_LINE(r));
        return 1;
    }
    fwrite(tidied, 1, (size_t)told[0], stdout);
    printf("bytes %d, comments %d, repeated %d, larger first %d\n", (int)told[0], (int)told[1], (int)told[2], (int)told[3]);
    return 0;
}
