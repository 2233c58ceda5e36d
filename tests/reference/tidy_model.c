/* C-23 as a program: a graph file on standard input, the tidied text or the refusal on standard output, and on standard error the
 * comment lines, repeated edges and lines with the larger vertex first, in one line of three numbers. */
#include "tidy.h"

#include <inttypes.h>
#include <stdio.h>
#include <stdlib.h>

int main(void) {
    static uint8_t text[READER_BYTES + 1], out[4096]; /* one byte above the border tells 15 */
    uint64_t told[TIDY_WORDS];
    size_t length = fread(text, 1, sizeof text, stdin);
    uint64_t refusal = reference_tidy(text, length, out, sizeof out, told, TIDY_WORDS);
    if (ferror(stdin)) return 1;
    if (refusal != 0)
        printf("refused %" PRIu64 " line %" PRIu64 "\n", refusal % 256, refusal / 256);
    else {
        fwrite(out, 1, told[0], stdout);
        fprintf(stderr, "%" PRIu64 " %" PRIu64 " %" PRIu64 "\n", told[1], told[2], told[3]);
    }
    return fflush(stdout) != 0 || ferror(stdout);
}
