/* What the two reports share: text in a picture, and files that are written whole or told as not. */
#ifndef BENCH_OUTPUT_H
#define BENCH_OUTPUT_H

#include <stdarg.h>
#include <stdio.h>
#include <stdlib.h>
#include <string.h>

static void write_text(FILE *f, double x, double y, const char *kind, const char *format, ...) {
    char text[600];
    va_list given;
    va_start(given, format);
    vsnprintf(text, sizeof text, format, given);
    va_end(given);
    fprintf(f, "<text class=\"%s\" x=\"%.1f\" y=\"%.1f\">", kind, x, y);
    for (const char *c = text; *c != '\0'; c++) {
        if (strchr("&<>\"", *c) != NULL) fprintf(f, "&#%d;", *c);
        else fputc(*c, f);
    }
    fputs("</text>\n", f);
}

static void write_file(const char *folder, const char *name, void write(FILE *)) {
    char path[1000];
    FILE *f = NULL;
    if (snprintf(path, sizeof path, "%s/%s", folder, name) < (int)sizeof path) f = fopen(path, "w");
    if (f != NULL) write(f);
    if (f == NULL || ferror(f) || fclose(f) != 0) {
        fprintf(stderr, "bench: cannot write %s\n", path);
        exit(1);
    }
}

#endif
