/* Texts for the reader of graph files, valid and damaged.
 *
 *   graph_texts SEED K                  writes text K of the seed to standard output
 *   graph_texts SEED COUNT FOLDER [MOST] writes texts 1 to COUNT to FOLDER/1, FOLDER/2, ...
 *
 * Every third text is valid. The others go through the damages below in turn; a damage may
 * leave a text valid. No text that is valid has more than MOST vertices (9 unless it is named), so
 * that a search takes milliseconds: reference.c reads each text, and a larger one is drawn again. */
#include "random.h"
#include "reference.h"

#include <inttypes.h>
#include <stdarg.h>
#include <stdio.h>
#include <stdlib.h>
#include <string.h>

enum { ROOM = 70000 };

static unsigned most = 9;
static uint8_t text[ROOM];
static size_t length;

static void fail(const char *what) {
    fprintf(stderr, "graph_texts: %s\n", what);
    exit(2);
}

/* ---- random parts ---- */

static unsigned below(size_t bound) { return (unsigned)(random_word() % bound); }
static int one_in(unsigned bound) { return below(bound) == 0; }
#define COUNT_OF(array) (sizeof (array) / sizeof (array)[0])
#define ONE_OF(...) (((const unsigned[]){__VA_ARGS__})[below(COUNT_OF(((const unsigned[]){__VA_ARGS__})))])

/* ---- editing the text ---- */

static void insert(size_t at, const void *bytes, size_t count) {
    if (count > ROOM - length) fail("no room");
    memmove(text + at + count, text + at, length - at);
    memcpy(text + at, bytes, count);
    length += count;
}

static void erase(size_t at, size_t count) {
    memmove(text + at, text + at + count, length - at - count);
    length -= count;
}

static void insert_format(size_t at, const char *format, ...) {
    char line[200];
    va_list arguments;
    va_start(arguments, format);
    int count = vsnprintf(line, sizeof line, format, arguments);
    va_end(arguments);
    insert(at, line, (size_t)count);
}
#define APPEND(...) insert_format(length, __VA_ARGS__)

static size_t line_end(size_t at) {
    while (at < length && text[at] != '\n')
        at++;
    return at;
}

static size_t next_line(size_t at) {
    at = line_end(at);
    return at < length ? at + 1 : at;
}

/* The starts of the lines that begin with one of the letters, or of all; how many there are. */
static unsigned lines_of(const char *letters, size_t start[ROOM]) {
    unsigned count = 0;
    for (size_t at = 0; at < length; at = next_line(at))
        if (*letters == 0 || (text[at] != 0 && strchr(letters, text[at]) != NULL))
            start[count++] = at;
    return count;
}

/* The start of some such line, or the end of the text. */
static size_t some_line(const char *letters) {
    static size_t start[ROOM];
    unsigned count = lines_of(letters, start);
    return count > 0 ? start[below(count)] : length;
}

static void replace_line(size_t at, const char *format, unsigned a, unsigned b) {
    erase(at, line_end(at) - at);
    insert_format(at, format, a, b);
}

/* A place in the line where such a byte stands, or the line's end. */
static size_t some_byte(size_t at, const char *bytes) {
    size_t found = line_end(at);
    unsigned seen = 0;
    for (size_t end = found; at < end; at++)
        if (text[at] != 0 && strchr(bytes, text[at]) != NULL && one_in(++seen)) found = at;
    return found;
}

/* ---- valid texts ---- */

static unsigned vertices, edges; /* as declared */

static void append_comment(void) {
    unsigned bytes = one_in(4) ? below(300) : below(20);
    if (one_in(4)) {
        APPEND("c\n");
        return;
    }
    APPEND("c ");
    for (; bytes > 0; bytes--) {
        uint8_t byte = (uint8_t)ONE_OF(below(256), ' ' + below(95), '\r', 0, 'e', 'p', ' ');
        insert(length, &byte, byte != '\n');
    }
    APPEND("\n");
}

static void append_edge(void) {
    unsigned a = below(vertices), b = (a + 1 + below(vertices - 1)) % vertices;
    APPEND("e %u %u\n", a + 1, b + 1);
}

/* Comments anywhere or nowhere; edges in both orders, many of them again; the last line feed or not. */
static void write_graph(unsigned n, unsigned m) {
    unsigned comments = ONE_OF(0, 0, 2, 6);
    vertices = n;
    edges = m;
    length = 0;
    while (comments > 0 && one_in(2))
        append_comment();
    APPEND("p edge %u %u\n", n, m);
    for (unsigned e = 0; e < m; e++) {
        while (comments > 0 && one_in(10 - comments))
            append_comment();
        append_edge();
    }
    while (comments > 0 && one_in(3))
        append_comment();
    if (one_in(3)) length--;
}

static void write_valid(void) {
    unsigned n = 2 + below(most - 1);
    write_graph(n, ONE_OF(1, 1 + below(n), 1 + below(2 * n), 1 + below(64), 64, 65, 65 + below(100)));
}

/* Comments between the lines, so many and so long that the text has so many bytes. */
static void pad(size_t bytes) {
    static char line[ROOM];
    while (length < bytes) {
        size_t count = bytes - length; /* at least 2, also after a part of it */
        if (count > 1000 && one_in(2)) count = 2 + below(997);
        memset(line, 'x', count);
        memcpy(line, "c ", 2);
        line[count - 1] = '\n';
        insert(some_line(""), line, count);
    }
}

/* ---- damages ---- */

/* A line of no known shape, or of one that is easily taken for another. */
static const char *const shapes[] = {
    "p col 3 2", "P edge 3 2", "p edge", "p  edge 3 2", "pedge 3 2", "p edges 3 2", "p edge 3 2 1",
    "p edge 3 ", "p edge  ", "p", "e", "e  ", "e 1 ", "E 1 2", "ee 1 2", "1 2", "n 1 2", "a 1 2",
    "e 1 2 3", "e 1 2 ", " e 1 2", "e\t1 2", "e 1\t2", "e +1 2", "e -1 2", "e 1,2", "e 1 2c",
    "e 1.0 2", "e 0x1 2", "e 1 00", "e 1 2\v", "e \xd9\xa1 2", "cc", "C comment", "c\tcomment",
    "comment", " c comment", "\xef\xbb\xbf" "c mark", "x", " ", "\t"};

enum damage {
    /* of numbers */
    LEADING_ZERO, DOUBLE_SPACE, MISSING_NUMBER, SIX_DIGITS, FIVE_DIGITS, VERTEX_ZERO, VERTEX_ABOVE,
    SECOND_VERTEX_ABOVE, LOOP,
    /* of the order and number of lines */
    SECOND_P, SECOND_P_BAD, E_BEFORE_P, NO_P, EDGE_TOO_MANY, BAD_EDGE_TOO_MANY, EDGE_TOO_FEW,
    DECLARED_OTHERWISE, BAD_VERTICES, BAD_EDGES, LINE_TWICE, LINE_LOST,
    /* of bytes */
    EMPTY_LINE, CARRIAGE_RETURN, CARRIAGE_RETURNS, CARRIAGE_RETURN_ALONE, OTHER_SHAPE, OTHER_LINE,
    FLIPPED_BIT, OTHER_BYTE, CUT, BYTE_INSERTED, BYTE_LOST,
    /* of the size */
    LONG_COMMENT, LONG_LINE, FULL_SIZE, ONE_BYTE_ABOVE, FAR_ABOVE,
    /* texts of another origin */
    ONE_VERTEX, LARGEST, MANY_EDGES, MANY_LINES, NOTHING, ANY_BYTES, DAMAGES
};

static void damage_numbers(enum damage kind) {
    size_t at = some_line("pe"), digit = some_byte(at, "123456789");
    size_t space = some_byte(at, " ");
    unsigned a = 1 + below(vertices), above = vertices + ONE_OF(1, 1, 2, 256, 1 + below(90000));
    switch (kind) {
    case LEADING_ZERO: insert(digit, "000000", 1 + below(ONE_OF(1, 6))); break;
    case DOUBLE_SPACE: insert(space, "   ", 1 + below(3)); break;
    case MISSING_NUMBER: erase(digit, one_in(2) ? 1 : line_end(at) - digit); break;
    case SIX_DIGITS: insert_format(digit, "%u", 10000 + below(90000)); break;
    case FIVE_DIGITS:
        replace_line(at, text[at] == 'p' ? "p edge %u %u" : "e %u %u",
                     ONE_OF(10000 + below(90000), 99999, a), ONE_OF(65536 + a, 99999));
        break;
    case VERTEX_ZERO: replace_line(some_line("e"), "e %u %u", ONE_OF(0, 0, a), 0); break;
    case VERTEX_ABOVE: replace_line(some_line("e"), "e %u %u", above, a); break;
    case SECOND_VERTEX_ABOVE: replace_line(some_line("e"), "e %u %u", a, above); break;
    default: replace_line(some_line("e"), "e %u %u", a, a); break; /* LOOP */
    }
}

static void damage_structure(enum damage kind) {
    static uint8_t line[ROOM];
    size_t p = some_line("p"), e = some_line("e"), at;
    unsigned a = 1 + below(vertices), b = 1 + below(vertices);
    if (text[length - 1] != '\n') APPEND("\n");
    at = one_in(4) ? length : some_line("");
    switch (kind) {
    case SECOND_P: insert_format(at, "p edge %u %u\n", vertices, edges); break;
    case SECOND_P_BAD: insert_format(at, "p edge %u %u\n", ONE_OF(0, 21, a), ONE_OF(0, 65, 4097)); break;
    case E_BEFORE_P: insert_format(p, "e %u %u\n", ONE_OF(a, 0), ONE_OF(b, a)); break;
    case NO_P: erase(p, next_line(p) - p); break;
    case EDGE_TOO_MANY: insert_format(e, "e %u %u\n", a, a % vertices + 1); break;
    case BAD_EDGE_TOO_MANY: insert_format(length, "e %u %u\n", a, ONE_OF(a, 0, vertices + 1)); break;
    case EDGE_TOO_FEW: erase(e, next_line(e) - e); break;
    case DECLARED_OTHERWISE: replace_line(p, "p edge %u %u", vertices, 1 + below(64)); break;
    case BAD_VERTICES: replace_line(p, "p edge %u %u", ONE_OF(0, 21, 22, 256 + a), edges); break;
    case BAD_EDGES: replace_line(p, "p edge %u %u", vertices, ONE_OF(0, 4097, 4098, 9000 + a)); break;
    case LINE_TWICE:
        memcpy(line, text + at, next_line(at) - at);
        insert(some_line(""), line, next_line(at) - at);
        break;
    default: erase(at, next_line(at) - at); break; /* LINE_LOST */
    }
    if (one_in(3) && length > 0) length--;
}

static void damage_bytes(enum damage kind) {
    size_t at = below(length);
    uint8_t byte = (uint8_t)ONE_OF(below(256), '0' + below(10), ' ', '\n', '\r', '\t', 0, 'e');
    switch (kind) {
    case EMPTY_LINE: insert(one_in(3) ? length : some_line(""), "\n\n", 1 + below(2)); break;
    case CARRIAGE_RETURN: insert(line_end(some_line("")), "\r", 1); break;
    case CARRIAGE_RETURNS:
        for (size_t end = line_end(0); end < length; end = line_end(end + 2))
            insert(end, "\r", 1);
        break;
    case CARRIAGE_RETURN_ALONE: text[line_end(below(length - 1))] = '\r'; break;
    case OTHER_SHAPE: insert_format(some_line(""), "%s\n", shapes[below(COUNT_OF(shapes))]); break;
    case OTHER_LINE: replace_line(some_line("pe"), shapes[below(COUNT_OF(shapes))], 0, 0); break;
    case FLIPPED_BIT: text[at] ^= (uint8_t)(1 << below(8)); break;
    case OTHER_BYTE: text[at] = byte; break;
    case CUT: length = at; break;
    case BYTE_INSERTED: insert(at, &byte, 1); break;
    default: erase(at, 1); break; /* BYTE_LOST */
    }
}

static void damage_size(enum damage kind) {
    static char many[ROOM];
    size_t count = 1 + below(READER_BYTES - 1 - length);
    switch (kind) {
    case LONG_COMMENT:
        insert_format(some_line(""), "c \n");
        memset(many, "c x\r"[below(4)], count);
        break;
    case LONG_LINE: memset(many, " 0172"[below(5)], count); break;
    case FULL_SIZE: pad(READER_BYTES); return;
    case ONE_BYTE_ABOVE: pad(READER_BYTES + 1); return;
    default: pad(READER_BYTES + 2 + below(READER_BYTES - 2)); return; /* FAR_ABOVE */
    }
    insert(line_end(some_line(kind == LONG_LINE ? "pe" : "c")), many, count);
}

/* Texts that are not made of a small graph. */
static void write_other(enum damage kind) {
    size_t count = below(60);
    switch (kind) {
    case ONE_VERTEX:
        write_graph(2, 1);
        replace_line(some_line("p"), "p edge %u %u", 1, ONE_OF(1, 64));
        return;
    case LARGEST: /* at the borders and refused for another reason */
        write_graph(ONE_OF(20, 20, 19, 10), ONE_OF(64, 64, 63));
        damage_structure(ONE_OF(SECOND_P, EDGE_TOO_MANY, BAD_EDGE_TOO_MANY, EDGE_TOO_FEW));
        return;
    case MANY_EDGES: /* more than 64 different edges, a few repeats before them, and at times another fault after them */
        write_graph(ONE_OF(12, 13, 20), 130 + below(100));
        if (one_in(2)) damage_structure(ONE_OF(BAD_EDGE_TOO_MANY, EDGE_TOO_FEW, DECLARED_OTHERWISE));
        return;
    case MANY_LINES: /* at the border of 4,096 e lines: all of them, one too many or one too few */
        vertices = 2 + below(8);
        length = 0;
        APPEND("p edge %u 4096\n", vertices);
        for (unsigned lines = ONE_OF(4096, 4096, 4097, 4095); lines > 0; lines--)
            append_edge();
        return;
    case NOTHING:
        for (length = 0; one_in(2);)
            append_comment();
        return;
    default: /* ANY_BYTES */
        for (length = 0; length < count; length++)
            text[length] = (uint8_t)ONE_OF(below(256), "cpe 12\n"[below(7)], "cpe 12\n"[below(7)]);
    }
}

static void damage(enum damage kind) {
    if (kind <= LOOP) damage_numbers(kind);
    else if (kind <= LINE_LOST) damage_structure(kind);
    else if (kind <= BYTE_LOST) damage_bytes(kind);
    else if (kind <= FAR_ABOVE) damage_size(kind);
    else write_other(kind);
}

/* ---- text K ---- */

static int too_large(void) {
    static uint64_t words[READER_WORDS];
    struct graph graph;
    return reference_read(text, length, words, READER_WORDS, &graph) == 0 && graph.n > most;
}

static void write_text(uint64_t seed, uint64_t k) {
    random_state = seed;
    random_state = random_word() + k;
    do {
        write_valid();
        if (k % 3 != 0) damage((enum damage)((k - k / 3 - 1) % DAMAGES));
    } while (too_large());
}

static void save_text(const char *folder, uint64_t k) {
    char name[4096];
    FILE *file;
    if (snprintf(name, sizeof name, "%s/%" PRIu64, folder, k) >= (int)sizeof name)
        fail("a long name");
    file = fopen(name, "wb");
    if (file == NULL || fwrite(text, 1, length, file) != length || fclose(file) != 0)
        fail("a text could not be written");
}

int main(int count, char **words) {
    uint64_t seed, k;
    if (count < 3 || count > 5) fail("usage: SEED K, or SEED COUNT FOLDER [MOST]");
    seed = strtoull(words[1], NULL, 10);
    k = strtoull(words[2], NULL, 10);
    if (k == 0) fail("texts are counted from 1");
    if (count == 5) most = (unsigned)strtoull(words[4], NULL, 10);
    if (most < 2 || most > MOST_UNKNOWNS) fail("MOST is 2 to 20");
    if (count == 3) {
        write_text(seed, k);
        if (fwrite(text, 1, length, stdout) != length || fflush(stdout) != 0) fail("no output");
        return 0;
    }
    for (uint64_t i = 1; i <= k; i++) {
        write_text(seed, i);
        save_text(words[3], i);
    }
    return 0;
}
