/* Replays the compiled Rust's answers on expressions, stored in the file named: harness/expressions/src/sample.rs says how. Prints how many differ.
 * The functions' contracts require that the words are an expression, which the stored cells are. */
#include <stdbool.h>
#include <stddef.h>
#include <stdint.h>
#include <stdio.h>
#include <stdlib.h>
#include <string.h>

enum { CELLS = 2048, CELL_WORDS = 7, ROOM = CELL_WORDS * CELLS };

struct folded {
    bool refused;
    uint32_t number;
    size_t at;
};

size_t expression_into_nnf(const uint32_t *s, size_t n, size_t lo, size_t hi, uint32_t *d, size_t m, size_t at);
size_t expression_distribute(const uint32_t *s, size_t n, size_t lo, size_t hi, uint32_t *d, size_t m, size_t at);
struct folded expression_fold(const uint8_t *text, size_t t, const uint32_t *s, size_t n, size_t lo, size_t hi, uint32_t *d, size_t m, size_t at,
                              size_t first);
size_t expression_for_left(const uint32_t *s, size_t n, size_t lo, size_t hi, uint32_t *d, size_t m, size_t from, size_t at, size_t width);
size_t expression_for_right(const uint32_t *s, size_t n, size_t lo, size_t hi, uint32_t *d, size_t m, size_t from, size_t at, size_t width, size_t by);
size_t expression_for_both(const uint32_t *s, size_t n, size_t lo, size_t hi, uint32_t *d, size_t m, size_t from, size_t at, size_t width);
size_t expression_push_left(const uint32_t *s, size_t n, size_t lo, size_t hi, const uint32_t *g, size_t k, size_t a, size_t b, uint32_t *d, size_t m,
                            size_t at, size_t width);
size_t expression_push_right(const uint32_t *s, size_t n, size_t lo, size_t hi, const uint32_t *g, size_t k, size_t a, size_t b, uint32_t *d, size_t m,
                             size_t at, size_t width, size_t by);

static FILE *in;
static uint32_t s[ROOM], wanted[ROOM], x[ROOM], y[ROOM], g[ROOM], d[ROOM];
static long answers, different;

static size_t number(int bytes) {
    size_t n = 0;
    for (int i = 0; i < bytes; i++) {
        int c = getc(in);
        if (c == EOF) {
            fprintf(stderr, "the stored answers end too soon\n");
            exit(2);
        }
        n |= (size_t)c << (8 * i);
    }
    return n;
}

/* The words of n stored cells, with each cell's size. */
static size_t cells(size_t n, uint32_t *w) {
    static size_t start[CELLS];
    size_t open = 0, at = 0;
    for (size_t i = 0; i < n; i++) {
        size_t tag = number(1), operands = tag < 10 ? 0 : tag < 30 ? 2 : 1;
        if (n > CELLS || open < operands) {
            fprintf(stderr, "the stored cells are no expression\n");
            exit(2);
        }
        open -= operands;
        if (operands == 0)
            start[open] = at;
        w[at] = 0, w[at + 1] = (uint32_t)tag, w[at + 2] = 0, w[at + 3] = (uint32_t)number(4), w[at + 4] = (uint32_t)number(4), w[at + 5] = 0;
        w[at + 6] = (uint32_t)(at + CELL_WORDS - start[open]);
        at += CELL_WORDS;
        open++;
    }
    return at;
}

static void compare(const char *name, const uint32_t *w, size_t end) {
    size_t n = cells(number(2), wanted);
    answers++;
    if (end != n || memcmp(w, wanted, n * sizeof *w) != 0) {
        different++;
        printf("%s differs, answer %ld\n", name, answers);
    }
}

static void fold(const uint8_t *text, size_t length, size_t n) {
    struct folded r = expression_fold(text, length, s, n, 0, n, d, ROOM, 0, 0);
    size_t count = number(2);
    bool same;
    if (count == 0xFFFE) {
        size_t refusal = number(1), place = number(2);
        same = r.refused && r.number == refusal && r.at == place;
    } else {
        size_t end = cells(count, wanted);
        same = !r.refused && r.at == end && memcmp(d, wanted, end * sizeof *d) == 0;
    }
    answers++;
    if (!same) {
        different++;
        printf("fold differs, answer %ld\n", answers);
    }
}

int main(int count, char **words) {
    static uint8_t text[65535];
    in = count == 2 ? fopen(words[1], "rb") : NULL;
    if (in == NULL) {
        fprintf(stderr, "usage: expressions FILE\n");
        return 2;
    }
    size_t length = number(2);
    for (size_t i = 0; i < length; i++)
        text[i] = (uint8_t)number(1);
    for (int c; (c = getc(in)) != EOF;) {
        ungetc(c, in);
        size_t n = cells(number(2), s), left = number(1);
        size_t nnf = expression_into_nnf(s, n, 0, n, x, ROOM, 0);
        compare("into_nnf", x, nnf);
        size_t cnf = expression_distribute(x, nnf, 0, nnf, y, ROOM, 0);
        compare("into_cnf", y, cnf);
        fold(text, length, n);
        compare("for_both", d, expression_for_both(y, cnf, 0, cnf, d, ROOM, 0, 0, left));
        size_t k = expression_for_right(y, cnf, 0, cnf, g, ROOM, 0, 0, left, 0);
        compare("push_left", d, expression_push_left(y, cnf, 0, cnf, g, k, 0, k, d, ROOM, 0, left));
        k = expression_for_left(y, cnf, 0, cnf, g, ROOM, 0, 0, left);
        compare("push_right", d, expression_push_right(y, cnf, 0, cnf, g, k, 0, k, d, ROOM, 0, left, left));
    }
    printf("%ld answers, %ld different\n", answers, different);
    return different != 0;
}
