/* For comparison of speed, in plain C: (a) the plan already decoded, run by a loop; (b) the same clearing by a greedy with augmenting paths.
 * And the plan writer: (c) the whole plan in slices of 64 bytes, (d) in slices of 4,096.
 * Usage: speed BYTES < BOOK, BYTES a file with the plan's bytes for the book's counts, BOOK settle's input. Prints the count of orders and the
 * microseconds of each; fails if (a) and (b) accept other amounts, or if (c) or (d) give other bytes. */
#include <stdint.h>
#include <stdio.h>
#include <stdlib.h>
#include <string.h>
#include <time.h>

#include "dacwiiqon.h"
#include "number.h"

#define P 2147483647u
#define CELLS 4096
#define BID_NUMBERS 4 /* pool, price, quantity, hundredths */

struct order { uint32_t kind, d, a, b; };

static int n, m;
static int32_t bids[64][BID_NUMBERS], lines[4][4];

static double now(void) {
    struct timespec t;
    clock_gettime(CLOCK_MONOTONIC, &t);
    return t.tv_sec * 1e6 + t.tv_nsec / 1e3;
}

/* A number of an order: groups of seven bits, lowest first. */
static uint32_t grouped(const uint8_t **at) {
    uint32_t v = 0, shift = 0;
    while (**at >= 128) { v |= (uint32_t)(*(*at)++ & 127) << shift; shift += 7; }
    return v | (uint32_t)*(*at)++ << shift;
}

static int64_t reading(uint32_t x) { return x > 1073741823u ? (int64_t)x - P : (int64_t)x; }

static void run(const struct order *o, size_t count, uint32_t *s) {
    for (size_t k = 0; k < count; k++) {
        uint32_t x = s[o[k].a], y = o[k].kind ? s[o[k].b] : 0, v;
        switch (o[k].kind) {
        case 0: v = o[k].b; break; /* the constant */
        case 1: v = (uint32_t)(((uint64_t)x + y) % P); break;
        case 2: v = (uint32_t)(((uint64_t)x + P - y) % P); break;
        case 3: v = (uint32_t)((uint64_t)x * y % P); break;
        case 4: v = reading(x) < reading(y); break;
        default: v = x == y; break;
        }
        s[o[k].d] = v;
    }
}

static void sealed(uint32_t *s) {
    size_t c = 0;
    memset(s, 0, CELLS * sizeof *s);
    for (int i = 0; i < n; i++) for (int j = 0; j < BID_NUMBERS; j++) s[c++] = bids[i][j] < 0 ? P - (uint32_t)-bids[i][j] : (uint32_t)bids[i][j];
    for (int a = 0; a < m; a++) for (int b = 0; b < m; b++) s[c++] = (uint32_t)lines[a][b];
}

static int32_t price(int i) { return 100 * bids[i][1] + bids[i][3]; }

static int earlier(int j, int i) {
    int bj = bids[j][2] > 0, bi = bids[i][2] > 0;
    if (price(j) != price(i)) return price(j) < price(i);
    if (bj != bi) return !bj;
    return bj ? j > i : j < i;
}

static int64_t augment(int64_t rest[6][6]) {
    int64_t total = 0;
    for (;;) {
        int came[6] = {-1, -1, -1, -1, -1, -1}, queue[6], head = 0, tail = 0;
        came[4] = 4;
        queue[tail++] = 4;
        while (head < tail && came[5] < 0) {
            int a = queue[head++];
            for (int b = 0; b < 6; b++) if (came[b] < 0 && rest[a][b] > 0) { came[b] = a; queue[tail++] = b; }
        }
        if (came[5] < 0) return total;
        int64_t step = INT64_MAX;
        for (int b = 5; b != 4; b = came[b]) if (rest[came[b]][b] < step) step = rest[came[b]][b];
        for (int b = 5; b != 4; b = came[b]) { rest[came[b]][b] -= step; rest[b][came[b]] += step; }
        total += step;
    }
}

static void greedy(int64_t *accepted) {
    int order[64];
    int64_t rest[6][6] = {{0}};
    for (int i = 0; i < n; i++) {
        int k = i;
        for (; k > 0 && earlier(i, order[k - 1]); k--) order[k] = order[k - 1];
        order[k] = i;
        if (bids[i][2] > 0) rest[bids[i][0] - 1][5] += bids[i][2];
    }
    for (int a = 0; a < m; a++) for (int b = 0; b < m; b++) rest[a][b] = lines[a][b];
    for (int k = 0; k < n; k++) {
        int i = order[k], p = bids[i][0] - 1;
        rest[4][p] = bids[i][2] < 0 ? -bids[i][2] : bids[i][2];
        int64_t used = augment(rest);
        rest[4][p] = 0;
        accepted[i] = bids[i][2] > 0 ? bids[i][2] - used : used;
    }
}

/* The whole plan in slices of a length: the bytes got. */
static size_t walk(uint8_t *to, size_t length) {
    uint8_t out[24];
    uint64_t position = 0;
    size_t size = 0;
    while (plan_bytes((uint64_t)n, (uint64_t)m, position, to + size, length, out, sizeof out) == 0 && number(out + 8) > 0) {
        size += number(out);
        position = number(out + 16);
    }
    return size;
}

static double walks(const uint8_t *bytes, size_t size, size_t length) {
    static uint8_t got[1 << 20];
    int turns = 40;
    double start = now();
    for (int k = 0; k < turns; k++) {
        if (walk(got, length) != size || memcmp(got, bytes, size) != 0) {
            fprintf(stderr, "slices of %zu bytes give other bytes\n", length);
            exit(1);
        }
    }
    return (now() - start) / turns;
}

int main(int count, char **words) {
    static uint8_t bytes[1 << 20];
    static struct order list[1 << 16];
    static uint32_t sheet[CELLS];
    FILE *file = count == 2 ? fopen(words[1], "rb") : NULL;
    if (!file || scanf("%d %d", &n, &m) != 2) return 2;
    size_t size = fread(bytes, 1, sizeof bytes, file), orders = 0;
    for (int i = 0; i < n; i++) for (int j = 0; j < BID_NUMBERS; j++) if (scanf("%d", &bids[i][j]) != 1) return 2;
    for (int a = 0; a < m; a++) for (int b = 0; b < m; b++) if (scanf("%d", &lines[a][b]) != 1) return 2;
    for (const uint8_t *at = bytes; at < bytes + size; orders++) {
        list[orders].kind = grouped(&at);
        list[orders].d = grouped(&at);
        if (list[orders].kind == 0) { list[orders].a = 0; list[orders].b = grouped(&at); }
        else { list[orders].a = grouped(&at); list[orders].b = grouped(&at); }
    }
    int turns = 400;
    double start = now();
    for (int k = 0; k < turns; k++) { sealed(sheet); run(list, orders, sheet); }
    double decoded = (now() - start) / turns;
    int64_t accepted[64];
    start = now();
    for (int k = 0; k < turns; k++) greedy(accepted);
    double paths = (now() - start) / turns;
    for (int i = 0; i < n; i++) {
        if (reading(sheet[BID_NUMBERS * n + m * m + i]) != accepted[i]) {
            fprintf(stderr, "bid %d: the plan and the greedy accept other amounts\n", i + 1);
            return 1;
        }
    }
    printf("%zu %.1f %.1f %.1f %.1f\n", orders, decoded, paths, walks(bytes, size, 64), walks(bytes, size, 4096));
    return 0;
}
