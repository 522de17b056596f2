/* Walks the whole plan of every n and m, by rows or by columns, as a host program would, in slices of FIRST bytes, or of FIRST, FIRST + 1, ... LAST,
 * FIRST, ... bytes in turn, checks what the calls leave, and prints a digest of all bytes: the same for every walk by rows, and for every walk by
 * columns. Usage: host rows|columns FIRST [LAST] */
#include <stdio.h>
#include <stdlib.h>
#include <string.h>

#include "dacwiiqon.h"
#include "number.h"

#define ROOM 4096 /* the longest slice */
#define GUARD 8   /* bytes after a slice, not lent */
#define FILL 0xEE /* what slices and guards hold before a call */

static uint8_t bytes[ROOM + GUARD], out[24 + GUARD];

static void require(int right, const char *what) {
    if (!right) {
        fprintf(stderr, "wrong: %s\n", what);
        exit(1);
    }
}

static void fill(size_t length) {
    memset(bytes, FILL, length + GUARD);
    memset(out, FILL, sizeof out);
}

/* Whether both slices, past their written bytes, and both guards hold what they held before. */
static int kept(size_t size, size_t length, size_t out_size) {
    for (; size < length + GUARD; size++) if (bytes[size] != FILL) return 0;
    for (; out_size < sizeof out; out_size++) if (out[out_size] != FILL) return 0;
    return 1;
}

/* The size of the order at the head of some bytes, 0 if they end inside it: three numbers for kind 0, else four; the last byte of each is below 128. */
static size_t order_size(const uint8_t *at, size_t size) {
    int left = size > 0 && at[0] == 0 ? 3 : 4;
    for (size_t k = 0; k < size; k++) if (at[k] < 128 && --left == 0) return k + 1;
    return 0;
}

static uint64_t orders_in(size_t size) {
    uint64_t count = 0;
    for (size_t at = 0; at < size; count++) {
        size_t step = order_size(bytes + at, size - at);
        require(step > 0 && step <= 8, "whole orders");
        at += step;
    }
    return count;
}

/* Each refusal at its conditions, together with those that come after it. */
static void refused(writer *write) {
    uint64_t total;
    fill(64);
    require(plan_total(3, 2, out, 8) == 0, "total");
    total = number(out);
    fill(64);
    require(plan_total(65, 0, out, 7) == 1 && plan_total(UINT64_MAX, 5, out, 9) == 1, "1 before 2 and 3");
    require(plan_total(64, 0, out, 7) == 2 && plan_total(64, 5, out, 7) == 2, "2 before 3");
    require(plan_total(64, 4, out, 7) == 3 && plan_total(64, 4, out, 9) == 3, "3");
    require(write(65, 0, 1, bytes, 7, out, 23) == 1 && write(UINT64_MAX, 5, UINT64_MAX, bytes, 7, out, 25) == 1, "1 first");
    require(write(3, 0, 1, bytes, 7, out, 23) == 2 && write(3, 5, UINT64_MAX, bytes, 7, out, 25) == 2, "2 first");
    require(write(3, 2, UINT64_MAX, bytes, 7, out, 23) == 3 && write(3, 2, total + 1, bytes, 7, out, 25) == 3, "3 before 13 and 14");
    require(write(3, 2, total, bytes, 7, out, 8) == 3 && write(3, 2, 0, bytes, 64, out, 0) == 3, "3");
    require(write(3, 2, UINT64_MAX, bytes, 7, out, 24) == 13 && write(3, 2, total + 1, bytes, 7, out, 24) == 13, "13 before 14");
    require(write(3, 2, 0, bytes, 7, out, 24) == 14 && write(3, 2, total, bytes, 0, out, 24) == 14, "14");
    uint64_t high = (uint64_t)1 << 32; /* a number cut to its low bits would be 3, 2 or 0 */
    require(plan_total(high + 3, 2, out, 8) == 1 && plan_total(3, high + 2, out, 8) == 2, "numbers of 64 bits");
    require(write(high + 3, 2, 0, bytes, 64, out, 24) == 1 && write(3, high + 2, 0, bytes, 64, out, 24) == 2, "numbers of 64 bits");
    require(write(3, 2, high, bytes, 64, out, 24) == 13, "a position of 64 bits");
    require(kept(0, 64, 0), "a refusal changes nothing");
}

int main(int count, char **words) {
    require((count == 3 || count == 4) && (strcmp(words[1], "rows") == 0 || strcmp(words[1], "columns") == 0), "host rows|columns FIRST [LAST]");
    writer *write = strcmp(words[1], "rows") == 0 ? plan_bytes : column_plan_bytes;
    size_t first = strtoul(words[2], NULL, 10), last = count > 3 ? strtoul(words[3], NULL, 10) : first, length = first;
    uint64_t digest = 14695981039346656037u, orders = 0, all = 0;
    require(8 <= first && first <= last && last <= ROOM, "lengths from 8 to 4,096");
    refused(write);
    for (uint64_t n = 0; n <= 64; n++) {
        for (uint64_t m = 1; m <= 4; m++) {
            fill(0);
            require(plan_total(n, m, out, 8) == 0 && kept(0, 0, 8), "total");
            uint64_t total = number(out), position = 0, left = 0;
            require(total <= n * (200 * n + 40 * (m + 1) * (m + 1) * (m + 1) * (m + 1) * (m + 1) * (m + 1)) + 10000, "limit");
            while (position < total) {
                fill(length);
                require(write(n, m, position, bytes, length, out, 24) == 0, "bytes");
                uint64_t size = number(out), given = number(out + 8), next = number(out + 16);
                require(size <= length && given > 0 && next == position + given && next <= total, "counts");
                require(kept(size, length, 24), "the bytes after the written ones are kept");
                require(orders_in(size) == given, "as many orders as said");
                require(order_size(bytes, size) > left, "as many orders as fit: this slice's first was too long for the bytes left in the slice before");
                for (uint64_t k = 0; k < size; k++) digest = (digest ^ bytes[k]) * 1099511628211u;
                left = length - size;
                length = length == last ? first : length + 1;
                position = next;
                orders += given;
                all += size;
            }
            fill(length);
            require(write(n, m, total, bytes, length, out, 24) == 0 && kept(0, length, 24), "the end");
            require(number(out) == 0 && number(out + 8) == 0 && number(out + 16) == total, "counts at the end");
            fill(length);
            require(write(n, m, total + 1, bytes, length, out, 24) == 13 && kept(0, length, 0), "past the end");
        }
    }
    printf("%llu orders, %llu bytes, digest %016llx\n", (unsigned long long)orders, (unsigned long long)all, (unsigned long long)digest);
    return 0;
}
