/* Of the C host's calls: a number of theirs, 8 bytes, lowest first; and what both plan_bytes and column_plan_bytes are. */
#ifndef NUMBER_H
#define NUMBER_H

#include <stddef.h>
#include <stdint.h>

typedef uint32_t writer(uint64_t n, uint64_t m, uint64_t position, uint8_t *bytes, size_t bytes_length, uint8_t *out, size_t out_length);

static uint64_t number(const uint8_t *bytes) {
    uint64_t v = 0;
    for (int k = 7; k >= 0; k--) v = v * 256 + bytes[k];
    return v;
}

#endif
