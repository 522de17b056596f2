/* Writes the bytes of the plan for n bids and m pools to standard output, or those of the column plan, or the total as a decimal number.
 * Usage: dump N M [columns|total] */
#include <stdio.h>
#include <stdlib.h>
#include <string.h>

#include "dacwiiqon.h"
#include "number.h"

static int refused(uint32_t refusal) {
    if (refusal != 0) fprintf(stderr, "refused %u\n", refusal);
    return refusal != 0;
}

int main(int count, char **words) {
    uint8_t bytes[4096], out[24];
    uint64_t position = 0;
    if (count != 3 && count != 4) return 2;
    uint64_t n = strtoull(words[1], NULL, 10), m = strtoull(words[2], NULL, 10);
    int columns = count == 4 && strcmp(words[3], "columns") == 0, total = count == 4 && strcmp(words[3], "total") == 0;
    if (count == 4 && !columns && !total) return 2;
    if (total) {
        if (refused(plan_total(n, m, out, 8))) return 1;
        printf("%llu\n", (unsigned long long)number(out));
        return 0;
    }
    writer *write = columns ? column_plan_bytes : plan_bytes;
    for (;;) {
        if (refused(write(n, m, position, bytes, sizeof bytes, out, sizeof out))) return 1;
        if (number(out + 8) == 0) return 0;
        fwrite(bytes, 1, number(out), stdout);
        position = number(out + 16);
    }
}
