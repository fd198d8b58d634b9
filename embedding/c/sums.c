/* Reads a number a line, and writes its moving sum and low-pass:
 *     seq 1 10 | ./sums embedding/sums.toml */
#include "hoxburen.h"
#include <inttypes.h>
#include <stdio.h>
#include <string.h>

int main(int count, char **words) {
    static char text[65536];
    FILE *file = count == 2 ? fopen(words[1], "rb") : NULL;
    if (file == NULL) {
        fprintf(stderr, "usage: sums FILE\n");
        return 1;
    }
    size_t size = fread(text, 1, sizeof text, file);
    fclose(file);

    hox_flow flow = HOX_FLOW_CLOSED;
    char message[400] = "";
    size_t length;
    uint32_t answer = hox_open(&flow, text, size, "x", 1, "sum low", 7, message, sizeof message - 1, &length);
    if (answer != HOX_DONE) {
        fprintf(stderr, "sums: refused %" PRIu32 ": %s\n", answer, message);
        return 2;
    }

    int64_t sample, sum, low;
    size_t fed, sums, lows;
    uint32_t pause;
    while (scanf("%" SCNd64, &sample) == 1) {
        hox_feed_signed(&flow, 0, &sample, 1, &fed); /* input 0 is x */
        hox_advance(&flow, UINT64_MAX, &pause);      /* until it waits for more of x */
        hox_drain_signed(&flow, 0, &sum, 1, &sums);  /* output 0 is sum, and output 1 low */
        hox_drain_signed(&flow, 1, &low, 1, &lows);
        if (fed + sums + lows == 3) printf("%" PRId64 " %" PRId64 "\n", sum, low);
    }
    hox_close(&flow);
    return 0;
}
