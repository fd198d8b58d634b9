/* A level meter with a process of our own, which computes roots. Reads a sample a line, and writes the level of each:
 *     printf '%s\n' 30 -40 50 | ./level embedding/level.toml */
#include "hoxburen.h"
#include <inttypes.h>
#include <stdio.h>
#include <string.h>

enum { X, ROOT };      /* the inputs, in the order given to hox_open */
enum { POWER, LEVEL }; /* the outputs */

/* Returns the greatest number whose square is at most `square`. */
static uint64_t root_of(uint64_t square) {
    uint64_t root = 0;
    for (uint64_t bit = UINT64_C(1) << 31; bit != 0; bit /= 2)
        if ((root + bit) * (root + bit) <= square) root += bit;
    return root;
}

/* Runs the network as far as it can, and writes the levels that come out. */
static void go_on(hox_flow *flow) {
    uint32_t pause;
    uint64_t levels[64];
    size_t count;
    hox_advance(flow, UINT64_MAX, &pause);
    hox_drain(flow, LEVEL, levels, 64, &count);
    for (size_t i = 0; i < count; i++) printf("%" PRIu64 "\n", levels[i]);
}

/* Our own process: a root for each word of power. */
static void take_roots(hox_flow *flow) {
    uint64_t words[64];
    size_t count, fed;
    hox_drain(flow, POWER, words, 64, &count);
    for (size_t i = 0; i < count; i++) words[i] = root_of(words[i]);
    for (size_t done = 0; done < count; done += fed) {
        hox_feed(flow, ROOT, words + done, count - done, &fed);
        go_on(flow);
    }
}

int main(int count, char **words) {
    static char text[65536];
    FILE *file = count == 2 ? fopen(words[1], "rb") : NULL;
    if (file == NULL) {
        fprintf(stderr, "usage: level FILE\n");
        return 1;
    }
    size_t size = fread(text, 1, sizeof text, file);
    fclose(file);

    hox_flow flow = HOX_FLOW_CLOSED;
    char message[400] = "";
    size_t length, fed;
    uint32_t answer = hox_open(&flow, text, size, "x root", 6, "power level", 11, message, sizeof message - 1, &length);
    if (answer != HOX_DONE) {
        fprintf(stderr, "level: refused %" PRIu32 ": %s\n", answer, message);
        return 2;
    }
    int64_t sample;
    while (scanf("%" SCNd64, &sample) == 1) {
        do {
            hox_feed_signed(&flow, X, &sample, 1, &fed);
            go_on(&flow);
            take_roots(&flow);
        } while (fed == 0);
    }
    hox_close(&flow);
    return 0;
}
