/* Feeds the moving sum and the low-pass (embedding/sums.toml) so many samples, so many words a call, and compares what comes
 * out with the sums as C makes them.
 *     feed FILE SAMPLES WORDS */
#include "hoxburen.h"
#include <inttypes.h>
#include <stdio.h>
#include <stdlib.h>

enum { MOST = 256 };

static uint64_t sample(uint64_t place) { return place * 7919 % 1000; }

static void check(int holds, const char *what) {
    if (holds) return;
    fprintf(stderr, "feed: %s\n", what);
    exit(1);
}

/* Drains an output, so many words a call, and returns the hash of what came out before and comes now. */
static uint64_t drained(hox_flow *flow, size_t output, size_t words, uint64_t hash, uint64_t *count) {
    uint64_t out[MOST];
    size_t there;
    do {
        check(hox_drain(flow, output, out, words, &there) == HOX_DONE, "drain");
        for (size_t i = 0; i < there; i++) hash = hash * 31 + out[i];
        *count += there;
    } while (there == words);
    return hash;
}

int main(int count, char **arguments) {
    static char text[65536];
    FILE *file = count == 4 ? fopen(arguments[1], "rb") : NULL;
    check(file != NULL, "usage: feed FILE SAMPLES WORDS");
    size_t size = fread(text, 1, sizeof text, file), length, fed, words = strtoull(arguments[3], NULL, 10);
    fclose(file);
    uint64_t samples = strtoull(arguments[2], NULL, 10), in[MOST], sums = 0, lows = 0, hash_of_sums = 0, hash_of_lows = 0;
    uint64_t due_of_sums = 0, due_of_lows = 0, old[3] = {0, 0, 0}, entries, growths;
    uint32_t pause;
    hox_flow flow = HOX_FLOW_CLOSED;
    check(words >= 1 && words <= MOST, "1 to 256 words a call");
    check(hox_open(&flow, text, size, "x", 1, "sum low", 7, NULL, 0, &length) == HOX_DONE, "open");
    for (uint64_t made = 0; made < samples;) {
        size_t offered = samples - made < words ? (size_t)(samples - made) : words;
        for (size_t i = 0; i < offered; i++) in[i] = sample(made + i);
        check(hox_feed(&flow, 0, in, offered, &fed) == HOX_DONE, "feed");
        made += fed;
        check(hox_advance(&flow, UINT64_MAX, &pause) == HOX_DONE, "advance");
        hash_of_sums = drained(&flow, 0, words, hash_of_sums, &sums);
        hash_of_lows = drained(&flow, 1, words, hash_of_lows, &lows);
    }
    for (uint64_t i = 0; i < samples; i++) {
        uint64_t x = sample(i);
        due_of_sums = due_of_sums * 31 + x + old[0] + old[1] + old[2];
        due_of_lows = due_of_lows * 31 + x + 2 * old[0] + old[1];
        old[2] = old[1], old[1] = old[0], old[0] = x;
    }
    check(sums == samples && lows == samples && hash_of_sums == due_of_sums && hash_of_lows == due_of_lows, "the sums");
    check(hox_entries(&flow, &entries, &growths) == HOX_DONE && hox_close(&flow) == HOX_DONE, "close");
    printf("%" PRIu64 " samples, both sums of each, %" PRIu64 " entries\n", samples, entries);
    return 0;
}
