/* A plain loop that goes round the chain's processes, does what each can do, and appends the same
   entries to a history of the same size: no bodies, no growths, no proofs. For chains of 62 scales.

   Words: the number of scales (62), and how many tokens go through them. */
#include <stdint.h>
#include <stdio.h>
#include <stdlib.h>
enum { SCALES = 62, CAPACITY = 1 };
struct entry { uint64_t kind, process, deed, channel, sort, token; };
struct ring { uint64_t items[CAPACITY], first, length; };
static struct ring rings[SCALES + 1];
static uint64_t held[SCALES];
static int full[SCALES];
int main(int argc, char **argv) {
    uint64_t tokens = strtoull(argv[2], 0, 10), put = 0, taken = 0, entries = 0, sum = 0;
    struct entry *history = malloc(1000002 * sizeof *history);
    int moved = argc > 2;
    if (!history) return 1;
    while (moved) {
        moved = 0;
        for (uint64_t p = 0; p < SCALES + 2; p++) {
            struct ring *in = p ? &rings[p - 1] : 0, *out = p <= SCALES ? &rings[p] : 0;
            uint64_t token;
            if (p == 0) {
                if (put == tokens || out->length == CAPACITY) continue;
                token = ++put;
                out->items[(out->first + out->length++) % CAPACITY] = token;
                history[entries++] = (struct entry){0, p, 1, p, 0, token};
            } else if (p <= SCALES && full[p - 1]) {
                if (out->length == CAPACITY) continue;
                token = held[p - 1] * 3;
                full[p - 1] = 0;
                out->items[(out->first + out->length++) % CAPACITY] = token;
                history[entries++] = (struct entry){0, p, 1, p, 0, token};
            } else {
                if (in->length == 0) continue;
                token = in->items[in->first];
                in->first = (in->first + 1) % CAPACITY;
                in->length--;
                history[entries++] = (struct entry){0, p, 0, p - 1, 0, token};
                if (p <= SCALES) { held[p - 1] = token; full[p - 1] = 1; }
                else { taken++; sum += token; }
            }
            moved = 1;
        }
    }
    /* The sum depends on each token, so none is left out. The counter and the sink stop. */
    printf("entries %llu sum %llu\n", (unsigned long long)entries + 2, (unsigned long long)sum);
    return taken != tokens;
}
