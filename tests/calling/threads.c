/* Two threads, each with a flow of its own, of which one was opened by main and is closed by it; and a flow that two threads
 * share under a lock. Each sum is compared with the one that C makes. */
#include "hoxburen.h"
#include <inttypes.h>
#include <pthread.h>
#include <stdio.h>
#include <stdlib.h>
#include <string.h>

enum { SAMPLES = 20000, SHARED = 2000 };

static const char text[] = "version = 1\n"
                           "process = [{ name = 'i', kind = 'input' }, { name = 't', kind = 'copy' }, { name = 'd', kind = 'delay', args = [1] },\n"
                           "    { name = 'a', kind = 'add' }, { name = 'o', kind = 'drain' }]\n"
                           "channel = [{ name = 'x', from = 'i', to = 't', capacity = 64 }, { name = 'n', from = 't', to = 'a' },\n"
                           "    { name = 'l', from = 't', out = 1, to = 'd' }, { name = 'e', from = 'd', to = 'a', in = 1 },\n"
                           "    { name = 'y', from = 'a', to = 'o', capacity = 64 }]\n";

static void check(int holds, const char *what) {
    if (holds) return;
    fprintf(stderr, "threads: %s\n", what);
    exit(3);
}

static void open_flow(hox_flow *flow) {
    char message[200];
    size_t length;
    check(hox_open(flow, text, strlen(text), "x", 1, "y", 1, message, sizeof message, &length) == HOX_DONE, "open");
}

/* Feeds samples first, first + 1, .. and checks the sum of each with the one before it. */
static void use(hox_flow *flow, uint64_t first) {
    uint64_t in[50], out[64], next = first, before = 0, due = first;
    size_t fed, count;
    uint32_t pause;
    while (due < first + SAMPLES) {
        for (int i = 0; i < 50; i++) in[i] = next + (uint64_t)i;
        check(hox_feed(flow, 0, in, 50, &fed) == HOX_DONE, "feed");
        next += fed;
        check(hox_advance(flow, 100000, &pause) == HOX_DONE, "advance");
        check(hox_drain(flow, 0, out, 64, &count) == HOX_DONE, "drain");
        for (size_t i = 0; i < count; i++) {
            check(out[i] == before + due, "a sum");
            before = due++;
        }
    }
}

static void *with_own(void *first) {
    hox_flow flow = HOX_FLOW_CLOSED;
    open_flow(&flow);
    use(&flow, *(uint64_t *)first);
    check(hox_close(&flow) == HOX_DONE, "close");
    return NULL;
}

static void *with_given(void *flow) {
    use((hox_flow *)flow, 7);
    return NULL;
}

static hox_flow shared = HOX_FLOW_CLOSED;
static pthread_mutex_t lock = PTHREAD_MUTEX_INITIALIZER;

/* Words go in and out one at a time, by whichever thread has the lock. */
static void *with_shared(void *sum) {
    for (int n = 0; n < SHARED; n++) {
        uint64_t one = 1, out = 0;
        size_t fed, count;
        uint32_t pause;
        pthread_mutex_lock(&lock);
        check(hox_feed(&shared, 0, &one, 1, &fed) == HOX_DONE && fed == 1, "feed");
        check(hox_advance(&shared, 1000, &pause) == HOX_DONE && pause == HOX_STARVED, "advance");
        check(hox_drain(&shared, 0, &out, 1, &count) == HOX_DONE && count == 1, "drain");
        pthread_mutex_unlock(&lock);
        *(uint64_t *)sum += out;
    }
    return NULL;
}

static void both(void *one(void *), void *of_one, void *other(void *), void *of_other) {
    pthread_t first, second;
    check(pthread_create(&first, NULL, one, of_one) == 0 && pthread_create(&second, NULL, other, of_other) == 0, "threads");
    check(pthread_join(first, NULL) == 0 && pthread_join(second, NULL) == 0, "join");
}

int main(void) {
    hox_flow given = HOX_FLOW_CLOSED;
    uint64_t first = 1000, sums[2] = {0, 0};
    open_flow(&given);
    open_flow(&shared);
    both(with_own, &first, with_given, &given);
    both(with_shared, &sums[0], with_shared, &sums[1]);
    /* The first sum is 1, and each other 2. */
    check(sums[0] + sums[1] == 2 * 2 * SHARED - 1, "the sums of a shared flow");
    check(hox_close(&given) == HOX_DONE && hox_close(&shared) == HOX_DONE, "close");
    printf("two threads\n");
    return 0;
}
