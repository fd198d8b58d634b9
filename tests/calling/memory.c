/* Refuses each request for memory of the library in turn: linked with --wrap=malloc --wrap=realloc --wrap=free, so that the
 * requests of the archive come here. What a call answers must be what it answers otherwise, or say that memory was refused,
 * and then the same call succeeds; and at the end all memory is given back. The last line counts. */
#include "hoxburen.h"
#include <inttypes.h>
#include <stdio.h>
#include <stdlib.h>
#include <string.h>

static unsigned long requests, refused_one, met;
static long live;

void *__real_malloc(size_t size);
void *__real_realloc(void *block, size_t size);
void __real_free(void *block);
void *__wrap_malloc(size_t size);
void *__wrap_realloc(void *block, size_t size);
void __wrap_free(void *block);

static int is_refused(void) {
    if (++requests != refused_one) return 0;
    met++;
    return 1;
}

void *__wrap_malloc(size_t size) {
    void *block = is_refused() ? NULL : __real_malloc(size);
    live += block != NULL;
    return block;
}

void *__wrap_realloc(void *block, size_t size) {
    void *moved = is_refused() ? NULL : __real_realloc(block, size);
    live += moved != NULL && block == NULL;
    return moved;
}

void __wrap_free(void *block) {
    live -= block != NULL;
    __real_free(block);
}

/* A copy and a weave of its two outputs, as Parks's case: the channels have to grow. */
#define NETWORK(kind)                                                                                                  \
    "version = 2\n"                                                                                                    \
    "process = [\n"                                                                                                    \
    "    { name = 'i', kind = 'input' },\n"                                                                            \
    "    { name = 'c', kind = 'copy' },\n"                                                                             \
    "    { name = 'w', kind = 'weave', args = [3, 3] },\n"                                                             \
    "    { name = 'o', kind = '" kind "' },\n"                                                                         \
    "]\n"                                                                                                              \
    "channel = [\n"                                                                                                    \
    "    { name = 'x', from = 'i', to = 'c', capacity = 6 },\n"                                                        \
    "    { name = 'now', from = 'c', to = 'w' },\n"                                                                    \
    "    { name = 'late', from = 'c', out = 1, to = 'w', in = 1 },\n"                                                  \
    "    { name = 'y', from = 'w', to = 'o', capacity = 12 },\n"                                                       \
    "]\n"
#define TEXT(text) text, strlen(text)

static const char good[] = NETWORK("drain"), bad[] = NETWORK("drian");
static const char counter[] = "version = 1\n"
                              "process = [{ name = 's', kind = 'count', args = [1, 9] }, { name = 't', kind = 'copy' },\n"
                              "    { name = 'w', kind = 'weave', args = [3, 3] }, { name = 'o', kind = 'sink', args = [18] }]\n"
                              "channel = [{ name = 'x', from = 's', to = 't' }, { name = 'a', from = 't', to = 'w' },\n"
                              "    { name = 'b', from = 't', out = 1, to = 'w', in = 1 }, { name = 'y', from = 'w', to = 'o' }]\n";

static unsigned long told, left_out, growths;

static void check(int holds, const char *what) {
    if (holds) return;
    printf("memory: request %lu refused: %s\n", refused_one, what);
    exit(3);
}

/* Whether a call is to be made again: it says that memory was refused. */
static int again(uint32_t answer) {
    if (answer != HOX_FAULT_MEMORY && answer != HOX_MEMORY) return 0;
    check(met == 1, "memory was told to be refused, and was not");
    met = 0;
    told++;
    growths += answer == HOX_MEMORY;
    return 1;
}

static void flow_from_start_to_end(void) {
    static const uint64_t in[6] = {1, 2, 3, 4, 5, 6}, due[12] = {1, 2, 3, 1, 2, 3, 4, 5, 6, 4, 5, 6};
    uint64_t out[12];
    char text[1024];
    size_t length, count;
    uint32_t answer, pause;
    hox_flow flow = HOX_FLOW_CLOSED;
    do {
        answer = hox_open(&flow, TEXT(good), TEXT("x"), TEXT("y"), text, sizeof text, &length);
        check(answer == HOX_DONE || flow.session == NULL, "a flow that was not opened is closed");
    } while (again(answer));
    check(answer == HOX_DONE, "the flow is opened");
    check(hox_feed(&flow, 0, in, 6, &count) == HOX_DONE && count == 6, "all are fed");
    do check(hox_advance(&flow, UINT64_MAX, &pause) == HOX_DONE, "it goes on");
    while (again(pause));
    check(pause == HOX_STARVED, "it is starved");
    do answer = hox_report(&flow, text, sizeof text, &length);
    while (again(answer));
    check(answer == HOX_DONE && length > 8 && memcmp(text, "starved\n", 8) == 0, "the report");
    check(hox_drain(&flow, 0, out, 12, &count) == HOX_DONE && count == 12, "all are drained");
    check(memcmp(out, due, sizeof due) == 0, "the words");
    check(hox_close(&flow) == HOX_DONE, "it is closed");
}

/* A refusal may come without its message, if memory for that was refused. */
static void message(uint32_t answer, uint32_t due, size_t length, const char *text, const char *said) {
    check(answer == due, "the number of a refusal");
    if (length == 0) {
        check(met == 1, "a message is missing");
        left_out++;
        met = 0;
        return;
    }
    check(length < 1024 && strlen(said) <= length && strstr(text, said) != NULL, "the message");
}

static void refusals(void) {
    char text[1025] = "";
    size_t length;
    uint32_t answer;
    hox_flow flow = HOX_FLOW_CLOSED;
    do {
        answer = hox_check(TEXT(bad), text, 1024, &length);
        check(answer != HOX_FAULT_MEMORY || length == 0, "that memory was refused needs no message");
    } while (again(answer));
    message(answer, HOX_FAULT_KIND, length, text, "drian");
    do answer = hox_open(&flow, TEXT(bad), TEXT("x"), TEXT("y"), text, 1024, &length);
    while (again(answer));
    message(answer, HOX_FAULT_KIND, length, text, "drian");
    do answer = hox_open(&flow, TEXT(good), TEXT("now"), TEXT("y"), text, 1024, &length);
    while (again(answer));
    message(answer, HOX_NO_INPUT, length, text, "now");
    do answer = hox_open(&flow, TEXT(good), TEXT("x x"), TEXT("y"), text, 1024, &length);
    while (again(answer));
    message(answer, HOX_TWICE, length, text, "twice");
    check(flow.session == NULL, "a flow that was not opened is closed");
}

static void run(void) {
    char text[1024];
    size_t length;
    uint32_t answer;
    do answer = hox_run(TEXT(counter), text, sizeof text, &length);
    while (again(answer));
    check(answer == HOX_DEADLOCK && length < sizeof text, "the run"); /* the copy and the weave wait for more */
    check(memcmp(text, TEXT("end deadlock\nprocess s stopped steps 10\n")) == 0, "the report of the run");
}

/* How many requests a scenario makes; each is refused in turn. */
static unsigned long refuse_each(void scenario(void)) {
    for (refused_one = 1;; refused_one++) {
        requests = met = 0;
        scenario();
        check(live == 0, "memory is given back");
        if (requests < refused_one) return refused_one - 1;
    }
}

int main(void) {
    unsigned long of_flow = refuse_each(flow_from_start_to_end), of_refusals = refuse_each(refusals), of_run = refuse_each(run);
    check(of_flow > 0 && of_refusals > 0 && of_run > 0 && told > 0 && growths > 1, "requests");
    printf("%lu requests refused in turn: %lu of a flow, %lu of calls that are refused, %lu of a run; %lu told, %lu of them of growths, "
           "%lu messages left out\n", of_flow + of_refusals + of_run, of_flow, of_refusals, of_run, told, growths, left_out);
    return 0;
}
