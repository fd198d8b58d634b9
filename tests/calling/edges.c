/* What no other caller tries: texts that have no room, pointers that are NULL at length 0, and what each function gives and
 * leaves as it is where it is refused. */
#include "hoxburen.h"
#include <inttypes.h>
#include <stdio.h>
#include <stdlib.h>
#include <string.h>

#define TEXT(text) text, strlen(text)
#define CHECK(holds) check(holds, #holds, __LINE__)

static void check(int holds, const char *what, int line) {
    if (holds) return;
    printf("edges.c:%d: not so: %s\n", line, what);
    exit(3);
}

static const char good[] = "version = 1\n"
                           "process = [{ name = 'i', kind = 'input' }, { name = 'd', kind = 'scale', args = [2] }, "
                           "{ name = 'o', kind = 'drain' }]\n"
                           "channel = [{ name = 'x', from = 'i', to = 'd', capacity = 2 }, { name = 'y', from = 'd', to = 'o' }]\n";
static const char bad[] = "version = 1\nprocess = [{ name = 'i', kind = 'inptu' }]\n";

/* A text comes out as far as there is room for it, and its length always. */
static void room_for_texts(uint32_t tell(char *, size_t, size_t *), uint32_t due) {
    static char whole[4096], part[4096];
    size_t length = 0, told;
    CHECK(tell(whole, sizeof whole, &length) == due && length > 3 && length < sizeof whole);
    CHECK(tell(NULL, 0, &told) == due && told == length);
    for (size_t room = 0; room <= length + 1; room++) {
        memset(part, '~', sizeof part);
        CHECK(tell(part, room, &told) == due && told == length);
        size_t there = room < length ? room : length;
        CHECK(memcmp(part, whole, there) == 0);
        for (size_t i = there; i < sizeof part; i++) CHECK(part[i] == '~');
    }
}

static hox_flow flow = HOX_FLOW_CLOSED;

static uint32_t tell_check(char *text, size_t room, size_t *length) { return hox_check(TEXT(bad), text, room, length); }

static uint32_t tell_run(char *text, size_t room, size_t *length) { return hox_run(TEXT(bad), text, room, length); }

static uint32_t tell_end(char *text, size_t room, size_t *length) { return hox_run(TEXT(good), text, room, length); }

static uint32_t tell_open(char *text, size_t room, size_t *length) {
    return hox_open(&flow, TEXT(good), TEXT("z"), TEXT("y"), text, room, length);
}

static uint32_t tell_report(char *text, size_t room, size_t *length) { return hox_report(&flow, text, room, length); }

/* Each function on a closed flow: what it gives is 0, and nothing else is written. */
static void closed(void) {
    size_t place = 7, count = 7, length = 7;
    uint64_t word = 7, held = 7, capacity = 7;
    uint32_t told = 7;
    char text[4] = "abc";
    CHECK(hox_input(&flow, TEXT("x"), &place) == HOX_CLOSED && place == 0);
    CHECK(hox_output(&flow, NULL, 0, &count) == HOX_CLOSED && count == 0);
    count = 7;
    CHECK(hox_feed(&flow, 0, &word, 1, &count) == HOX_CLOSED && count == 0 && word == 7);
    count = 7;
    CHECK(hox_drain(&flow, 0, &word, 1, &count) == HOX_CLOSED && count == 0 && word == 7);
    CHECK(hox_advance(&flow, 10, &told) == HOX_CLOSED && told == 0);
    told = 7;
    CHECK(hox_verdict(&flow, &told) == HOX_CLOSED && told == 0);
    told = 7;
    CHECK(hox_may_feed(&flow, 0, &told) == HOX_CLOSED && told == 0);
    told = 7;
    CHECK(hox_waits_for_input(&flow, 0, &told) == HOX_CLOSED && told == 0);
    told = 7;
    CHECK(hox_waits_for_output(&flow, 0, &told) == HOX_CLOSED && told == 0);
    CHECK(hox_input_fill(&flow, 0, &held, &capacity) == HOX_CLOSED && held == 0 && capacity == 0);
    held = capacity = 7;
    CHECK(hox_output_fill(&flow, 0, &held, &capacity) == HOX_CLOSED && held == 0 && capacity == 0);
    held = capacity = 7;
    CHECK(hox_entries(&flow, &held, &capacity) == HOX_CLOSED && held == 0 && capacity == 0);
    CHECK(hox_end_input(&flow, 0) == HOX_CLOSED);
    CHECK(hox_report(&flow, text, 3, &length) == HOX_CLOSED && length == 0 && memcmp(text, "abc", 3) == 0);
    CHECK(hox_close(&flow) == HOX_CLOSED && flow.session == NULL);
}

/* Each function at a place where there is no channel. */
static void no_channel(size_t place) {
    size_t count = 7;
    uint64_t word = 7, held = 7, capacity = 7, entries, growths;
    uint32_t told = 7;
    CHECK(hox_feed(&flow, place, &word, 1, &count) == HOX_NO_CHANNEL && count == 0);
    count = 7;
    CHECK(hox_feed(&flow, place, NULL, 0, &count) == HOX_NO_CHANNEL && count == 0);
    count = 7;
    CHECK(hox_drain(&flow, place, &word, 1, &count) == HOX_NO_CHANNEL && count == 0 && word == 7);
    CHECK(hox_may_feed(&flow, place, &told) == HOX_NO_CHANNEL && told == 0);
    told = 7;
    CHECK(hox_waits_for_input(&flow, place, &told) == HOX_NO_CHANNEL && told == 0);
    told = 7;
    CHECK(hox_waits_for_output(&flow, place, &told) == HOX_NO_CHANNEL && told == 0);
    CHECK(hox_input_fill(&flow, place, &held, &capacity) == HOX_NO_CHANNEL && held == 0 && capacity == 0);
    held = capacity = 7;
    CHECK(hox_output_fill(&flow, place, &held, &capacity) == HOX_NO_CHANNEL && held == 0 && capacity == 0);
    CHECK(hox_end_input(&flow, place) == HOX_NO_CHANNEL);
    CHECK(hox_entries(&flow, &entries, &growths) == HOX_DONE && entries == 0 && growths == 0);
}

static void names(void) {
    size_t place = 7;
    CHECK(hox_input(&flow, TEXT("x"), &place) == HOX_DONE && place == 0);
    CHECK(hox_output(&flow, TEXT("y"), &place) == HOX_DONE && place == 0);
    place = 7;
    CHECK(hox_input(&flow, TEXT("y"), &place) == HOX_NO_CHANNEL && place == 0);
    place = 7;
    CHECK(hox_output(&flow, TEXT("x"), &place) == HOX_NO_CHANNEL && place == 0);
    CHECK(hox_input(&flow, NULL, 0, &place) == HOX_NO_CHANNEL);
    CHECK(hox_input(&flow, TEXT("x y"), &place) == HOX_NO_CHANNEL);
    CHECK(hox_input(&flow, "\xff", 1, &place) == HOX_NO_CHANNEL);
    CHECK(hox_input(&flow, "x", 2, &place) == HOX_NO_CHANNEL); /* the name has a 0 at its end */
}

static void open_flow(void) {
    size_t count = 7, length = 7;
    uint64_t words[3] = {5, (uint64_t)-6, 7}, out[3] = {99, 99, 99}, held, capacity, entries, growths;
    int64_t sign[2] = {-1, -1};
    uint32_t told = 7;
    /* Zero lengths, and the largest count: only what there is room for is read. */
    CHECK(hox_feed(&flow, 0, NULL, 0, &count) == HOX_DONE && count == 0);
    CHECK(hox_drain(&flow, 0, NULL, 0, &count) == HOX_DONE && count == 0);
    CHECK(hox_advance(&flow, 0, &told) == HOX_DONE && told == HOX_CUT);
    CHECK(hox_advance(&flow, 1, &told) == HOX_DONE && told == HOX_CUT);
    CHECK(hox_verdict(&flow, &told) == HOX_DONE && told == HOX_CUT);
    CHECK(hox_advance(&flow, UINT64_MAX, &told) == HOX_DONE && told == HOX_STARVED);
    CHECK(hox_waits_for_input(&flow, 0, &told) == HOX_DONE && told == 1);
    CHECK(hox_feed(&flow, 0, words, 3, &count) == HOX_DONE && count == 2);
    CHECK(hox_may_feed(&flow, 0, &told) == HOX_DONE && told == 0);
    CHECK(hox_waits_for_input(&flow, 0, &told) == HOX_DONE && told == 0);
    CHECK(hox_input_fill(&flow, 0, &held, &capacity) == HOX_DONE && held == 2 && capacity == 2);
    CHECK(hox_advance(&flow, UINT64_MAX, &told) == HOX_DONE && told == HOX_BLOCKED);
    CHECK(hox_waits_for_output(&flow, 0, &told) == HOX_DONE && told == 1);
    CHECK(hox_verdict(&flow, &told) == HOX_DONE && told == HOX_BLOCKED);
    CHECK(hox_output_fill(&flow, 0, &held, &capacity) == HOX_DONE && held == 1 && capacity == 1);
    CHECK(hox_drain(&flow, 0, out, 3, &count) == HOX_DONE && count == 1 && out[0] == 10 && out[1] == 99 && out[2] == 99);
    CHECK(hox_waits_for_output(&flow, 0, &told) == HOX_DONE && told == 0);
    CHECK(hox_advance(&flow, UINT64_MAX, &told) == HOX_DONE && told == HOX_STARVED);
    CHECK(hox_drain_signed(&flow, 0, sign, 2, &count) == HOX_DONE && count == 1 && sign[0] == -12 && sign[1] == -1);
    /* Three words in, two of which were taken: 2 stops, 2 reads, 2 writes. */
    CHECK(hox_entries(&flow, &entries, &growths) == HOX_DONE && entries == 6 && growths == 0);
    CHECK(hox_end_input(&flow, 0) == HOX_DONE && hox_end_input(&flow, 0) == HOX_DONE);
    CHECK(hox_may_feed(&flow, 0, &told) == HOX_DONE && told == 0);
    CHECK(hox_waits_for_input(&flow, 0, &told) == HOX_DONE && told == 1);
    CHECK(hox_feed_signed(&flow, 0, sign, 2, &count) == HOX_ENDED && count == 0);
    CHECK(hox_verdict(&flow, &told) == HOX_DONE && told == HOX_DEADLOCK);
    CHECK(hox_advance(&flow, UINT64_MAX, &told) == HOX_DONE && told == HOX_DEADLOCK);
    CHECK(hox_open(&flow, TEXT(good), TEXT("x"), TEXT("y"), NULL, 0, &length) == HOX_OPEN);
    CHECK(hox_open(&flow, TEXT(bad), NULL, 0, NULL, 0, NULL, 0, &length) == HOX_OPEN);
    CHECK(hox_drain(&flow, 0, out, 3, &count) == HOX_DONE && count == 0); /* it is still the same flow */
}

int main(void) {
    size_t length = 7;
    CHECK(hox_version() == HOX_VERSION);
    CHECK(hox_check(NULL, 0, NULL, 0, &length) == HOX_FAULT_KEYS);
    CHECK(hox_run(NULL, 0, NULL, 0, &length) == HOX_FAULT_KEYS);
    CHECK(hox_open(&flow, NULL, 0, NULL, 0, NULL, 0, NULL, 0, &length) == HOX_FAULT_KEYS && flow.session == NULL);
    length = 7;
    CHECK(hox_check(TEXT(good), NULL, 0, &length) == HOX_DONE && length == 0);
    closed();
    room_for_texts(tell_check, HOX_FAULT_KIND);
    room_for_texts(tell_run, HOX_FAULT_KIND);
    room_for_texts(tell_end, HOX_DEADLOCK);
    room_for_texts(tell_open, HOX_NO_INPUT);
    /* A flow with no channel to feed or to drain is one too. */
    CHECK(hox_open(&flow, TEXT(good), NULL, 0, NULL, 0, NULL, 0, &length) == HOX_DONE && length == 0);
    no_channel(0);
    CHECK(hox_close(&flow) == HOX_DONE);
    CHECK(hox_open(&flow, TEXT(good), TEXT("x"), TEXT("y"), NULL, 0, &length) == HOX_DONE && length == 0);
    no_channel(1);
    no_channel(SIZE_MAX);
    names();
    room_for_texts(tell_report, HOX_DONE);
    open_flow();
    room_for_texts(tell_report, HOX_DONE);
    hox_flow moved = flow; /* it may be moved */
    flow.session = NULL;
    closed();
    CHECK(hox_close(&moved) == HOX_DONE && moved.session == NULL);
    printf("edges\n");
    return 0;
}
