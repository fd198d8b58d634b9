/* Shows wrong calls and the number that each answers, a line a call. None of them breaks anything; what does is in the
 * header, under DUTIES OF THE CALLER. */
#include "hoxburen.h"
#include <inttypes.h>
#include <stdio.h>
#include <string.h>

#define TEXT(text) text, strlen(text)
#define SHOW(call) printf("%2" PRIu32 " %s\n", call, #call)

#define NETWORK(source)                                                                                                \
    "version = 1\n"                                                                                                    \
    "process = [\n"                                                                                                    \
    "    { name = 'a', kind = '" source "' },\n"                                                                       \
    "    { name = 'b', kind = 'not' },\n"                                                                              \
    "    { name = 'c', kind = 'drain_flags' },\n"                                                                      \
    "]\n"                                                                                                              \
    "channel = [\n"                                                                                                    \
    "    { name = 'x', from = 'a', to = 'b' },\n"                                                                      \
    "    { name = 'y', from = 'b', to = 'c' },\n"                                                                      \
    "]\n"

int main(void) {
    const char *words_there = NETWORK("input"), *text = NETWORK("input_flags");
    char message[400] = "";
    uint64_t words[3] = {1, 0, 2}, entries, growths;
    size_t length, place, count;
    uint32_t pause, may;
    hox_flow flow = HOX_FLOW_CLOSED;

    /* This network fails the check: x's writer writes words, and its reader reads flags. */
    SHOW(hox_check(TEXT(words_there), message, sizeof message - 1, &length));
    printf("   %s\n", message);
    SHOW(hox_open(&flow, TEXT(words_there), TEXT("x"), TEXT("y"), NULL, 0, &length));

    /* The flow is still closed. */
    SHOW(hox_feed(&flow, 0, words, 1, &count));
    SHOW(hox_drain(&flow, 0, words, 1, &count));
    SHOW(hox_advance(&flow, 10, &pause));
    SHOW(hox_entries(&flow, &entries, &growths));
    SHOW(hox_close(&flow));

    /* The other network is valid, but these names are wrong. */
    SHOW(hox_open(&flow, TEXT(text), TEXT("\xff"), TEXT("y"), message, sizeof message, &length));
    SHOW(hox_open(&flow, TEXT(text), TEXT("y"), TEXT("y"), message, sizeof message, &length));
    SHOW(hox_open(&flow, TEXT(text), TEXT("z"), TEXT("y"), message, sizeof message, &length));
    SHOW(hox_open(&flow, TEXT(text), NULL, 0, TEXT("x"), message, sizeof message, &length));
    SHOW(hox_open(&flow, TEXT(text), TEXT("x x"), TEXT("y"), message, sizeof message, &length));

    SHOW(hox_open(&flow, TEXT(text), TEXT("x"), TEXT("y"), message, sizeof message, &length));
    SHOW(hox_open(&flow, TEXT(text), TEXT("x"), TEXT("y"), message, sizeof message, &length));
    SHOW(hox_input(&flow, TEXT("y"), &place));
    SHOW(hox_feed(&flow, 1, words, 1, &count));
    SHOW(hox_drain(&flow, SIZE_MAX, words, 1, &count));
    SHOW(hox_may_feed(&flow, 1, &may));

    /* The input has room for one flag; the others are fed again later. */
    SHOW(hox_feed(&flow, 0, words, 3, &count));
    printf("   %d of 3\n", (int)count);
    SHOW(hox_advance(&flow, 10, &pause));
    SHOW(hox_feed(&flow, 0, words + 1, 1, &count));
    SHOW(hox_advance(&flow, 10, &pause));
    SHOW(hox_feed(&flow, 0, words + 2, 1, &count));
    SHOW(hox_end_input(&flow, 0));
    SHOW(hox_feed(&flow, 0, words, 1, &count));
    SHOW(hox_close(&flow));
    SHOW(hox_close(&flow));
    return 0;
}
