/* Flows that were worked out by hand: what each call gives on the way, what a report says, what isn't opened, and in which
 * order formulas read and write. */
#include "hoxburen.h"
#include <stdio.h>
#include <stdlib.h>
#include <string.h>

#define TEXT(text) text, strlen(text)
#define CHECK(holds) check(holds, #holds, __LINE__)
#define MOST 1000

static int checked = 0;

static void check(int holds, const char *what, int line) {
    checked++;
    if (holds) return;
    printf("worked.c:%d: not so: %s\n", line, what);
    exit(3);
}

/* Writes to y the sum of each word of x and the one before it (first 0); negates flags from on to off. */
static const char sums[] =
    "version = 1\n"
    "process = [\n"
    "  { name = 'src', kind = 'count', args = [0, 0] },\n"
    "  { name = 'both', kind = 'copy' },\n"
    "  { name = 'before', kind = 'prefix', args = [0] },\n"
    "  { name = 'sum', kind = 'add' },\n"
    "  { name = 'snk', kind = 'sink', args = [0] },\n"
    "  { name = 'flags', kind = 'input_flags' },\n"
    "  { name = 'turn', kind = 'not' },\n"
    "  { name = 'read', kind = 'drain_flags' },\n"
    "]\n"
    "channel = [\n"
    "  { name = 'x', from = 'src', to = 'both', capacity = 4 },\n"
    "  { name = 'now', from = 'both', to = 'sum', capacity = 4 },\n"
    "  { name = 'next', from = 'both', out = 1, to = 'before', capacity = 4 },\n"
    "  { name = 'last', from = 'before', to = 'sum', in = 1, capacity = 4 },\n"
    "  { name = 'y', from = 'sum', to = 'snk', capacity = 4 },\n"
    "  { name = 'on', from = 'flags', to = 'turn', capacity = 2 },\n"
    "  { name = 'off', from = 'turn', to = 'read', capacity = 2 },\n"
    "]\n";
static const char doubles[] =
    "version = 1\n"
    "process = [\n"
    "  { name = 'source', kind = 'input' },\n"
    "  { name = 'double', kind = 'out = in * 2' },\n"
    "  { name = 'end', kind = 'drain' },\n"
    "]\n"
    "channel = [\n"
    "  { name = 'x', from = 'source', to = 'double' },\n"
    "  { name = 'y', from = 'double', to = 'end' },\n"
    "]\n";
/* Words come in over a of capacity two, and go out tripled over b of capacity one. */
static const char triples[] =
    "version = 1\n"
    "process = [\n"
    "    { name = 'src', kind = 'count', args = [0, 0] },\n"
    "    { name = 'mul', kind = 'scale', args = [3] },\n"
    "    { name = 'snk', kind = 'sink', args = [0] },\n"
    "]\n"
    "channel = [\n"
    "    { name = 'a', from = 'src', to = 'mul', capacity = 2 },\n"
    "    { name = 'b', from = 'mul', to = 'snk' },\n"
    "]\n";
static const char counter[] =
    "version = 1\n"
    "process = [\n"
    "  { name = 'src', kind = 'count', args = [1, 3] },\n"
    "  { name = 'snk', kind = 'sink', args = [3] },\n"
    "]\n"
    "channel = [\n"
    "  { name = 'x', from = 'src', to = 'snk', capacity = 2 },\n"
    "]\n";
static const char version_7[] = "version = 7\nprocess = []\n";

static hox_flow flow = HOX_FLOW_CLOSED;

static void opens(const char *text, const char *inputs, const char *outputs) {
    CHECK(hox_open(&flow, text, strlen(text), inputs, strlen(inputs), outputs, strlen(outputs), NULL, 0, &(size_t){0}) == HOX_DONE);
}

static void closes(void) { CHECK(hox_close(&flow) == HOX_DONE); }

/* Words are fed: so many of them are taken, with this answer. */
static int feeds(size_t input, const uint64_t *words, size_t count, size_t taken, uint32_t answer) {
    size_t fed = 99;
    return hox_feed(&flow, input, words, count, &fed) == answer && fed == taken;
}

/* What a function tells of a flow, if it answers that it did so. */
#define TOLD(call) ((told = 99, (call)) == HOX_DONE ? told : 98)

static void sums_come_out(void) {
    uint64_t given[] = {5, 7, 11, 13, 17}, words[6] = {99, 99, 99, 99, 99, 99}, due[6] = {5, 12, 18, 24, 99, 99};
    uint64_t held, room;
    uint32_t told;
    size_t count;
    opens(sums, " x\non ", "y off");
    CHECK(feeds(0, given, 5, 4, HOX_DONE));
    CHECK(hox_input_fill(&flow, 0, &held, &room) == HOX_DONE && held == 4 && room == 4);
    CHECK(TOLD(hox_may_feed(&flow, 0, &told)) == 0);
    CHECK(TOLD(hox_verdict(&flow, &told)) == HOX_CUT);
    CHECK(TOLD(hox_advance(&flow, MOST, &told)) == HOX_STARVED);
    CHECK(hox_output_fill(&flow, 0, &held, &room) == HOX_DONE && held == 4 && room == 4);
    CHECK(hox_drain(&flow, 0, words, 6, &count) == HOX_DONE && count == 4 && memcmp(words, due, sizeof due) == 0);
    CHECK(hox_entries(&flow, &held, &room) == HOX_DONE && held == 37 && room == 0);
    closes();
}

static void a_kind_may_be_a_formula(void) {
    uint64_t given[] = {21}, words[2] = {99, 99};
    uint32_t told;
    size_t count;
    opens(doubles, "x", "y");
    CHECK(feeds(0, given, 1, 1, HOX_DONE));
    CHECK(TOLD(hox_advance(&flow, MOST, &told)) == HOX_STARVED);
    CHECK(hox_drain(&flow, 0, words, 2, &count) == HOX_DONE && count == 1 && words[0] == 42 && words[1] == 99);
    closes();
}

static void flags_are_0_and_1(void) {
    uint64_t given[] = {1, 2, 0}, zero[] = {0}, words[2] = {99, 99};
    uint32_t told;
    size_t count;
    opens(sums, " x\non ", "y off");
    CHECK(feeds(1, given, 3, 1, HOX_NO_FLAG));
    CHECK(feeds(1, zero, 1, 1, HOX_DONE));
    CHECK(TOLD(hox_advance(&flow, MOST, &told)) == HOX_STARVED);
    CHECK(hox_drain(&flow, 1, words, 2, &count) == HOX_DONE && count == 2 && words[0] == 0 && words[1] == 1);
    closes();
}

static void an_input_ends(void) {
    uint64_t given[] = {1};
    uint32_t told;
    opens(sums, " x\non ", "y off");
    CHECK(TOLD(hox_may_feed(&flow, 0, &told)) == 1);
    CHECK(TOLD(hox_advance(&flow, MOST, &told)) == HOX_STARVED);
    CHECK(TOLD(hox_waits_for_input(&flow, 0, &told)) == 1);
    CHECK(TOLD(hox_waits_for_output(&flow, 0, &told)) == 0);
    CHECK(hox_end_input(&flow, 0) == HOX_DONE);
    CHECK(hox_end_input(&flow, 1) == HOX_DONE);
    CHECK(feeds(0, given, 1, 0, HOX_ENDED));
    CHECK(TOLD(hox_verdict(&flow, &told)) == HOX_DEADLOCK);
    CHECK(TOLD(hox_advance(&flow, MOST, &told)) == HOX_DEADLOCK);
    closes();
}

static void a_full_output_blocks(void) {
    uint64_t ones[] = {1, 1, 1, 1};
    uint32_t told;
    size_t count;
    opens(sums, " x\non ", "y off");
    CHECK(hox_end_input(&flow, 1) == HOX_DONE);
    for (int k = 0; k < 4; k++) {
        hox_feed(&flow, 0, ones, 4, &count);
        hox_advance(&flow, MOST, &told);
    }
    CHECK(TOLD(hox_verdict(&flow, &told)) == HOX_BLOCKED);
    CHECK(TOLD(hox_waits_for_output(&flow, 0, &told)) == 1);
    CHECK(TOLD(hox_waits_for_input(&flow, 0, &told)) == 0);
    closes();
}

static void there_is_no_such_channel(void) {
    uint64_t word = 1, held, room;
    uint32_t told;
    size_t count = 99;
    opens(sums, " x\non ", "y off");
    CHECK(feeds(2, &word, 1, 0, HOX_NO_CHANNEL));
    CHECK(hox_drain(&flow, SIZE_MAX, &word, 1, &count) == HOX_NO_CHANNEL && count == 0);
    CHECK(hox_end_input(&flow, 2) == HOX_NO_CHANNEL);
    CHECK(hox_may_feed(&flow, 2, &told) == HOX_NO_CHANNEL);
    CHECK(hox_waits_for_input(&flow, 2, &told) == HOX_NO_CHANNEL);
    CHECK(hox_waits_for_output(&flow, 2, &told) == HOX_NO_CHANNEL);
    CHECK(hox_input_fill(&flow, 2, &held, &room) == HOX_NO_CHANNEL);
    CHECK(hox_output_fill(&flow, 2, &held, &room) == HOX_NO_CHANNEL);
    CHECK(hox_input(&flow, TEXT("on"), &count) == HOX_DONE && count == 1);
    CHECK(hox_input(&flow, TEXT("y"), &count) == HOX_NO_CHANNEL);
    CHECK(hox_output(&flow, TEXT("y"), &count) == HOX_DONE && count == 0);
    CHECK(hox_output(&flow, TEXT("\xff"), &count) == HOX_NO_CHANNEL);
    closes();
}

static void a_report_says_where_a_flow_stands(void) {
    static const char due[] = "starved\n"
                              "process src stopped\n"
                              "process both reads x\n"
                              "process before reads next\n"
                              "process sum reads now\n"
                              "process snk stopped\n"
                              "process flags stopped\n"
                              "process turn reads on\n"
                              "process read stopped\n"
                              "channel x left 0 capacity 4\n"
                              "channel now left 0 capacity 4\n"
                              "channel next left 0 capacity 4\n"
                              "channel last left 1 capacity 4\n"
                              "channel y left 2 capacity 4\n"
                              "channel on left 0 capacity 2\n"
                              "channel off left 0 capacity 2\n"
                              "entries 21 growths 0\n";
    static char report[4096];
    uint64_t given[] = {1, 2};
    uint32_t told;
    size_t length;
    opens(sums, " x\non ", "y off");
    hox_feed(&flow, 0, given, 2, &length);
    hox_advance(&flow, MOST, &told);
    CHECK(hox_report(&flow, report, sizeof report, &length) == HOX_DONE && length == strlen(due) && memcmp(report, due, length) == 0);
    closes();
}

/* A text and names that no flow is opened for, the number of the answer, and the message. */
static const struct {
    const char *text, *inputs, *outputs;
    uint32_t number;
    const char *message;
} refused[] = {
    {sums, "z", "y", 38, "input z: unknown channel"},
    {sums, "x now", "y", 38, "input now: process both writes to that channel itself; make its kind input or input_flags"},
    {sums, "x", "now", 39, "output now: process sum reads that channel; let another channel lead from its output to a drain, and name that"},
    {sums, "x x", "y", 40, "a channel is named twice"},
    {sums, "\xff", "y", 37, "the names are not UTF-8"},
    {version_7, "x", "y", 3, "version 7; it must be 1 or 2"},
};

static void openings_are_refused(void) {
    char message[200];
    size_t length;
    for (size_t k = 0; k < sizeof refused / sizeof *refused; k++) {
        CHECK(hox_open(&flow, TEXT(refused[k].text), TEXT(refused[k].inputs), TEXT(refused[k].outputs), message, sizeof message, &length) == refused[k].number);
        CHECK(length == strlen(refused[k].message) && memcmp(message, refused[k].message, length) == 0);
    }
}

static void descriptions_are_checked_and_run(void) {
    static const char due[] = "end terminated\n"
                              "process src stopped steps 4\n"
                              "process snk stopped steps 4\n"
                              "channel x put 3 left 0 capacity 2\n"
                              "entries 8\n";
    static char text[200];
    size_t length;
    CHECK(hox_check(TEXT(sums), text, sizeof text, &length) == 0 && length == 0);
    CHECK(hox_check(TEXT(version_7), text, sizeof text, &length) == 3);
    CHECK(hox_check(TEXT("process"), text, sizeof text, &length) == 1);
    CHECK(hox_check(TEXT("version = 2\nstep = 0\nprocess = [{ name = 'p', kind = 'prefix', args = [7] }]\nchannel = [{ name = 'a', from = 'p', to = 'p' }]\n"), text, sizeof text, &length) == 17);
    CHECK(hox_run(TEXT(counter), text, sizeof text, &length) == 64 && length == strlen(due) && memcmp(text, due, length) == 0);
    CHECK(hox_run(TEXT(version_7), text, sizeof text, &length) == 3);
}

/* A text goes as far as there is room, and its length is told. */
static void texts_are_cut_off(void) {
    char buffer[] = "................................";
    size_t length;
    CHECK(hox_check(TEXT(version_7), buffer, sizeof buffer, &length) == 3 && length == 28 && strcmp(buffer, "version 7; it must be 1 or 2....") == 0);
    strcpy(buffer, "......");
    CHECK(hox_check(TEXT(version_7), buffer, 4, &length) == 3 && length == 28 && strcmp(buffer, "vers..") == 0);
    CHECK(hox_check(TEXT(counter), buffer, 6, &length) == 0 && length == 0 && strcmp(buffer, "vers..") == 0);
}

static void answers_have_numbers(void) {
    static const uint32_t numbers[] = {HOX_DONE, HOX_FAULT_TOML, HOX_FAULT_STEP, HOX_CLOSED, HOX_OPEN, HOX_NO_CHANNEL, HOX_ENDED, HOX_NO_FLAG, HOX_NO_TEXT, HOX_NO_INPUT, HOX_NO_OUTPUT, HOX_TWICE, HOX_CUT, HOX_STARVED, HOX_BLOCKED, HOX_MEMORY};
    static const uint32_t due[] = {0, 1, 17, 32, 33, 34, 35, 36, 37, 38, 39, 40, 0, 1, 2, 68};
    uint32_t told;
    for (size_t k = 0; k < sizeof due / sizeof *due; k++) CHECK(numbers[k] == due[k]);
    CHECK(hox_verdict(&flow, &told) == 32);
    opens(doubles, "x", "y");
    CHECK(hox_open(&flow, TEXT(doubles), TEXT("x"), TEXT("y"), NULL, 0, &(size_t){0}) == 33);
    closes();
}

static void a_look_at_a_flow_changes_nothing(void) {
    uint64_t held, room, word = 5, two[] = {7, 9};
    uint32_t told;
    opens(triples, "a", "b");
    CHECK(TOLD(hox_verdict(&flow, &told)) == HOX_CUT);
    CHECK(hox_input_fill(&flow, 0, &held, &room) == HOX_DONE && held == 0 && room == 2);
    CHECK(hox_input_fill(&flow, 1, &held, &room) == HOX_NO_CHANNEL);
    CHECK(TOLD(hox_may_feed(&flow, 0, &told)) == 1);
    CHECK(feeds(0, &word, 1, 1, HOX_DONE));
    CHECK(hox_input_fill(&flow, 0, &held, &room) == HOX_DONE && held == 1 && room == 2);
    CHECK(TOLD(hox_advance(&flow, MOST, &told)) == HOX_STARVED);
    CHECK(TOLD(hox_verdict(&flow, &told)) == HOX_STARVED);
    CHECK(TOLD(hox_may_feed(&flow, 0, &told)) == 1);
    CHECK(feeds(0, two, 2, 2, HOX_DONE));
    CHECK(TOLD(hox_advance(&flow, MOST, &told)) == HOX_BLOCKED);
    CHECK(TOLD(hox_verdict(&flow, &told)) == HOX_BLOCKED);
    CHECK(hox_input_fill(&flow, 0, &held, &room) == HOX_DONE && held == 1 && room == 2);
    closes();
}

/* Cards of formulas between a source and a drain, and the numbers of what is wrong with them: `formula 0` has no ports,
 * `formula 45` too many states, an argument of 2^60 is none of digits, and ports are missing or carry other tokens. */
static void what_is_no_card_is_refused(void) {
    static const struct {
        int kind;
        const char *third;
        uint32_t number;
    } cards[] = {
        {40, "0", HOX_DONE},
        {0, "0", HOX_FAULT_KIND},
        {45, "0", HOX_FAULT_KIND},
        {40, "1152921504606846976", HOX_FAULT_ARGUMENTS},
        {1064, "0", HOX_FAULT_SORTS},
        {48, "0", HOX_FAULT_UNUSED},
        {32, "0", HOX_FAULT_NO_END},
    };
    char text[500];
    size_t length;
    for (size_t k = 0; k < sizeof cards / sizeof *cards; k++) {
        sprintf(text, "version = 1\nprocess = [{ name = 'f', kind = 'formula %d', args = [886, 0, %s] }, { name = 'i', kind = 'input' }, { name = 'o', kind = 'drain' }]\n"
                      "channel = [{ name = 'x', from = 'i', to = 'f', sort = 'words' }, { name = 'y', from = 'f', to = 'o', sort = 'words' }]\n", cards[k].kind, cards[k].third);
        CHECK(hox_check(TEXT(text), NULL, 0, &length) == cards[k].number);
    }
}

/* A formula; how many words go to each input, the first of them flags where it says so; how many outputs it has; and the
 * order in which it reads (r) and writes (w). */
static const struct {
    const char *text, *flags, *given;
    int outs;
    const char *acts;
} rounds[] = {
    {"out = in", "", "2", 1, "r0 w0 r0 w0"},
    {"out1 = in1; out = in", "", "22", 2, "r0 r1 w0 w1 r0 r1 w0 w1"},
    {"out = in2 - in1 * in", "", "211", 1, "r0 r1 r2 w0 r0"},
    {"out2 = in; out1 = in; out = in", "", "1", 3, "r0 w0 w1 w2"},
    {"y = y + in", "", "2", 0, "r0 r0"},
    {"y = in ? in1 : y + in2", "_flags", "221", 0, "r0 r1 r2 r0 r1"},
};

/* Appends an act for each channel that holds another number of tokens than before. */
static void look(char kind, uint32_t fill(hox_flow *, size_t, uint64_t *, uint64_t *), int count, uint64_t *before, char *acts) {
    uint64_t held, room;
    for (int k = 0; k < count; k++) {
        CHECK(fill(&flow, (size_t)k, &held, &room) == HOX_DONE);
        if (held != before[k]) sprintf(acts + strlen(acts), " %c%d", kind, k);
        before[k] = held;
    }
}

/* Runs a formula entry by entry. */
static void reads_then_writes(size_t row) {
    char text[2000] = "version = 1\nprocess = [{ name = 'f', kind = '", acts[200] = "", in_names[50] = "", out_names[50] = "";
    int ins = (int)strlen(rounds[row].given);
    uint64_t words[] = {1, 0}, held_in[3], held_out[3] = {0, 0, 0};
    uint32_t pause = HOX_CUT;
    strcat(strcat(text, rounds[row].text), "' }");
    for (int k = 0; k < ins; k++) sprintf(text + strlen(text), ", { name = 'i%d', kind = 'input%s' }", k, k ? "" : rounds[row].flags);
    for (int k = 0; k < rounds[row].outs; k++) sprintf(text + strlen(text), ", { name = 'o%d', kind = 'drain' }", k);
    strcat(text, "]\nchannel = [");
    for (int k = 0; k < ins; k++) sprintf(text + strlen(text), "{ name = 'x%d', from = 'i%d', to = 'f', in = %d, capacity = 9 },", k, k, k);
    for (int k = 0; k < rounds[row].outs; k++) sprintf(text + strlen(text), "{ name = 'y%d', from = 'f', out = %d, to = 'o%d', capacity = 9 },", k, k, k);
    strcat(text, "]\n");
    for (int k = 0; k < ins; k++) sprintf(in_names + strlen(in_names), "x%d ", k);
    for (int k = 0; k < rounds[row].outs; k++) sprintf(out_names + strlen(out_names), "y%d ", k);
    opens(text, in_names, out_names);
    for (int k = 0; k < ins; k++) {
        held_in[k] = (uint64_t)(rounds[row].given[k] - '0');
        CHECK(feeds((size_t)k, words, held_in[k], held_in[k], HOX_DONE));
    }
    for (uint64_t made = 0, growths; pause == HOX_CUT; ) {
        uint64_t before = made;
        CHECK(hox_advance(&flow, 2, &pause) == HOX_DONE);
        CHECK(hox_entries(&flow, &made, &growths) == HOX_DONE && growths == 0 && made <= before + 1);
        look('r', hox_input_fill, ins, held_in, acts);
        look('w', hox_output_fill, rounds[row].outs, held_out, acts);
    }
    CHECK(pause == HOX_STARVED);
    CHECK(strcmp(acts + 1, rounds[row].acts) == 0);
    closes();
}

int main(void) {
    sums_come_out();
    a_kind_may_be_a_formula();
    flags_are_0_and_1();
    an_input_ends();
    a_full_output_blocks();
    there_is_no_such_channel();
    a_report_says_where_a_flow_stands();
    openings_are_refused();
    descriptions_are_checked_and_run();
    texts_are_cut_off();
    answers_have_numbers();
    a_look_at_a_flow_changes_nothing();
    what_is_no_card_is_refused();
    for (size_t row = 0; row < sizeof rounds / sizeof *rounds; row++) reads_then_writes(row);
    printf("%d comparisons\n", checked);
    return 0;
}
