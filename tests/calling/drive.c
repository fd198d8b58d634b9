/* Driven by tests/callers.
 *
 *     drive flow < TEXT     opens the flow that the text describes, and does what its lines say (below)
 *     drive check FILE..    checks each file as a description, runs it, and opens its flow with no channel: a line each,
 *                           with the number and the message
 *
 * After the description a line `inputs NAME..` and a line `outputs NAME..` name the channels. Each line that follows is
 * one of `feed NAME WORD..`, `advance MOST`, `drain NAME MOST`, `end NAME` and `finish`, which ends each input and goes on
 * to the end. What is wrong by itself, as a verdict that is not the pause before it, ends the program with status 3. */
#include "hoxburen.h"
#include <inttypes.h>
#include <stdio.h>
#include <stdlib.h>
#include <string.h>

#define MOST 1024
#define BUFFER (1 << 16)
#define LONGEST 1000000 /* so many entries at most, where a flow has no end */

static hox_flow flow = HOX_FLOW_CLOSED;
static size_t inputs, outputs;
static char *input_names[MOST], *output_names[MOST];
static int ended[MOST];
static uint64_t words[BUFFER];

static void wrong(const char *what) {
    printf("wrong: %s\n", what);
    exit(3);
}

static void check(int holds, const char *what) {
    if (!holds) wrong(what);
}

static char *read_all(FILE *file, size_t *size) {
    size_t room = 1 << 16;
    char *text = malloc(room);
    *size = 0;
    while (text != NULL) {
        *size += fread(text + *size, 1, room - *size - 1, file);
        if (*size < room - 1) break;
        text = realloc(text, room *= 2);
    }
    check(text != NULL, "memory");
    text[*size] = 0;
    return text;
}

static size_t place_of(uint32_t find(hox_flow *, const char *, size_t, size_t *), const char *name) {
    size_t place = 99;
    check(find(&flow, name, strlen(name), &place) == HOX_DONE, "a name is not found");
    return place;
}

/* What is told of an input fits together. Returns what it holds. */
static uint64_t look_at_input(size_t place) {
    uint64_t held = 9, capacity = 9;
    uint32_t may = 9, waits = 9;
    check(hox_input_fill(&flow, place, &held, &capacity) == HOX_DONE, "input_fill");
    check(hox_may_feed(&flow, place, &may) == HOX_DONE, "may_feed");
    check(hox_waits_for_input(&flow, place, &waits) == HOX_DONE, "waits_for_input");
    check(held <= capacity && may == (!ended[place] && held < capacity), "whether an input may be fed");
    check(waits <= 1 && !(waits && held), "whether an input is waited for");
    return held;
}

static uint64_t look_at_output(size_t place) {
    uint64_t held = 9, capacity = 9;
    uint32_t waits = 9;
    check(hox_output_fill(&flow, place, &held, &capacity) == HOX_DONE, "output_fill");
    check(hox_waits_for_output(&flow, place, &waits) == HOX_DONE, "waits_for_output");
    check(waits <= 1 && held <= capacity && !(waits && held < capacity), "whether an output is waited for");
    return held;
}

static void feed(char *line) {
    char *name = strtok(line, " ");
    size_t place = place_of(hox_input, name), count = 0, fed = 99;
    for (char *word = strtok(NULL, " "); word != NULL && count < BUFFER; word = strtok(NULL, " "))
        words[count++] = strtoull(word, NULL, 10);
    uint64_t held = look_at_input(place);
    check(hox_feed(&flow, place, words, count, &fed) == HOX_DONE && fed <= count, "feed");
    uint64_t now = look_at_input(place), capacity = 0;
    check(now == held + fed, "how many were fed");
    hox_input_fill(&flow, place, &now, &capacity);
    check(fed == count || now == capacity, "an input with room takes all");
    printf("fed %zu\n", fed);
}

static uint32_t advance(uint64_t most) {
    uint64_t before, growths, after;
    uint32_t pause = 99, verdict = 99, waits = 0;
    check(hox_entries(&flow, &before, &growths) == HOX_DONE, "entries");
    check(hox_advance(&flow, most, &pause) == HOX_DONE, "advance");
    check(hox_entries(&flow, &after, &growths) == HOX_DONE, "entries");
    check(after - before <= most && (pause != HOX_CUT || after - before + 1 >= most), "how many entries were made");
    check(hox_verdict(&flow, &verdict) == HOX_DONE, "verdict");
    if (pause == HOX_STARVED || pause == HOX_BLOCKED || pause == HOX_TERMINATED || pause == HOX_DEADLOCK)
        check(verdict == pause, "the verdict is the pause");
    if (pause == HOX_CEILING || pause == HOX_MEMORY) check(verdict == HOX_CUT, "the verdict where a channel can't grow");
    for (size_t place = 0; place < inputs; place++) {
        uint32_t one;
        look_at_input(place);
        hox_waits_for_input(&flow, place, &one);
        waits |= one && !ended[place];
    }
    check(pause != HOX_STARVED || waits, "an input is starved");
    waits = 0;
    for (size_t place = 0; place < outputs; place++) {
        uint32_t one;
        look_at_output(place);
        hox_waits_for_output(&flow, place, &one);
        waits |= one;
    }
    check(pause != HOX_BLOCKED || waits, "an output is full");
    return pause;
}

static size_t drain(size_t place, size_t most) {
    size_t count = 99;
    uint64_t held = look_at_output(place);
    if (most > BUFFER - 1) most = BUFFER - 1;
    words[most] = 12345;
    check(hox_drain(&flow, place, words, most, &count) == HOX_DONE && words[most] == 12345, "drain");
    check(count == (held < most ? held : most) && look_at_output(place) == held - count, "how many were drained");
    for (size_t i = 0; i < count; i++) printf("%s %" PRIu64 "\n", output_names[place], words[i]);
    return count;
}

static void end(size_t place) {
    check(hox_end_input(&flow, place) == HOX_DONE, "end");
    ended[place] = 1;
    look_at_input(place);
}

static void finish(void) {
    for (size_t place = 0; place < inputs; place++) end(place);
    for (uint64_t entries = 0, growths; entries < LONGEST; hox_entries(&flow, &entries, &growths)) {
        size_t count = 0;
        uint32_t pause = advance(5000);
        for (size_t place = 0; place < outputs; place++) count += drain(place, BUFFER);
        check(pause != HOX_STARVED, "an ended input starves nobody");
        if (pause == HOX_CUT || pause == HOX_BLOCKED || count > 0) continue;
        printf("over %" PRIu32 "\n", pause);
        return;
    }
    printf("over 0\n");
}

/* A line of the text, ended by 0; NULL after the last. */
static char *line_of(char **text) {
    char *line = *text, *stop = strchr(line, '\n');
    if (*line == 0) return NULL;
    if (stop != NULL) *stop = 0;
    *text = stop != NULL ? stop + 1 : line + strlen(line);
    return line;
}

static size_t names_of(char *line, char **names) {
    size_t count = 0;
    strtok(line, " ");
    for (char *name = strtok(NULL, " "); name != NULL && count < MOST; name = strtok(NULL, " ")) names[count++] = name;
    return count;
}

static int drive(void) {
    size_t size, length = 0;
    char *text = read_all(stdin, &size), message[400] = "";
    char *rest = strstr(text, "\ninputs");
    check(rest != NULL, "no inputs");
    char *description = text, *in = ++rest;
    size_t description_length = (size_t)(in - text);
    line_of(&rest);
    char *out = line_of(&rest);
    /* The names come after `inputs ` and `outputs `. */
    const char *fed = in + strlen("inputs"), *drained = out + strlen("outputs");
    fed += *fed == ' ';
    drained += *drained == ' ';
    uint32_t answer = hox_open(&flow, description, description_length, fed, strlen(fed), drained, strlen(drained), message,
                               sizeof message - 1, &length);
    if (answer != HOX_DONE) {
        printf("refused %" PRIu32 " %s\n", answer, message);
        return 0;
    }
    inputs = names_of(in, input_names);
    outputs = names_of(out, output_names);
    for (size_t place = 0; place < inputs; place++)
        check(place_of(hox_input, input_names[place]) == place, "the place of an input");
    for (size_t place = 0; place < outputs; place++)
        check(place_of(hox_output, output_names[place]) == place, "the place of an output");
    for (char *line = line_of(&rest); line != NULL; line = line_of(&rest)) {
        char *words_of_it = strchr(line, ' ');
        if (words_of_it != NULL) *words_of_it++ = 0;
        if (strcmp(line, "feed") == 0) feed(words_of_it);
        else if (strcmp(line, "advance") == 0) printf("pause %" PRIu32 "\n", advance(strtoull(words_of_it, NULL, 10)));
        else if (strcmp(line, "drain") == 0) {
            char *name = strtok(words_of_it, " ");
            drain(place_of(hox_output, name), strtoull(strtok(NULL, " "), NULL, 10));
        } else if (strcmp(line, "end") == 0) end(place_of(hox_input, words_of_it));
        else if (strcmp(line, "finish") == 0) finish();
        else wrong("a line");
    }
    static char report[1 << 16];
    check(hox_report(&flow, report, sizeof report, &length) == HOX_DONE && length < sizeof report, "report");
    printf("%.*s", (int)length, report);
    check(hox_close(&flow) == HOX_DONE && flow.session == NULL && hox_close(&flow) == HOX_CLOSED, "close");
    free(text);
    return 0;
}

static void tell(const char *what, uint32_t number, const char *message, size_t length) {
    printf("%s %" PRIu32 " %.*s\n", what, number, (int)length, message);
}

static int check_files(int count, char **paths) {
    for (int i = 0; i < count; i++) {
        static char message[1 << 16];
        size_t size, length = 0;
        FILE *file = fopen(paths[i], "rb");
        check(file != NULL, "no file");
        char *text = read_all(file, &size);
        fclose(file);
        uint32_t answer = hox_check(text, size, message, sizeof message, &length);
        tell("check", answer, message, length);
        answer = hox_run(text, size, message, sizeof message, &length);
        tell("run", answer, message, answer < HOX_TERMINATED ? length : 0);
        answer = hox_open(&flow, text, size, NULL, 0, NULL, 0, message, sizeof message, &length);
        tell("open", answer, message, length);
        check(hox_close(&flow) == (answer == HOX_DONE ? HOX_DONE : HOX_CLOSED), "close");
        free(text);
    }
    return 0;
}

int main(int count, char **arguments) {
    if (count == 2 && strcmp(arguments[1], "flow") == 0) return drive();
    if (count > 1 && strcmp(arguments[1], "check") == 0) return check_files(count - 2, arguments + 2);
    return 1;
}
