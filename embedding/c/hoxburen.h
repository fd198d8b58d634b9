/* hoxburen.h: Kahn process networks for programs in C99, C++ and every language that calls C.
 *
 * NAME
 *     hoxburen - checks and runs process networks, and feeds and drains networks that may run forever
 *
 * LINK
 *     cc program.c libhoxburen.a          (the archive needs only malloc, realloc, free, memcpy, memmove and memset)
 *     cc program.c -lhoxburen             (the shared library)
 *
 * EXAMPLE
 *     hox_flow flow = HOX_FLOW_CLOSED;
 *     uint32_t pause;
 *     size_t fed, drained, length;
 *     uint64_t samples[3] = {1, 2, 3}, sums[64];
 *     char message[400] = "";                              (keeps a 0 after what is written)
 *
 *     if (hox_open(&flow, text, strlen(text), "x", 1, "sum low", 7, message, sizeof message - 1, &length) != HOX_DONE)
 *         fail("%s", message);
 *     hox_feed(&flow, 0, samples, 3, &fed);                (input 0 is x)
 *     hox_advance(&flow, 1000000, &pause);                 (HOX_STARVED: it waits for more of x)
 *     hox_drain(&flow, 0, sums, 64, &drained);             (output 0 is sum, output 1 is low)
 *     hox_close(&flow);
 *
 * DESCRIPTION
 *     A description is a TOML text that lists processes, each with its kind, and the channels between them. hox_check
 *     checks it; hox_run runs its network from start to end and writes the report. docs/format.md and docs/signals.md
 *     of Hoxburen list the keys and the kinds.
 *
 *     A flow is a network that the caller feeds at its inputs and drains at its outputs, in bounded memory, as long as
 *     the caller likes. An input is a channel whose writer stops at once (kinds input, input_flags and `count 0 0`);
 *     an output is one whose reader only reads it (drain, drain_flags and sink). hox_open names them. Other calls use
 *     their places in the lists of names, from 0; inputs and outputs have separate lists.
 *
 *     The output depends only on what is fed, never on when it is fed or drained, or in what pieces.
 *
 *     A process of the caller's own connects an output of a flow to an input: it drains, computes and feeds.
 *
 *     Words have 64 bits. hox_feed_signed and hox_drain_signed take int64_t, in two's complement. On a channel of
 *     flags, 0 is false and 1 is true.
 *
 * ANSWERS
 *     Each function returns a number, its answer: HOX_DONE (0) for success. hox_run answers how the run ended, and
 *     hox_version the version. Other results go through the last pointers; unless the function says otherwise, they
 *     are 0 if the answer is not HOX_DONE. A call that fails changes nothing else, except that hox_feed takes the words
 *     before one that is no flag.
 *
 * DUTIES OF THE CALLER
 *     The library can't check these; it checks everything else, and answers with a number.
 *     1. A pointer leads to as many items as the length beside it says. At length 0 nothing is read or written, and
 *        the pointer may be NULL.
 *     2. A pointer without a length beside it leads to one item and is not NULL.
 *     3. What a call writes overlaps no other argument of the call.
 *     4. A hox_flow is HOX_FLOW_CLOSED before its first call, and only these functions write it. It may be moved, but
 *        only one of its copies is used.
 *     5. A flow takes one call at a time. Another thread may take it over if a lock, the start or the join of a thread,
 *        or a sequentially consistent atomic orders that. Different threads may use different flows at once.
 *     6. No call comes from a signal handler, or from the forked child of a process with several threads.
 *
 * TEXTS
 *     A text that is passed in is bytes and their number, without a terminating 0. A text that comes out fills the
 *     front of the buffer, as far as it fits, without a terminating 0. The last pointer gets its full length, even if
 *     it did not fit: call with a buffer of length 0 to learn the length needed.
 *
 * MEMORY
 *     Memory comes from malloc. If malloc fails, the call reports HOX_FAULT_MEMORY or HOX_MEMORY, and nothing breaks.
 *     hox_close frees all memory of a flow. The library has no global state, starts no thread, takes no lock, reads no
 *     file and prints nothing.
 */
#ifndef HOXBUREN_H
#define HOXBUREN_H

#include <stddef.h>
#include <stdint.h>

#ifdef __cplusplus
extern "C" {
#endif

/* The version of this header, 0.1.0: 10000 * major + 100 * minor + patch. hox_version returns the library's. */
#define HOX_VERSION 100

/* A flow: closed, or open with a network. All bytes 0 is closed. */
typedef struct hox_flow {
    void *session;
} hox_flow;

#define HOX_FLOW_CLOSED {0}

/* Answers. */
enum {
    HOX_DONE = 0, /* success */

    /* A fault of the description, numbered as in docs/format.md. Of several faults the answer is the lowest;
     * HOX_FAULT_INPUT comes before all, and HOX_FAULT_MEMORY may come at any point. */
    HOX_FAULT_TOML = 1,       /* not UTF-8, or not TOML */
    HOX_FAULT_KEYS = 2,       /* a key is missing or unknown, or its value has the wrong type */
    HOX_FAULT_VERSION = 3,    /* the version is not 1 or 2 */
    HOX_FAULT_COUNTS = 4,     /* no process, or more than 64 processes or 256 channels */
    HOX_FAULT_NAME = 5,       /* a name is malformed, or two processes or two channels share one */
    HOX_FAULT_KIND = 6,       /* a kind is unknown */
    HOX_FAULT_ARGUMENTS = 7,  /* a process has arguments that its kind does not take */
    HOX_FAULT_NO_END = 8,     /* a channel names an unknown process or port */
    HOX_FAULT_PORT_TWICE = 9, /* two channels share a port */
    HOX_FAULT_UNUSED = 10,    /* a port of a process has no channel */
    HOX_FAULT_SORTS = 11,     /* the ports at a channel's ends have different sorts */
    HOX_FAULT_CAPACITY = 12,  /* a capacity is out of range */
    HOX_FAULT_BUDGET = 13,    /* the budget is out of range */
    HOX_FAULT_MEMORY = 14,    /* out of memory */
    HOX_FAULT_INPUT = 15,     /* the description is longer than 1,048,576 bytes */
    HOX_FAULT_TOKENS = 16,    /* a channel's start tokens have the wrong sort, or exceed its capacity */
    HOX_FAULT_STEP = 17,      /* the step is out of range */

    /* Other errors. */
    HOX_CLOSED = 32,     /* the flow is closed */
    HOX_OPEN = 33,       /* the flow is already open */
    HOX_NO_CHANNEL = 34, /* no input or no output has this place or name */
    HOX_ENDED = 35,      /* the input has ended */
    HOX_NO_FLAG = 36,    /* a word for an input of flags is neither 0 nor 1 */
    HOX_NO_TEXT = 37,    /* the names are not UTF-8 */
    HOX_NO_INPUT = 38,   /* a channel to feed does not exist, or its writer does more than stop */
    HOX_NO_OUTPUT = 39,  /* a channel to drain does not exist, or its reader does more than read it */
    HOX_TWICE = 40       /* a channel is named twice */
};

/* How a flow stands (hox_advance, hox_verdict), and how a run ended (hox_run: 64 and above). */
enum {
    HOX_CUT = 0,         /* it may continue; fewer than two of hox_advance's entries were left */
    HOX_STARVED = 1,     /* no process can continue, and one waits for a word of an empty input: feed or end it */
    HOX_BLOCKED = 2,     /* otherwise, no process can continue, and one waits for room in a full output: drain it */
    HOX_TERMINATED = 64, /* each process has stopped */
    HOX_DEADLOCK = 65,   /* no process can continue, and some wait for tokens that never come */
    HOX_CEILING = 66,    /* a channel at its greatest capacity would have to grow */
    HOX_BUDGET = 67,     /* the budget of the description is spent (only hox_run) */
    HOX_MEMORY = 68      /* out of memory for a channel's growth; the next hox_advance tries again */
};

/* Returns the version of the library, in the form of HOX_VERSION. */
uint32_t hox_version(void);

/* Checks a description.
 * in:  text[0..text_length]            the description
 * out: message[0..message_room]        what is wrong, and where, on one line
 *      *message_length                 its length; 0 if the number says all, or if out of memory for the message
 * Answers HOX_DONE, or the fault. */
uint32_t hox_check(const char *text, size_t text_length, char *message, size_t message_room, size_t *message_length);

/* Runs the network of a description from start to end, in the calling thread, within its budget.
 * in:  text[0..text_length]            the description
 * out: report[0..report_room]          the report of the run (docs/format.md), or the message of hox_check
 *      *report_length                  its length
 * Answers how the run ended, HOX_TERMINATED to HOX_MEMORY, or the fault of the description. HOX_FAULT_MEMORY also means
 * out of memory for the run or the report. */
uint32_t hox_run(const char *text, size_t text_length, char *report, size_t report_room, size_t *report_length);

/* Opens a flow at the start of the network of a description.
 * in:  flow                            closed
 *      text[0..text_length]            the description
 *      inputs[0..inputs_length]        the names of the channels to feed, separated by white space
 *      outputs[0..outputs_length]      the names of the channels to drain
 * out: flow                            open if the answer is HOX_DONE, otherwise unchanged
 *      message[0..message_room]        what is wrong, on one line
 *      *message_length                 its length; 0 if the number says all, or if out of memory for the message
 * Answers HOX_DONE, or the first that applies of HOX_OPEN, HOX_NO_TEXT, the fault of the description, HOX_NO_INPUT,
 * HOX_NO_OUTPUT and HOX_TWICE. */
uint32_t hox_open(hox_flow *flow, const char *text, size_t text_length, const char *inputs, size_t inputs_length,
                  const char *outputs, size_t outputs_length, char *message, size_t message_room,
                  size_t *message_length);

/* Closes a flow, and frees its memory. Answers HOX_DONE, or HOX_CLOSED if it was closed. */
uint32_t hox_close(hox_flow *flow);

/* Finds the place of the input with this name. Answers HOX_DONE, HOX_CLOSED or HOX_NO_CHANNEL. */
uint32_t hox_input(hox_flow *flow, const char *name, size_t name_length, size_t *input);

/* Finds the place of the output with this name. Answers HOX_DONE, HOX_CLOSED or HOX_NO_CHANNEL. */
uint32_t hox_output(hox_flow *flow, const char *name, size_t name_length, size_t *output);

/* Feeds words into an input, in order, as many as fit.
 * in:  input                           its place
 *      words[0..count]                 the words; on a channel of flags each is 0 or 1
 * out: *fed                            the number taken, at most count, whatever the answer is
 * Answers
 *     HOX_DONE        all were taken; or, if *fed < count, the input is full: advance, then feed the rest
 *     HOX_NO_FLAG     words[*fed] is no flag; those before it were taken
 *     HOX_ENDED       the input has ended (hox_end_input); none was taken
 *     HOX_NO_CHANNEL  there is no such input; none was taken
 *     HOX_CLOSED      none was taken */
uint32_t hox_feed(hox_flow *flow, size_t input, const uint64_t *words, size_t count, size_t *fed);

/* Runs the flow for at most `most` entries. (An entry is a token read or written, a process's stop or a channel's
 * growth.)
 * out: *pause                          why it stopped: HOX_CUT (fewer than two entries were left), HOX_STARVED,
 *                                      HOX_BLOCKED, HOX_TERMINATED, HOX_DEADLOCK, HOX_CEILING or HOX_MEMORY
 * Answers HOX_DONE or HOX_CLOSED. */
uint32_t hox_advance(hox_flow *flow, uint64_t most, uint32_t *pause);

/* Moves the first words of an output to the front of a buffer, in order.
 * in:  output                          its place
 * out: words[0..room]                  overwrites the first *drained, and leaves the others
 *      *drained                        the number moved, at most room; if less than room, the output is now empty
 * Answers HOX_DONE, HOX_NO_CHANNEL or HOX_CLOSED. */
uint32_t hox_drain(hox_flow *flow, size_t output, uint64_t *words, size_t room, size_t *drained);

/* Ends an input: it takes no more words, and a process that waits for one waits forever. Does nothing if the input has
 * ended. Answers HOX_DONE, HOX_NO_CHANNEL or HOX_CLOSED. */
uint32_t hox_end_input(hox_flow *flow, size_t input);

/* Sets *may to 1 if an input takes a word now (it has room and has not ended), else to 0.
 * Answers HOX_DONE, HOX_NO_CHANNEL or HOX_CLOSED. */
uint32_t hox_may_feed(hox_flow *flow, size_t input, uint32_t *may);

/* Sets *waits to 1 if a process waits for a word of this input, which is then empty, else to 0. After HOX_STARVED it is
 * 1 for at least one input that has not ended. Answers HOX_DONE, HOX_NO_CHANNEL or HOX_CLOSED. */
uint32_t hox_waits_for_input(hox_flow *flow, size_t input, uint32_t *waits);

/* Sets *waits to 1 if a process waits for room in this output, which is then full, else to 0. After HOX_BLOCKED it is 1
 * for at least one output. Answers HOX_DONE, HOX_NO_CHANNEL or HOX_CLOSED. */
uint32_t hox_waits_for_output(hox_flow *flow, size_t output, uint32_t *waits);

/* Sets *held to the number of words in an input, and *capacity to its current capacity, which may grow.
 * Answers HOX_DONE, HOX_NO_CHANNEL or HOX_CLOSED. */
uint32_t hox_input_fill(hox_flow *flow, size_t input, uint64_t *held, uint64_t *capacity);

/* Sets *held to the number of words in an output, and *capacity to its current capacity, which may grow.
 * Answers HOX_DONE, HOX_NO_CHANNEL or HOX_CLOSED. */
uint32_t hox_output_fill(hox_flow *flow, size_t output, uint64_t *held, uint64_t *capacity);

/* Sets *entries to the number of entries since the flow was opened, and *growths to how many of them were growths, each
 * at most 2^64 - 1. Answers HOX_DONE or HOX_CLOSED. */
uint32_t hox_entries(hox_flow *flow, uint64_t *entries, uint64_t *growths);

/* Sets *verdict to how the flow stands now, without running it:
 *     HOX_CUT         a process can continue, or waits for room in an inner channel: hox_advance finds what follows
 *     HOX_STARVED     no process can continue, and one waits for a word of an empty input that has not ended
 *     HOX_BLOCKED     otherwise, no process can continue, and one waits for room in a full output
 *     HOX_TERMINATED  each process has stopped
 *     HOX_DEADLOCK    each has stopped or waits for a token, but none for one of an input that has not ended
 * Answers HOX_DONE or HOX_CLOSED. */
uint32_t hox_verdict(hox_flow *flow, uint32_t *verdict);

/* Writes how a flow stands, in lines:
 *     end terminated | end deadlock | starved | blocked | goes on     (the verdict of hox_verdict)
 *     process NAME stopped | reads CHANNEL | writes CHANNEL | goes on (each process, in the description's order)
 *     channel NAME left N capacity N                                  (each channel: its words and current capacity)
 *     entries N growths N
 * If a channel at its greatest capacity would have to grow, it says `goes on`; hox_advance then stops with HOX_CEILING.
 * A flow keeps no history: the text does not say how many tokens went through a channel, or when one grew.
 * out: report[0..report_room]          the text
 *      *report_length                  its length
 * Answers HOX_DONE, HOX_CLOSED, or HOX_FAULT_MEMORY if out of memory for the text. */
uint32_t hox_report(hox_flow *flow, char *report, size_t report_room, size_t *report_length);

/* hox_feed and hox_drain for signed words. */
static inline uint32_t hox_feed_signed(hox_flow *flow, size_t input, const int64_t *words, size_t count,
                                       size_t *fed) {
    return hox_feed(flow, input, (const uint64_t *)words, count, fed);
}

static inline uint32_t hox_drain_signed(hox_flow *flow, size_t output, int64_t *words, size_t room,
                                        size_t *drained) {
    return hox_drain(flow, output, (uint64_t *)words, room, drained);
}

#ifdef __cplusplus
}
#endif
#endif
