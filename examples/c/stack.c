/* How much stack the library uses, by stack.h: prints the most bytes of each function over a long random run of a full set that is resized all the time. */
#define _XOPEN_SOURCE 700
#include "stack.h"

#include "yard.h"

enum { TASKS = 8, NODES = 18, BUCKETS = 608, CALLS = 300000, EVENTS = 64 };
enum { NOTHING, OPEN, START, STEP, TURN, LIST, SHOW, RUN, TURNS, SCHEDULE, FUNCTIONS };

static const char *const names[FUNCTIONS] = {"",          "yard_open", "yard_start_..", "yard_step",  "yard_turn",
                                             "yard_list", "yard_show", "yard_run",      "yard_turns", "schedule_run"};

static uint32_t state[YARD_STATE_WORDS], nodes[NODES * YARD_NODE_WORDS], buckets[BUCKETS * YARD_BUCKET_WORDS], out[YARD_TAGS];
static uint32_t events[4 * EVENTS], outputs[4 * EVENTS];
/* the pools of whole schedules */
static uint32_t other_nodes[NODES * YARD_NODE_WORDS], other_buckets[BUCKETS * YARD_BUCKET_WORDS];

/* What is called, with which numbers. */
static int function;
static uint32_t kind, number, tag;

#define COUNT(words) (sizeof words / sizeof words[0])
#define STATE state, YARD_STATE_WORDS
#define POOLS nodes, COUNT(nodes), buckets, COUNT(buckets)
#define OTHER_POOLS other_nodes, COUNT(other_nodes), other_buckets, COUNT(other_buckets)

static void start(void)
{
    switch (kind) {
    case 0: yard_start_grow(STATE, number, POOLS, out, YARD_OUT_WORDS); break;
    case 1: yard_start_shrink(STATE, number, POOLS, out, YARD_OUT_WORDS); break;
    case 2: yard_start_contains(STATE, number, tag, POOLS, out, YARD_OUT_WORDS); break;
    case 3: yard_start_remove(STATE, number, tag, POOLS, out, YARD_OUT_WORDS); break;
    default: yard_start_insert(STATE, number, tag, POOLS, out, YARD_OUT_WORDS); break;
    }
}

static void call(void)
{
    switch (function) {
    case OPEN: yard_open(TASKS, 2, 0, STATE, POOLS); break;
    case START: start(); break;
    case STEP: yard_step(STATE, number, POOLS, out, YARD_OUT_WORDS); break;
    case TURN: yard_turn(STATE, POOLS, out, YARD_TURN_WORDS); break;
    case LIST: yard_list(STATE, POOLS, out, YARD_TAGS); break;
    case SHOW: yard_show(STATE, number, POOLS, out, 1); break;
    case RUN: yard_run(STATE, POOLS, events, COUNT(events), outputs, COUNT(outputs)); break;
    case TURNS: yard_turns(STATE, POOLS, out, YARD_TAGS); break;
    case SCHEDULE: schedule_run(TASKS, 2, 0, OTHER_POOLS, events, COUNT(events), outputs, COUNT(outputs), out, YARD_TAGS); break;
    }
}

static size_t used(int asked)
{
    function = asked;
    return stack_used(call);
}

/* Events of few tasks in a schedule, so that their calls come far; of all tasks in a run. */
static void draw_events(uint32_t tasks)
{
    for (uint32_t word = 0; word < COUNT(events); word++)
        events[word] = word % 4 == 0 ? below(12) : word % 4 == 1 ? below(tasks) : below(90) * 3;
}

int main(void)
{
    size_t most[FUNCTIONS] = {0};
    size_t without = used(NOTHING);
    most[OPEN] = used(OPEN);
    for (uint32_t k = 0; k < CALLS; k++) {
        static const int choice[] = {START, START, STEP, STEP, STEP, STEP, TURN, TURN, TURN, TURN};
        static const int rare[] = {LIST, SHOW, RUN, TURNS, SCHEDULE};
        int asked = k % 64 < 5 ? rare[k % 64] : choice[below(10)];
        if (asked == RUN || asked == SCHEDULE)
            draw_events(asked == RUN ? TASKS : 1 + below(2));
        kind = below(12);
        number = below(TASKS);
        tag = below(90) * 3;
        size_t bytes = used(asked);
        if (bytes > most[asked])
            most[asked] = bytes;
    }
    for (int f = OPEN; f < FUNCTIONS; f++)
        printf("%-14s %5zu bytes\n", names[f], most[f] - without);
    return 0;
}
