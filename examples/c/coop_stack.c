/* How much stack the functions of coop.h use: prints the most bytes of each over random calls of eight tasks, in buckets that are filled and then frozen. */
#define _XOPEN_SOURCE 700
#include "coop.h"
#include "stack.h"

enum { TASKS = 8, VERSIONS = COOP_ENOUGH_VERSIONS(TASKS), BUCKETS = 300, CALLS = 1000 };
enum { NOTHING, OPEN, START, STEP, SHOW, SCHEDULE, FUNCTIONS };

static const char *const names[FUNCTIONS] = {"", "coop_open", "coop_start_..", "coop_step", "coop_show", "coop_schedule_run"};

static uint32_t state[COOP_STATE_WORDS], versions[VERSIONS * COOP_VERSION_WORDS], out[COOP_OUT_WORDS];
/* A schedule of mostly inserts, and its outputs. */
static uint32_t events[4 * CALLS], outputs[COOP_OUT_WORDS * CALLS];

/* What is called, with which numbers. */
static int function;
static uint32_t kind, number, operation;

#define STATE state, COOP_STATE_WORDS
#define POOL versions, VERSIONS * COOP_VERSION_WORDS
#define OUT out, COOP_OUT_WORDS

static void call(void)
{
    switch (function) {
    case OPEN: coop_open(TASKS, STATE, POOL); break;
    case START:
        switch (kind) {
        case 0: coop_start_member(STATE, number, operation, POOL, OUT); break;
        case 1: coop_start_response(STATE, number, operation, POOL, OUT); break;
        case 2: coop_start_remove(STATE, number, operation / 5 * 5, operation / 5 * 5 + 1, POOL, OUT); break;
        case 3: coop_start_freeze(STATE, number, POOL, OUT); break;
        default: coop_start_insert(STATE, number, operation, operation, POOL, OUT); break;
        }
        break;
    case STEP: coop_step(STATE, number, POOL, OUT); break;
    case SHOW: coop_show(STATE, number, POOL, out, 1); break;
    case SCHEDULE: coop_schedule_run(TASKS, POOL, events, 4 * CALLS, outputs, COOP_OUT_WORDS * CALLS); break;
    }
}

int main(void)
{
    size_t most[FUNCTIONS] = {0};
    function = NOTHING;
    size_t without = stack_used(call);
    for (int k = 0; k < BUCKETS * CALLS; k++) {
        int turn = k % CALLS;
        function = turn == 0 ? OPEN : turn == CALLS - 1 ? SCHEDULE : turn % 64 == 1 ? SHOW : below(10) < 3 ? START : STEP;
        kind = below(14);
        if (kind == 3 && turn < CALLS * 3 / 4)
            kind = 4;
        number = below(TASKS);
        operation = below(COOP_OPERATIONS);
        events[4 * turn] = below(10) > 2 ? COOP_NO_CALL : kind == 0 ? COOP_MEMBER : kind == 1 ? COOP_RESPONSE : COOP_INSERT;
        events[4 * turn + 1] = number;
        events[4 * turn + 2] = events[4 * turn + 3] = operation;
        size_t bytes = stack_used(call);
        if (bytes > most[function])
            most[function] = bytes;
    }
    for (int f = OPEN; f < FUNCTIONS; f++)
        printf("%-17s %5zu bytes\n", names[f], most[f] - without);
    return 0;
}
