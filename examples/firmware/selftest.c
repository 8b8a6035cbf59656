/* The same random calls on every target: a checksum of each number given and of the words left, which must be the one that the host prints. A
 * twentieth of the calls are on spoilt memory. On a board (BOARD) it then prints the most stack of each function, found as examples/c/stack.c finds it. */
#include <stdio.h>
#include <string.h>

#include "yard.h"

enum { CALLS = 17000, MOST_TASKS = 4, NODES = YARD_ENOUGH_NODES(MOST_TASKS), BUCKETS = YARD_ENOUGH_BUCKETS(MOST_TASKS), EVENTS = 64, TURNS = 12 };
enum { NOTHING, OPEN, START, STEP, TURN, LIST, SHOW, RUN, TURNS_OF, SCHEDULE, FUNCTIONS };

static const struct {
    uint32_t tasks, nodes, buckets, tags;
} sets[] = {{1, 1, 1, 40}, {2, 4, 8, 40}, {8, 6, 32, 90}, {1, 4, 132, 90}, {2, 6, 200, 90}, {4, NODES, BUCKETS, 90}};

static uint32_t state[YARD_STATE_WORDS], nodes[NODES * YARD_NODE_WORDS], buckets[BUCKETS * YARD_BUCKET_WORDS];
static uint32_t out[YARD_TAGS], events[4 * EVENTS], outputs[4 * EVENTS];
static size_t nodes_len, buckets_len;

/* What is called, with which numbers, and what it gave. */
static int function;
static uint32_t tasks, version, withdrawn, kind, number, tag, given;

static uint32_t random_below(uint32_t bound)
{
    static uint32_t seed = 2463534242u;
    seed ^= seed << 13;
    seed ^= seed >> 17;
    seed ^= seed << 5;
    return (uint32_t)((uint64_t)seed * bound >> 32);
}

static uint32_t sum = 2166136261u;

static void add(const uint32_t *words, size_t count)
{
    for (size_t k = 0; k < count; k++) {
        sum = (sum ^ words[k]) * 16777619u;
        sum ^= sum >> 15;
    }
}

#define STATE state, YARD_STATE_WORDS
#define POOLS nodes, nodes_len, buckets, buckets_len

static uint32_t start(void)
{
    switch (kind) {
    case YARD_INSERT: return yard_start_insert(STATE, number, tag, POOLS, out, YARD_OUT_WORDS);
    case YARD_REMOVE: return yard_start_remove(STATE, number, tag, POOLS, out, YARD_OUT_WORDS);
    case YARD_CONTAINS: return yard_start_contains(STATE, number, tag, POOLS, out, YARD_OUT_WORDS);
    case YARD_GROW: return yard_start_grow(STATE, number, POOLS, out, YARD_OUT_WORDS);
    default: return yard_start_shrink(STATE, number, POOLS, out, YARD_OUT_WORDS);
    }
}

static void call(void)
{
    switch (function) {
    case OPEN: given = yard_open(tasks, version, withdrawn, STATE, POOLS); break;
    case START: given = start(); break;
    case STEP: given = yard_step(STATE, number, POOLS, out, YARD_OUT_WORDS); break;
    case TURN: given = yard_turn(STATE, POOLS, out, YARD_TURN_WORDS); break;
    case LIST: given = yard_list(STATE, POOLS, out, YARD_TAGS); break;
    case SHOW: given = yard_show(STATE, number, POOLS, out, 1); break;
    case RUN: given = yard_run(STATE, POOLS, events, 4 * EVENTS, outputs, 4 * EVENTS); break;
    case TURNS_OF: given = yard_turns(STATE, POOLS, out, TURNS * YARD_TURN_WORDS); break;
    case SCHEDULE: given = schedule_run(tasks, version, withdrawn, POOLS, events, 4 * EVENTS, outputs, 4 * EVENTS, out, YARD_TAGS); break;
    }
}

#ifdef BOARD
#include "board.h"

enum { STACK = 4096 };
static const char *const names[FUNCTIONS] = {"", "yard_open", "yard_start_..", "yard_step", "yard_turn", "yard_list", "yard_show",
                                             "yard_run", "yard_turns", "schedule_run"};
static uint32_t stack[STACK] __attribute__((aligned(16)));
static size_t most[FUNCTIONS];

static void make(int asked)
{
    const uint32_t paint = 0xa5a5a5a5u;
    size_t untouched = 0;
    function = asked;
    for (size_t k = 0; k < STACK; k++)
        stack[k] = paint;
    board_call(call, stack + STACK);
    while (untouched < STACK && stack[untouched] == paint)
        untouched++;
    if (most[asked] < STACK - untouched)
        most[asked] = STACK - untouched;
}

static void print_stack(void)
{
    for (int f = OPEN; f < FUNCTIONS; f++)
        printf("stack: %s %u bytes\n", names[f], (unsigned)(4 * (most[f] - most[NOTHING])));
}
#else
static void make(int asked)
{
    function = asked;
    call();
}

static void print_stack(void)
{
}
#endif

/* A word of the state or of a pool, at random. */
static uint32_t *any_word(void)
{
    static uint32_t *const slices[] = {state, nodes, buckets};
    const size_t lengths[] = {YARD_STATE_WORDS, nodes_len, buckets_len};
    uint32_t slice = random_below(3);
    return slices[slice] + random_below((uint32_t)lengths[slice]);
}

static void open_again(void)
{
    version = 1 + random_below(2);
    withdrawn = random_below(2);
    make(OPEN);
    add(&given, 1);
}

/* Events for a batch or a schedule: a third of them starts. */
static void draw_events(unsigned set)
{
    for (unsigned k = 0; k < 4 * EVENTS; k++)
        events[k] = k % 4 == 0 ? (random_below(3) == 0 ? 1 + random_below(5) : 0) : k % 4 == 1 ? random_below(tasks) : random_below(sets[set].tags);
}

/* One call, a step or a turn in most cases. A word that was spoilt is mended after a refusal; otherwise the set goes on with it. */
static void one_call(unsigned set)
{
    static const uint32_t kinds[] = {YARD_INSERT, YARD_INSERT, YARD_INSERT, YARD_REMOVE, YARD_CONTAINS, YARD_GROW, YARD_SHRINK};
    uint32_t chance = random_below(64), task = random_below(tasks + (random_below(50) == 0));
    int runs = task < tasks && state[9 + 13 * task] != 0;
    int asked = chance == 0 ? LIST : chance == 1 ? SHOW : chance == 2 ? RUN : chance == 3 ? TURNS_OF : chance < 20 ? TURN : STEP;
    if (asked == STEP && runs != (chance > 24))
        asked = START;
    uint32_t spoils = random_below(20) == 0, *word = any_word(), was = *word;
    kind = kinds[random_below(sizeof kinds / sizeof kinds[0])];
    number = asked == SHOW ? random_below(sets[set].buckets + 1) : task;
    tag = random_below(sets[set].tags);
    memset(out, 0, sizeof out);
    if (asked == RUN)
        draw_events(set);
    if (spoils)
        *word = random_below(2) == 0 ? was + 1 : random_below(70);
    make(asked);
    add(&given, 1);
    add(out, YARD_TAGS);
    if (asked == RUN)
        add(outputs, 4 * EVENTS);
    add(state, YARD_STATE_WORDS);
    if (spoils && (given >= YARD_REFUSED || asked == SHOW || asked == LIST))
        *word = was;
}

int main(void)
{
    unsigned refused = 0, spoilt = 0;
    make(NOTHING);
    for (unsigned set = 0; set < sizeof sets / sizeof sets[0]; set++) {
        tasks = sets[set].tasks;
        nodes_len = sets[set].nodes * YARD_NODE_WORDS;
        buckets_len = sets[set].buckets * YARD_BUCKET_WORDS;
        for (unsigned k = 0; k < CALLS; k++) {
            if (k % 500 == 0)
                open_again();
            one_call(set);
            refused += given >= YARD_REFUSED;
            spoilt += given == YARD_REFUSED + YARD_SPOILT;
        }
        add(nodes, nodes_len);
        add(buckets, buckets_len);
        draw_events(set);
        make(SCHEDULE);
        add(&given, 1);
        add(outputs, 4 * EVENTS);
        add(out, YARD_TAGS);
        add(nodes, nodes_len);
        add(buckets, buckets_len);
        printf("%u tasks, %u nodes, %u buckets, %u bytes: checksum %x\n", (unsigned)tasks, (unsigned)sets[set].nodes, (unsigned)sets[set].buckets,
               (unsigned)(4 * (YARD_STATE_WORDS + nodes_len + buckets_len)), (unsigned)sum);
    }
    printf("%u calls, %u refused, %u of them with 8\n", (unsigned)(CALLS * (sizeof sets / sizeof sets[0])), refused, spoilt);
    print_stack();
    return 0;
}
