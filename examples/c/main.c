/* A terminal's main loop: two lanes put tags in, take them out and ask for them, an office resizes the set while they do. Each round starts the next
 * call of every task that runs none and gives one turn; once nothing is left to start, as many as there is room for. Prints each call that ends, then
 * the set; `stdout` has what it must print. */
#include <stdio.h>

#include "yard.h"

enum { LANE_0, LANE_1, OFFICE, TASKS };
enum { INSERT, REMOVE, CONTAINS, GROW, SHRINK };
enum { NODES = 6, BUCKETS = 32, TURNS = 16 };

static const char *const call_names[] = {"insert", "remove", "contains", "grow", "shrink"};
static const char *const answer_names[] = {"", "yes", "no", "full", "done", "lost", "limit"};

static uint32_t state[YARD_STATE_WORDS];
static uint32_t nodes[NODES * YARD_NODE_WORDS];
static uint32_t buckets[BUCKETS * YARD_BUCKET_WORDS];

#define LENGTH(words) (sizeof (words) / sizeof (words)[0])
#define STATE state, LENGTH(state)
#define POOLS nodes, LENGTH(nodes), buckets, LENGTH(buckets)

struct call {
    int call;
    uint32_t tag;
};

static const struct call lane_0[] = {
    {INSERT, 17}, {INSERT, 4}, {INSERT, 21}, {CONTAINS, 8}, {INSERT, 33}, {REMOVE, 4}, {CONTAINS, 4}, {INSERT, 5}, {CONTAINS, 12}, {INSERT, 6},
};
static const struct call lane_1[] = {
    {INSERT, 8}, {CONTAINS, 17}, {INSERT, 17}, {REMOVE, 8}, {INSERT, 12}, {REMOVE, 5}, {CONTAINS, 33}, {REMOVE, 17}, {CONTAINS, 21}, {INSERT, 7},
};
static const struct call office[] = {{GROW, 0}, {SHRINK, 0}, {GROW, 0}};

static const struct {
    const char *name;
    const struct call *calls;
    size_t count;
} tasks[TASKS] = {
    {"lane 0", lane_0, LENGTH(lane_0)},
    {"lane 1", lane_1, LENGTH(lane_1)},
    {"office", office, LENGTH(office)},
};

/* The calls that each task has begun. */
static size_t begun[TASKS];

static uint32_t start(uint32_t task, struct call c, uint32_t *out, size_t out_len)
{
    switch (c.call) {
    case INSERT: return yard_start_insert(STATE, task, c.tag, POOLS, out, out_len);
    case REMOVE: return yard_start_remove(STATE, task, c.tag, POOLS, out, out_len);
    case CONTAINS: return yard_start_contains(STATE, task, c.tag, POOLS, out, out_len);
    case GROW: return yard_start_grow(STATE, task, POOLS, out, out_len);
    default: return yard_start_shrink(STATE, task, POOLS, out, out_len);
    }
}

/* A task's call has ended with these words of output. */
static void print_end(uint32_t task, const uint32_t *output)
{
    struct call c = tasks[task].calls[begun[task] - 1];
    printf("%s: %s", tasks[task].name, call_names[c.call]);
    if (c.call <= CONTAINS)
        printf(" %u", (unsigned)c.tag);
    printf(": %s after %u steps", answer_names[output[1]], (unsigned)output[2]);
    if (c.call <= REMOVE)
        printf(", %u tags in its bucket", (unsigned)output[3]);
    printf("\n");
}

/* Starts the next call of every task that runs none; gives how many calls are left to start. */
static size_t start_next(void)
{
    uint32_t out[YARD_OUT_WORDS];
    size_t left = 0;
    for (uint32_t task = 0; task < TASKS; task++) {
        size_t next = begun[task];
        /* 5, the task still runs a call, is no fault here */
        if (next < tasks[task].count && start(task, tasks[task].calls[next], out, LENGTH(out)) == 0)
            begun[task] = next + 1;
        left += tasks[task].count - begun[task];
    }
    return left;
}

/* A turn gave these five words; gives whether the next one may go to another task: after a step's 8 it would go to the same. */
static int turned(const uint32_t *turn)
{
    if (turn[1] == YARD_END)
        print_end(turn[0], turn + 1);
    if (turn[1] != YARD_REFUSE)
        return 1;
    printf("%s: refused %u\n", tasks[turn[0]].name, (unsigned)turn[2]);
    return turn[2] != YARD_SPOILT;
}

/* One round; gives 0 once nothing runs and nothing is left to start. */
static int round_of_loop(void)
{
    uint32_t turns[TURNS * YARD_TURN_WORDS];
    uint32_t room = start_next() == 0 ? TURNS : 1;
    uint32_t given = yard_turns(STATE, POOLS, turns, room * YARD_TURN_WORDS);
    if (given >= YARD_REFUSED) {
        printf("turns refused: %u\n", (unsigned)(given - YARD_REFUSED));
        return 0;
    }
    for (uint32_t k = 0; k < given; k++)
        if (!turned(turns + k * YARD_TURN_WORDS))
            return 0;
    return given == room;
}

/* The tags in the set, and the head's places with what their buckets hold. */
static void print_set(void)
{
    uint32_t tags[YARD_TAGS], first[1];
    uint32_t count = yard_list(STATE, POOLS, tags, LENGTH(tags));
    printf("tags:");
    for (uint32_t k = 0; k < count && k < YARD_TAGS; k++)
        printf(" %u", (unsigned)tags[k]);
    printf("\n");
    const uint32_t *head = nodes + state[5] * YARD_NODE_WORDS;
    for (uint32_t place = 0; place < head[0]; place++) {
        uint32_t link = head[2 + place];
        printf("place %u of %u:", (unsigned)place, (unsigned)head[0]);
        if (link == 0)
            printf(" not filled yet");
        for (uint32_t k = 0, n = link == 0 ? 0 : yard_show(STATE, link - 1, POOLS, first, LENGTH(first)); k < n; k++)
            printf(" %u", (unsigned)buckets[first[0] + k]);
        printf("\n");
    }
}

int main(void)
{
    if (yard_open(TASKS, 1, 0, STATE, POOLS) != 0)
        return 1;
    while (round_of_loop())
        ;
    print_set();

    /* no call runs any more */
    uint32_t out[YARD_OUT_WORDS];
    printf("step of an idle lane: refused %u\n", (unsigned)(yard_step(STATE, LANE_0, POOLS, out, LENGTH(out)) - YARD_REFUSED));

    /* a truth value of 2 is spoilt memory: refused, and nothing changes */
    uint32_t turn[YARD_TURN_WORDS];
    state[9] = 2;
    printf("spoilt: %u\n", (unsigned)yard_turn(STATE, POOLS, turn, LENGTH(turn)));
    state[9] = 0;
    printf("mended: %u\n", (unsigned)yard_turn(STATE, POOLS, turn, LENGTH(turn)));
    return 0;
}
