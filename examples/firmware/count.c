/* Instructions of an accepted event on a board of qemu's that counts them (-icount shift=0: one a nanosecond of the board's clock): a start or a step by
 * itself, and in a batch of 64, with the records that always suffice for one, two and four tasks. A tick is 40 instructions of the M3 and M4 boards, whose
 * SysTick runs at 25 MHz, 62.5 of the micro:bit, whose timer runs at 16 MHz, and 1 where the processor counts them itself. */
#include <stdio.h>

#include "yard.h"

enum { MOST_TASKS = 4, EVENTS = 64, BATCHES = 60 };

static uint32_t state[YARD_STATE_WORDS], nodes[YARD_ENOUGH_NODES(MOST_TASKS) * YARD_NODE_WORDS];
static uint32_t buckets[YARD_ENOUGH_BUCKETS(MOST_TASKS) * YARD_BUCKET_WORDS];
static uint32_t out[YARD_OUT_WORDS], events[4 * EVENTS], outputs[4 * EVENTS];
static uint32_t nodes_len, buckets_len;

#define STATE state, YARD_STATE_WORDS
#define POOLS nodes, nodes_len, buckets, buckets_len

#if defined __riscv
enum { MASK = 0xffffffff, TICKS = 1, INSTRUCTIONS = 1 };

static void begin(void)
{
}

static uint32_t now(void)
{
    uint32_t count;
    __asm__ volatile("csrr %0, minstret" : "=r"(count));
    return count;
}
#elif __ARM_ARCH == 6
enum { MASK = 0xffffffff, TICKS = 2, INSTRUCTIONS = 125 };
/* timer 0 of the nRF51: start, capture, width, prescaler, captured */
#define TIMER(offset) (*(volatile uint32_t *)(0x40008000u + (offset)))

static void begin(void)
{
    TIMER(0x508) = 3;
    TIMER(0x510) = 0;
    TIMER(0x000) = 1;
}

static uint32_t now(void)
{
    TIMER(0x040) = 1;
    return TIMER(0x540);
}
#else
enum { MASK = 0xffffff, TICKS = 1, INSTRUCTIONS = 40 };
#define SYSTICK ((volatile uint32_t *)0xe000e010u)

static void begin(void)
{
    SYSTICK[1] = MASK;
    SYSTICK[2] = 0;
    SYSTICK[0] = 5;
}

static uint32_t now(void)
{
    return MASK - SYSTICK[2];
}
#endif

static uint32_t since(uint32_t before)
{
    return (now() - before) & (uint32_t)MASK;
}

static unsigned instructions(uint32_t ticks)
{
    return (unsigned)((uint64_t)ticks * INSTRUCTIONS / TICKS);
}

static uint32_t random_below(uint32_t bound)
{
    static uint32_t seed = 2463534242u;
    seed ^= seed << 13;
    seed ^= seed >> 17;
    seed ^= seed << 5;
    return (uint32_t)((uint64_t)seed * bound >> 32);
}

/* The next event of each task in turn: a step where it runs, else a start; every eighth call is a resize. */
static void draw(uint32_t *event, uint32_t task, int runs)
{
    static uint32_t calls;
    event[0] = runs ? 0 : ++calls % 8 == 0 ? YARD_GROW + random_below(2) : YARD_INSERT + random_below(3);
    event[1] = task;
    event[2] = random_below(90);
    event[3] = 0;
}

static uint32_t one(const uint32_t *event)
{
    switch (event[0]) {
    case YARD_INSERT: return yard_start_insert(STATE, event[1], event[2], POOLS, out, YARD_OUT_WORDS);
    case YARD_REMOVE: return yard_start_remove(STATE, event[1], event[2], POOLS, out, YARD_OUT_WORDS);
    case YARD_CONTAINS: return yard_start_contains(STATE, event[1], event[2], POOLS, out, YARD_OUT_WORDS);
    case YARD_GROW: return yard_start_grow(STATE, event[1], POOLS, out, YARD_OUT_WORDS);
    case YARD_SHRINK: return yard_start_shrink(STATE, event[1], POOLS, out, YARD_OUT_WORDS);
    default: return yard_step(STATE, event[1], POOLS, out, YARD_OUT_WORDS);
    }
}

static void copy(uint32_t *to, const uint32_t *from, uint32_t count)
{
    for (uint32_t k = 0; k < count; k++)
        to[k] = from[k];
}

/* Each batch of events is made one by one, and then once more from the same words in one call. */
static void count(uint32_t tasks)
{
    static uint32_t saved_state[YARD_STATE_WORDS], saved_nodes[sizeof nodes / sizeof nodes[0]], saved_buckets[sizeof buckets / sizeof buckets[0]];
    uint32_t single = 0, longest = 0, batch = 0, refused = 0;
    nodes_len = YARD_ENOUGH_NODES(tasks) * YARD_NODE_WORDS;
    buckets_len = YARD_ENOUGH_BUCKETS(tasks) * YARD_BUCKET_WORDS;
    yard_open(tasks, 1, 0, STATE, POOLS);
    for (uint32_t k = 0; k < BATCHES; k++) {
        copy(saved_state, state, YARD_STATE_WORDS);
        copy(saved_nodes, nodes, nodes_len);
        copy(saved_buckets, buckets, buckets_len);
        for (uint32_t e = 0; e < EVENTS; e++) {
            draw(events + 4 * e, e % tasks, state[9 + 13 * (e % tasks)] != 0);
            uint32_t before = now();
            refused += one(events + 4 * e) != 0;
            uint32_t ticks = since(before);
            single += ticks;
            longest = ticks > longest ? ticks : longest;
        }
        copy(state, saved_state, YARD_STATE_WORDS);
        copy(nodes, saved_nodes, nodes_len);
        copy(buckets, saved_buckets, buckets_len);
        uint32_t before = now();
        refused += yard_run(STATE, POOLS, events, 4 * EVENTS, outputs, 4 * EVENTS) != 0;
        batch += since(before);
    }
    printf("%u tasks: an event %u instructions, the longest %u; in a batch of 64 %u; %u refused\n", (unsigned)tasks,
           instructions(single) / (BATCHES * EVENTS), instructions(longest), instructions(batch) / (BATCHES * EVENTS), (unsigned)refused);
}

int main(void)
{
    begin();
    count(1);
    count(2);
    count(4);
    return 0;
}
