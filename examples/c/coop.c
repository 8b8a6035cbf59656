/* Three lanes at one cooperative bucket, moved line by line: what a step does stands in Figure 6, and the comments below say which lines were done. From
 * them `coop.stdout`, which this program must print, was worked out by hand. */
#include <stdio.h>

#include "coop.h"

enum { LANES = 3, VERSIONS = COOP_ENOUGH_VERSIONS(LANES) };

static uint32_t state[COOP_STATE_WORDS];
static uint32_t versions[VERSIONS * COOP_VERSION_WORDS];
static uint32_t out[COOP_OUT_WORDS];

#define WORDS(words) words, sizeof (words) / sizeof (words)[0]
#define STATE WORDS(state)
#define POOL WORDS(versions)
#define OUT WORDS(out)

/* What a start or a step gave. */
static void print_given(uint32_t given)
{
    static const char *const answers[] = {"", "yes", "no", "version"};
    if (given >= COOP_REFUSED)
        printf("refused %u\n", (unsigned)(given - COOP_REFUSED));
    else if (out[0] == COOP_AT)
        printf("at line %u\n", (unsigned)out[1]);
    else if (out[1] == COOP_VERSION)
        printf("version %u, own steps %u\n", (unsigned)out[3], (unsigned)out[2]);
    else
        printf("%s, own steps %u\n", answers[out[1]], (unsigned)out[2]);
}

static void insert(unsigned lane, unsigned operation, unsigned tag)
{
    printf("lane %u: insert %u as operation %u: ", lane, tag, operation);
    print_given(coop_start_insert(STATE, lane, operation, tag, POOL, OUT));
}

static void remove_tag(unsigned lane, unsigned operation, unsigned tag)
{
    printf("lane %u: remove %u as operation %u: ", lane, tag, operation);
    print_given(coop_start_remove(STATE, lane, operation, tag, POOL, OUT));
}

static void freeze(unsigned lane)
{
    printf("lane %u: freeze: ", lane);
    print_given(coop_start_freeze(STATE, lane, POOL, OUT));
}

static void member(unsigned lane, unsigned tag)
{
    printf("lane %u: member %u: ", lane, tag);
    print_given(coop_start_member(STATE, lane, tag, POOL, OUT));
}

static void response(unsigned lane, unsigned operation)
{
    printf("lane %u: response of operation %u: ", lane, operation);
    print_given(coop_start_response(STATE, lane, operation, POOL, OUT));
}

/* So many steps of a lane, up to the first that is refused or ends its call; prints what the last one gave. */
static void steps(unsigned lane, unsigned count)
{
    unsigned made = 0;
    uint32_t given;
    do {
        given = coop_step(STATE, lane, POOL, OUT);
        made++;
    } while (made < count && given < COOP_REFUSED && out[0] == COOP_AT);
    printf("lane %u: %u step%s: ", lane, made, made == 1 ? "" : "s");
    print_given(given);
}

static void show(unsigned version)
{
    uint32_t first[1];
    uint32_t count = coop_show(STATE, version, POOL, WORDS(first));
    printf("version %u:", version);
    for (uint32_t k = 0; k < count; k++)
        printf(" %u", (unsigned)versions[first[0] + k]);
    printf("\n");
}

/* All three help operation 0, which takes effect once. */
static void three_help_one(void)
{
    /* No invoke of operation 0 has ended true: "and otherwise gives 5". */
    response(2, 0);
    /* 95 (version 0 is not frozen, the operation not done), 96 (no flag), 99 (o is version 0), 100 (o.op is nil), 101, 102: o.op is operation 0 from here
     * on; 103 calls HELPFINISH, which begins at 129. */
    insert(0, 0, 17);
    steps(0, 6);
    /* Another tag than the first invoke's. */
    insert(1, 0, 18);
    /* 95, 96, 99, 100 (o.op is not nil: 106 calls HELPFINISH), 129 (o is version 0), 130 (op is operation 0). Lane 2 likewise. */
    insert(1, 0, 17);
    steps(1, 6);
    insert(2, 0, 17);
    steps(2, 6);
    /* 138 (17 is not in version 0: the response is yes), 139 (done), 140: the bucket still has o, so version 1, the first after version 0 that nobody
     * holds, gets 17 and no operation, and the bucket has it. Back to 95. */
    steps(1, 3);
    /* 138 and 139 write the same again; 140: the bucket no longer has o, and nothing is taken. Back to 95. */
    steps(2, 3);
    /* 95 (the operation is done), 107: yes. 6 + 3 + 2 own steps each. */
    steps(1, 2);
    steps(2, 2);
    /* 129 (o is version 1), 130 (o.op is nil), and 104 ends the invoke with yes: 6 + 2 own steps. */
    steps(0, 2);
    show(1);
    /* 117: what 138 wrote. */
    response(0, 0);
    steps(0, 1);
    response(2, 0);
    steps(2, 1);
}

/* A member test looks at the operation before the set. */
static void member_before_the_set(void)
{
    /* As lane 0 above, up to 102: version 1 has operation 1. */
    insert(1, 1, 4);
    steps(1, 6);
    /* 112 (o is version 1), 113: o.op is operation 1, of tag 4, an insert: 115 answers yes, though 4 is in no set yet. */
    member(2, 4);
    steps(2, 2);
    show(1);
    /* 129, 130, 138, 139, 140 (version 2 gets 4 and 17), 104. */
    steps(1, 5);
    show(2);
    /* Alone: 95, 96, 99, 100, 101, 102, 129, 130, 138 (17 is there: yes), 139, 140 (version 3 gets 4), 104. */
    remove_tag(0, 2, 17);
    steps(0, 11);
    response(1, 2);
    steps(1, 1);
    /* The set has 17 no more, so that 138 answers no; 140 takes version 0, as nobody holds it. */
    remove_tag(0, 3, 17);
    steps(0, 11);
    response(1, 3);
    steps(1, 1);
}

/* A freeze between lines 101 and 102 of an invoke. */
static void freeze_overtakes(void)
{
    /* 95, 96, 99 (o is version 0), 100 (o.op is nil), 101. */
    insert(0, 4, 21);
    steps(0, 5);
    /* 109 (flag), 120 (not frozen), 121 (o is version 0), 122 (o.op is nil), 123 (o.op is frozen from here on), 127: the set of version 0. */
    freeze(2);
    steps(2, 6);
    /* 102 (o.op is not nil), 95 (frozen), 107: the operation is not done, so no. 5 + 3 own steps. */
    steps(0, 3);
    response(1, 4);
    /* 95 (frozen), 107. */
    insert(1, 5, 33);
    steps(1, 2);
    /* 112, 113 (o.op is frozen: the set decides). */
    member(1, 4);
    steps(1, 2);
    member(1, 21);
    steps(1, 2);
    show(0);
}

/* With a version fewer than COOP_ENOUGH_VERSIONS says, a step may be refused with 7. */
static void too_few_versions(void)
{
    printf("one lane, one version: %u\n", (unsigned)coop_open(1, STATE, versions, COOP_VERSION_WORDS));
    uint32_t given = coop_start_insert(STATE, 0, 0, 1, versions, COOP_VERSION_WORDS, OUT);
    /* 95, 96, 99, 100, 101, 102, 129, 130, 138, 139 are accepted; at 140 the only version is the bucket's own. */
    unsigned accepted = 0;
    while (given == 0 && (given = coop_step(STATE, 0, versions, COOP_VERSION_WORDS, OUT)) == 0)
        accepted++;
    printf("%u steps, then line %u: ", accepted, (unsigned)state[COOP_TASK(0) + COOP_TASK_LINE]);
    print_given(given);
}

/* A whole schedule in one call, with a state of its own. Words of 0 are a step of task 0. */
static void schedule(void)
{
    enum { EVENTS = 15, INVOKES = 0, ENDS = 11, ASKS = 12 };
    static const uint32_t events[4 * EVENTS] = {[4 * INVOKES] = COOP_INSERT, 0, 0, 17, [4 * ASKS] = COOP_RESPONSE, 0, 0, 0};
    static uint32_t outputs[COOP_OUT_WORDS * EVENTS];
    /* Alone, as above: eleven steps, and version 1. Then the response, by 117. The last step finds nothing that runs. */
    printf("schedule: version %u\n", (unsigned)coop_schedule_run(LANES, POOL, WORDS(events), WORDS(outputs)));
    for (unsigned k = 0; k < EVENTS; k++) {
        if (INVOKES < k && k < ENDS)
            continue;
        const uint32_t *o = outputs + COOP_OUT_WORDS * k;
        printf("event %u: %u %u %u %u\n", k, (unsigned)o[0], (unsigned)o[1], (unsigned)o[2], (unsigned)o[3]);
    }
}

int main(void)
{
    printf("no lane: %u\n", (unsigned)coop_open(0, STATE, POOL));
    printf("a word short: %u\n", (unsigned)coop_open(LANES, STATE, versions, sizeof versions / sizeof versions[0] - 1));
    if (coop_open(LANES, STATE, POOL) != 0)
        return 1;
    three_help_one();
    member_before_the_set();
    freeze_overtakes();

    /* Lane 0 runs nothing, and there is no lane 3. */
    steps(0, 1);
    steps(3, 1);
    /* A truth value of 2 is spoilt memory: refused, and nothing changes. */
    state[COOP_FLAG] = 2;
    member(0, 4);
    state[COOP_FLAG] = 1;
    member(0, 4);

    too_few_versions();
    schedule();
    return 0;
}
