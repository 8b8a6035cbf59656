/* The yard set for C: a resizable hash set of 32-bit tags, shared by up to eight tasks that are moved one line at a time.
 *
 * Link libyard_c.a (`programs/library yard_c` writes target/staticlib/libyard_c.a, examples/firmware/build one for a board), and for schedule_run
 * libschedule_c.a, beside it or alone. They need memcpy and memset, on a 32-bit board also 64-bit division, allocate nothing and keep no state of their
 * own, and their functions always return. Every function is total: any numbers and any words are allowed, and each answers as is said here. Each is proved
 * equal to its definition (crates/c_calls/specs: Calls, Runs; crates/schedule_c/specs: Whole). examples/firmware/build compares the parameters declared
 * here with the libraries'; nothing else checks this header against the source.
 *
 * WORDS LENT
 *   Everything lies in words that the caller lends with each call, each slice as a pointer and a length in words:
 *     state    YARD_STATE_WORDS words
 *     nodes    YARD_NODE_WORDS for each node record, 1 to 64 records
 *     buckets  YARD_BUCKET_WORDS for each bucket record, 1 to 1024 records
 *     out      the answer's words, as many as each function says
 *   How many records: with T tasks, YARD_ENOUGH_NODES(T) and YARD_ENOUGH_BUCKETS(T) are never all in use, so that no step is refused with 7. With the
 *   state that is 35,844 bytes for one task, 54,068 for two, 72,292 for three, 90,516 for four. Every call but yard_open and schedule_run first reads all
 *   of both pools, to see that nothing is spoilt: that is nearly all that a step costs (docs/SPEED.md). So lend no more than you need; yard_run and
 *   yard_turns do it once for many events or turns.
 *   A length is a uint64_t on every target and not a size_t: the proof is of 64-bit lengths, and the code for a 32-bit board takes them so.
 *   A pointer is aligned as a uint32_t and points to that many words. No two slices of a call overlap. Only a slice of length 0 may be null (it is
 *   then one of another length, and answered so; yard_run and schedule_run take no events, no outputs, yard_turns no turns). The caller may copy the
 *   words between calls, but what it changes is spoilt memory: it is either refused with 8 or taken for what it then is.
 *   One call at a time: calls for the same words from an interrupt or another thread must wait for each other.
 *
 * WHAT A FUNCTION GIVES
 *   A number below YARD_REFUSED, or YARD_REFUSED and a refusal's number:
 *      1  opening: the number of tasks is not 1 to 8        6  step: the task runs no call
 *      2  opening: nodes is not 34 x H words, H 1 to 64     7  step: every node or every bucket is in use; the task stays where it is
 *      3  opening: buckets is not 66 x B words, B 1 to 1024 8  spoilt memory, or state or out of another length
 *      4  start, step: no such task                         9  list: out has fewer than 64 words
 *      5  start: the task runs a call                      11  opening: the version is not 1 or 2
 *                                                          14  start: an insert of tag 0, which is withdrawn
 *   8 comes before all others; pools of another length than the set was opened on give it too. A number of YARD_REFUSED or more changes no word, but for
 *   one: a refused yard_open with a state of 113 words fills it with zeros.
 *   On 7 step other tasks, whose calls let go of records as they go on, and then this one again; turns do so by themselves. Where that helps no task, too
 *   few records were lent: a call cannot be given up, so that a resize in too small pools keeps its task for ever. Open afresh, with more.
 *   8 is never given from an opening on unless something else wrote to the words: keep them for a fitter, and open afresh. A turn whose step is refused
 *   with 8 changes no word of the state and the pools either, and the next turn goes to the same task: leave the loop.
 *
 * STACK
 *   The most bytes seen on x86-64 (examples/c/stack.c; docs/SPEED.md has boards): yard_start_.. 440, yard_show 1,112, yard_open 4,232, yard_step 4,872,
 *   yard_turn 4,904, yard_list 5,592, yard_run 5,944, yard_turns 7,160, schedule_run 7,752. Up to 8,328 on a Cortex-M0. No function recurses.
 *
 * THE STATE'S WORDS (docs/FITTERS.md says what they mean)
 *   0 tasks   1 version   2 tag 0 withdrawn, 0 or 1   3 node records   4 bucket records   5 head   6 node last taken   7 bucket last taken
 *   8 task chosen last   then 13 words for each of eight tasks, of which task k's begin at word 9 + 13 x k:
 *   +0 running, 0 or 1   +1 call   +2 tag   +3 line   +4 i   +5 own steps, at most 65535   +6 t   +7 s   +8 b   +9 m   +10 n   +11 new node   +12 new bucket
 *   Words that no state has (another number for 0 or 1, more own steps) are spoilt memory.
 *   Words 5 to 8 are numbers from 0 on. Everywhere else, here and below, a node or a bucket is named by its number plus 1, and 0 is none.
 *
 * A RECORD'S WORDS
 *   node k, from word 34 x k on      0 size: 1, 2, 4, 8, 16 or 32; 0 if never used   1 predecessor   2 to 33 places, each a bucket, 0 while not filled
 *   bucket k, from word 66 x k on    0 may change, 1, or frozen, 0   1 count of tags   2 to 65 the tags ascending, then zeros
 *   Tag x belongs to place x mod size of the head, in version 2 to place (x div 10) mod size. While that is not filled, places of the predecessor decide.
 */
#ifndef YARD_H
#define YARD_H

#include <stdint.h>

#ifdef __cplusplus
extern "C" {
#endif

enum {
    YARD_STATE_WORDS = 113,
    YARD_NODE_WORDS = 34,
    YARD_BUCKET_WORDS = 66,
    YARD_TAGS = 64,         /* the most tags in the set, and the words that a list needs */
    YARD_OUT_WORDS = 4,     /* out of a start or a step */
    YARD_TURN_WORDS = 5,    /* out of a turn, and for each turn of yard_turns */
    YARD_REFUSED = 256
};

/* Records that are never all in use, with so many tasks. */
#define YARD_ENOUGH_NODES(tasks) (2 * (tasks) + 2)
#define YARD_ENOUGH_BUCKETS(tasks) (32 * (2 * (tasks) + 2) + 4 * (tasks))

/* Refusals: the number given less YARD_REFUSED, or the second word of a refused output. */
enum {
    YARD_BAD_TASKS = 1, YARD_BAD_NODES = 2, YARD_BAD_BUCKETS = 3, YARD_NO_TASK = 4, YARD_RUNNING = 5, YARD_IDLE = 6, YARD_NO_RECORD = 7,
    YARD_SPOILT = 8, YARD_SHORT_LIST = 9, YARD_BAD_VERSION = 11, YARD_WITHDRAWN = 14
};

/* Calls: word +1 of a task, and the kind of an event. */
enum { YARD_NO_CALL = 0, YARD_INSERT = 1, YARD_REMOVE = 2, YARD_CONTAINS = 3, YARD_GROW = 4, YARD_SHRINK = 5 };

/* Words of 8-bit bytes. */
typedef char yard_words_are_4_bytes[sizeof (uint32_t) == 4 && sizeof (uint64_t) == 8 ? 1 : -1];

/* The four words of an output:
 *   0, the line at which the task now stands, 0, 0                         the call goes on
 *   1, the answer, own steps, tags that the call's bucket now holds        the call has ended; the last is 0 unless it was an insert or a remove
 *   2, the refusal's number, 0, 0                                          refused: only in the words of yard_turn, yard_turns, yard_run, schedule_run
 * Answers: insert yes (put in), no (was in), full (the set has 64 tags: only a remove makes room, no grow); remove yes (taken out), no (was not in);
 * contains yes, no; grow and shrink done, lost (another resize was done first: start again if it is still wanted), limit (the size is 32, or 1, already). */
enum { YARD_AT = 0, YARD_END = 1, YARD_REFUSE = 2 };
enum { YARD_YES = 1, YARD_NO = 2, YARD_FULL = 3, YARD_DONE = 4, YARD_LOST = 5, YARD_LIMIT = 6 };

/* Opens an empty set of size 1 on both pools, whatever the words held, and writes the state. version 1 or 2 (a tag of version 2 ends in a check
 * digit); zero_withdrawn 0, or any other number for a set in which no insert of tag 0 can be started. Gives 0. Refuses 8 (only for a state of
 * another length), 1, 2, 3, 11, in this order. */
uint32_t yard_open(uint32_t tasks, uint32_t version, uint32_t zero_withdrawn,
                   uint32_t *state, uint64_t state_len,
                   uint32_t *nodes, uint64_t nodes_len,
                   uint32_t *buckets, uint64_t buckets_len);

/* Start a call for a task; steps and turns then move it. Give 0 and the output's four words. Refuse 8, 4, 5, 14. The pools are only read. */
uint32_t yard_start_insert(uint32_t *state, uint64_t state_len, uint32_t task, uint32_t tag,
                           const uint32_t *nodes, uint64_t nodes_len,
                           const uint32_t *buckets, uint64_t buckets_len,
                           uint32_t *out, uint64_t out_len);
uint32_t yard_start_remove(uint32_t *state, uint64_t state_len, uint32_t task, uint32_t tag,
                           const uint32_t *nodes, uint64_t nodes_len,
                           const uint32_t *buckets, uint64_t buckets_len,
                           uint32_t *out, uint64_t out_len);
uint32_t yard_start_contains(uint32_t *state, uint64_t state_len, uint32_t task, uint32_t tag,
                             const uint32_t *nodes, uint64_t nodes_len,
                             const uint32_t *buckets, uint64_t buckets_len,
                             uint32_t *out, uint64_t out_len);
uint32_t yard_start_grow(uint32_t *state, uint64_t state_len, uint32_t task,
                         const uint32_t *nodes, uint64_t nodes_len,
                         const uint32_t *buckets, uint64_t buckets_len,
                         uint32_t *out, uint64_t out_len);
uint32_t yard_start_shrink(uint32_t *state, uint64_t state_len, uint32_t task,
                           const uint32_t *nodes, uint64_t nodes_len,
                           const uint32_t *buckets, uint64_t buckets_len,
                           uint32_t *out, uint64_t out_len);

/* Steps a task by one line. Gives 0 and the output's four words. Refuses 8, 4, 6, 8 (of the line), 7. */
uint32_t yard_step(uint32_t *state, uint64_t state_len, uint32_t task,
                   uint32_t *nodes, uint64_t nodes_len,
                   uint32_t *buckets, uint64_t buckets_len,
                   uint32_t *out, uint64_t out_len);

/* Steps the running task that is next, going round from the one chosen last. Gives 0 if nothing runs, and leaves out as it was; or 1 and five words: the
 * task's number and the output of its step, be it a refusal. Its 7 uses up the turn: the task chosen last moves, and no other word. Refuses 8 where
 * memory is spoilt before a task is chosen. */
uint32_t yard_turn(uint32_t *state, uint64_t state_len,
                   uint32_t *nodes, uint64_t nodes_len,
                   uint32_t *buckets, uint64_t buckets_len,
                   uint32_t *out, uint64_t out_len);

/* Writes the tags in the set to the front of out, ascending, and gives their number; the words after them are kept. Refuses 8, 9; an out of more than 64
 * words is no fault. */
uint32_t yard_list(const uint32_t *state, uint64_t state_len,
                   const uint32_t *nodes, uint64_t nodes_len,
                   const uint32_t *buckets, uint64_t buckets_len,
                   uint32_t *out, uint64_t out_len);

/* Gives how many tags a bucket holds and, unless that is 0, writes to the one word of out where the first of them stands among the words of buckets.
 * Refuses nothing: 0 for a bucket that is not there, for spoilt memory and for an out of another length. */
uint32_t yard_show(const uint32_t *state, uint64_t state_len, uint32_t bucket,
                   const uint32_t *nodes, uint64_t nodes_len,
                   const uint32_t *buckets, uint64_t buckets_len,
                   uint32_t *out, uint64_t out_len);

/* Runs many starts and steps on an open set: as many events as are whole and have room for their outputs. An event is four words: a kind (1 insert,
 * 2 remove, 3 contains, 4 grow, 5 shrink start a call; 0 and all others are a step), a task, a tag, and one that is not read. An output is four words,
 * as above, be it a refusal's; the words after the outputs are kept. Gives 0, and what the calls for the events give and leave one by one, with memory
 * looked through once for them all. Refuses 8, before any event; of lengths only for a state or pools of another one. */
uint32_t yard_run(uint32_t *state, uint64_t state_len,
                  uint32_t *nodes, uint64_t nodes_len,
                  uint32_t *buckets, uint64_t buckets_len,
                  const uint32_t *events, uint64_t events_len,
                  uint32_t *outputs, uint64_t outputs_len);

/* Takes many turns on an open set, with memory looked through once: as many as have room for their five words in out, at most 255, up to the first that
 * finds nothing to run. Gives how many named a task, and writes the words of each as yard_turn does, be its step refused, one after the other; the words
 * after them are kept. Fewer than there is room for: nothing runs. Refuses 8, before any turn; of lengths only for a state or pools of another one. */
uint32_t yard_turns(uint32_t *state, uint64_t state_len,
                    uint32_t *nodes, uint64_t nodes_len,
                    uint32_t *buckets, uint64_t buckets_len,
                    uint32_t *out, uint64_t out_len);

/* A whole schedule in one call, with a state of its own: an opening, the events as yard_run has them, a list. Gives what yard_list gives, or the
 * opening's refusal. */
uint32_t schedule_run(uint32_t tasks, uint32_t version, uint32_t zero_withdrawn,
                      uint32_t *nodes, uint64_t nodes_len,
                      uint32_t *buckets, uint64_t buckets_len,
                      const uint32_t *events, uint64_t events_len,
                      uint32_t *outputs, uint64_t outputs_len,
                      uint32_t *tags, uint64_t tags_len);

#ifdef __cplusplus
}
#endif

#endif
