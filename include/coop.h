/* The cooperative bucket for C: a set of 32-bit tags that up to eight tasks change by helping one another (Figure 6 of Liu, Zhang and Spear), moved one
 * line at a time.
 *
 * Link libcoop_c.a (`programs/library coop_c` writes target/staticlib/libcoop_c.a), and for coop_schedule_run libcoop_schedule.a, beside it or alone. They
 * need memcpy and memset, allocate nothing, keep no state of their own, do not recurse and always return. Every function is total: any numbers and any
 * words are allowed, and each answers as is said here. Each is proved equal to its definition (crates/coop_c/specs/Calls.antt, for the schedule
 * crates/coop_schedule/specs/Encoding.antt). Nothing checks this header against the source.
 *
 * HOW IT IS USED (examples/c/coop.c is an example, line by line)
 *   coop_open once. Then a task starts a call (an invoke of an operation, a freeze, a member test, a get response) and is stepped, one line of Figure 6 at a
 *   time and in any order with the other tasks, until its output says that the call has ended.
 *   A change is an operation: a number 0 to 63, a type (insert or remove) and a tag. The first invoke of a number fixes its type and tag. Any task, and
 *   several at once, may invoke the same operation; it takes effect at most once, and each of them may finish it for the others. An invoke ends with yes
 *   (the operation has taken effect) or no (the bucket was frozen before). Whether the tag was new (insert) or there (remove) is the operation's
 *   response, which any task may ask for once an invoke of it has ended with yes.
 *   A number is used up by its first invoke: a bucket takes 64 operations; then open afresh.
 *   A freeze ends with the number of the version that has the bucket's last set. From then on no operation takes effect; member tests and get responses
 *   go on.
 *
 * WORDS LENT
 *   Everything lies in words that the caller lends with each call, each slice as a pointer and a length in words (not in bytes):
 *     state     COOP_STATE_WORDS words
 *     versions  COOP_VERSION_WORDS for each version, 1 to 1024 versions
 *     out       the answer's words, as many as each function says
 *   How many versions: with T tasks, T + 1 (COOP_ENOUGH_VERSIONS) or more are never all in use, so that no step is refused with 7; with fewer some order of
 *   steps is. With the state that is 2,116 bytes for one task, 2,380 for two, 2,644 for three, 2,908 for four, 3,964 for eight. Every call but coop_open and
 *   coop_schedule_run first reads all versions, to see that nothing is spoilt: lend no more than you need.
 *   A length is a uint64_t on every target and not a size_t: the proof is of 64-bit lengths.
 *   A pointer is aligned as a uint32_t and points to that many words. No two slices of a call overlap. Only a slice of length 0 may be null (it is then
 *   one of another length, and answered so; coop_schedule_run takes no events, no outputs). The caller may copy or store the words between calls and go on
 *   with the copy, but what it changes is spoilt memory: it is either refused with 8 or taken for what it then is.
 *   One call at a time: calls for the same words from an interrupt or another thread must wait for each other.
 *   Stack, measured on x86-64 over 300,000 calls (examples/c/coop_stack.c): coop_schedule_run 20,936 bytes, coop_step 16,600,
 *   coop_start_.. 6,056, coop_open 5,384, coop_show 3,800.
 *
 * WHAT A FUNCTION GIVES
 *   A number below COOP_REFUSED, or COOP_REFUSED and a refusal's number:
 *      1  opening: the number of tasks is not 1 to 8           open with 1 to 8
 *      3  opening: versions is not 66 x V words, V 1 to 1024   lend 66 words for each version
 *      4  start, step: no such task                            name one of 0 to tasks - 1
 *      5  start: the task runs a call                          step it until its call has ended
 *         start of an invoke: the operation is past 63, or its first invoke had another type or tag
 *         start of a get response: the operation is past 63, or no invoke of it has ended with yes yet
 *      6  step: the task runs no call                          start one
 *      7  step at line 140, if the bucket still has the task's o: every version is in use; the task stays where it is
 *                                                              step the other tasks, then this one again; or fit tasks + 1 versions. (One version
 *                                                              alone is always in use: no operation is then ever finished.)
 *      8  spoilt memory: some word is not what these functions left there; or state, versions or out is of another length
 *                                                              keep the words for a fitter, open afresh
 *   8 comes before all others. A number of COOP_REFUSED or more changes no word, but for one: a refused coop_open with a state of 397 words fills it with
 *   zeros. From an accepted opening on, with words that only these functions change and slices of the same lengths, 8 is never given.
 *
 * THE STATE'S WORDS (docs/FITTERS.md says what they mean)
 *   0 tasks   1 versions   2 the version that the bucket has   3 the version last taken   4 flag, 0 or 1: a freeze has begun
 *   then 5 words for each of 64 operations, of which operation n's begin at word 5 + 5 x n, all 0 if it was never invoked:
 *   +0 type: 1 insert, 2 remove   +1 tag   +2 response, 0 or 1   +3 done, 0 or 1   +4 an invoke of it has ended with yes, 0 or 1
 *   then 9 words for each of eight tasks, of which task k's begin at word 325 + 9 x k, all 0 if it runs nothing:
 *   +0 running, 0 or 1   +1 call   +2 operation (of an invoke or a get response)   +3 tag (of a member test)   +4 line   +5 inside HELPFINISH (lines 129 to
 *   140) the line that called it: 103, 106 or 126; else 0   +6 own steps, at most 65535   +7 o   +8 the operation that HELPFINISH finishes
 *   Words that no state has (another number for 0 or 1, more own steps) are spoilt memory.
 *   Words 2, 3 and a task's +2 are numbers from 0 on. A task's +7 and +8 are a version's and an operation's number plus 1, and 0 is none.
 *
 * A VERSION'S WORDS, those of version v from word 66 x v on
 *   +0 its operation: 0 none, 1 frozen, else the number of the operation that is being applied to it plus 2   +1 count of tags, at most 64
 *   +2 to +65 the tags ascending, then zeros
 *   A version's tags never change while it is in use: an operation makes a new version. What the bucket holds is the set of the version in state word 2,
 *   with the operation in that version's first word, if there is one, applied; a member test looks at both.
 */
#ifndef COOP_H
#define COOP_H

#include <stdint.h>

#ifdef __cplusplus
extern "C" {
#endif

enum {
    COOP_STATE_WORDS = 397,
    COOP_VERSION_WORDS = 66,
    COOP_OPERATIONS = 64,
    COOP_TAGS = 64,         /* the most tags of a version */
    COOP_OUT_WORDS = 4,     /* out of a start or a step */
    COOP_REFUSED = 256,
    COOP_SCHEDULE_REFUSED = 1024
};

/* Versions that are never all in use, with so many tasks; and where the words of operation n, of task k and of version v begin. */
#define COOP_ENOUGH_VERSIONS(tasks) ((tasks) + 1)
#define COOP_OPERATION(n) (5 + 5 * (n))
#define COOP_TASK(k) (325 + 9 * (k))
#define COOP_VERSION_AT(v) (66 * (v))

/* The state's first words; the words of an operation and of a task, from where they begin on. */
enum { COOP_TASKS = 0, COOP_VERSIONS = 1, COOP_NODE = 2, COOP_LAST = 3, COOP_FLAG = 4 };
enum { COOP_OP_TYPE = 0, COOP_OP_TAG = 1, COOP_OP_RESPONSE = 2, COOP_OP_DONE = 3, COOP_OP_ENDED = 4 };
enum {
    COOP_TASK_RUNNING = 0, COOP_TASK_CALL = 1, COOP_TASK_OPERATION = 2, COOP_TASK_TAG = 3, COOP_TASK_LINE = 4, COOP_TASK_BACK = 5, COOP_TASK_OWN = 6,
    COOP_TASK_O = 7, COOP_TASK_HELPED = 8
};

/* Refusals: the number given less COOP_REFUSED, or the second word of a refused output. */
enum {
    COOP_BAD_TASKS = 1, COOP_BAD_VERSIONS = 3, COOP_NO_TASK = 4, COOP_NOT_STARTED = 5, COOP_IDLE = 6, COOP_NO_VERSION = 7, COOP_SPOILT = 8
};

/* Calls: word +1 of a task, and the kind of an event. The first two are an operation's types too. */
enum { COOP_NO_CALL = 0, COOP_INSERT = 1, COOP_REMOVE = 2, COOP_FREEZE = 3, COOP_MEMBER = 4, COOP_RESPONSE = 5 };

/* Words of 8-bit bytes. */
typedef char coop_words_are_4_bytes[sizeof (uint32_t) == 4 && sizeof (uint64_t) == 8 ? 1 : -1];

/* The four words of an output:
 *   0, the line at which the task now stands, 0, 0        the call goes on
 *   1, the answer, own steps, version                     the call has ended; the last is 0 unless it was a freeze
 *   2, the refusal's number, 0, 0                         refused: only in the outputs of a whole schedule
 * Answers: invoke yes (the operation has taken effect), no (the bucket is frozen); freeze a version; member test yes, no; get response, of an insert: yes
 * (the tag was not in), no (it was); of a remove: yes (it was in), no (it was not). */
enum { COOP_AT = 0, COOP_END = 1, COOP_REFUSE = 2 };
enum { COOP_YES = 1, COOP_NO = 2, COOP_VERSION = 3 };

/* Opens an empty bucket, whatever the words held, and writes the state. Gives 0. Refuses 8 (only for a state of another length), 1, 3, in this order. */
uint32_t coop_open(uint32_t tasks,
                   uint32_t *state, uint64_t state_len,
                   uint32_t *versions, uint64_t versions_len);

/* Start a call for a task; steps then move it. Give 0 and the output's four words. Refuse 8, 4, 5. The versions are only read. */
uint32_t coop_start_insert(uint32_t *state, uint64_t state_len, uint32_t task, uint32_t operation, uint32_t tag,
                           const uint32_t *versions, uint64_t versions_len,
                           uint32_t *out, uint64_t out_len);
uint32_t coop_start_remove(uint32_t *state, uint64_t state_len, uint32_t task, uint32_t operation, uint32_t tag,
                           const uint32_t *versions, uint64_t versions_len,
                           uint32_t *out, uint64_t out_len);
uint32_t coop_start_freeze(uint32_t *state, uint64_t state_len, uint32_t task,
                           const uint32_t *versions, uint64_t versions_len,
                           uint32_t *out, uint64_t out_len);
uint32_t coop_start_member(uint32_t *state, uint64_t state_len, uint32_t task, uint32_t tag,
                           const uint32_t *versions, uint64_t versions_len,
                           uint32_t *out, uint64_t out_len);
uint32_t coop_start_response(uint32_t *state, uint64_t state_len, uint32_t task, uint32_t operation,
                             const uint32_t *versions, uint64_t versions_len,
                             uint32_t *out, uint64_t out_len);

/* Steps a task by one line. Gives 0 and the output's four words. Refuses 8, 4, 6, 8 (of the line), 7. */
uint32_t coop_step(uint32_t *state, uint64_t state_len, uint32_t task,
                   uint32_t *versions, uint64_t versions_len,
                   uint32_t *out, uint64_t out_len);

/* Gives how many tags a version has and, unless that is 0, writes to the one word of out where the first of them stands among the words of versions.
 * Refuses nothing: 0 for a version that is not there, for spoilt memory and for an out of another length. */
uint32_t coop_show(const uint32_t *state, uint64_t state_len, uint32_t version,
                   const uint32_t *versions, uint64_t versions_len,
                   uint32_t *out, uint64_t out_len);

/* A whole schedule in one call, with a state of its own: an opening, and as many events as are whole and have room for their outputs. An event is four
 * words: a kind (COOP_INSERT to COOP_RESPONSE start a call; 0 and all others are a step), a task, an operation and a tag, of which only those that the call
 * has are looked at. An output is four words, as above, be it a refusal's; the words after the outputs are kept. Gives the number of the version that the
 * bucket then has, or COOP_SCHEDULE_REFUSED and the opening's refusal, 1 or 3, and changes no word. */
uint32_t coop_schedule_run(uint32_t tasks,
                           uint32_t *versions, uint64_t versions_len,
                           const uint32_t *events, uint64_t events_len,
                           uint32_t *outputs, uint64_t outputs_len);

#ifdef __cplusplus
}
#endif

#endif
