//! The cooperative bucket one call at a time over lent words, as include/coop.h has it: the form in which the proved
//! implementation and the one in plain Rust are compared, call by call.

mod compare;
mod memory;
mod plain;
mod proved;

pub use compare::check;

/// The words of a state: five, five for each operation, nine for each of eight tasks.
const STATE_WORDS: usize = task_word(8);
const OPERATIONS: usize = 64;
const VERSION_WORDS: usize = 66;
const OUTPUT_WORDS: usize = 4;
const REFUSED: u32 = 256;

/// The word at which an operation's words begin.
const fn operation_word(n: usize) -> usize {
    5 + 5 * n
}

/// The word at which a task's words begin.
const fn task_word(task: usize) -> usize {
    operation_word(OPERATIONS) + 9 * task
}

#[derive(Clone, Copy, Debug, PartialEq, Eq)]
enum Entry {
    StartInsert,
    StartRemove,
    StartFreeze,
    StartMember,
    StartResponse,
    Step,
    Show,
}

/// The words that a call is lent besides `out`. Any lengths and any contents are allowed.
struct Lent<'a> {
    state: &'a mut [u32],
    versions: &'a mut [u32],
}

/// An implementation. Each function gives what the function of include/coop.h gives.
trait Calls {
    fn open(tasks: u32, lent: Lent) -> u32;

    /// `number` is a task's, or a version's for `Show`; an entry reads of `operation` and `tag` what it has.
    fn call(
        entry: Entry,
        number: u32,
        operation: u32,
        tag: u32,
        lent: Lent,
        out: &mut [u32],
    ) -> u32;
}
