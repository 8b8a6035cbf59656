//! The calls over lent words, as include/yard.h has them: the form in which two implementations of the machine are compared
//! call by call.

use crate::machine::{Call, MAX_TASKS};
use crate::schedule::{Opening, OUTPUT_WORDS};

const FIRST_WORDS: usize = 9;
const TASK_WORDS: usize = 13;
pub const STATE_WORDS: usize = FIRST_WORDS + MAX_TASKS * TASK_WORDS;
pub const TURN_WORDS: usize = 1 + OUTPUT_WORDS;
/// The most turns of one call.
pub const MAX_TURNS: usize = 255;

/// The word at which a task's words begin.
pub fn task_word(task: usize) -> usize {
    FIRST_WORDS + task * TASK_WORDS
}

#[derive(Clone, Copy, Debug, PartialEq, Eq)]
pub enum Entry {
    Start(Call),
    Step,
    Turn,
    List,
    Show,
}

/// The words that a call is lent besides `out`. Any lengths and any contents are allowed.
pub struct Lent<'a> {
    pub state: &'a mut [u32],
    pub nodes: &'a mut [u32],
    pub buckets: &'a mut [u32],
}

/// An implementation. Each function gives what the function of include/yard.h gives.
pub trait Calls {
    fn open(opening: Opening, lent: Lent) -> u32;

    /// `number` is a task's, or a bucket's for `Show`; `tag` is of an insert, a remove or a contains.
    fn call(entry: Entry, number: u32, tag: u32, lent: Lent, out: &mut [u32]) -> u32;

    /// Many events in one call.
    fn run(lent: Lent, events: &[u32], outputs: &mut [u32]) -> u32;

    /// Many turns in one call.
    fn turns(lent: Lent, out: &mut [u32]) -> u32;
}
