//! A resizable hash set of 32-bit tags, moved one line of its algorithm at a time.
//!
//! All nodes and buckets lie in two lent pools of 32-bit words; `State` holds the rest.
//! A place is a record's number plus 1, or 0 for empty.

mod bucket;
#[cfg(test)]
mod cases;
mod held;
mod lines;
mod listed;
mod node;
#[cfg(test)]
mod refusals;
mod sound;

use lines::{Next, Step};
pub use sound::sound;
use std::ops::Range;

pub const MAX_TASKS: usize = 8;
pub const MAX_TAGS: usize = 64;
pub const MAX_SIZE: usize = 32;
pub const MAX_NODES: usize = 64;
pub const MAX_BUCKETS: usize = 1024;

/// Size, place of the predecessor, 32 places of buckets.
pub const NODE_WORDS: usize = 2 + MAX_SIZE;
/// 1 if changeable or 0 if frozen, count of tags, 64 tags.
pub const BUCKET_WORDS: usize = 2 + MAX_TAGS;

pub type Node = [u32; NODE_WORDS];
pub type Bucket = [u32; BUCKET_WORDS];

#[derive(Clone, Copy, Debug, PartialEq, Eq)]
#[repr(u32)]
pub enum Call {
    Insert = 1,
    Remove = 2,
    Contains = 3,
    Grow = 4,
    Shrink = 5,
}

#[derive(Clone, Copy, Debug, PartialEq, Eq)]
#[repr(u32)]
pub enum Answer {
    Yes = 1,
    No = 2,
    Full = 3,
    Done = 4,
    Lost = 5,
    Limit = 6,
}

#[derive(Clone, Copy, Debug, PartialEq, Eq)]
#[repr(u32)]
pub enum Refusal {
    TaskCount = 1,
    NodeSlice = 2,
    BucketSlice = 3,
    NoSuchTask = 4,
    AlreadyRunning = 5,
    NotRunning = 6,
    NoFreeRecord = 7,
    Corrupt = 8,
    ShortList = 9,
    Version = 11,
    ZeroWithdrawn = 14,
}

/// What an accepted start or step gives: the next line, or an answer with the own steps and,
/// of an insert or remove, the number of tags that its bucket holds afterwards (otherwise 0).
#[derive(Clone, Copy, Debug, PartialEq, Eq)]
pub enum Output {
    At(u32),
    End(Answer, u16, u32),
}

/// What a turn gives: nothing runs, or a task and what its step gives.
#[derive(Clone, Copy, Debug, PartialEq, Eq)]
pub enum Turn {
    Idle,
    Of(u32, Result<Output, Refusal>),
}

#[derive(Clone, Copy, Debug, Default, PartialEq, Eq)]
pub struct Task {
    pub running: bool,
    pub call: u32,
    pub tag: u32,
    pub line: u32,
    pub i: u32,
    pub own: u16,
    pub t: u32,
    pub s: u32,
    pub b: u32,
    pub m: u32,
    pub n: u32,
    pub new_node: u32,
    pub new_bucket: u32,
}

#[derive(Clone, Copy, Debug, Default, PartialEq, Eq)]
pub struct State {
    pub tasks: u32,
    /// Of the tags: 1, or 2 for tags that end in a check digit.
    pub version: u32,
    /// Whether no insert of tag 0 may be started.
    pub zero_withdrawn: bool,
    pub nodes: u32,
    pub buckets: u32,
    pub head: u32,
    pub last_node: u32,
    pub last_bucket: u32,
    /// The task that a turn chose last.
    pub chosen: u32,
    pub task: [Task; MAX_TASKS],
}

impl Call {
    pub fn is_resize(self) -> bool {
        matches!(self, Call::Grow | Call::Shrink)
    }

    fn first_line(self) -> u32 {
        match self {
            Call::Contains => 12,
            Call::Insert | Call::Remove => 32,
            Call::Grow | Call::Shrink => 20,
        }
    }
}

/// Number of records in a slice of `words` words, if it is whole and from 1 to `max`.
fn record_count(words: usize, record: usize, max: usize) -> Option<u32> {
    let count = words / record;
    (words.is_multiple_of(record) && (1..=max).contains(&count)).then_some(count as u32)
}

fn is_version(version: u32) -> bool {
    matches!(version, 1 | 2)
}

pub fn open(
    tasks: u32,
    version: u32,
    zero_withdrawn: bool,
    nodes: &mut [u32],
    buckets: &mut [u32],
) -> Result<State, Refusal> {
    if !(1..=MAX_TASKS as u32).contains(&tasks) {
        return Err(Refusal::TaskCount);
    }
    let node_count = record_count(nodes.len(), NODE_WORDS, MAX_NODES).ok_or(Refusal::NodeSlice)?;
    let bucket_count =
        record_count(buckets.len(), BUCKET_WORDS, MAX_BUCKETS).ok_or(Refusal::BucketSlice)?;
    if !is_version(version) {
        return Err(Refusal::Version);
    }
    nodes.fill(0);
    buckets.fill(0);
    buckets[bucket::CHANGEABLE] = 1;
    nodes[node::SIZE] = 1;
    nodes[node::PLACES] = 1;
    Ok(State {
        tasks,
        version,
        zero_withdrawn,
        nodes: node_count,
        buckets: bucket_count,
        chosen: tasks - 1,
        ..State::default()
    })
}

pub fn start(
    state: &mut State,
    nodes: &[u32],
    buckets: &[u32],
    task: u32,
    call: Call,
    tag: u32,
) -> Result<Output, Refusal> {
    if !sound(state, nodes, buckets) {
        return Err(Refusal::Corrupt);
    }
    start_unscanned(state, task, call, tag)
}

/// A start of memory that is sound.
#[inline(always)]
pub fn start_unscanned(
    state: &mut State,
    task: u32,
    call: Call,
    tag: u32,
) -> Result<Output, Refusal> {
    if task >= state.tasks {
        return Err(Refusal::NoSuchTask);
    }
    let record = &mut state.task[task as usize];
    if record.running {
        return Err(Refusal::AlreadyRunning);
    }
    if state.zero_withdrawn && call == Call::Insert && tag == 0 {
        return Err(Refusal::ZeroWithdrawn);
    }
    *record = Task {
        running: true,
        call: call as u32,
        tag: if call.is_resize() { 0 } else { tag },
        line: call.first_line(),
        ..Task::default()
    };
    Ok(Output::At(record.line))
}

pub fn step(
    state: &mut State,
    nodes: &mut [u32],
    buckets: &mut [u32],
    task: u32,
) -> Result<Output, Refusal> {
    if !sound(state, nodes, buckets) {
        return Err(Refusal::Corrupt);
    }
    step_unscanned(state, nodes, buckets, task)
}

/// A step of memory that is sound.
#[inline(always)]
pub fn step_unscanned(
    state: &mut State,
    nodes: &mut [u32],
    buckets: &mut [u32],
    task: u32,
) -> Result<Output, Refusal> {
    if task >= state.tasks {
        return Err(Refusal::NoSuchTask);
    }
    let number = task as usize;
    let record = state.task[number];
    if !record.running {
        return Err(Refusal::NotRunning);
    }
    let own = record.own.saturating_add(1);
    let mut step = Step {
        state,
        nodes: nodes.as_chunks_mut().0,
        buckets: buckets.as_chunks_mut().0,
        task: record,
    };
    let next = step.line()?;
    let moved = step.task;
    let (record, output) = match next {
        Next::Line(line) => (Task { line, own, ..moved }, Output::At(line)),
        Next::End(answer, tags) => (Task::default(), Output::End(answer, own, tags)),
    };
    state.task[number] = record;
    Ok(output)
}

/// Steps the running task that is next, going round from the last one chosen. A refused step uses up its turn unless memory is
/// spoilt.
pub fn turn(state: &mut State, nodes: &mut [u32], buckets: &mut [u32]) -> Result<Turn, Refusal> {
    if !sound(state, nodes, buckets) {
        return Err(Refusal::Corrupt);
    }
    let State { tasks, chosen, .. } = *state;
    let mut order = (chosen + 1..tasks).chain(0..=chosen);
    let Some(task) = order.find(|&task| state.task[task as usize].running) else {
        return Ok(Turn::Idle);
    };
    let given = step_unscanned(state, nodes, buckets, task);
    if given != Err(Refusal::Corrupt) {
        state.chosen = task;
    }
    Ok(Turn::Of(task, given))
}

/// Where in the bucket words the tags of bucket `number` stand; nowhere for a bad number or spoilt memory.
pub fn show(state: &State, nodes: &[u32], buckets: &[u32], number: u32) -> Range<usize> {
    if !sound(state, nodes, buckets) || number >= state.buckets {
        return 0..0;
    }
    let first = number as usize * BUCKET_WORDS;
    let tags = first + bucket::TAGS;
    tags..tags + buckets[first + bucket::COUNT] as usize
}

/// Writes the tags of the set, ascending, to the front of `out` and gives their number.
pub fn list(
    state: &State,
    nodes: &[u32],
    buckets: &[u32],
    out: &mut [u32],
) -> Result<usize, Refusal> {
    if !sound(state, nodes, buckets) {
        return Err(Refusal::Corrupt);
    }
    let (tags, count) = listed::collect(state, nodes.as_chunks().0, buckets.as_chunks().0)
        .ok_or(Refusal::Corrupt)?;
    if out.len() < MAX_TAGS {
        return Err(Refusal::ShortList);
    }
    out[..count].copy_from_slice(&tags[..count]);
    Ok(count)
}
