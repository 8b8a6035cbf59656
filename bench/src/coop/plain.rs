//! The cooperative bucket in plain Rust, after Figure 6 and U10 of paper 02, over the words of include/coop.h: every
//! number is read and written where it lies.

mod lines;
mod sound;

use super::{operation_word, task_word, Calls, Entry, Lent};
use super::{OPERATIONS, OUTPUT_WORDS, REFUSED, STATE_WORDS, VERSION_WORDS};

pub struct Plain;

/// A refusal's number.
type Refusal = u32;

const BAD_TASKS: Refusal = 1;
const BAD_VERSIONS: Refusal = 3;
const NO_TASK: Refusal = 4;
const CANNOT_START: Refusal = 5;
const IDLE: Refusal = 6;
const ALL_HELD: Refusal = 7;
const SPOILT: Refusal = 8;

const MAX_TASKS: usize = 8;
const MAX_VERSIONS: usize = 1024;
const MAX_TAGS: usize = 64;
const MAX_OWN_STEPS: u32 = 65535;

/// The state's words before the operations.
const TASKS: usize = 0;
const VERSIONS: usize = 1;
const NODE: usize = 2;
const LAST: usize = 3;
const FLAG: usize = 4;

/// An operation's words.
const TYPE: usize = 0;
const KEY: usize = 1;
const RESP: usize = 2;
const DONE: usize = 3;
const ENDED_TRUE: usize = 4;

const INS: u32 = 1;
const REM: u32 = 2;

/// A task's words.
const RUNNING: usize = 0;
const CALL: usize = 1;
const OPERATION: usize = 2;
const TAG: usize = 3;
const LINE: usize = 4;
const RETURNS_TO: usize = 5;
const OWN: usize = 6;
const O: usize = 7;
const HELPED: usize = 8;
const TASK_WORDS: usize = 9;

/// The numbers of the calls in a task's words; those of an invoke are also the type of its operation.
const FREEZE: u32 = 3;
const HAS_MEMBER: u32 = 4;
const GET_RESPONSE: u32 = 5;

/// The op of a version.
#[derive(Clone, Copy, PartialEq, Eq)]
enum Op {
    Nil,
    Frozen,
    Number(usize),
}

struct Bucket<'a> {
    state: &'a mut [u32],
    versions: &'a mut [u32],
}

impl Bucket<'_> {
    fn operation(&self, n: usize, word: usize) -> u32 {
        self.state[operation_word(n) + word]
    }

    fn set_operation(&mut self, n: usize, word: usize, value: u32) {
        self.state[operation_word(n) + word] = value;
    }

    fn task(&self, k: usize, word: usize) -> u32 {
        self.state[task_word(k) + word]
    }

    fn set_task(&mut self, k: usize, word: usize, value: u32) {
        self.state[task_word(k) + word] = value;
    }

    fn version_count(&self) -> usize {
        self.state[VERSIONS] as usize
    }

    fn node(&self) -> usize {
        self.state[NODE] as usize
    }

    fn words(&self, version: usize) -> &[u32] {
        &self.versions[version * VERSION_WORDS..][..VERSION_WORDS]
    }

    fn op(&self, version: usize) -> Op {
        match self.words(version)[0] {
            0 => Op::Nil,
            1 => Op::Frozen,
            word => Op::Number(word as usize - 2),
        }
    }

    fn set(&self, version: usize) -> &[u32] {
        let words = self.words(version);
        &words[2..][..words[1] as usize]
    }

    /// "CAS(&o.op, nil, ..)"
    fn cas_op(&mut self, version: usize, word: u32) -> bool {
        let nil = self.op(version) == Op::Nil;
        if nil {
            self.versions[version * VERSION_WORDS] = word;
        }
        nil
    }

    // ---- starts

    fn may_start(&self, call: Entry, n: usize, tag: u32) -> bool {
        match call {
            Entry::StartInsert | Entry::StartRemove => {
                let fixed = [type_of(call), tag];
                n < OPERATIONS
                    && (!self.was_invoked(n)
                        || fixed == [self.operation(n, TYPE), self.operation(n, KEY)])
            }
            Entry::StartResponse => n < OPERATIONS && self.operation(n, ENDED_TRUE) == 1,
            _ => true,
        }
    }

    fn start(
        &mut self,
        call: Entry,
        k: u32,
        n: u32,
        tag: u32,
    ) -> Result<[u32; OUTPUT_WORDS], Refusal> {
        if !self.is_sound() {
            return Err(SPOILT);
        }
        if k >= self.state[TASKS] {
            return Err(NO_TASK);
        }
        let k = k as usize;
        if self.task(k, RUNNING) == 1 || !self.may_start(call, n as usize, tag) {
            return Err(CANNOT_START);
        }
        let (number, operation, tag_kept, line) = match call {
            Entry::StartInsert | Entry::StartRemove => {
                self.set_operation(n as usize, TYPE, type_of(call));
                self.set_operation(n as usize, KEY, tag);
                (type_of(call), n, 0, 95)
            }
            Entry::StartFreeze => (FREEZE, 0, 0, 109),
            Entry::StartMember => (HAS_MEMBER, 0, tag, 112),
            _ => (GET_RESPONSE, n, 0, 117),
        };
        self.set_task(k, RUNNING, 1);
        self.set_task(k, CALL, number);
        self.set_task(k, OPERATION, operation);
        self.set_task(k, TAG, tag_kept);
        self.set_task(k, LINE, line);
        Ok([0, line, 0, 0])
    }

    // ---- show

    fn show(&self, version: u32, out: &mut [u32]) -> u32 {
        if !self.is_sound() || version as usize >= self.version_count() {
            return 0;
        }
        let tags = self.set(version as usize).len() as u32;
        if tags > 0 {
            out[0] = version * VERSION_WORDS as u32 + 2;
        }
        tags
    }
}

/// The type of an invoke's operation.
fn type_of(call: Entry) -> u32 {
    if call == Entry::StartInsert {
        INS
    } else {
        REM
    }
}

/// What a start or a step gives; a refusal leaves the answer's words.
fn given(result: Result<[u32; OUTPUT_WORDS], Refusal>, out: &mut [u32]) -> u32 {
    match result {
        Ok(words) => {
            out.copy_from_slice(&words);
            0
        }
        Err(refusal) => REFUSED + refusal,
    }
}

impl Calls for Plain {
    fn open(tasks: u32, lent: Lent) -> u32 {
        let Lent { state, versions } = lent;
        if state.len() != STATE_WORDS {
            return REFUSED + SPOILT;
        }
        state.fill(0);
        let count = versions.len() / VERSION_WORDS;
        if !(1..=MAX_TASKS as u32).contains(&tasks) {
            return REFUSED + BAD_TASKS;
        }
        if versions.len() % VERSION_WORDS != 0 || !(1..=MAX_VERSIONS).contains(&count) {
            return REFUSED + BAD_VERSIONS;
        }
        versions.fill(0);
        state[TASKS] = tasks;
        state[VERSIONS] = count as u32;
        0
    }

    fn call(
        entry: Entry,
        number: u32,
        operation: u32,
        tag: u32,
        lent: Lent,
        out: &mut [u32],
    ) -> u32 {
        let Lent { state, versions } = lent;
        let fits = state.len() == STATE_WORDS;
        let mut bucket = Bucket { state, versions };
        match entry {
            Entry::Show if !fits || out.len() != 1 => 0,
            Entry::Show => bucket.show(number, out),
            _ if !fits || out.len() != OUTPUT_WORDS => REFUSED + SPOILT,
            Entry::Step => given(bucket.step(number), out),
            start => given(bucket.start(start, number, operation, tag), out),
        }
    }
}
