//! `bench coop`: the proved bucket against the plain one, call by call. After each call the number given and every word
//! lent are compared. A tenth of the calls is on words that were spoilt, or on slices of other lengths.

use super::memory::{Asked, Memory, LINES};
use super::plain::Plain;
use super::proved::Proved;
use super::{task_word, Entry, OPERATIONS, OUTPUT_WORDS, REFUSED, STATE_WORDS, VERSION_WORDS};
use crate::random::Random;

const CALLS_OF_A_BUCKET: u64 = 1000;
const CORRUPT: u32 = REFUSED + 8;

const REFUSALS: [u32; 7] = [1, 3, 4, 5, 6, 7, 8];
/// Openings at and past every bound: tasks, words of the versions, what is given.
const OPENINGS: [(u32, usize, u32); 12] = [
    (0, 66, REFUSED + 1),
    (9, 66, REFUSED + 1),
    (u32::MAX, 0, REFUSED + 1),
    (1, 0, REFUSED + 3),
    (1, 65, REFUSED + 3),
    (8, 67, REFUSED + 3),
    (8, 66 * 1024 - 1, REFUSED + 3),
    (8, 66 * 1025, REFUSED + 3),
    (1, 66, 0),
    (8, 66, 0),
    (1, 66 * 1024, 0),
    (8, 66 * 1024, 0),
];

/// How often each thing occurred.
struct Counts {
    calls: u64,
    /// Accepted steps by their line.
    lines: [u64; 141],
    /// Ended calls by their answer: yes, no, a version.
    answers: [u64; 4],
    /// Refusals by their number.
    refusals: [u64; 9],
    /// Shows of a version with tags.
    shown: u64,
    /// Calls on memory just spoilt, and those of them that were not refused with 8.
    spoilt: u64,
    taken: u64,
}

/// The two memories, which are the same before and after each call.
struct Pair {
    plain: Memory,
    proved: Memory,
}

impl Pair {
    fn new(memory: Memory) -> Pair {
        Pair {
            proved: memory.clone(),
            plain: memory,
        }
    }

    fn run(&mut self, asked: Asked, counts: &mut Counts) -> Result<u32, String> {
        let line = match asked {
            Asked::Call(Entry::Step, task @ 0..=7, ..) => {
                let word = task_word(task as usize) + 4;
                self.plain.state.get(word).copied()
            }
            _ => None,
        };
        self.plain.run::<Plain>(asked);
        self.proved.run::<Proved>(asked);
        if let Some(difference) = self.plain.difference(&self.proved) {
            return Err(format!("{asked:?}: {difference}"));
        }
        counts.count(asked, line, &self.plain);
        Ok(self.plain.given)
    }
}

impl Counts {
    fn new() -> Counts {
        Counts {
            calls: 0,
            lines: [0; 141],
            answers: [0; 4],
            refusals: [0; 9],
            shown: 0,
            spoilt: 0,
            taken: 0,
        }
    }

    /// A call that both answered alike; of a step also the line at which its task stood.
    fn count(&mut self, asked: Asked, line: Option<u32>, after: &Memory) {
        self.calls += 1;
        match (asked, after.given) {
            (_, given @ REFUSED..) => self.refusals[(given - REFUSED) as usize] += 1,
            (Asked::Call(Entry::Show, ..), tags) => self.shown += u64::from(tags > 0),
            (Asked::Call(Entry::Step, ..), _) => {
                self.lines[line.expect("of a running task") as usize] += 1;
                if after.out[0] == 1 {
                    self.answers[after.out[1] as usize] += 1;
                }
            }
            _ => {}
        }
    }

    /// Every line, answer and refusal must have occurred.
    fn complete(&self) -> Result<(), String> {
        let lines = LINES.iter().find(|&&line| self.lines[line as usize] == 0);
        let answers = (1..4).find(|&answer| self.answers[answer] == 0);
        let refusals = REFUSALS
            .iter()
            .find(|&&refusal| self.refusals[refusal as usize] == 0);
        let named = [
            lines.map(|line| format!("no step at line {line}")),
            answers.map(|answer| format!("no answer {answer}")),
            refusals.map(|refusal| format!("no refusal {refusal}")),
            (self.shown == 0).then(|| "no version shown".to_string()),
        ];
        named.into_iter().flatten().next().map_or(Ok(()), Err)
    }
}

/// What the calls of one bucket look like.
#[derive(Clone, Copy, Debug)]
struct Shape {
    tasks: u32,
    versions: usize,
    tags: u32,
    /// As many operations come before the first freeze.
    unfrozen: u32,
}

impl Shape {
    fn random(random: &mut Random) -> Shape {
        let tasks = random.one_to(8);
        Shape {
            tasks: tasks as u32,
            versions: match random.below(40) {
                0..=5 => tasks,
                6 => random.one_to(tasks),
                7..=15 => tasks + random.one_to(4),
                39 => 1024,
                _ => tasks + 1,
            },
            tags: random.pick(&[2, 4, 20, 70]),
            unfrozen: 20 + random.below(60),
        }
    }

    /// A call, of one of the operations up to `newest` or just past them: mostly a step of a task that runs, or a start for
    /// one that does not. Mostly an operation keeps its type and tag.
    fn call(&self, random: &mut Random, newest: u32, state: &[u32]) -> Asked {
        if random.percent(3) {
            return Asked::Call(Entry::Show, random.below(self.versions as u32 + 2), 0, 0);
        }
        let task = random.below(self.tasks);
        let runs = state[task_word(task as usize)] == 1;
        if random.percent(if runs { 90 } else { 10 }) {
            return Asked::Call(Entry::Step, task, 0, 0);
        }
        let operation = match random.below(100) {
            0 => random.pick(&[63, 64, u32::MAX]),
            1..=30 => random.below(newest + 2),
            _ => (newest + random.below(2)).min(OPERATIONS as u32 - 1),
        };
        let (mut tag, mut inserts) = (operation % self.tags, operation % 3 != 2);
        if random.percent(3) {
            (tag, inserts) = (random.below(self.tags), random.percent(50));
        }
        let entry = match random.below(100) {
            0..=14 => Entry::StartMember,
            15..=29 => {
                let older = random.below(newest + 2);
                return Asked::Call(Entry::StartResponse, task, older, tag);
            }
            _ if newest >= self.unfrozen && random.percent(30) => Entry::StartFreeze,
            _ if inserts => Entry::StartInsert,
            _ => Entry::StartRemove,
        };
        let any = [self.tasks, 8, u32::MAX];
        let number = if random.percent(98) {
            task
        } else {
            random.pick(&any)
        };
        Asked::Call(entry, number, operation, tag)
    }
}

/// A call on spoilt memory. It is then mended, but for a half of those that a step or a start accepted: the bucket goes on
/// from there.
fn spoilt_call(
    pair: &mut Pair,
    asked: Asked,
    random: &mut Random,
    counts: &mut Counts,
) -> Result<(), String> {
    let before = pair.plain.clone();
    let mut spoilt = before.clone();
    spoilt.spoil(random);
    *pair = Pair::new(spoilt);
    let given = pair.run(asked, counts)?;
    counts.spoilt += 1;
    counts.taken += u64::from(given != CORRUPT);
    let shows = matches!(asked, Asked::Call(Entry::Show, ..));
    if shows || given >= REFUSED || random.percent(50) {
        *pair = Pair::new(before);
    }
    Ok(())
}

fn check_bucket(seed: u64, counts: &mut Counts) -> Result<(), String> {
    let mut random = Random::new(seed);
    let shape = Shape::random(&mut random);
    let words = shape.versions * VERSION_WORDS;
    let mut pair = Pair::new(Memory::random(&mut random, STATE_WORDS, words));
    let failure = |failure| format!("seed {seed}, {shape:?}: {failure}");
    pair.run(Asked::Open(shape.tasks), counts)
        .map_err(failure)?;
    for k in 0..CALLS_OF_A_BUCKET {
        let newest = k * OPERATIONS as u64 / CALLS_OF_A_BUCKET;
        let asked = shape.call(&mut random, newest as u32, &pair.plain.state);
        let room = match asked {
            Asked::Call(Entry::Show, ..) => 1,
            _ => OUTPUT_WORDS,
        };
        pair.plain.out = random.words(room);
        pair.proved.out.clone_from(&pair.plain.out);
        if random.percent(10) {
            spoilt_call(&mut pair, asked, &mut random, counts).map_err(failure)?;
        } else if pair.run(asked, counts).map_err(failure)? == CORRUPT {
            // what was accepted on spoilt words left others that no bucket has
            break;
        }
    }
    Ok(())
}

fn check_openings(counts: &mut Counts) -> Result<(), String> {
    let mut random = Random::new(1);
    for (tasks, version_words, outcome) in OPENINGS {
        for state_words in [STATE_WORDS, 0, STATE_WORDS - 1, STATE_WORDS + 1] {
            let mut pair = Pair::new(Memory::random(&mut random, state_words, version_words));
            let given = pair.run(Asked::Open(tasks), counts)?;
            let named = if state_words == STATE_WORDS {
                outcome
            } else {
                CORRUPT
            };
            if given != named {
                return Err(format!(
                    "opening with {tasks} tasks, {version_words} words: {given}"
                ));
            }
        }
    }
    Ok(())
}

/// Compares at least so many calls.
pub fn check(calls: u64) -> Result<(), String> {
    let mut counts = Counts::new();
    check_openings(&mut counts)?;
    let mut seed = 0;
    while counts.calls < calls {
        seed += 1;
        check_bucket(seed, &mut counts)?;
    }
    counts.complete()?;
    println!(
        "{} calls of the cooperative bucket alike, {seed} buckets",
        counts.calls
    );
    println!(
        "  {} on spoilt memory, of which {} not refused with 8",
        counts.spoilt, counts.taken
    );
    let list = |of: &[u32], counts: &[u64]| {
        let parts = of.iter().map(|&k| format!("{k}: {}", counts[k as usize]));
        parts.collect::<Vec<_>>().join(", ")
    };
    println!("  refusals {}", list(&REFUSALS, &counts.refusals));
    println!("  accepted steps by line {}", list(&LINES, &counts.lines));
    println!(
        "  yes, no, version {:?}, shown {}",
        &counts.answers[1..],
        counts.shown
    );
    Ok(())
}
