//! `bench check`: random schedules against a plain set and, with the feature `proved`, against the proved implementation,
//! word by word; then single calls of the two implementations.

use crate::machine::MAX_TAGS;
use crate::model::{self, Coverage};
use crate::plan;
use crate::random::{self, Random, Shape};
use crate::schedule::{self, Opening, Run, EVENT_WORDS, OUTPUT_WORDS, REFUSED};
use std::fmt::Display;

/// Everything that a run leaves behind.
#[derive(Clone, PartialEq, Eq)]
struct Memory {
    nodes: Vec<u32>,
    buckets: Vec<u32>,
    outputs: Vec<u32>,
    tags: Vec<u32>,
    outcome: u32,
}

impl Memory {
    /// Memory with arbitrary former contents.
    fn random(
        random: &mut Random,
        node_words: usize,
        bucket_words: usize,
        events: usize,
    ) -> Memory {
        Memory {
            nodes: random.words(node_words),
            buckets: random.words(bucket_words),
            outputs: random.words(events * OUTPUT_WORDS),
            tags: random.words(MAX_TAGS),
            outcome: u32::MAX,
        }
    }

    fn run(&mut self, run: Run, opening: Opening, events: &[u32]) {
        self.outcome = run(
            opening,
            &mut self.nodes,
            &mut self.buckets,
            events,
            &mut self.outputs,
            &mut self.tags,
        );
    }

    /// The first thing in which two runs differ.
    #[cfg(feature = "proved")]
    fn difference(&self, other: &Memory) -> Option<String> {
        let first = |name: &str, a: &[u32], b: &[u32]| {
            let word = (0..a.len().max(b.len())).find(|&k| a.get(k) != b.get(k))?;
            Some(format!(
                "{name} word {word}: {:?} and {:?}",
                a.get(word),
                b.get(word)
            ))
        };
        first("output", &self.outputs, &other.outputs)
            .or_else(|| first("outcome", &[self.outcome], &[other.outcome]))
            .or_else(|| first("tag", &self.tags, &other.tags))
            .or_else(|| first("node", &self.nodes, &other.nodes))
            .or_else(|| first("bucket", &self.buckets, &other.buckets))
    }
}

/// Runs the schedule with the proved implementation too and compares all that is left.
#[cfg(feature = "proved")]
fn compare(before: Memory, plain: &Memory, opening: Opening, events: &[u32]) -> Result<(), String> {
    let mut proved = before;
    proved.run(crate::proved::run, opening, events);
    plain.difference(&proved).map_or(Ok(()), |difference| {
        Err(format!("plain and proved: {difference}"))
    })
}

#[cfg(not(feature = "proved"))]
fn compare(_: Memory, _: &Memory, _: Opening, _: &[u32]) -> Result<(), String> {
    Ok(())
}

/// One random schedule; gives its shape's description with a failure.
fn check_schedule(
    seed: u64,
    version: u32,
    new_rule: bool,
    coverage: &mut Coverage,
) -> Result<(), String> {
    let mut random = Random::new(seed);
    let shape = Shape::random(&mut random, version, new_rule);
    let count = random.pick(&[200, 1000, 3000, 10_000]);
    let events = random::events(&shape, &mut random, count);
    let count = events.len() / EVENT_WORDS;
    let before = Memory::random(&mut random, shape.node_words(), shape.bucket_words(), count);
    let mut after = before.clone();
    after.run(schedule::run::<true>, shape.opening, &events);
    let kept = before.tags.clone();
    let checked = match after.outcome as usize {
        listed @ 0..=MAX_TAGS if after.tags[listed..] == kept[listed..] => {
            let tags = &after.tags[..listed];
            model::check(shape.opening, &events, &after.outputs, tags, coverage)
        }
        outcome => Err(format!("outcome {outcome}")),
    };
    checked
        .and_then(|()| compare(before, &after, shape.opening, &events))
        .map_err(|failure| format!("seed {seed}, {shape:?}: {failure}"))
}

/// Openings at and past every bound: tasks, version, node words, bucket words, outcome. The rule
/// on tag 0 makes no difference to them.
const OPENINGS: [(u32, u32, usize, usize, u32); 20] = [
    (0, 1, 34, 66, REFUSED + 1),
    (9, 2, 34, 66, REFUSED + 1),
    (u32::MAX, 0, 0, 0, REFUSED + 1),
    (1, 1, 0, 66, REFUSED + 2),
    (1, 2, 33, 66, REFUSED + 2),
    (1, 0, 35, 0, REFUSED + 2),
    (8, 1, 34 * 65, 66 * 1025, REFUSED + 2),
    (8, 1, 34, 0, REFUSED + 3),
    (8, 2, 34, 65, REFUSED + 3),
    (8, 3, 34, 67, REFUSED + 3),
    (8, 1, 34 * 64, 66 * 1025, REFUSED + 3),
    (1, 0, 34, 66, REFUSED + 11),
    (8, 3, 34, 66, REFUSED + 11),
    (8, u32::MAX, 34 * 64, 66 * 1024, REFUSED + 11),
    (8, 1, 34 * 64, 66 * 1024, 0),
    (1, 1, 34, 66 * 1024, 0),
    (1, 1, 34 * 64, 66, 0),
    (8, 2, 34 * 64, 66 * 1024, 0),
    (1, 2, 34, 66 * 1024, 0),
    (1, 2, 34 * 64, 66, 0),
];

fn check_openings() -> Result<(), String> {
    let mut random = Random::new(1);
    for (tasks, version, node_words, bucket_words, outcome) in OPENINGS {
        let opening = Opening {
            tasks,
            version,
            zero_withdrawn: random.pick(&[0, 1, 2, u32::MAX]),
        };
        let before = Memory::random(&mut random, node_words, bucket_words, 0);
        let mut after = before.clone();
        after.run(schedule::run::<true>, opening, &[]);
        let untouched = Memory {
            outcome,
            ..before.clone()
        } == after;
        if after.outcome != outcome || (outcome > REFUSED) != untouched {
            return Err(format!("{opening:?}, {node_words}, {bucket_words}"));
        }
        compare(before, &after, opening, &[])?;
    }
    Ok(())
}

/// A list slice of 63 words is refused after all events have run.
fn check_short_list() -> Result<(), String> {
    let mut random = Random::new(2);
    let mut before = Memory::random(&mut random, 34, 66, 0);
    before.tags.pop();
    let mut after = before.clone();
    let opening = Opening {
        tasks: 1,
        version: 1,
        zero_withdrawn: 0,
    };
    after.run(schedule::run::<true>, opening, &[]);
    if after.outcome != REFUSED + 9 || after.tags != before.tags {
        return Err("list slice of 63 words".into());
    }
    compare(before, &after, opening, &[])
}

/// `name:count` for each pair.
fn counts<T: Display>(pairs: impl Iterator<Item = (T, u64)>) -> String {
    pairs
        .map(|(name, count)| format!(" {name}:{count}"))
        .collect()
}

fn print(kind: &str, coverage: &Coverage) {
    let names = ["yes", "no", "full", "done", "lost", "limit"];
    println!(
        "{kind}: {} schedules, {} events",
        coverage.schedules, coverage.events
    );
    println!(
        "accepted steps by line:{}",
        counts(coverage.lines.clone().into_iter())
    );
    println!(
        "answers:{}",
        counts(names.into_iter().zip(coverage.answers[1..].to_vec()))
    );
    println!(
        "refusals:{}",
        counts((4..9).chain([14]).map(|k| (k, coverage.refusals[k])))
    );
    println!(
        "resizes done, by new size:{}",
        counts(coverage.sizes.clone().into_iter())
    );
}

/// The kinds of schedules: version, whether under the new rule on tag 0, name.
const KINDS: [(u32, bool, &str); 4] = [
    (1, false, "version 1, old rule"),
    (2, false, "version 2, old rule"),
    (1, true, "version 1, new rule"),
    (2, true, "version 2, new rule"),
];

/// A quarter as many single calls as `events`, and every opening with states of other lengths.
#[cfg(feature = "proved")]
fn check_calls(events: u64) -> Result<(), String> {
    let mut counts = crate::one_by_one::Counts::default();
    for (tasks, version, node_words, bucket_words, _) in OPENINGS {
        for zero_withdrawn in [0, 1, u32::MAX] {
            let opening = Opening {
                tasks,
                version,
                zero_withdrawn,
            };
            crate::one_by_one::check_opening(opening, node_words, bucket_words, &mut counts)?;
        }
    }
    crate::one_by_one::check(events / 4, &mut counts)?;
    println!(
        "call by call: {} calls, {} of them on spoilt memory, {} of these not refused with 8",
        counts.calls, counts.spoilt, counts.taken
    );
    println!("refusals:{}", counts_of(&counts.refusals));
    println!(
        "of them calls of many: {} events and turns, refused:{}",
        counts.batched,
        counts_of(&counts.batch_refusals)
    );
    Ok(())
}

#[cfg(feature = "proved")]
fn counts_of(refusals: &[u64]) -> String {
    counts(
        (0..)
            .zip(refusals.iter().copied())
            .filter(|&(_, count)| count > 0),
    )
}

#[cfg(not(feature = "proved"))]
fn check_calls(_: u64) -> Result<(), String> {
    Ok(())
}

/// How many lists of calls are planned.
const PLANS: u64 = 400;

/// Checks random schedules with at least `events` events in total, of each kind by turns, and plans.
pub fn check(events: u64) -> Result<(), String> {
    check_openings()?;
    check_short_list()?;
    let mut coverage = KINDS.map(|_| Coverage::default());
    let mut seed = 0;
    while coverage.iter().map(|kind| kind.events).sum::<u64>() < events {
        for ((version, new_rule, _), coverage) in KINDS.into_iter().zip(&mut coverage) {
            seed += 1;
            check_schedule(seed, version, new_rule, coverage)?;
        }
    }
    for ((_, _, name), coverage) in KINDS.into_iter().zip(&coverage) {
        print(name, coverage);
    }
    check_calls(events)?;
    let compared = if cfg!(feature = "proved") {
        " and the proved implementation"
    } else {
        ""
    };
    println!("plain implementation agrees with the plain set{compared}");
    plan::check(PLANS)
}
