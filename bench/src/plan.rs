//! Plans of a list of calls of one task, worked out without a step, against runs of the plain
//! machine and, where the variable YARDPLAN names it, against the program `yardplan`.

use crate::machine::{Answer, Call, Output, MAX_SIZE, MAX_TASKS};
use crate::owned::Owned;
use crate::random::Random;
use crate::schedule::{Event, Opening};
use std::collections::BTreeSet;
use std::env;
use std::fmt::Write as _;
use std::io::Write as _;
use std::process::{Command, Stdio};

const MOST_CALLS: usize = 64;

/// What a call comes to: its answer, its own steps, and how many bucket records it takes.
#[derive(Clone, Copy, Debug, PartialEq, Eq)]
struct Figures {
    answer: Answer,
    own: u32,
    buckets: u32,
}

type Calls = [(Call, u32)];

/// What the figures depend on between two calls.
struct Standing {
    version: u32,
    /// The size of the head's predecessor, if it has one.
    pred: Option<usize>,
    /// Of each of the head's places, whether it has a bucket.
    filled: Vec<bool>,
    tags: BTreeSet<u32>,
}

impl Standing {
    fn fresh(version: u32) -> Standing {
        Standing {
            version,
            pred: None,
            filled: vec![true],
            tags: BTreeSet::new(),
        }
    }

    fn place(&self, tag: u32) -> usize {
        let key = if self.version == 2 { tag / 10 } else { tag };
        key as usize % self.filled.len()
    }

    /// Lines 39 to 51 for a place that has a bucket, or for one that has none: then a grow left
    /// one bucket to split, or a shrink two to join.
    fn filling(&self, filled: bool) -> u32 {
        let grown = self.pred == Some(self.filled.len() / 2);
        let lines: &[u32] = match (filled, grown) {
            (true, _) => &[39, 40, 51],
            (false, true) => &[39, 40, 43, 44, 49, 50, 51],
            (false, false) => &[39, 40, 46, 47, 48, 52, 49, 50, 51],
        };
        lines.len() as u32
    }

    fn update(&mut self, tag: u32, yes: bool) -> Figures {
        let place = self.place(tag);
        let filled = self.filled[place];
        let steps = if filled { 0 } else { self.filling(false) };
        self.filled[place] = true;
        Figures {
            answer: if yes { Answer::Yes } else { Answer::No },
            own: 3 + steps,
            buckets: u32::from(!filled),
        }
    }

    fn contains(&self, tag: u32) -> Figures {
        let found = self.tags.contains(&tag);
        Figures {
            answer: if found { Answer::Yes } else { Answer::No },
            own: if self.filled[self.place(tag)] { 3 } else { 5 },
            buckets: 0,
        }
    }

    fn resize(&mut self, limit: usize, size: usize) -> Figures {
        if self.filled.len() == limit {
            return Figures {
                answer: Answer::Limit,
                own: 1,
                buckets: 0,
            };
        }
        let places: u32 = self.filled.iter().map(|&filled| self.filling(filled)).sum();
        let empty = self.filled.iter().filter(|&&filled| !filled).count();
        self.pred = Some(self.filled.len());
        self.filled = vec![false; size];
        Figures {
            answer: Answer::Done,
            own: 4 + places,
            buckets: empty as u32,
        }
    }

    /// No list is long enough for an insert to end full.
    fn call(&mut self, call: Call, tag: u32) -> Figures {
        let size = self.filled.len();
        match call {
            Call::Insert => {
                let yes = self.tags.insert(tag);
                self.update(tag, yes)
            }
            Call::Remove => {
                let yes = self.tags.remove(&tag);
                self.update(tag, yes)
            }
            Call::Contains => self.contains(tag),
            Call::Grow => self.resize(MAX_SIZE, 2 * size),
            Call::Shrink => self.resize(1, size / 2),
        }
    }
}

fn plan(version: u32, calls: &Calls) -> Vec<Figures> {
    let mut standing = Standing::fresh(version);
    calls
        .iter()
        .map(|&(call, tag)| standing.call(call, tag))
        .collect()
}

/// The records that are enough for so many tasks: nodes, buckets.
fn enough(tasks: usize) -> (usize, usize) {
    (2 * tasks + 2, 32 * (2 * tasks + 2) + 4 * tasks)
}

/// One call, stepped to its end. A bucket is taken where the record last taken is another.
fn run_call(machine: &mut Owned, task: u32, call: Call, tag: u32) -> Result<Figures, String> {
    let mut buckets = 0;
    let mut event = Event::Start(task, call, tag);
    loop {
        let last = machine.state.last_bucket;
        let output = machine.apply(event).map_err(|why| format!("{why:?}"))?;
        buckets += u32::from(machine.state.last_bucket != last);
        if let Output::End(answer, own, _) = output {
            let own = own.into();
            return Ok(Figures {
                answer,
                own,
                buckets,
            });
        }
        event = Event::Step(task);
    }
}

fn run(tasks: usize, task: u32, version: u32, calls: &Calls) -> Result<Vec<Figures>, String> {
    let opening = Opening {
        tasks: tasks as u32,
        version,
        zero_withdrawn: 0,
    };
    let (nodes, buckets) = enough(tasks);
    let mut machine = Owned::open(opening, nodes, buckets);
    calls
        .iter()
        .map(|&(call, tag)| run_call(&mut machine, task, call, tag))
        .collect()
}

/// The program's input.
fn input(tasks: usize, version: u32, calls: &Calls) -> String {
    let mut text = format!("tasks={tasks}\nversion={version}\n");
    for &(call, tag) in calls {
        let name = format!("{call:?}").to_lowercase();
        let tag = if call.is_resize() {
            String::new()
        } else {
            format!(",{tag}")
        };
        writeln!(text, "call={name}{tag}").expect("a string");
    }
    text
}

fn output(tasks: usize, figures: &[Figures]) -> String {
    let (nodes, buckets) = enough(tasks);
    let mut text = format!("nodes={nodes}\nbuckets={buckets}\n");
    for f in figures {
        let answer = format!("{:?}", f.answer).to_lowercase();
        writeln!(text, "plan={answer},{},{}", f.own, f.buckets).expect("a string");
    }
    text
}

/// What the program prints.
fn printed(program: &str, input: &str) -> std::io::Result<String> {
    let mut child = Command::new(program)
        .stdin(Stdio::piped())
        .stdout(Stdio::piped())
        .spawn()?;
    child
        .stdin
        .take()
        .expect("a pipe")
        .write_all(input.as_bytes())?;
    let output = child.wait_with_output()?;
    Ok(String::from_utf8_lossy(&output.stdout).into_owned())
}

/// A list of at most 64 calls, with frequent resizes.
fn random_calls(random: &mut Random) -> Vec<(Call, u32)> {
    let resize_percent = random.pick(&[10, 25, 40, 60]);
    let grow_percent = random.pick(&[40, 55, 70, 90]);
    let tags = random.pick(&[3, 20, 90, 700, u32::MAX]);
    (0..random.one_to(MOST_CALLS))
        .map(|_| {
            let tag = random.below(tags);
            if random.percent(resize_percent) {
                let grows = random.percent(grow_percent);
                (if grows { Call::Grow } else { Call::Shrink }, tag)
            } else {
                let calls = [Call::Insert, Call::Insert, Call::Remove, Call::Contains];
                (random.pick(&calls), tag)
            }
        })
        .collect()
}

fn check_list(seed: u64, version: u32, program: Option<&str>) -> Result<Vec<Figures>, String> {
    let mut random = Random::new(seed);
    let tasks = random.one_to(MAX_TASKS);
    let task = random.below(tasks as u32);
    let calls = random_calls(&mut random);
    let planned = plan(version, &calls);
    let fail = |kind: &str, found: &dyn std::fmt::Debug| {
        format!(
            "seed {seed}, version {version}, {tasks} tasks, {calls:?}: plan {planned:?}, {kind} {found:?}"
        )
    };
    let ran = run(tasks, task, version, &calls);
    if ran.as_ref() != Ok(&planned) {
        return Err(fail("run", &ran));
    }
    if let Some(program) = program {
        let text = printed(program, &input(tasks, version, &calls))
            .map_err(|why| format!("{program}: {why}"))?;
        if text != output(tasks, &planned) {
            return Err(fail("program", &text));
        }
    }
    Ok(planned)
}

/// Checks the plans of so many random lists, of each version by turns.
pub fn check(lists: u64) -> Result<(), String> {
    let program = env::var("YARDPLAN").ok();
    let mut calls = 0;
    let mut buckets = 0;
    let mut done = 0;
    for seed in 1..=lists {
        let version = 1 + (seed % 2) as u32;
        let figures = check_list(seed, version, program.as_deref())?;
        calls += figures.len();
        buckets += figures.iter().map(|f| f.buckets).sum::<u32>();
        done += figures.iter().filter(|f| f.answer == Answer::Done).count();
    }
    let compared = if program.is_some() {
        " and with yardplan"
    } else {
        ""
    };
    println!("plans: {lists} lists, {calls} calls, {done} resizes done, {buckets} buckets taken");
    println!("plans agree with runs{compared}");
    Ok(())
}

#[cfg(test)]
mod tests {
    use super::*;

    #[test]
    fn a_plan_by_hand() {
        let calls = [
            (Call::Insert, 17),
            (Call::Grow, 0),
            (Call::Contains, 17),
            (Call::Remove, 17),
            (Call::Shrink, 0),
            (Call::Insert, 5),
            (Call::Shrink, 0),
        ];
        let figures = plan(1, &calls)
            .iter()
            .map(|f| (f.answer, f.own, f.buckets))
            .collect::<Vec<_>>();
        let expected = [
            (Answer::Yes, 3, 0),
            (Answer::Done, 7, 0),
            (Answer::Yes, 5, 0),
            (Answer::Yes, 10, 1),
            (Answer::Done, 14, 1),
            (Answer::Yes, 12, 1),
            (Answer::Limit, 1, 0),
        ];
        assert_eq!(figures, expected);
    }
}
