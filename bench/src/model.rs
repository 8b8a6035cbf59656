//! A check of a schedule's outputs against a plain set.
//!
//! An insert or remove takes effect with its last step, so their answers, in the order in
//! which they end, are those of a plain set. A contains has to agree with that set at some
//! moment between its start and its end. Together this orders all ended calls.

use crate::machine::{Answer, Call, Output, Refusal, MAX_SIZE, MAX_TAGS, MAX_TASKS};
use crate::schedule::{decode_event, decode_output, Event, Opening};
use std::collections::{BTreeMap, BTreeSet};

/// How often each thing occurred.
#[derive(Clone, Debug, Default)]
pub struct Coverage {
    pub schedules: u64,
    pub events: u64,
    pub lines: BTreeMap<u32, u64>,
    pub answers: [u64; 7],
    pub refusals: [u64; 15],
    pub sizes: BTreeMap<usize, u64>,
}

struct Running {
    call: Call,
    tag: u32,
    line: u32,
    own: u16,
    /// Whether the set had, and whether it lacked, the tag at some moment of the call.
    present: bool,
    absent: bool,
    /// Number of resizes done before line 20.
    resizes: u64,
}

struct Model<'a> {
    opening: Opening,
    set: BTreeSet<u32>,
    size: usize,
    /// The size before the last resize.
    old_size: usize,
    resizes: u64,
    task: [Option<Running>; MAX_TASKS],
    coverage: &'a mut Coverage,
}

/// Checks every output and the tags listed at the end.
pub fn check(
    opening: Opening,
    events: &[u32],
    outputs: &[u32],
    listed: &[u32],
    coverage: &mut Coverage,
) -> Result<(), String> {
    coverage.schedules += 1;
    let task = Default::default();
    let set = BTreeSet::new();
    let mut model = Model {
        opening,
        set,
        size: 1,
        old_size: 1,
        resizes: 0,
        task,
        coverage,
    };
    let (events, outputs) = (events.as_chunks().0, outputs.as_chunks().0);
    if events.len() != outputs.len() {
        return Err("as many outputs as events are needed".into());
    }
    for (k, (event, output)) in events.iter().zip(outputs).enumerate() {
        let event = decode_event(event);
        let good = decode_output(output).is_some_and(|output| model.event(event, output));
        if !good {
            return Err(format!("event {k}, {event:?}, gave {output:?}"));
        }
    }
    if !model.set.iter().eq(listed) {
        return Err(format!("listed {listed:?} instead of {:?}", model.set));
    }
    Ok(())
}

impl Model<'_> {
    fn event(&mut self, event: Event, output: Result<Output, Refusal>) -> bool {
        self.coverage.events += 1;
        if let Err(refusal) = output {
            self.coverage.refusals[refusal as usize] += 1;
        }
        match event {
            Event::Start(task, call, tag) => self.start(task, call, tag, output),
            Event::Step(task) => self.step(task, output),
        }
    }

    fn start(&mut self, task: u32, call: Call, tag: u32, output: Result<Output, Refusal>) -> bool {
        if task >= self.opening.tasks {
            return output == Err(Refusal::NoSuchTask);
        }
        let record = &mut self.task[task as usize];
        if record.is_some() {
            return output == Err(Refusal::AlreadyRunning);
        }
        if call == Call::Insert && tag == 0 && self.opening.withdraws_zero() {
            return output == Err(Refusal::ZeroWithdrawn);
        }
        let line = match call {
            Call::Contains => 12,
            Call::Insert | Call::Remove => 32,
            Call::Grow | Call::Shrink => 20,
        };
        let present = self.set.contains(&tag);
        let absent = !present;
        *record = Some(Running {
            call,
            tag,
            line,
            own: 0,
            present,
            absent,
            resizes: 0,
        });
        output == Ok(Output::At(line))
    }

    fn step(&mut self, task: u32, output: Result<Output, Refusal>) -> bool {
        if task >= self.opening.tasks {
            return output == Err(Refusal::NoSuchTask);
        }
        let Some(mut running) = self.task[task as usize].take() else {
            return output == Err(Refusal::NotRunning);
        };
        if output.is_ok() {
            *self.coverage.lines.entry(running.line).or_default() += 1;
            running.own = running.own.saturating_add(1);
        }
        let good = match output {
            Err(refusal) => refusal == Refusal::NoFreeRecord && matches!(running.line, 27 | 49),
            Ok(Output::End(answer, own, tags)) => {
                return own == running.own
                    && self.end(&running, answer)
                    && self.tags_agree(&running, tags);
            }
            Ok(Output::At(line)) => self.at(&mut running, line),
        };
        self.task[task as usize] = Some(running);
        good
    }

    fn at(&self, running: &mut Running, line: u32) -> bool {
        if running.line == 20 {
            running.resizes = self.resizes;
            if self.at_limit(running.call) {
                return false;
            }
        }
        let good = successors(running.call, running.line).contains(&line);
        running.line = line;
        good
    }

    fn end(&mut self, running: &Running, answer: Answer) -> bool {
        self.coverage.answers[answer as usize] += 1;
        match running.call {
            Call::Contains => running.line == 18 && contains_agrees(running, answer),
            Call::Insert => running.line == 36 && answer == self.insert(running.tag),
            Call::Remove => running.line == 36 && answer == self.remove(running.tag),
            Call::Grow | Call::Shrink => self.resize(running, answer),
        }
    }

    /// A bucket that may change is one of the head or of its predecessor: after an insert or
    /// remove it holds the tags of the set that share its place there.
    fn tags_agree(&self, running: &Running, tags: u32) -> bool {
        if !matches!(running.call, Call::Insert | Call::Remove) {
            return tags == 0;
        }
        let divisor = if self.opening.version == 2 { 10 } else { 1 };
        let sharing = |size: usize| {
            let place = |tag: u32| (tag / divisor) as usize % size;
            let shares = |&&tag: &&u32| place(tag) == place(running.tag);
            self.set.iter().filter(shares).count()
        };
        [self.size, self.old_size]
            .map(sharing)
            .contains(&(tags as usize))
    }

    fn insert(&mut self, tag: u32) -> Answer {
        if self.set.contains(&tag) {
            Answer::No
        } else if self.set.len() == MAX_TAGS {
            Answer::Full
        } else {
            self.set.insert(tag);
            self.changed(tag, true);
            Answer::Yes
        }
    }

    fn remove(&mut self, tag: u32) -> Answer {
        if self.set.remove(&tag) {
            self.changed(tag, false);
            Answer::Yes
        } else {
            Answer::No
        }
    }

    fn changed(&mut self, tag: u32, present: bool) {
        for running in self
            .task
            .iter_mut()
            .flatten()
            .filter(|running| running.tag == tag)
        {
            running.present |= present;
            running.absent |= !present;
        }
    }

    fn at_limit(&self, call: Call) -> bool {
        self.size == if call == Call::Grow { MAX_SIZE } else { 1 }
    }

    /// A resize is done if and only if no other was since its line 20.
    fn resize(&mut self, running: &Running, answer: Answer) -> bool {
        if running.line == 20 {
            return answer == Answer::Limit && self.at_limit(running.call);
        }
        if running.line != 28 {
            return false;
        }
        if running.resizes != self.resizes {
            return answer == Answer::Lost;
        }
        self.old_size = self.size;
        self.size = if running.call == Call::Grow {
            2 * self.size
        } else {
            self.size / 2
        };
        self.resizes += 1;
        *self.coverage.sizes.entry(self.size).or_default() += 1;
        answer == Answer::Done
    }
}

/// A contains makes three steps, or five if its place was empty at first.
fn contains_agrees(running: &Running, answer: Answer) -> bool {
    let possible = match answer {
        Answer::Yes => running.present,
        Answer::No => running.absent,
        _ => false,
    };
    possible && matches!(running.own, 3 | 5)
}

/// The lines that may follow `line`.
fn successors(call: Call, line: u32) -> &'static [u32] {
    match line {
        12 => &[13],
        13 => &[15, 18],
        15 => &[16, 17],
        16 | 17 => &[18],
        20 => &[39],
        24 => &[27],
        27 => &[28],
        32 => &[33],
        33 => &[36, 39],
        36 => &[32],
        39 => &[40],
        40 => &[43, 46, 51],
        43 => &[44],
        44 | 52 => &[49],
        46 => &[47],
        47 => &[48],
        48 => &[52],
        49 => &[50],
        50 => &[51],
        51 if call.is_resize() => &[24, 39],
        51 => &[36],
        _ => &[],
    }
}
