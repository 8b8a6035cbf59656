//! The rows of the tables of speed: pools, and the schedule that is run over them.

use crate::by_calls::{self, BATCH, TURNS};
use crate::machine::{Call, Turn, MAX_BUCKETS, MAX_NODES};
use crate::owned::Owned;
use crate::plain::Plain;
#[cfg(feature = "proved")]
use crate::proved::Proved;
use crate::random::{Random, Shape};
use crate::schedule::{self, encode_event, Event, Opening, Run, EVENT_WORDS};

/// What a row's schedule is made of: events, or starts and turns.
#[derive(Clone, Copy, PartialEq, Eq)]
pub enum Form {
    Events,
    Turns,
}

pub struct Implementation {
    pub name: &'static str,
    pub form: Form,
    pub run: Run,
}

const fn events(name: &'static str, run: Run) -> Implementation {
    Implementation {
        name,
        form: Form::Events,
        run,
    }
}

const fn turns(name: &'static str, run: Run) -> Implementation {
    Implementation {
        name,
        form: Form::Turns,
        run,
    }
}

/// The plain machine, then the same without its scans, then the same behind the calls of include/yard.h: with the state in words,
/// which each call reads and writes, and a scan before each event and turn. Beside them the proved ones.
pub const IMPLEMENTATIONS: &[Implementation] = &[
    events("plain", schedule::run::<true>),
    events("unscanned", schedule::run::<false>),
    events("words", by_calls::one_by_one::<Plain>),
    events("words-run", by_calls::batches::<Plain>),
    #[cfg(feature = "proved")]
    events("schedule", crate::proved::run),
    #[cfg(feature = "proved")]
    events("calls", by_calls::one_by_one::<Proved>),
    #[cfg(feature = "proved")]
    events("run", by_calls::batches::<Proved>),
    turns("words-turn", by_calls::turns::<Plain, false>),
    #[cfg(feature = "proved")]
    turns("turn", by_calls::turns::<Proved, false>),
    #[cfg(feature = "proved")]
    turns("turns", by_calls::turns::<Proved, true>),
];

/// A schedule in words.
pub struct Made {
    words: Vec<u32>,
    /// Where it may be cut: so many words, with so many events and turns.
    ends: Vec<(usize, usize)>,
}

impl Made {
    /// The first events, at most so many, and how many they are.
    pub fn first(&self, at_most: usize) -> (&[u32], usize) {
        let end = |&&(_, events): &&(usize, usize)| events <= at_most;
        let (words, events) = self.ends.iter().rfind(end).copied().unwrap_or_default();
        (&self.words[..words], events)
    }

    pub fn all(&self) -> (&[u32], usize) {
        self.first(usize::MAX)
    }
}

pub struct Row {
    pub tasks: u32,
    pub nodes: usize,
    pub buckets: usize,
    tag_count: u32,
    resize_percent: u32,
    /// The head does not grow past it.
    max_size: u32,
    /// How many events a run has.
    pub events: usize,
}

/// The smallest pools, in which a grow is always refused; small ones; what always suffices for four tasks; the largest.
pub const ROWS: [Row; 5] = [
    Row {
        tasks: 1,
        nodes: 1,
        buckets: 1,
        tag_count: 40,
        resize_percent: 0,
        max_size: 1,
        events: 20_000,
    },
    Row {
        tasks: 2,
        nodes: 4,
        buckets: 8,
        tag_count: 40,
        resize_percent: 10,
        max_size: 2,
        events: 20_000,
    },
    Row {
        tasks: 2,
        nodes: 4,
        buckets: 16,
        tag_count: 40,
        resize_percent: 10,
        max_size: 4,
        events: 20_000,
    },
    Row {
        tasks: 4,
        nodes: 10,
        buckets: 336,
        tag_count: 90,
        resize_percent: 10,
        max_size: 32,
        events: 8_000,
    },
    Row {
        tasks: 8,
        nodes: MAX_NODES,
        buckets: MAX_BUCKETS,
        tag_count: 90,
        resize_percent: 10,
        max_size: 32,
        events: 4_000,
    },
];

impl Row {
    pub fn name(&self) -> String {
        format!("T {}, H {}, B {}", self.tasks, self.nodes, self.buckets)
    }

    pub fn shape(&self) -> Shape {
        Shape {
            opening: Opening {
                tasks: self.tasks,
                version: 1,
                zero_withdrawn: 0,
            },
            nodes: self.nodes,
            buckets: self.buckets,
            tag_count: self.tag_count,
            tag_stride: 1,
            resize_percent: self.resize_percent,
            favoured_percent: 0,
            blind_percent: 0,
        }
    }

    fn call(&self, machine: &Owned, random: &mut Random) -> Call {
        let size = machine.size();
        if random.percent(self.resize_percent) {
            let grows = size == 1 || size < self.max_size && random.percent(50);
            if grows {
                Call::Grow
            } else {
                Call::Shrink
            }
        } else {
            random.pick(&[Call::Insert, Call::Insert, Call::Remove, Call::Contains])
        }
    }

    /// An event for a random task: a step if it runs, else a start.
    fn event(&self, shape: &Shape, machine: &Owned, random: &mut Random) -> Event {
        let task = random.below(self.tasks);
        if machine.runs(task) {
            return Event::Step(task);
        }
        let call = self.call(machine, random);
        Event::Start(task, call, shape.tag(random))
    }

    /// The row's schedule, of that form.
    pub fn made(&self, form: Form) -> Made {
        match form {
            Form::Events => Made {
                words: self.schedule(self.events),
                ends: (1..=self.events).map(|k| (k * EVENT_WORDS, k)).collect(),
            },
            Form::Turns => self.turns(self.events),
        }
    }

    /// A schedule of `count` accepted events, in words. A longer one begins with a shorter one.
    pub fn schedule(&self, count: usize) -> Vec<u32> {
        let shape = self.shape();
        let mut random = Random::new(7);
        let mut machine = Owned::open(shape.opening, shape.nodes, shape.buckets);
        let mut words = Vec::new();
        let mut refused_in_a_row = 0;
        while words.len() < count * EVENT_WORDS {
            let event = self.event(&shape, &machine, &mut random);
            if machine.apply(event).is_ok() {
                words.extend(encode_event(event));
                refused_in_a_row = 0;
            } else {
                refused_in_a_row += 1;
                assert!(refused_in_a_row < 1000, "every task waits for a record");
            }
        }
        words
    }

    /// At least `count` events: a start for every task that runs none, then a call's turns, and so on.
    fn turns(&self, count: usize) -> Made {
        let shape = self.shape();
        let mut random = Random::new(7);
        let mut machine = Owned::open(shape.opening, shape.nodes, shape.buckets);
        let (mut words, mut ends) = (Vec::new(), Vec::new());
        let (mut events, mut refused) = (0, 0);
        while events < count {
            for task in 0..self.tasks {
                if !machine.runs(task) {
                    let call = self.call(&machine, &mut random);
                    let start = Event::Start(task, call, shape.tag(&mut random));
                    machine.apply(start).expect("the task runs no call");
                    words.extend(encode_event(start));
                    events += 1;
                }
            }
            for _ in 0..BATCH {
                match machine.turn().expect("sound memory") {
                    Turn::Idle => break,
                    Turn::Of(_, given) => refused += usize::from(given.is_err()),
                }
                events += 1;
            }
            words.extend([TURNS, 0, 0, 0]);
            ends.push((words.len(), events));
        }
        assert!(refused * 4 < events, "tasks wait for records");
        Made { words, ends }
    }
}
