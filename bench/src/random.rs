//! Pseudo-random schedules, the same on every run.

use crate::machine::{Call, BUCKET_WORDS, MAX_BUCKETS, MAX_NODES, MAX_TASKS, NODE_WORDS};
use crate::owned::Owned;
use crate::schedule::{encode_event, Event, Opening};

/// Xorshift with 64 bits of state, which must not be 0.
pub struct Random(u64);

impl Random {
    pub fn new(seed: u64) -> Random {
        Random(seed.wrapping_mul(0x9e37_79b9_7f4a_7c15) | 1)
    }

    pub fn word(&mut self) -> u32 {
        self.0 ^= self.0 << 13;
        self.0 ^= self.0 >> 7;
        self.0 ^= self.0 << 17;
        (self.0 >> 32) as u32
    }

    /// A number below `bound`, which is not 0.
    pub fn below(&mut self, bound: u32) -> u32 {
        ((u64::from(self.word()) * u64::from(bound)) >> 32) as u32
    }

    pub fn one_to(&mut self, last: usize) -> usize {
        1 + self.below(last as u32) as usize
    }

    pub fn percent(&mut self, share: u32) -> bool {
        self.below(100) < share
    }

    pub fn pick<T: Copy>(&mut self, from: &[T]) -> T {
        from[self.below(from.len() as u32) as usize]
    }

    /// Words with arbitrary contents.
    pub fn words(&mut self, count: usize) -> Vec<u32> {
        (0..count).map(|_| self.word()).collect()
    }
}

/// What a schedule looks like.
#[derive(Clone, Copy, Debug)]
pub struct Shape {
    pub opening: Opening,
    pub nodes: usize,
    pub buckets: usize,
    /// Tags are multiples of `tag_stride`, below `tag_count` times it.
    pub tag_count: u32,
    pub tag_stride: u32,
    /// Percentage of resizes among the calls.
    pub resize_percent: u32,
    /// Percentage of events that go to tasks favoured for a while.
    pub favoured_percent: u32,
    /// Percentage of events chosen without a look at what runs.
    pub blind_percent: u32,
}

impl Shape {
    pub fn random(random: &mut Random, version: u32, new_rule: bool) -> Shape {
        let tasks = random.one_to(MAX_TASKS);
        let (nodes, buckets) = pool_sizes(random, tasks);
        let new = random.pick(&[1, 2, 256, u32::MAX]);
        Shape {
            opening: Opening {
                tasks: tasks as u32,
                version,
                zero_withdrawn: if new_rule { new } else { 0 },
            },
            nodes,
            buckets,
            tag_count: random.pick(&[2, 5, 20, 66, 90, 200]),
            tag_stride: random.pick(strides(version)),
            resize_percent: random.pick(&[0, 1, 5, 15, 40, 80]),
            favoured_percent: random.pick(&[0, 50, 90, 99]),
            blind_percent: random.pick(&[2, 10, 40]),
        }
    }

    pub fn node_words(&self) -> usize {
        self.nodes * NODE_WORDS
    }

    pub fn bucket_words(&self) -> usize {
        self.buckets * BUCKET_WORDS
    }

    pub fn tag(&self, random: &mut Random) -> u32 {
        random.below(self.tag_count).wrapping_mul(self.tag_stride)
    }
}

/// In version 2 those up to 7 give tags that differ in the last digit alone.
fn strides(version: u32) -> &'static [u32] {
    if version == 2 {
        &[1, 3, 5, 7, 10, 80, 320, 0x0123_4567]
    } else {
        &[1, 1, 1, 2, 8, 32, 0x0123_4567]
    }
}

/// Mostly tight pools, some that suffice for every schedule, a few of the largest size.
fn pool_sizes(random: &mut Random, tasks: usize) -> (usize, usize) {
    match random.below(50) {
        0..=19 => (random.one_to(2 * tasks + 2), random.one_to(20)),
        20..=34 => (random.one_to(2 * tasks + 2), random.one_to(100)),
        35..=48 => (2 * tasks + 2, 32 * (2 * tasks + 2) + 4 * tasks),
        _ => (MAX_NODES, MAX_BUCKETS),
    }
}

/// What prevails for a while: the favoured tasks, growing or shrinking, filling or emptying.
struct Phase {
    favoured: u32,
    grow_percent: u32,
    insert_percent: u32,
}

impl Phase {
    fn random(random: &mut Random) -> Phase {
        Phase {
            favoured: random.word() & random.word(),
            grow_percent: random.pick(&[5, 50, 70, 95]),
            insert_percent: random.pick(&[10, 35, 60, 85]),
        }
    }

    fn task(&self, shape: &Shape, random: &mut Random) -> u32 {
        let tasks = shape.opening.tasks;
        let any = random.below(tasks);
        if !random.percent(shape.favoured_percent) {
            return any;
        }
        let mut tasks = (any..tasks).chain(0..any);
        tasks
            .find(|task| self.favoured >> task & 1 == 1)
            .unwrap_or(any)
    }

    fn call(&self, shape: &Shape, random: &mut Random) -> Call {
        if random.percent(shape.resize_percent) {
            let grows = random.percent(self.grow_percent);
            return if grows { Call::Grow } else { Call::Shrink };
        }
        if random.percent(25) {
            return Call::Contains;
        }
        let inserts = random.percent(self.insert_percent);
        if inserts {
            Call::Insert
        } else {
            Call::Remove
        }
    }

    fn start(&self, shape: &Shape, random: &mut Random, task: u32) -> Event {
        Event::Start(task, self.call(shape, random), shape.tag(random))
    }

    fn event(&self, shape: &Shape, random: &mut Random, machine: &Owned) -> Event {
        let mut task = self.task(shape, random);
        let mut starts = !machine.runs(task);
        if random.percent(shape.blind_percent) {
            starts = random.percent(30);
            if random.percent(20) {
                task = random.pick(&[shape.opening.tasks, 8, u32::MAX]);
            }
        }
        if starts {
            self.start(shape, random, task)
        } else {
            Event::Step(task)
        }
    }
}

/// A schedule of at most `count` events, accepted or refused, in words. It ends early
/// when nothing is accepted any more: every task waits for a record.
pub fn events(shape: &Shape, random: &mut Random, count: usize) -> Vec<u32> {
    let mut machine = Owned::open(shape.opening, shape.nodes, shape.buckets);
    let mut phase = Phase::random(random);
    let mut words = Vec::new();
    let mut refused_in_a_row = 0;
    for _ in 0..count {
        if random.below(150) == 0 {
            phase = Phase::random(random);
        }
        let event = phase.event(shape, random, &machine);
        words.extend(encode_event(event));
        refused_in_a_row = if machine.apply(event).is_ok() {
            0
        } else {
            refused_in_a_row + 1
        };
        if refused_in_a_row == 300 {
            break;
        }
    }
    words
}
