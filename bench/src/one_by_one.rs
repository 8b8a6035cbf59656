//! The proved implementation against the plain one, call by call, a call of many events or turns among them: after each call the
//! number given and every word lent are compared. Words are spoilt on the way, and slices have other lengths.

use crate::calls::{task_word, Calls, Entry, Lent, MAX_TURNS, STATE_WORDS, TURN_WORDS};
use crate::machine::{Call, BUCKET_WORDS, MAX_TAGS, NODE_WORDS};
use crate::plain::Plain;
use crate::proved::Proved;
use crate::random::{Random, Shape};
use crate::schedule::{Opening, EVENT_WORDS, OUTPUT_WORDS, REFUSED};

const CALLS_OF_A_SET: u64 = 2000;
const CORRUPT: u32 = REFUSED + 8;

/// The lines of all calls.
const LINES: [u32; 24] = [
    12, 13, 15, 16, 17, 18, 20, 24, 27, 28, 32, 33, 36, 39, 40, 43, 44, 46, 47, 48, 49, 50, 51, 52,
];

/// How often each thing occurred.
#[derive(Default)]
pub struct Counts {
    pub calls: u64,
    /// Refusals by their number.
    pub refusals: [u64; 15],
    /// Calls on memory just spoilt, and those of them that were not refused with 8.
    pub spoilt: u64,
    pub taken: u64,
    /// Events and turns of calls of many, and those of them that were refused, by the refusal's number.
    pub batched: u64,
    pub batch_refusals: [u64; 15],
}

#[derive(Clone, Copy, Debug)]
enum Asked {
    Open(Opening),
    Call(Entry, u32, u32),
    Run,
    Turns,
}

/// All that is lent to a call, and what it gave.
#[derive(Clone, PartialEq, Eq)]
struct Memory {
    state: Vec<u32>,
    nodes: Vec<u32>,
    buckets: Vec<u32>,
    events: Vec<u32>,
    out: Vec<u32>,
    given: u32,
}

impl Memory {
    /// Memory before an opening.
    fn new(state: Vec<u32>, nodes: Vec<u32>, buckets: Vec<u32>) -> Memory {
        Memory {
            state,
            nodes,
            buckets,
            events: Vec::new(),
            out: Vec::new(),
            given: 0,
        }
    }

    fn run<C: Calls>(&mut self, asked: Asked) {
        let lent = Lent {
            state: &mut self.state,
            nodes: &mut self.nodes,
            buckets: &mut self.buckets,
        };
        self.given = match asked {
            Asked::Open(opening) => C::open(opening, lent),
            Asked::Call(entry, number, tag) => C::call(entry, number, tag, lent, &mut self.out),
            Asked::Run => C::run(lent, &self.events, &mut self.out),
            Asked::Turns => C::turns(lent, &mut self.out),
        };
    }

    /// Some words replaced, whatever they are.
    fn spoil_words(&mut self, random: &mut Random) {
        for _ in 0..random.one_to(3) {
            let slice = match random.below(5) {
                0 | 1 => &mut self.state,
                2 | 3 => &mut self.nodes,
                _ => &mut self.buckets,
            };
            let words = random.pick(&[70, slice.len()]).min(slice.len());
            let word = &mut slice[random.below(words as u32) as usize];
            let next = word.wrapping_add(1);
            let values = [
                0,
                1,
                2,
                random.below(40),
                *word ^ 1,
                next,
                65535,
                65536,
                u32::MAX,
            ];
            *word = random.pick(&values);
        }
    }

    /// A word replaced by one that memory may have there: it often stays sound, but no run of the set leads to it.
    fn spoil_within_bounds(&mut self, random: &mut Random) {
        let (nodes, buckets) = (
            self.nodes.len() / NODE_WORDS,
            self.buckets.len() / BUCKET_WORDS,
        );
        let (nodes, buckets) = (nodes as u32, buckets as u32);
        let task = task_word(random.below(self.state[0].clamp(1, 8)) as usize);
        let node = random.below(nodes) as usize * NODE_WORDS;
        let bucket = random.below(buckets) as usize * BUCKET_WORDS;
        let place = random.below(32) as usize;
        let (slice, at, value) = match random.below(10) {
            0 => (&mut self.state, task + 3, random.pick(&LINES)),
            1 => (&mut self.state, task + 4, random.below(33)),
            2 => (&mut self.state, task + 5, 65533 + random.below(3)),
            3 => (
                &mut self.state,
                task + random.pick(&[6, 7, 11]),
                random.below(nodes + 1),
            ),
            4 | 5 => (
                &mut self.state,
                task + random.pick(&[8, 9, 10, 12]),
                random.below(buckets + 1),
            ),
            6 => (&mut self.state, random.pick(&[5, 6]), random.below(nodes)),
            7 => (&mut self.nodes, node + 1, random.below(nodes + 1)),
            8 => (&mut self.nodes, node + 2 + place, random.below(buckets + 1)),
            _ => (&mut self.buckets, bucket, random.below(2)),
        };
        slice[at] = value;
    }

    /// One slice with another length.
    fn spoil_length(&mut self, random: &mut Random) {
        let slice = match random.below(5) {
            0 => &mut self.state,
            1 => &mut self.nodes,
            2 => &mut self.buckets,
            3 => &mut self.events,
            _ => &mut self.out,
        };
        let length = random.pick(&[
            0,
            slice.len().saturating_sub(1),
            slice.len() + 1,
            slice.len() + 66,
        ]);
        slice.resize(length, 0);
    }

    fn difference(&self, other: &Memory) -> Option<String> {
        let pairs = [
            ("state", &self.state, &other.state),
            ("node", &self.nodes, &other.nodes),
            ("bucket", &self.buckets, &other.buckets),
            ("out", &self.out, &other.out),
        ];
        if self.given != other.given {
            return Some(format!("gave {} and {}", self.given, other.given));
        }
        pairs.into_iter().find_map(|(name, a, b)| {
            let word = (0..a.len()).find(|&k| a[k] != b[k])?;
            Some(format!("{name} word {word}: {} and {}", a[word], b[word]))
        })
    }
}

/// The two memories, which are the same before and after each call.
struct Pair {
    plain: Memory,
    proved: Memory,
}

impl Pair {
    fn new(memory: Memory) -> Pair {
        Pair {
            proved: memory.clone(),
            plain: memory,
        }
    }

    fn run(&mut self, asked: Asked, counts: &mut Counts) -> Result<u32, String> {
        self.plain.run::<Plain>(asked);
        self.proved.run::<Proved>(asked);
        if self.plain != self.proved {
            let difference = self
                .plain
                .difference(&self.proved)
                .expect("of equal lengths");
            return Err(format!("{asked:?}: {difference}"));
        }
        counts.calls += 1;
        let given = self.plain.given;
        if given >= REFUSED {
            counts.refusals[(given - REFUSED) as usize] += 1;
        } else {
            counts.add_batch(asked, &self.plain);
        }
        Ok(given)
    }
}

impl Counts {
    /// What a call of many events or turns wrote.
    fn add_batch(&mut self, asked: Asked, after: &Memory) {
        let (outputs, words) = match asked {
            Asked::Run => (after.events.len() / EVENT_WORDS, OUTPUT_WORDS),
            Asked::Turns => (after.given as usize, TURN_WORDS),
            _ => return,
        };
        for output in after.out.chunks_exact(words).take(outputs) {
            self.batched += 1;
            if let [2, refusal, ..] = output[words - OUTPUT_WORDS..] {
                self.batch_refusals[refusal as usize] += 1;
            }
        }
    }
}

/// Any events, most of them for tasks that there are; some are not whole.
fn events_of(shape: &Shape, random: &mut Random) -> Vec<u32> {
    let count = random.below(24);
    let mut words = Vec::new();
    for _ in 0..count {
        let kind = match random.below(100) {
            0..=69 => 0,
            70..=91 => 1 + random.below(3),
            92..=97 => random.pick(&[4, 4, 5]),
            _ => random.pick(&[6, 255, u32::MAX]),
        };
        words.extend([
            kind,
            task_of(shape, random),
            shape.tag(random),
            random.word(),
        ]);
    }
    words.truncate(words.len().saturating_sub(random.pick(&[0, 0, 0, 1, 3])));
    words
}

fn task_of(shape: &Shape, random: &mut Random) -> u32 {
    let tasks = shape.opening.tasks;
    if random.percent(97) {
        random.below(tasks)
    } else {
        random.pick(&[tasks, 8, u32::MAX])
    }
}

fn call_of(shape: &Shape, random: &mut Random) -> Asked {
    let task = task_of(shape, random);
    let calls = [
        Call::Insert,
        Call::Insert,
        Call::Insert,
        Call::Remove,
        Call::Remove,
        Call::Contains,
    ];
    let (entry, number) = match random.below(100) {
        0..=4 => (
            Entry::Start(random.pick(&[Call::Grow, Call::Grow, Call::Shrink])),
            task,
        ),
        5..=24 => (Entry::Start(random.pick(&calls)), task),
        25..=55 => (Entry::Step, task),
        56..=83 => (Entry::Turn, 0),
        84..=87 => return Asked::Run,
        88..=91 => return Asked::Turns,
        92..=95 => (Entry::List, 0),
        _ => (Entry::Show, random.below(shape.buckets as u32 + 2)),
    };
    Asked::Call(entry, number, shape.tag(random))
}

/// As many words of answer as the call has, with any contents; of many events or turns about as many.
fn out_for(asked: Asked, events: usize, random: &mut Random) -> Vec<u32> {
    let room = match asked {
        Asked::Open(_) => 0,
        Asked::Call(Entry::Start(_) | Entry::Step, ..) => OUTPUT_WORDS,
        Asked::Call(Entry::Turn, ..) => TURN_WORDS,
        Asked::Call(Entry::List, ..) => MAX_TAGS,
        Asked::Call(Entry::Show, ..) => 1,
        Asked::Run => (events + 4).saturating_sub(random.pick(&[0, 4, 4, 5, 12])),
        Asked::Turns => {
            let many = (MAX_TURNS + 1) * TURN_WORDS;
            let most = random.pick(&[30, 150, many]);
            random.below(most as u32 + 1) as usize
        }
    };
    random.words(room)
}

/// A call on spoilt memory. It is then mended, but for a half of those that a step or a start accepted: the set goes on from there.
fn spoilt_call(
    pair: &mut Pair,
    asked: Asked,
    random: &mut Random,
    counts: &mut Counts,
) -> Result<(), String> {
    let before = pair.plain.clone();
    let mut spoilt = before.clone();
    match random.below(10) {
        0 => spoilt.spoil_length(random),
        1..=4 => spoilt.spoil_words(random),
        _ => spoilt.spoil_within_bounds(random),
    }
    *pair = Pair::new(spoilt);
    let given = pair.run(asked, counts)?;
    counts.spoilt += 1;
    counts.taken += u64::from(given != CORRUPT);
    let moves = matches!(
        asked,
        Asked::Call(Entry::Start(_) | Entry::Step | Entry::Turn, ..) | Asked::Run | Asked::Turns
    );
    if !moves || given >= REFUSED || random.percent(50) {
        *pair = Pair::new(before);
    }
    Ok(())
}

fn check_set(seed: u64, counts: &mut Counts) -> Result<(), String> {
    let mut random = Random::new(seed);
    let (version, new_rule) = (1 + random.below(2), random.percent(50));
    let shape = Shape::random(&mut random, version, new_rule);
    let opening = Asked::Open(shape.opening);
    let state = random.words(STATE_WORDS);
    let nodes = random.words(shape.node_words());
    let buckets = random.words(shape.bucket_words());
    let mut pair = Pair::new(Memory::new(state, nodes, buckets));
    let failure = |failure| format!("seed {seed}, {shape:?}: {failure}");
    pair.run(opening, counts).map_err(failure)?;
    for _ in 0..CALLS_OF_A_SET {
        let asked = call_of(&shape, &mut random);
        let events = match asked {
            Asked::Run => events_of(&shape, &mut random),
            _ => Vec::new(),
        };
        let out = out_for(asked, events.len(), &mut random);
        for memory in [&mut pair.proved, &mut pair.plain] {
            memory.events.clone_from(&events);
            memory.out.clone_from(&out);
        }
        if random.percent(10) {
            spoilt_call(&mut pair, asked, &mut random, counts)
        } else {
            pair.run(asked, counts).map(|_| ())
        }
        .map_err(failure)?;
    }
    Ok(())
}

/// An opening with this state's length and these pools, on any words.
pub fn check_opening(
    opening: Opening,
    node_words: usize,
    bucket_words: usize,
    counts: &mut Counts,
) -> Result<(), String> {
    let mut random = Random::new(3);
    for state_words in [STATE_WORDS, 0, STATE_WORDS - 1, STATE_WORDS + 1] {
        let state = random.words(state_words);
        let nodes = random.words(node_words);
        let buckets = random.words(bucket_words);
        let mut pair = Pair::new(Memory::new(state, nodes, buckets));
        pair.run(Asked::Open(opening), counts)?;
    }
    Ok(())
}

/// Compares at least so many calls.
pub fn check(calls: u64, counts: &mut Counts) -> Result<(), String> {
    let mut seed = 0;
    while counts.calls < calls {
        seed += 1;
        check_set(seed, counts)?;
    }
    Ok(())
}
