//! All the words that are lent to a call, and how they are spoilt.

use super::{operation_word, task_word, Calls, Entry, Lent, VERSION_WORDS};
use crate::random::Random;

/// The lines of Figure 6 that are steps.
pub const LINES: [u32; 21] = [
    95, 96, 99, 100, 101, 102, 107, 109, 112, 113, 117, 120, 121, 122, 123, 127, 129, 130, 138,
    139, 140,
];

#[derive(Clone, Copy, Debug)]
pub enum Asked {
    Open(u32),
    Call(Entry, u32, u32, u32),
}

/// All that is lent to a call, and what it gave.
#[derive(Clone, PartialEq, Eq)]
pub struct Memory {
    pub state: Vec<u32>,
    pub versions: Vec<u32>,
    pub out: Vec<u32>,
    pub given: u32,
}

impl Memory {
    /// Memory with any contents.
    pub fn random(random: &mut Random, state_words: usize, version_words: usize) -> Memory {
        Memory {
            state: random.words(state_words),
            versions: random.words(version_words),
            out: Vec::new(),
            given: 0,
        }
    }

    pub fn run<C: Calls>(&mut self, asked: Asked) {
        let lent = Lent {
            state: &mut self.state,
            versions: &mut self.versions,
        };
        self.given = match asked {
            Asked::Open(tasks) => C::open(tasks, lent),
            Asked::Call(entry, number, operation, tag) => {
                C::call(entry, number, operation, tag, lent, &mut self.out)
            }
        };
    }

    pub fn spoil(&mut self, random: &mut Random) {
        match random.below(10) {
            0 => self.spoil_length(random),
            1..=3 => self.spoil_words(random),
            _ => self.spoil_within_bounds(random),
        }
    }

    /// Some words replaced, whatever they are.
    fn spoil_words(&mut self, random: &mut Random) {
        for _ in 0..random.one_to(3) {
            let slice = if random.percent(60) {
                &mut self.state
            } else {
                &mut self.versions
            };
            let first = random.below(2) * random.below(slice.len() as u32);
            let at = (first + random.below(70)) as usize % slice.len();
            let word = slice[at];
            let next = word.wrapping_add(1);
            slice[at] = random.pick(&[0, 1, 2, 3, next, word ^ 1, 65535, 65536, u32::MAX]);
        }
    }

    /// A word replaced by one that memory may have there: it often stays sound, but no run of the bucket leads to it.
    fn spoil_within_bounds(&mut self, random: &mut Random) {
        let versions = (self.versions.len() / VERSION_WORDS) as u32;
        let task = task_word(random.below(self.state[0].clamp(1, 8)) as usize);
        let operation = operation_word(random.below(8) as usize);
        let version = random.below(versions) as usize * VERSION_WORDS;
        let (slice, at, value) = match random.below(14) {
            0 | 1 => (&mut self.state, task + 4, random.pick(&LINES)),
            2 => (&mut self.state, task + 5, random.pick(&[0, 103, 106, 126])),
            3 => (&mut self.state, task + 6, 65533 + random.below(3)),
            4 | 5 => (&mut self.state, task + 7, random.below(versions + 2)),
            6 => (
                &mut self.state,
                task + 8,
                random.pick(&[0, 1, 2, 3, 64, 65]),
            ),
            7 => (
                &mut self.state,
                random.pick(&[2, 3]),
                random.below(versions),
            ),
            8 => (&mut self.state, 4, random.below(2)),
            9 => {
                let word = random.below(5) as usize;
                (&mut self.state, operation + word, random.below(3))
            }
            10 => (
                &mut self.versions,
                version,
                random.pick(&[0, 0, 1, 2, 3, 65, 66]),
            ),
            11 => return self.fill(random, version),
            _ => return self.help(random, task, versions),
        };
        slice[at] = value;
    }

    /// A task inside HELPFINISH, wherever it was called.
    fn help(&mut self, random: &mut Random, task: usize, versions: u32) {
        self.state[task + 4] = random.pick(&[129, 130, 138, 139, 140]);
        self.state[task + 5] = random.pick(&[103, 106, 126]);
        self.state[task + 7] = random.below(versions + 1);
        self.state[task + 8] = random.below(4);
    }

    /// A version with almost as many tags as there is room for.
    fn fill(&mut self, random: &mut Random, version: usize) {
        let count = 62 + random.below(3);
        let words = &mut self.versions[version + 1..][..VERSION_WORDS - 1];
        words.fill(0);
        words[0] = count;
        for k in 0..count {
            words[1 + k as usize] = k + 2;
        }
    }

    /// One slice with another length.
    fn spoil_length(&mut self, random: &mut Random) {
        let slice = match random.below(3) {
            0 => &mut self.state,
            1 => &mut self.versions,
            _ => &mut self.out,
        };
        let length = slice.len();
        let lengths = [
            0,
            length.saturating_sub(1),
            length + 1,
            length + VERSION_WORDS,
        ];
        slice.resize(random.pick(&lengths), 0);
    }

    pub fn difference(&self, other: &Memory) -> Option<String> {
        let pairs = [
            ("state", &self.state, &other.state),
            ("version", &self.versions, &other.versions),
            ("out", &self.out, &other.out),
        ];
        if self.given != other.given {
            return Some(format!("gave {} and {}", self.given, other.given));
        }
        pairs.into_iter().find_map(|(name, a, b)| {
            let word = (0..a.len()).find(|&k| a[k] != b[k])?;
            Some(format!("{name} word {word}: {} and {}", a[word], b[word]))
        })
    }
}
