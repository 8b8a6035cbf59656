//! A set over two lent pools, one call at a time: what a program in Rust uses. The words of the answers are read here and
//! nowhere else.

use crate::calls::{Calls, Entry, Lent, STATE_WORDS, TURN_WORDS};
use crate::machine::{Call, Output, MAX_TAGS, NODE_WORDS};
use crate::schedule::{decode_output, Opening, OUTPUT_WORDS, REFUSED};
use std::marker::PhantomData;

/// A refusal's number.
#[derive(Clone, Copy, Debug, PartialEq, Eq)]
pub struct Refused(pub u32);

/// A turn's task, and what its step gave.
pub type Turned = (u32, Result<Output, Refused>);

pub struct Yard<'a, C> {
    /// The state's words. What is changed here is spoilt memory.
    pub state: [u32; STATE_WORDS],
    nodes: &'a mut [u32],
    buckets: &'a mut [u32],
    calls: PhantomData<C>,
}

fn accepted(number: u32) -> Result<u32, Refused> {
    if number < REFUSED {
        Ok(number)
    } else {
        Err(Refused(number - REFUSED))
    }
}

fn output(words: &[u32; OUTPUT_WORDS]) -> Result<Output, Refused> {
    decode_output(words)
        .expect("an output's words")
        .map_err(|refusal| Refused(refusal as u32))
}

fn turned([task, words @ ..]: &[u32; TURN_WORDS]) -> Turned {
    (*task, output(words))
}

impl<'a, C: Calls> Yard<'a, C> {
    pub fn open(
        opening: Opening,
        nodes: &'a mut [u32],
        buckets: &'a mut [u32],
    ) -> Result<Yard<'a, C>, Refused> {
        let mut yard = Yard {
            state: [0; STATE_WORDS],
            nodes,
            buckets,
            calls: PhantomData,
        };
        accepted(C::open(opening, yard.lend())).map(|_| yard)
    }

    fn lend(&mut self) -> Lent<'_> {
        Lent {
            state: &mut self.state,
            nodes: self.nodes,
            buckets: self.buckets,
        }
    }

    /// A resize has no tag.
    pub fn start(&mut self, task: u32, call: Call, tag: u32) -> Result<Output, Refused> {
        let mut out = [0; OUTPUT_WORDS];
        accepted(C::call(
            Entry::Start(call),
            task,
            tag,
            self.lend(),
            &mut out,
        ))?;
        output(&out)
    }

    pub fn step(&mut self, task: u32) -> Result<Output, Refused> {
        let mut out = [0; OUTPUT_WORDS];
        accepted(C::call(Entry::Step, task, 0, self.lend(), &mut out))?;
        output(&out)
    }

    /// None: nothing runs.
    pub fn turn(&mut self) -> Result<Option<Turned>, Refused> {
        let mut out = [0; TURN_WORDS];
        let count = accepted(C::call(Entry::Turn, 0, 0, self.lend(), &mut out))?;
        Ok((count == 1).then(|| turned(&out)))
    }

    /// At most so many turns, and at most 255, in one call: each a task and what its step gave. Fewer: nothing runs.
    pub fn turns(&mut self, most: usize) -> Result<Vec<Turned>, Refused> {
        let mut out = vec![0; most * TURN_WORDS];
        let count = accepted(C::turns(self.lend(), &mut out))?;
        let (turns, _) = out.as_chunks();
        Ok(turns[..count as usize].iter().map(turned).collect())
    }

    /// The tags in the set, ascending.
    pub fn list(&mut self) -> Result<Vec<u32>, Refused> {
        let mut out = vec![0; MAX_TAGS];
        let count = accepted(C::call(Entry::List, 0, 0, self.lend(), &mut out))?;
        out.truncate(count as usize);
        Ok(out)
    }

    /// The tags of a bucket, where they stand; none for a bad number or spoilt memory.
    pub fn show(&mut self, bucket: u32) -> &[u32] {
        let mut first = [0];
        let count = C::call(Entry::Show, bucket, 0, self.lend(), &mut first) as usize;
        let first = first[0] as usize;
        &self.buckets[first..first + count]
    }

    /// The head's places, each with its bucket's number plus 1, or 0 while it is empty.
    pub fn places(&self) -> &[u32] {
        let head = &self.nodes[self.state[5] as usize * NODE_WORDS..];
        &head[2..2 + head[0] as usize]
    }
}
