//! A row's schedule through the calls of include/yard.h: one call for each event, one for many, or turns.

use crate::calls::{Calls, Entry, Lent, STATE_WORDS, TURN_WORDS};
use crate::schedule::{
    decode_event, encode_refusal, Event, Opening, EVENT_WORDS, OUTPUT_WORDS, REFUSED,
};
use std::hint::black_box;

/// Events, or turns, of one call.
pub const BATCH: usize = 16;

/// The kind of an event that stands for `BATCH` turns, or fewer where nothing runs.
pub const TURNS: u32 = 6;

/// The words lent to every call, the state first opened; or the refusal of the opening.
struct Words<'a> {
    state: [u32; STATE_WORDS],
    nodes: &'a mut [u32],
    buckets: &'a mut [u32],
}

impl<'a> Words<'a> {
    fn open<C: Calls>(
        opening: Opening,
        nodes: &'a mut [u32],
        buckets: &'a mut [u32],
    ) -> Result<Words<'a>, u32> {
        let mut words = Words {
            state: [0; STATE_WORDS],
            nodes,
            buckets,
        };
        match C::open(opening, words.lend()) {
            0 => Ok(words),
            refused => Err(refused),
        }
    }

    fn lend(&mut self) -> Lent<'_> {
        Lent {
            state: &mut self.state,
            nodes: self.nodes,
            buckets: self.buckets,
        }
    }

    fn event<C: Calls>(&mut self, event: Event, output: &mut [u32; OUTPUT_WORDS]) {
        let given = match event {
            Event::Start(task, call, tag) => {
                C::call(Entry::Start(call), task, tag, self.lend(), output)
            }
            Event::Step(task) => C::call(Entry::Step, task, 0, self.lend(), output),
        };
        if given >= REFUSED {
            *output = encode_refusal(given - REFUSED);
        }
    }

    fn list<C: Calls>(&mut self, tags: &mut [u32]) -> u32 {
        C::call(Entry::List, 0, 0, self.lend(), tags)
    }
}

/// One call for each event.
pub fn one_by_one<C: Calls>(
    opening: Opening,
    nodes: &mut [u32],
    buckets: &mut [u32],
    events: &[u32],
    outputs: &mut [u32],
    tags: &mut [u32],
) -> u32 {
    let mut words = match Words::open::<C>(opening, nodes, buckets) {
        Ok(words) => words,
        Err(refused) => return refused,
    };
    for (event, output) in events.as_chunks().0.iter().zip(outputs.as_chunks_mut().0) {
        words.event::<C>(decode_event(event), output);
    }
    words.list::<C>(tags)
}

/// One call for `BATCH` events.
pub fn batches<C: Calls>(
    opening: Opening,
    nodes: &mut [u32],
    buckets: &mut [u32],
    events: &[u32],
    outputs: &mut [u32],
    tags: &mut [u32],
) -> u32 {
    let mut words = match Words::open::<C>(opening, nodes, buckets) {
        Ok(words) => words,
        Err(refused) => return refused,
    };
    let events = events.chunks(BATCH * EVENT_WORDS);
    for (events, outputs) in events.zip(outputs.chunks_mut(BATCH * OUTPUT_WORDS)) {
        assert_eq!(C::run(words.lend(), events, outputs), 0);
    }
    words.list::<C>(tags)
}

/// Starts, and between them turns: one call for each turn or, with `MANY`, one for `BATCH` of them. `outputs` is left.
pub fn turns<C: Calls, const MANY: bool>(
    opening: Opening,
    nodes: &mut [u32],
    buckets: &mut [u32],
    events: &[u32],
    _: &mut [u32],
    tags: &mut [u32],
) -> u32 {
    let mut words = match Words::open::<C>(opening, nodes, buckets) {
        Ok(words) => words,
        Err(refused) => return refused,
    };
    let mut out = [0; BATCH * TURN_WORDS];
    for event in events.as_chunks().0 {
        if event[0] != TURNS {
            words.event::<C>(decode_event(event), &mut [0; OUTPUT_WORDS]);
        } else if MANY {
            C::turns(words.lend(), &mut out);
        } else {
            for out in out.as_chunks_mut::<TURN_WORDS>().0 {
                if C::call(Entry::Turn, 0, 0, words.lend(), out) != 1 {
                    break;
                }
            }
        }
        black_box(&mut out);
    }
    words.list::<C>(tags)
}
