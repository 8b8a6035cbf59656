//! A whole schedule as words, and its run: the form in which two implementations
//! of the machine are compared. All knowledge of the encoding is in this file.
//!
//! Event, 4 words: kind (0 step, else a start: 1 insert, 2 remove, 3 contains, 4 grow,
//! 5 shrink), task, tag, 0.
//! Output, 4 words: kind (0 at, 1 end, 2 refused), value (line, answer or refusal number),
//! own steps (0 unless end), tags in the bucket afterwards (0 unless end of insert or remove).
//! Outcome, 1 word: the number of listed tags, or 256 + the number of a refusal.

use crate::machine::{self, Answer, Call, Output, Refusal, State};

pub const EVENT_WORDS: usize = 4;
pub const OUTPUT_WORDS: usize = 4;
pub const REFUSED: u32 = 256;

const AT: u32 = 0;
const END: u32 = 1;
const REFUSE: u32 = 2;

#[derive(Clone, Copy, Debug, PartialEq, Eq)]
pub enum Event {
    Start(u32, Call, u32),
    Step(u32),
}

pub type EventWords = [u32; EVENT_WORDS];
pub type OutputWords = [u32; OUTPUT_WORDS];

/// What an opening is given besides the pools. `zero_withdrawn` is 0 for the old rule on tag 0;
/// any other number is the new rule, under which no insert of tag 0 may be started.
#[derive(Clone, Copy, Debug)]
pub struct Opening {
    pub tasks: u32,
    pub version: u32,
    pub zero_withdrawn: u32,
}

impl Opening {
    pub fn withdraws_zero(&self) -> bool {
        self.zero_withdrawn != 0
    }

    pub fn open(&self, nodes: &mut [u32], buckets: &mut [u32]) -> Result<State, Refusal> {
        machine::open(
            self.tasks,
            self.version,
            self.withdraws_zero(),
            nodes,
            buckets,
        )
    }
}

/// Any implementation of `run`.
pub type Run = fn(Opening, &mut [u32], &mut [u32], &[u32], &mut [u32], &mut [u32]) -> u32;

pub fn encode_event(event: Event) -> EventWords {
    match event {
        Event::Step(task) => [0, task, 0, 0],
        Event::Start(task, call, tag) => [call as u32, task, tag, 0],
    }
}

pub fn decode_event(&[kind, task, tag, _]: &EventWords) -> Event {
    let call = match kind {
        0 => return Event::Step(task),
        1 => Call::Insert,
        2 => Call::Remove,
        3 => Call::Contains,
        4 => Call::Grow,
        5 => Call::Shrink,
        _ => panic!("event of unknown kind {kind}"),
    };
    Event::Start(task, call, tag)
}

/// The event that any words are: a kind above 5 is a step.
pub fn asked_event(words: &EventWords) -> Event {
    match *words {
        [kind, task, ..] if kind > Call::Shrink as u32 => Event::Step(task),
        _ => decode_event(words),
    }
}

pub fn encode_output(output: Result<Output, Refusal>) -> OutputWords {
    match output {
        Ok(Output::At(line)) => [AT, line, 0, 0],
        Ok(Output::End(answer, own, tags)) => [END, answer as u32, own.into(), tags],
        Err(refusal) => encode_refusal(refusal as u32),
    }
}

pub fn encode_refusal(number: u32) -> OutputWords {
    [REFUSE, number, 0, 0]
}

pub fn decode_output(&[kind, value, own, tags]: &OutputWords) -> Option<Result<Output, Refusal>> {
    let alone = own == 0 && tags == 0;
    match kind {
        AT if alone => Some(Ok(Output::At(value))),
        END => {
            let own = own.try_into().ok()?;
            Some(Ok(Output::End(decode_answer(value)?, own, tags)))
        }
        REFUSE if alone => Some(Err(decode_refusal(value)?)),
        _ => None,
    }
}

fn decode_answer(value: u32) -> Option<Answer> {
    use Answer::*;
    [Yes, No, Full, Done, Lost, Limit]
        .into_iter()
        .find(|&a| a as u32 == value)
}

fn decode_refusal(value: u32) -> Option<Refusal> {
    use Refusal::*;
    [
        NoSuchTask,
        AlreadyRunning,
        NotRunning,
        NoFreeRecord,
        Corrupt,
        ZeroWithdrawn,
    ]
    .into_iter()
    .find(|&r| r as u32 == value)
}

#[inline(always)]
pub fn apply(
    state: &mut State,
    nodes: &mut [u32],
    buckets: &mut [u32],
    event: Event,
) -> Result<Output, Refusal> {
    match event {
        Event::Start(task, call, tag) => machine::start(state, nodes, buckets, task, call, tag),
        Event::Step(task) => machine::step(state, nodes, buckets, task),
    }
}

/// The same, of memory that is sound: without the scan.
fn apply_unscanned(
    state: &mut State,
    nodes: &mut [u32],
    buckets: &mut [u32],
    event: Event,
) -> Result<Output, Refusal> {
    match event {
        Event::Start(task, call, tag) => machine::start_unscanned(state, task, call, tag),
        Event::Step(task) => machine::step_unscanned(state, nodes, buckets, task),
    }
}

/// Opens with the two pools, runs every event, writing an output for each, and lists the
/// tags at the end. A refused opening writes nothing. `outputs` has room for every event.
/// Without `SCANS` memory is not scanned before an event: it stays sound.
pub fn run<const SCANS: bool>(
    opening: Opening,
    nodes: &mut [u32],
    buckets: &mut [u32],
    events: &[u32],
    outputs: &mut [u32],
    tags: &mut [u32],
) -> u32 {
    let mut state = match opening.open(nodes, buckets) {
        Ok(state) => state,
        Err(refusal) => return REFUSED + refusal as u32,
    };
    let (events, _) = events.as_chunks();
    let (outputs, _) = outputs.as_chunks_mut();
    assert!(
        outputs.len() >= events.len(),
        "too few words for the outputs"
    );
    for (event, output) in events.iter().zip(outputs) {
        let event = decode_event(event);
        let given = if SCANS {
            apply(&mut state, nodes, buckets, event)
        } else {
            apply_unscanned(&mut state, nodes, buckets, event)
        };
        *output = encode_output(given);
    }
    match machine::list(&state, nodes, buckets, tags) {
        Ok(count) => count as u32,
        Err(refusal) => REFUSED + refusal as u32,
    }
}

#[cfg(test)]
mod tests {
    use super::*;

    const OPENING: Opening = Opening {
        tasks: 1,
        version: 1,
        zero_withdrawn: 0,
    };

    #[test]
    fn events_survive_encoding() {
        let all = [
            Event::Step(3),
            Event::Start(0, Call::Insert, 7),
            Event::Start(1, Call::Remove, u32::MAX),
            Event::Start(2, Call::Contains, 0),
            Event::Start(9, Call::Grow, 0),
            Event::Start(8, Call::Shrink, 0),
        ];
        assert!(all
            .iter()
            .all(|&event| decode_event(&encode_event(event)) == event));
    }

    #[test]
    fn a_run_writes_outputs_and_tags() {
        let events: Vec<u32> = [Event::Start(0, Call::Insert, 17), Event::Step(0)]
            .into_iter()
            .chain([Event::Step(0), Event::Step(0), Event::Step(0)])
            .flat_map(encode_event)
            .collect();
        let (mut nodes, mut buckets) = ([9; 34], [9; 66]);
        let (mut outputs, mut tags) = ([9; 20], [9; 64]);
        let outcome = run::<true>(
            OPENING,
            &mut nodes,
            &mut buckets,
            &events,
            &mut outputs,
            &mut tags,
        );
        assert_eq!(outcome, 1);
        let expected = [
            [0, 32, 0, 0],
            [0, 33, 0, 0],
            [0, 36, 0, 0],
            [1, 1, 3, 1],
            [2, 6, 0, 0],
        ];
        assert_eq!(outputs, *expected.as_flattened());
        assert_eq!((tags[0], tags[1]), (17, 9));
    }

    /// An insert of tag 0 after a remove of it, a grow, and another task's insert of tag 0.
    #[test]
    fn every_rule_number_but_0_is_the_new_rule() {
        let events = [
            Event::Start(0, Call::Remove, 0),
            Event::Start(1, Call::Grow, 0),
            Event::Start(0, Call::Insert, 0),
            Event::Start(2, Call::Insert, 0),
            Event::Start(3, Call::Insert, 0),
        ]
        .map(encode_event);
        for (zero_withdrawn, last) in [
            (0, [0, 32, 0, 0]),
            (1, [2, 14, 0, 0]),
            (2, [2, 14, 0, 0]),
            (256, [2, 14, 0, 0]),
            (u32::MAX, [2, 14, 0, 0]),
        ] {
            let opening = Opening {
                tasks: 3,
                zero_withdrawn,
                ..OPENING
            };
            let mut outputs = [9; 20];
            let outcome = run::<true>(
                opening,
                &mut [9; 34],
                &mut [9; 66],
                events.as_flattened(),
                &mut outputs,
                &mut [9; 64],
            );
            let expected = [
                [0, 32, 0, 0],
                [0, 20, 0, 0],
                [2, 5, 0, 0],
                last,
                [2, 4, 0, 0],
            ];
            assert_eq!((outcome, outputs.as_slice()), (0, expected.as_flattened()));
        }
    }

    #[test]
    fn a_refused_opening_writes_nothing() {
        let (mut nodes, mut buckets, mut tags) = ([9; 34], [9; 66], [9; 64]);
        for (tasks, version, refusal) in [(9, 1, 1), (9, 3, 1), (8, 3, 11), (1, 0, 11)] {
            let opening = Opening {
                tasks,
                version,
                zero_withdrawn: version,
            };
            let outcome = run::<true>(opening, &mut nodes, &mut buckets, &[], &mut [], &mut tags);
            assert_eq!(outcome, REFUSED + refusal);
            assert_eq!((nodes, buckets, tags), ([9; 34], [9; 66], [9; 64]));
        }
    }
}
