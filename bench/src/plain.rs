//! The plain machine behind the calls of include/yard.h: its state to words and back.

use crate::calls::{task_word, Calls, Entry, Lent, MAX_TURNS, STATE_WORDS, TURN_WORDS};
use crate::machine::{self, Output, Refusal, State, Task, Turn};
use crate::schedule::{apply, asked_event, encode_output, Opening, OUTPUT_WORDS, REFUSED};

const CORRUPT: u32 = REFUSED + Refusal::Corrupt as u32;

pub struct Plain;

fn task_words(task: &Task) -> [u32; 13] {
    [
        task.running.into(),
        task.call,
        task.tag,
        task.line,
        task.i,
        task.own.into(),
        task.t,
        task.s,
        task.b,
        task.m,
        task.n,
        task.new_node,
        task.new_bucket,
    ]
}

#[inline(always)]
fn put_state(state: &State, words: &mut [u32]) {
    let first = [
        state.tasks,
        state.version,
        state.zero_withdrawn.into(),
        state.nodes,
        state.buckets,
        state.head,
        state.last_node,
        state.last_bucket,
        state.chosen,
    ];
    words[..first.len()].copy_from_slice(&first);
    for (k, task) in state.task.iter().enumerate() {
        words[task_word(k)..task_word(k + 1)].copy_from_slice(&task_words(task));
    }
}

fn truth(word: u32) -> Option<bool> {
    match word {
        0 => Some(false),
        1 => Some(true),
        _ => None,
    }
}

fn task_of(words: &[u32]) -> Option<Task> {
    let &[running, call, tag, line, i, own, t, s, b, m, n, new_node, new_bucket] = words else {
        return None;
    };
    Some(Task {
        running: truth(running)?,
        call,
        tag,
        line,
        i,
        own: own.try_into().ok()?,
        t,
        s,
        b,
        m,
        n,
        new_node,
        new_bucket,
    })
}

/// The state that these words are, if a state has them.
#[inline(always)]
fn state_of(words: &[u32]) -> Option<State> {
    let &[tasks, version, zero_withdrawn, nodes, buckets, head, last_node, last_bucket, chosen] =
        words.get(..task_word(0))?
    else {
        return None;
    };
    if words.len() != STATE_WORDS {
        return None;
    }
    let mut state = State {
        tasks,
        version,
        zero_withdrawn: truth(zero_withdrawn)?,
        nodes,
        buckets,
        head,
        last_node,
        last_bucket,
        chosen,
        ..State::default()
    };
    for (k, task) in state.task.iter_mut().enumerate() {
        *task = task_of(&words[task_word(k)..task_word(k + 1)])?;
    }
    Some(state)
}

/// The same, if memory is sound.
fn sound_state_of(lent: &Lent) -> Option<State> {
    state_of(lent.state).filter(|state| machine::sound(state, lent.nodes, lent.buckets))
}

/// 0 and the output's words, or a refusal, which leaves `out`.
fn answer(given: Result<Output, Refusal>, out: &mut [u32]) -> u32 {
    match given {
        Ok(_) => {
            out.copy_from_slice(&encode_output(given));
            0
        }
        Err(refusal) => REFUSED + refusal as u32,
    }
}

fn answer_turn(given: Result<Turn, Refusal>, out: &mut [u32]) -> u32 {
    match given {
        Ok(Turn::Idle) => 0,
        Ok(Turn::Of(task, given)) => {
            out[0] = task;
            out[1..].copy_from_slice(&encode_output(given));
            1
        }
        Err(refusal) => REFUSED + refusal as u32,
    }
}

impl Calls for Plain {
    fn open(opening: Opening, lent: Lent) -> u32 {
        if lent.state.len() != STATE_WORDS {
            return CORRUPT;
        }
        let opened = opening.open(lent.nodes, lent.buckets);
        put_state(&opened.unwrap_or_default(), lent.state);
        opened.map_or_else(|refusal| REFUSED + refusal as u32, |_| 0)
    }

    fn call(entry: Entry, number: u32, tag: u32, lent: Lent, out: &mut [u32]) -> u32 {
        let (room, spoilt) = match entry {
            Entry::Start(_) | Entry::Step => (OUTPUT_WORDS, CORRUPT),
            Entry::Turn => (TURN_WORDS, CORRUPT),
            Entry::List => (out.len(), CORRUPT),
            Entry::Show => (1, 0),
        };
        let (true, Some(mut state)) = (out.len() == room, state_of(lent.state)) else {
            return spoilt;
        };
        let (nodes, buckets) = (lent.nodes, lent.buckets);
        let given = match entry {
            Entry::Start(call) => {
                let given = machine::start(&mut state, nodes, buckets, number, call, tag);
                answer(given, out)
            }
            Entry::Step => answer(machine::step(&mut state, nodes, buckets, number), out),
            Entry::Turn => answer_turn(machine::turn(&mut state, nodes, buckets), out),
            Entry::List => match machine::list(&state, nodes, buckets, out) {
                Ok(count) => count as u32,
                Err(refusal) => REFUSED + refusal as u32,
            },
            Entry::Show => {
                let shown = machine::show(&state, nodes, buckets, number);
                if !shown.is_empty() {
                    out[0] = shown.start as u32;
                }
                shown.len() as u32
            }
        };
        put_state(&state, lent.state);
        given
    }

    /// Every event scans memory.
    fn run(lent: Lent, events: &[u32], outputs: &mut [u32]) -> u32 {
        let Some(mut state) = sound_state_of(&lent) else {
            return CORRUPT;
        };
        let (events, outputs) = (events.as_chunks().0, outputs.as_chunks_mut().0);
        for (event, output) in events.iter().zip(outputs) {
            let given = apply(&mut state, lent.nodes, lent.buckets, asked_event(event));
            *output = encode_output(given);
        }
        put_state(&state, lent.state);
        0
    }

    /// Every turn scans memory.
    fn turns(lent: Lent, out: &mut [u32]) -> u32 {
        let Some(mut state) = sound_state_of(&lent) else {
            return CORRUPT;
        };
        let mut count = 0;
        for out in out
            .as_chunks_mut::<TURN_WORDS>()
            .0
            .iter_mut()
            .take(MAX_TURNS)
        {
            let turn = machine::turn(&mut state, lent.nodes, lent.buckets);
            if answer_turn(turn, out) != 1 {
                break;
            }
            count += 1;
        }
        put_state(&state, lent.state);
        count
    }
}
