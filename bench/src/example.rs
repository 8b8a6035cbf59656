//! `bench example`: the main loop of examples/c in Rust. It prints the same.

use crate::calls::{task_word, Calls};
use crate::machine::{Call, Output, BUCKET_WORDS, NODE_WORDS};
use crate::schedule::{Opening, REFUSED};
use crate::yard::{Refused, Turned, Yard};
use Call::{Contains, Grow, Insert, Remove, Shrink};

const NODES: usize = 6;
const BUCKETS: usize = 32;
/// The most turns of one call.
const TURNS: usize = 16;

type Calling = (Call, u32);

const LANE_0: [Calling; 10] = [
    (Insert, 17),
    (Insert, 4),
    (Insert, 21),
    (Contains, 8),
    (Insert, 33),
    (Remove, 4),
    (Contains, 4),
    (Insert, 5),
    (Contains, 12),
    (Insert, 6),
];
const LANE_1: [Calling; 10] = [
    (Insert, 8),
    (Contains, 17),
    (Insert, 17),
    (Remove, 8),
    (Insert, 12),
    (Remove, 5),
    (Contains, 33),
    (Remove, 17),
    (Contains, 21),
    (Insert, 7),
];
const OFFICE: [Calling; 3] = [(Grow, 0), (Shrink, 0), (Grow, 0)];

const TASKS: [(&str, &[Calling]); 3] = [
    ("lane 0", &LANE_0),
    ("lane 1", &LANE_1),
    ("office", &OFFICE),
];

fn lower<T: std::fmt::Debug>(value: T) -> String {
    format!("{value:?}").to_lowercase()
}

/// What is printed of a step: nothing while its call goes on.
fn line(task: u32, (call, tag): Calling, given: Result<Output, Refused>) -> Option<String> {
    let (name, _) = TASKS[task as usize];
    let (answer, own, tags) = match given {
        Ok(Output::At(_)) => return None,
        Ok(Output::End(answer, own, tags)) => (lower(answer), own, tags),
        Err(Refused(number)) => return Some(format!("{name}: refused {number}")),
    };
    let tag = if call.is_resize() {
        String::new()
    } else {
        format!(" {tag}")
    };
    let full = if matches!(call, Insert | Remove) {
        format!(", {tags} tags in its bucket")
    } else {
        String::new()
    };
    Some(format!(
        "{name}: {}{tag}: {answer} after {own} steps{full}",
        lower(call)
    ))
}

/// Starts the next call of every task that runs none; whether calls are left to start.
fn start_next<C: Calls>(yard: &mut Yard<C>, begun: &mut [usize; TASKS.len()]) -> bool {
    let mut left = false;
    for ((task, (_, calls)), begun) in (0..).zip(TASKS).zip(begun.iter_mut()) {
        // 5, the task still runs a call, is no fault here
        if let Some(&(call, tag)) = calls.get(*begun) {
            *begun += usize::from(yard.start(task, call, tag).is_ok());
        }
        left |= *begun < calls.len();
    }
    left
}

/// One round: a turn, or many once nothing is left to start. False once nothing runs any more; also after a step's 8, when the next
/// turn would go to the same task.
fn round<C: Calls>(yard: &mut Yard<C>, begun: &mut [usize; TASKS.len()]) -> bool {
    let most = if start_next(yard, begun) { 1 } else { TURNS };
    let turns = match yard.turns(most) {
        Ok(turns) => turns,
        Err(Refused(number)) => {
            println!("turns refused: {number}");
            return false;
        }
    };
    for &(task, given) in &turns {
        let calling = TASKS[task as usize].1[begun[task as usize] - 1];
        line(task, calling, given)
            .iter()
            .for_each(|line| println!("{line}"));
        if given == Err(Refused(8)) {
            return false;
        }
    }
    turns.len() == most
}

fn joined(tags: &[u32]) -> String {
    tags.iter().map(|tag| format!(" {tag}")).collect()
}

fn print_set<C: Calls>(yard: &mut Yard<C>) -> Result<(), Refused> {
    println!("tags:{}", joined(&yard.list()?));
    let places = yard.places().to_vec();
    for (place, &link) in places.iter().enumerate() {
        let held = match link.checked_sub(1) {
            Some(bucket) => joined(yard.show(bucket)),
            None => " not filled yet".into(),
        };
        println!("place {place} of {}:{held}", places.len());
    }
    Ok(())
}

/// What `yard_turn` gives.
fn number(turn: Result<Option<Turned>, Refused>) -> u32 {
    match turn {
        Ok(None) => 0,
        Ok(Some(_)) => 1,
        Err(Refused(number)) => REFUSED + number,
    }
}

pub fn example<C: Calls>() -> Result<(), Refused> {
    let opening = Opening {
        tasks: TASKS.len() as u32,
        version: 1,
        zero_withdrawn: 0,
    };
    let (mut nodes, mut buckets) = ([0; NODES * NODE_WORDS], [0; BUCKETS * BUCKET_WORDS]);
    let mut yard = Yard::<C>::open(opening, &mut nodes, &mut buckets)?;
    let mut begun = [0; TASKS.len()];
    while round(&mut yard, &mut begun) {}
    print_set(&mut yard)?;

    // no call runs any more
    if let Err(Refused(number)) = yard.step(0) {
        println!("step of an idle lane: refused {number}");
    }

    // a truth value of 2 is spoilt memory: refused, and nothing changes
    yard.state[task_word(0)] = 2;
    println!("spoilt: {}", number(yard.turn()));
    yard.state[task_word(0)] = 0;
    println!("mended: {}", number(yard.turn()));
    Ok(())
}
