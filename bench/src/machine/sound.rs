//! The check of state and pools that goes before every start, step and list.

use super::node::{pred, size, PLACES};
use super::{bucket, is_version, record_count, Bucket, Call, Node, State, Task};
use super::{BUCKET_WORDS, MAX_BUCKETS, MAX_NODES, MAX_SIZE, MAX_TAGS, MAX_TASKS, NODE_WORDS};

pub fn sound(state: &State, nodes: &[u32], buckets: &[u32]) -> bool {
    bounds_sound(state, nodes.len(), buckets.len()) && {
        let (nodes, buckets) = (nodes.as_chunks().0, buckets.as_chunks().0);
        nodes.iter().all(|node| node_sound(state, nodes, node))
            && size(&nodes[state.head as usize]) != 0
            && (0..)
                .zip(&state.task)
                .all(|(k, task)| task_sound(state, nodes, k, task))
            && buckets.iter().all(bucket_sound)
    }
}

fn bounds_sound(state: &State, node_words: usize, bucket_words: usize) -> bool {
    (1..=MAX_TASKS as u32).contains(&state.tasks)
        && is_version(state.version)
        && record_count(node_words, NODE_WORDS, MAX_NODES) == Some(state.nodes)
        && record_count(bucket_words, BUCKET_WORDS, MAX_BUCKETS) == Some(state.buckets)
        && state.head < state.nodes
        && state.last_node < state.nodes
        && state.last_bucket < state.buckets
        && state.chosen < state.tasks
}

// These three read their few words to the end: without an exit in the loop it is vectorised.
// The scan as a whole ends with the first bad record.

fn all_zero(words: &[u32]) -> bool {
    words.iter().fold(0, |all, &word| all | word) == 0
}

fn at_most(words: &[u32], limit: u32) -> bool {
    words.iter().fold(true, |ok, &word| ok & (word <= limit))
}

fn strictly_ascending(words: &[u32]) -> bool {
    let later = words.get(1..).unwrap_or_default();
    words
        .iter()
        .zip(later)
        .fold(true, |ok, (a, b)| ok & (a < b))
}

/// A place of a node: empty, or a node that is in use.
fn node_place_sound(nodes: &[Node], place: u32) -> bool {
    place == 0
        || nodes
            .get(place as usize - 1)
            .is_some_and(|node| size(node) != 0)
}

/// The places of a node of size `SIZE`. A size known to the compiler makes loops of a fixed length.
fn places_sound<const SIZE: usize>(state: &State, node: &Node) -> bool {
    let (used, unused) = node[PLACES..].split_at(SIZE);
    at_most(used, state.buckets) && all_zero(unused)
}

fn node_sound(state: &State, nodes: &[Node], node: &Node) -> bool {
    let places = match size(node) {
        0 => places_sound::<0>(state, node),
        1 => places_sound::<1>(state, node),
        2 => places_sound::<2>(state, node),
        4 => places_sound::<4>(state, node),
        8 => places_sound::<8>(state, node),
        16 => places_sound::<16>(state, node),
        32 => places_sound::<32>(state, node),
        _ => false,
    };
    places && node_place_sound(nodes, pred(node))
}

fn bucket_sound(bucket: &Bucket) -> bool {
    let count = bucket::count(bucket);
    if bucket[bucket::CHANGEABLE] > 1 || count > MAX_TAGS {
        return false;
    }
    let words = &bucket[bucket::TAGS..];
    // most are empty: one loop of a fixed length
    if count == 0 {
        return all_zero(words);
    }
    let (tags, unused) = words.split_at(count);
    strictly_ascending(tags) && all_zero(unused)
}

fn task_sound(state: &State, nodes: &[Node], number: u32, task: &Task) -> bool {
    if !task.running {
        return *task == Task::default();
    }
    number < state.tasks
        && has_line(task.call, task.line)
        && task.i <= MAX_SIZE as u32
        && (task.tag == 0 || !is_resize(task.call))
        && [task.t, task.s, task.new_node]
            .iter()
            .all(|&place| node_place_sound(nodes, place))
        && [task.b, task.m, task.n, task.new_bucket]
            .iter()
            .all(|&place| place <= state.buckets)
}

fn is_resize(call: u32) -> bool {
    call == Call::Grow as u32 || call == Call::Shrink as u32
}

/// Whether `line` is one of the lines of `call`.
fn has_line(call: u32, line: u32) -> bool {
    const INSERT: u32 = Call::Insert as u32;
    const REMOVE: u32 = Call::Remove as u32;
    const CONTAINS: u32 = Call::Contains as u32;
    const GROW: u32 = Call::Grow as u32;
    const SHRINK: u32 = Call::Shrink as u32;
    let fills = matches!(line, 39 | 40 | 43 | 44 | 46..=52);
    match call {
        INSERT | REMOVE => fills || matches!(line, 32 | 33 | 36),
        CONTAINS => matches!(line, 12 | 13 | 15..=18),
        GROW | SHRINK => fills || matches!(line, 20 | 24 | 27 | 28),
        _ => false,
    }
}
