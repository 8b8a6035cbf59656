//! Held records, and taking one that is not held.

use super::node::{places, pred};
use super::{Bucket, Node, State, Task, MAX_BUCKETS};

/// One bit for each node.
type NodeMarks = u64;
/// One bit for each bucket.
type BucketMarks = [u64; MAX_BUCKETS / 64];

fn running(state: &State) -> impl Iterator<Item = &Task> {
    state.task.iter().filter(|task| task.running)
}

/// Marks the node in `place` and its chain of predecessors, up to a marked one.
fn mark_chain(marks: &mut NodeMarks, nodes: &[Node], mut place: u32) {
    while place != 0 && *marks >> (place - 1) & 1 == 0 {
        *marks |= 1 << (place - 1);
        place = pred(&nodes[place as usize - 1]);
    }
}

fn held_nodes(state: &State, nodes: &[Node]) -> NodeMarks {
    let mut marks = 0;
    mark_chain(&mut marks, nodes, state.head + 1);
    for task in running(state) {
        for place in [task.t, task.s, task.new_node] {
            mark_chain(&mut marks, nodes, place);
        }
    }
    marks
}

fn mark_bucket(marks: &mut BucketMarks, place: u32) {
    if let Some(number) = place.checked_sub(1) {
        marks[number as usize / 64] |= 1 << (number % 64);
    }
}

fn held_buckets(state: &State, nodes: &[Node]) -> BucketMarks {
    let mut marks = [0; MAX_BUCKETS / 64];
    let held = held_nodes(state, nodes);
    for (number, node) in nodes.iter().enumerate() {
        if held >> number & 1 == 1 {
            places(node)
                .iter()
                .for_each(|&place| mark_bucket(&mut marks, place));
        }
    }
    for task in running(state) {
        for place in [task.b, task.m, task.n, task.new_bucket] {
            mark_bucket(&mut marks, place);
        }
    }
    marks
}

/// The first of `count` records after `last`, going round, that is not held.
fn first_free(last: u32, count: u32, is_held: impl Fn(u32) -> bool) -> Option<u32> {
    (last + 1..count)
        .chain(0..=last)
        .find(|&number| !is_held(number))
}

/// Writes `node` over a free node and gives its place.
pub fn take_node(state: &mut State, nodes: &mut [Node], node: Node) -> Option<u32> {
    let held = held_nodes(state, nodes);
    let number = first_free(state.last_node, state.nodes, |k| held >> k & 1 == 1)?;
    nodes[number as usize] = node;
    state.last_node = number;
    Some(number + 1)
}

/// Writes `bucket` over a free bucket and gives its place.
pub fn take_bucket(
    state: &mut State,
    nodes: &[Node],
    buckets: &mut [Bucket],
    bucket: Bucket,
) -> Option<u32> {
    let held = held_buckets(state, nodes);
    let is_held = |k: u32| held[k as usize / 64] >> (k % 64) & 1 == 1;
    let number = first_free(state.last_bucket, state.buckets, is_held)?;
    buckets[number as usize] = bucket;
    state.last_bucket = number;
    Some(number + 1)
}
