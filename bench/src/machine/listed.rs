//! The tags in the set: those of the head's buckets and, where a place is empty,
//! those of the predecessor's.

use super::bucket::tags;
use super::node::{key, places, pred, size, slot};
use super::{Bucket, Node, State, MAX_TAGS};

/// Calls `visit` once for each tag in the set, in no particular order.
fn for_each(state: &State, nodes: &[Node], buckets: &[Bucket], mut visit: impl FnMut(u32)) {
    let node = &nodes[state.head as usize];
    let version = state.version;
    let head_size = size(node);
    for (j, &place) in (0..).zip(places(node)) {
        if place != 0 {
            for &tag in tags(&buckets[place as usize - 1]) {
                if slot(key(version, tag), head_size) == j {
                    visit(tag);
                }
            }
        } else if pred(node) != 0 {
            let old = &nodes[pred(node) as usize - 1];
            for_each_in_pred(old, version, head_size, j, buckets, &mut visit);
        }
    }
}

/// The tags of `old` that belong to place `j` of a head of `head_size` places.
fn for_each_in_pred(
    old: &Node,
    version: u32,
    head_size: u32,
    j: u32,
    buckets: &[Bucket],
    visit: &mut impl FnMut(u32),
) {
    let old_size = size(old);
    for k in (slot(j, old_size)..old_size).step_by(head_size as usize) {
        let place = places(old)[k as usize];
        if place == 0 {
            continue;
        }
        for &tag in tags(&buckets[place as usize - 1]) {
            let key = key(version, tag);
            if slot(key, old_size) == k && slot(key, head_size) == j {
                visit(tag);
            }
        }
    }
}

pub fn count(state: &State, nodes: &[Node], buckets: &[Bucket]) -> usize {
    let mut count = 0;
    for_each(state, nodes, buckets, |_| count += 1);
    count
}

/// The tags in the set, ascending, and their number; none if there are more than 64.
pub fn collect(
    state: &State,
    nodes: &[Node],
    buckets: &[Bucket],
) -> Option<([u32; MAX_TAGS], usize)> {
    let mut tags = [0; MAX_TAGS];
    let mut count = 0;
    for_each(state, nodes, buckets, |tag| {
        if let Some(word) = tags.get_mut(count) {
            *word = tag;
        }
        count += 1;
    });
    if count > MAX_TAGS {
        return None;
    }
    tags[..count].sort_unstable();
    Some((tags, count))
}
