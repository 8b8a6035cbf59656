//! Reading one node.

use super::Node;

pub const SIZE: usize = 0;
pub const PRED: usize = 1;
pub const PLACES: usize = 2;

pub fn size(node: &Node) -> u32 {
    node[SIZE]
}

pub fn pred(node: &Node) -> u32 {
    node[PRED]
}

/// The filled part of a node: its `size` places.
pub fn places(node: &Node) -> &[u32] {
    &node[PLACES..PLACES + node[SIZE] as usize]
}

/// What of a tag is taken mod a size. Tags of version 2 end in a check digit.
pub fn key(version: u32, tag: u32) -> u32 {
    if version == 2 {
        tag / 10
    } else {
        tag
    }
}

/// `key` mod `size`: sizes are powers of two.
pub fn slot(key: u32, size: u32) -> u32 {
    key & (size - 1)
}

/// The place that is to hold the tags with `key`.
pub fn place_of_key(node: &Node, key: u32) -> u32 {
    node[PLACES + slot(key, size(node)) as usize]
}
