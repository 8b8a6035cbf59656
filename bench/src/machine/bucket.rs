//! One bucket: a sorted array of tags with its count.

use super::node::{key, slot};
use super::{Bucket, BUCKET_WORDS, MAX_TAGS};

pub const CHANGEABLE: usize = 0;
pub const COUNT: usize = 1;
pub const TAGS: usize = 2;

pub fn count(bucket: &Bucket) -> usize {
    bucket[COUNT] as usize
}

pub fn tags(bucket: &Bucket) -> &[u32] {
    &bucket[TAGS..TAGS + count(bucket)]
}

pub fn is_frozen(bucket: &Bucket) -> bool {
    bucket[CHANGEABLE] == 0
}

pub fn freeze(bucket: &mut Bucket) {
    bucket[CHANGEABLE] = 0;
}

/// The index of `tag`, or else the index at which it would be inserted.
pub fn search(bucket: &Bucket, tag: u32) -> Result<usize, usize> {
    tags(bucket).binary_search(&tag)
}

pub fn insert_at(bucket: &mut Bucket, index: usize, tag: u32) {
    let end = TAGS + count(bucket);
    bucket.copy_within(TAGS + index..end, TAGS + index + 1);
    bucket[TAGS + index] = tag;
    bucket[COUNT] += 1;
}

pub fn remove_at(bucket: &mut Bucket, index: usize) {
    let end = TAGS + count(bucket);
    bucket.copy_within(TAGS + index + 1..end, TAGS + index);
    bucket[end - 1] = 0;
    bucket[COUNT] -= 1;
}

fn changeable() -> Bucket {
    let mut bucket = [0; BUCKET_WORDS];
    bucket[CHANGEABLE] = 1;
    bucket
}

/// The tags of `from` that belong to place `i` of a node of `size` places.
pub fn split(from: &Bucket, version: u32, size: u32, i: u32) -> Bucket {
    let mut bucket = changeable();
    let mut count = 0;
    for &tag in tags(from) {
        if slot(key(version, tag), size) == i {
            bucket[TAGS + count] = tag;
            count += 1;
        }
    }
    bucket[COUNT] = count as u32;
    bucket
}

/// The union of two buckets, or none if it has more than 64 tags.
pub fn merge(left: &Bucket, right: &Bucket) -> Option<Bucket> {
    let mut bucket = changeable();
    let (mut left, mut right) = (tags(left), tags(right));
    let mut count = 0;
    while let Some(tag) = next_of_union(&mut left, &mut right) {
        if count == MAX_TAGS {
            return None;
        }
        bucket[TAGS + count] = tag;
        count += 1;
    }
    bucket[COUNT] = count as u32;
    Some(bucket)
}

/// Takes the smallest tag off the fronts of two ascending slices.
fn next_of_union<'a>(left: &mut &'a [u32], right: &mut &'a [u32]) -> Option<u32> {
    let tag = match (left.first(), right.first()) {
        (Some(&l), Some(&r)) => l.min(r),
        (Some(&l), None) => l,
        (None, Some(&r)) => r,
        (None, None) => return None,
    };
    for side in [left, right] {
        if side.first() == Some(&tag) {
            *side = &side[1..];
        }
    }
    Some(tag)
}
