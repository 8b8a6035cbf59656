//! The soundness scan in GB/s: the plain one, and a step that is refused for want of such a task, which is little more than
//! the scan; beside them a plain read of the same words.

use crate::calls::{Calls, Entry, Lent, STATE_WORDS};
use crate::machine::{self, BUCKET_WORDS, MAX_TAGS};
use crate::owned::Owned;
use crate::rows::Row;
use crate::schedule::REFUSED;
use crate::time::fastest;
use std::hint::black_box;

const NO_SUCH_TASK: u32 = REFUSED + machine::Refusal::NoSuchTask as u32;

/// Every bucket changeable and with 64 tags.
fn fill(buckets: &mut [u32]) {
    let (buckets, _) = buckets.as_chunks_mut::<BUCKET_WORDS>();
    for bucket in buckets {
        bucket[..2].copy_from_slice(&[1, MAX_TAGS as u32]);
        (0..).zip(&mut bucket[2..]).for_each(|(k, tag)| *tag = k);
    }
}

fn sum(words: &[u32]) -> u32 {
    words.iter().fold(0, |sum, &word| sum.wrapping_add(word))
}

/// Prints how fast the work reads so many words.
fn print(name: &str, words: usize, mut work: impl FnMut()) {
    let times = 1 + 4_000_000 / words;
    let nanoseconds = fastest(|| (0..times).for_each(|_| work())) / times as f64;
    let speed = (4 * words) as f64 / nanoseconds;
    println!("  {name:<20} {speed:6.1} GB/s, {nanoseconds:9.1} ns");
}

/// The refused step is of the implementation `C`.
pub fn print_scan<C: Calls>(row: &Row, full: bool) {
    let shape = row.shape();
    let Owned {
        state,
        mut nodes,
        mut buckets,
    } = Owned::open(shape.opening, shape.nodes, shape.buckets);
    let mut state_words = [0; STATE_WORDS];
    let lent = Lent {
        state: &mut state_words,
        nodes: &mut nodes,
        buckets: &mut buckets,
    };
    assert_eq!(C::open(shape.opening, lent), 0);
    if full {
        fill(&mut buckets);
    }
    let words = nodes.len() + buckets.len();
    let contents = if full { "full" } else { "empty" };
    println!("{}: {words} words, buckets {contents}", row.name());
    print("read", words, || {
        black_box(sum(black_box(&nodes)).wrapping_add(sum(black_box(&buckets))));
    });
    print("plain scan", words, || {
        assert!(machine::sound(
            black_box(&state),
            black_box(&nodes),
            black_box(&buckets)
        ));
    });
    print("refused step", words, || {
        let lent = Lent {
            state: black_box(&mut state_words),
            nodes: black_box(&mut nodes),
            buckets: black_box(&mut buckets),
        };
        let given = C::call(Entry::Step, row.tasks, 0, lent, &mut [0; 4]);
        assert_eq!(given, NO_SUCH_TASK);
    });
}
