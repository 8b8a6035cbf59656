//! `bench count`: one run of one implementation, for a tool that counts its instructions. A row's schedule is always made
//! whole and its first events are run, so that two runs that differ in their number alone differ by the instructions of the
//! events between. The script `counts` prints the table.

use crate::machine::MAX_TAGS;
use crate::rows::{IMPLEMENTATIONS, ROWS};
use crate::schedule::OUTPUT_WORDS;
use std::hint::black_box;

/// The row by its number, from 1. Prints how many events were run: at most so many.
pub fn count(row: &str, implementation: &str, at_most: &str) -> Option<()> {
    let row = ROWS.get(row.parse::<usize>().ok()?.checked_sub(1)?)?;
    let implementation = IMPLEMENTATIONS.iter().find(|i| i.name == implementation)?;
    let shape = row.shape();
    let made = row.made(implementation.form);
    let (events, count) = made.first(at_most.parse().ok()?);
    black_box((implementation.run)(
        shape.opening,
        &mut vec![0; shape.node_words()],
        &mut vec![0; shape.bucket_words()],
        events,
        &mut vec![0; made.all().1 * OUTPUT_WORDS],
        &mut [0; MAX_TAGS],
    ));
    println!("{count}");
    Some(())
}
