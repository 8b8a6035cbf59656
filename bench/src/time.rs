//! `bench time`: nanoseconds for each event and the ratio to the plain machine behind the same calls; the soundness scan against a
//! plain read.

use crate::calls::Calls;
use crate::machine::MAX_TAGS;
use crate::rows::{Form, Made, Row, IMPLEMENTATIONS, ROWS};
use crate::scan::print_scan;
use crate::schedule::{Run, OUTPUT_WORDS};
use std::hint::black_box;
use std::time::Instant;

/// Many short rounds, so that some of them are not interrupted.
const ROUNDS: usize = 100;

fn nanoseconds(work: impl FnOnce()) -> f64 {
    let start = Instant::now();
    work();
    start.elapsed().as_nanos() as f64
}

/// The fastest of the rounds, in nanoseconds.
pub fn fastest(mut work: impl FnMut()) -> f64 {
    (0..ROUNDS)
        .map(|_| nanoseconds(&mut work))
        .fold(f64::INFINITY, f64::min)
}

/// Nanoseconds of a whole run, the fastest of the rounds, for each implementation of this form; their rounds alternate. Every
/// run clears its pools by opening them, and all buffers are in use already, as one round goes before the timed ones.
fn time_runs(row: &Row, made: &Made, runs: &[Run]) -> Vec<f64> {
    let shape = row.shape();
    let mut nodes = vec![0; shape.node_words()];
    let mut buckets = vec![0; shape.bucket_words()];
    let (events, count) = made.all();
    let mut outputs = vec![0; count * OUTPUT_WORDS];
    let mut tags = [0; MAX_TAGS];
    let mut round = |run: Run| {
        black_box(run(
            shape.opening,
            &mut nodes,
            &mut buckets,
            black_box(events),
            &mut outputs,
            &mut tags,
        ));
    };
    let mut best = vec![f64::INFINITY; runs.len()];
    runs.iter().for_each(|&run| round(run));
    for _ in 0..ROUNDS {
        for (best, &run) in best.iter_mut().zip(runs) {
            *best = best.min(nanoseconds(|| round(run)));
        }
    }
    best
}

/// The ratio is to the form's plain machine behind the same calls.
fn print_events(row: &Row) {
    println!("{}", row.name());
    for (form, base) in [(Form::Events, "words"), (Form::Turns, "words-turn")] {
        let made = row.made(form);
        let of_form = || IMPLEMENTATIONS.iter().filter(|i| i.form == form);
        let runs: Vec<Run> = of_form().map(|i| i.run).collect();
        let times = time_runs(row, &made, &runs);
        let plain = of_form()
            .position(|i| i.name == base)
            .expect("an implementation");
        for (implementation, time) in of_form().zip(&times) {
            let each = time / made.all().1 as f64;
            let ratio = time / times[plain];
            let name = implementation.name;
            println!("  {name:<12} {each:9.1} ns per event, {ratio:.2} times {base}");
        }
    }
}

/// The refused step of the scan's table is of the implementation `C`.
pub fn time<C: Calls>() {
    ROWS.iter().for_each(print_events);
    for row in &ROWS {
        print_scan::<C>(row, false);
        print_scan::<C>(row, true);
    }
}
