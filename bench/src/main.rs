//! Compares and times implementations of a resizable hash set moved one line at a time.
//!
//! `bench check [events]` runs random schedules, plans and single calls, `bench time` measures, `bench count` is one run to be
//! measured, `bench example` prints what examples/c prints. With the feature `coop`, `bench coop CALLS` compares the proved
//! cooperative bucket from `libcoop_c.a` with one in plain Rust. With the feature `proved` all run the proved implementation from
//! `libyard_c.a`; where the variable YARDPLAN names the proved program, the plans are compared with what it prints.

mod by_calls;
mod calls;
mod check;
#[cfg(feature = "coop")]
mod coop;
mod count;
mod example;
mod machine;
mod model;
#[cfg(feature = "proved")]
mod one_by_one;
mod owned;
mod plain;
mod plan;
#[cfg(feature = "proved")]
mod proved;
mod random;
mod rows;
mod scan;
mod schedule;
mod time;
mod yard;

#[cfg(not(feature = "proved"))]
use plain::Plain as Implementation;
#[cfg(feature = "proved")]
use proved::Proved as Implementation;

use std::env;
use std::process::ExitCode;

const DEFAULT_EVENTS: u64 = 4_000_000;
const USAGE: &str = "usage: bench check [events] | bench time | bench count ROW IMPLEMENTATION EVENTS | bench example | bench coop CALLS";

fn command(arguments: &[&str]) -> Result<(), String> {
    match arguments {
        ["check"] => check::check(DEFAULT_EVENTS),
        ["check", events] => check::check(events.parse().map_err(|_| USAGE.to_string())?),
        ["time"] => {
            time::time::<Implementation>();
            Ok(())
        }
        ["count", row, implementation, events] => {
            count::count(row, implementation, events).ok_or(USAGE.to_string())
        }
        ["example"] => {
            example::example::<Implementation>().map_err(|refused| format!("{refused:?}"))
        }
        #[cfg(feature = "coop")]
        ["coop", calls] => coop::check(calls.parse().map_err(|_| USAGE.to_string())?),
        _ => Err(USAGE.into()),
    }
}

fn main() -> ExitCode {
    let arguments: Vec<String> = env::args().skip(1).collect();
    let arguments: Vec<&str> = arguments.iter().map(String::as_str).collect();
    match command(&arguments) {
        Ok(()) => ExitCode::SUCCESS,
        Err(message) => {
            eprintln!("{message}");
            ExitCode::FAILURE
        }
    }
}
