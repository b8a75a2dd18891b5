//! The timing.

use std::time::{Duration, Instant};

use crate::cases::growth::Row;
use crate::cases::Case;

/// A single timing lasts at least this long, so that the clock's own cost does not count.
const LEAST_TIMING: Duration = Duration::from_micros(20);

/// Nanoseconds a call.
struct Times {
    least: f64,
    median: f64,
}

pub fn report(cases: &[Case], runs: usize) {
    println!("Microseconds a call, least and median of {runs} timings of each side in turn.");
    println!(
        "{:<8} {:<42} {:>6}  {:>9} {:>9}  {:>9} {:>9}  {:>6} {:>6}",
        "call", "input", "bytes", "library", "median", "plain", "median", "ratio", "median"
    );
    for case in cases {
        let (library, plain) = time(case, runs);
        println!(
            "{:<8} {:<42} {:>6}  {:>9.2} {:>9.2}  {:>9.2} {:>9.2}  {:>6.2} {:>6.2}",
            case.call,
            case.input,
            case.bytes,
            library.least / 1e3,
            library.median / 1e3,
            plain.least / 1e3,
            plain.median / 1e3,
            library.least / plain.least,
            library.median / plain.median
        );
    }
}

pub fn report_growth(rows: &[Row], runs: usize) {
    println!("Growth: microseconds a call, least of {runs} timings of each side in turn.");
    println!(
        "{:<8} {:<9} {:<42} {:>9} {:>9} {:>6}",
        "call", "direction", "input", "library", "plain", "ratio"
    );
    for Row { direction, case } in rows {
        let (library, plain) = time(case, runs);
        println!(
            "{:<8} {:<9} {:<42} {:>9.2} {:>9.2} {:>6.2}",
            case.call,
            direction,
            case.input,
            library.least / 1e3,
            plain.least / 1e3,
            library.least / plain.least
        );
    }
}

/// Times both sides in turn, so that a busy spell of the machine falls on both.
fn time(case: &Case, runs: usize) -> (Times, Times) {
    let library_calls = calls_in_a_timing(&case.library);
    let plain_calls = calls_in_a_timing(&case.plain);
    let mut library = Vec::with_capacity(runs);
    let mut plain = Vec::with_capacity(runs);
    for _ in 0..runs {
        library.push(time_once(&case.library, library_calls));
        plain.push(time_once(&case.plain, plain_calls));
    }
    (summary(library), summary(plain))
}

/// How many calls it takes to fill a timing. Finding out warms the caches as well.
fn calls_in_a_timing(call: &dyn Fn()) -> u32 {
    let mut calls = 1;
    while time_once(call, calls) * f64::from(calls) < LEAST_TIMING.as_nanos() as f64 {
        calls *= 2;
    }
    calls
}

fn time_once(call: &dyn Fn(), calls: u32) -> f64 {
    let start = Instant::now();
    for _ in 0..calls {
        call();
    }
    start.elapsed().as_nanos() as f64 / f64::from(calls)
}

fn summary(mut times: Vec<f64>) -> Times {
    times.sort_by(f64::total_cmp);
    Times {
        least: times[0],
        median: times[times.len() / 2],
    }
}
