//! Times the library's C calls against the independent second program, in one run and on the same
//! inputs, measures the stack that a call uses, and shows how the time grows with the input. It is a
//! benchmark and judges nothing.
//!
//!     bench [RUNS]
//!
//! RUNS is how often each side is timed (300 if not given).
//!
//! A further call is a further function of `cases`.

mod cases;
mod stack;
mod timing;

use std::env;
use std::process::ExitCode;

fn main() -> ExitCode {
    let mut words = env::args().skip(1);
    let runs = words.next().map_or(Some(300), |word| word.parse().ok());
    let (Some(runs @ 1..), None) = (runs, words.next()) else {
        eprintln!("usage: bench [RUNS], a whole number, at least 1");
        return ExitCode::from(2);
    };
    let cases = cases::all();
    timing::report(&cases, runs);
    println!();
    stack::report(&cases);
    println!();
    timing::report_growth(&cases::growth::all(), runs);
    ExitCode::SUCCESS
}
