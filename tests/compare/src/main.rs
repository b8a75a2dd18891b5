//! Holds the library's C calls to the independent second program, call by call and family of
//! inputs by family of inputs. The last line is `N passed, M failed`.
//!
//!     compare [TIMES [SEED]]
//!
//! TIMES multiplies the number of random inputs (1 if not given), SEED begins the random ones.
//!
//! A further call is a further module with a `Call`, and a line in `CALLS`. A call that the library
//! may not have yet stands behind a feature.

mod call;
mod check;
#[cfg(feature = "shrink")]
mod directed;
mod lent;
mod named;
mod rewrite;
mod room;
#[cfg(all(feature = "weigh", feature = "shrink"))]
mod sequence;
mod tally;
#[cfg(feature = "weigh")]
mod weigh;

use std::env;
use std::process::ExitCode;

use call::Call;
use tally::Tally;

const CALLS: &[Call] = &[
    check::CALL,
    rewrite::CALL,
    #[cfg(feature = "weigh")]
    weigh::CALL,
    #[cfg(feature = "shrink")]
    directed::BLOCKS,
    #[cfg(feature = "shrink")]
    directed::COLLAPSE,
    #[cfg(feature = "shrink")]
    directed::SHRINK,
];

fn main() -> ExitCode {
    let Some((times, seed)) = arguments() else {
        eprintln!("usage: compare [TIMES [SEED]], both whole numbers, TIMES at least 1");
        return ExitCode::from(2);
    };
    let mut tally = Tally::new();
    named::run(&mut tally, CALLS);
    #[cfg(feature = "weigh")]
    weigh::run(&mut tally, times, seed);
    #[cfg(feature = "shrink")]
    directed::run(&mut tally, times, seed);
    #[cfg(all(feature = "weigh", feature = "shrink"))]
    sequence::run(&mut tally, times, seed);
    for call in CALLS {
        call.run(&mut tally, times, seed);
    }
    tally.finish()
}

fn arguments() -> Option<(usize, u64)> {
    let mut words = env::args().skip(1);
    let times = words.next().map_or(Some(1), |word| word.parse().ok())?;
    let seed = words
        .next()
        .map_or(Some(20_260_101), |word| word.parse().ok())?;
    (times >= 1 && words.next().is_none()).then_some((times, seed))
}
