//! What is timed: a call of the library, the same work in plain Rust, and an input.

#[cfg(feature = "shrink")]
mod directed;
pub mod growth;
#[cfg(feature = "weigh")]
mod weigh;

use std::hint::black_box;

use second::examples;
use second::make::{self, Shape};
use second::random::Random;
use second::table;

const SEED: u64 = 20_260_101;

pub struct Case {
    pub call: &'static str,
    pub input: String,
    pub bytes: usize,
    /// The library's call.
    pub library: Box<dyn Fn()>,
    /// The same work in plain Rust.
    pub plain: Box<dyn Fn()>,
}

pub fn all() -> Vec<Case> {
    let groups = [
        checks(),
        #[cfg(feature = "weigh")]
        weigh::all(),
        #[cfg(feature = "shrink")]
        directed::all(),
    ];
    groups.into_iter().flatten().collect()
}

fn checks() -> Vec<Case> {
    tables()
        .into_iter()
        .map(|(input, table)| check(input.to_string(), table))
        .collect()
}

/// Checking: the library's `check` against the second program's reader, which keeps the table that
/// it has read (in memory that it asks for and gives back each time).
fn check(input: String, table: Vec<u8>) -> Case {
    let same_table = table.clone();
    Case {
        call: "check",
        input,
        bytes: table.len(),
        library: Box::new(move || {
            black_box(face::check(black_box(&table)));
        }),
        plain: Box::new(move || {
            black_box(table::read(black_box(&same_table)).is_ok());
        }),
    }
}

fn tables() -> Vec<(&'static str, Vec<u8>)> {
    let random = &mut Random::new(SEED);
    vec![
        ("the longest table", table::write(&make::longest(random))),
        (
            "rank 4, 4,000 transitions, small numbers",
            small_numbers(random, 4),
        ),
        (
            "rank 1, 4,000 transitions, small numbers",
            small_numbers(random, 1),
        ),
        ("table A", examples::A.to_vec()),
    ]
}

/// 4,000 transitions of four symbols of this rank, every number in one byte.
fn small_numbers(random: &mut Random, rank: u8) -> Vec<u8> {
    let shape = Shape {
        states: 100,
        ranks: vec![rank; 4],
        transitions: 4_000,
        lowest_state: 0,
        code: make::small_code,
    };
    table::write(&make::table(random, &shape))
}
