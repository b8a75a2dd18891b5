//! How the time grows: with the depth, with the states, and with the transitions while the states
//! stay.

use second::blocks::Direction;
use second::plant;
use second::random::Random;
use second::table::{self, MOST_STATES, MOST_TRANSITIONS};

#[cfg(feature = "shrink")]
use super::directed::{self, Call, Input};
use super::{check, Case, SEED};

const LEVELS: [usize; 5] = [50, 100, 150, 200, 250];
const STATES: [usize; 4] = [32, 64, 128, 256];
const TRANSITIONS: [usize; 4] = [500, 1_000, 2_000, 4_000];

/// A case, and the direction of its call in words.
pub struct Row {
    pub direction: &'static str,
    pub case: Case,
}

/// By call and direction, and each family from its smallest table to its largest.
pub fn all() -> Vec<Row> {
    let groups = [
        checks(),
        #[cfg(feature = "shrink")]
        in_both_directions(directed::BLOCKS),
        #[cfg(feature = "shrink")]
        in_both_directions(directed::COLLAPSE),
    ];
    groups.into_iter().flatten().collect()
}

/// A check has no direction, so the tables of one will do.
fn checks() -> Vec<Row> {
    let row = |(name, table)| Row {
        direction: "-",
        case: check(name, table),
    };
    tables(Direction::Backward).into_iter().map(row).collect()
}

#[cfg(feature = "shrink")]
fn in_both_directions(call: Call) -> Vec<Row> {
    let in_direction = |direction| {
        tables(direction).into_iter().map(move |(name, table)| Row {
            direction: ["backward", "forward"][direction as usize],
            case: directed::case(
                call,
                &Input {
                    name,
                    direction,
                    table,
                },
            ),
        })
    };
    Direction::BOTH.into_iter().flat_map(in_direction).collect()
}

/// The tables of the three families, each with its name.
fn tables(direction: Direction) -> Vec<(String, Vec<u8>)> {
    let (most_states, most_transitions) = (MOST_STATES as usize, MOST_TRANSITIONS as usize);
    let deeper = LEVELS.map(chain);
    let more_states = STATES.map(|states| merges(direction, states, most_transitions));
    let more_transitions =
        TRANSITIONS.map(|transitions| merges(direction, most_states, transitions));
    deeper
        .into_iter()
        .chain(more_states)
        .chain(more_transitions)
        .collect()
}

fn chain(levels: usize) -> (String, Vec<u8>) {
    let name = format!("a chain of {levels} levels");
    (name, table::write(&plant::chain(levels)))
}

/// Many merges in this direction. Every table is drawn from the same seed, so that one with the
/// same numbers is the same table.
fn merges(direction: Direction, states: usize, transitions: usize) -> (String, Vec<u8>) {
    let random = &mut Random::new(SEED);
    let table = plant::merges_within(random, direction, states, transitions).table;
    let transitions = table.transitions.len();
    let name = format!("many merges, {states} states, {transitions} transitions");
    (name, table::write(&table))
}
