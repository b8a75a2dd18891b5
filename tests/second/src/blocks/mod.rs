//! The coarsest bisimulation of a table, three times: by its definition, by plain passes, and fast.

pub mod definition;
pub mod fast;
pub mod passes;

use std::collections::BTreeMap;

use crate::answer::{Refusal, NO_SUCH_DIRECTION};

#[derive(Clone, Copy, PartialEq, Eq, Debug)]
pub enum Direction {
    Backward,
    Forward,
}

impl Direction {
    pub const BOTH: [Direction; 2] = [Direction::Backward, Direction::Forward];

    pub fn of_number(number: u32) -> Result<Direction, Refusal> {
        match number {
            0 => Ok(Direction::Backward),
            1 => Ok(Direction::Forward),
            _ => Err(Refusal::new(NO_SUCH_DIRECTION, 0)),
        }
    }

    pub fn other(self) -> Direction {
        match self {
            Direction::Backward => Direction::Forward,
            Direction::Forward => Direction::Backward,
        }
    }
}

/// Gives each state the number of its block: states with equal keys share one, and the blocks are
/// numbered by first use, going up the states. There are at most 256.
pub fn numbered_by_first_use<K: Ord>(keys: impl IntoIterator<Item = K>) -> Vec<u8> {
    let mut numbers = BTreeMap::new();
    let number = |key| {
        let next = numbers.len() as u8;
        *numbers.entry(key).or_insert(next)
    };
    keys.into_iter().map(number).collect()
}

/// How many blocks a list numbered by first use has.
pub fn count(blocks: &[u8]) -> usize {
    blocks.iter().max().map_or(0, |&last| usize::from(last) + 1)
}

#[cfg(test)]
mod tests {
    use super::*;
    use crate::examples;
    use crate::make;
    use crate::plant;
    use crate::random::Random;
    use crate::table::{self, Table};

    /// The blocks by every way that can be afforded, which must agree.
    fn agreed(table: &Table, direction: Direction) -> Vec<u8> {
        let blocks = passes::coarsest(table, direction);
        assert_eq!(
            fast::coarsest(table, direction),
            blocks,
            "{direction:?} of {table:?}"
        );
        if table.states() <= definition::MOST_STATES {
            assert_eq!(
                definition::coarsest(table, direction),
                blocks,
                "{direction:?} of {table:?}"
            );
        }
        blocks
    }

    #[test]
    fn every_example() {
        for example in examples::collapses() {
            let table = table::read(&example.table).unwrap();
            let blocks = agreed(&table, example.direction);
            assert_eq!(blocks, example.blocks, "{}", example.name);
        }
    }

    #[test]
    fn all_ways_agree_on_tiny_tables() {
        let mut random = Random::new(8);
        let mut merged = [0, 0];
        for _ in 0..3_000 {
            let table = make::tiny(&mut random);
            for direction in Direction::BOTH {
                let blocks = agreed(&table, direction);
                merged[direction as usize] += usize::from(count(&blocks) < table.states());
            }
        }
        assert!(
            merged.iter().all(|&times| times > 300),
            "too few merges: {merged:?}"
        );
    }

    #[test]
    fn both_passes_agree_on_every_kind() {
        let mut random = Random::new(9);
        for kind in &make::KINDS {
            for _ in 0..if kind.light { 100 } else { 3 } {
                let table = (kind.make)(&mut random);
                for direction in Direction::BOTH {
                    agreed(&table, direction);
                }
            }
        }
    }

    #[test]
    fn planted_blocks_are_found() {
        let mut random = Random::new(10);
        for _ in 0..400 {
            for direction in Direction::BOTH {
                let planted = plant::some(&mut random, direction);
                let blocks = agreed(&planted.table, direction);
                // The coarsest blocks may join planted ones but never part them.
                let joined = numbered_by_first_use(planted.blocks.iter().zip(&blocks));
                assert_eq!(count(&joined), count(&planted.blocks), "{planted:?}");
            }
        }
    }

    #[test]
    fn a_difference_250_levels_away() {
        for direction in Direction::BOTH {
            let alone = agreed(&plant::chain(250), direction);
            assert_eq!(count(&alone), 250);
            let twins = agreed(&plant::twin_chains(125), direction);
            assert_eq!(count(&twins), 125);
            let parted = agreed(&plant::parted_chains(125, direction), direction);
            assert_eq!(count(&parted), 250);
        }
    }
}
