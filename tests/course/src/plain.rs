//! The plain shrinker: document 01's collapse, step by step and without haste. A wrong shrinker is
//! this one with one of the first steps replaced.

use std::collections::BTreeMap;

use second::blocks::{count, numbered_by_first_use, Direction};
use second::table::{self, Table, Transition};
use second::weight::{Arithmetic, MaxPlus, Modulo, NOTHING};

pub trait Shrinker: Sync {
    /// The weight that a code means.
    fn meaning(&self, arithmetic: u8, code: u32) -> i64 {
        match arithmetic {
            0 => i64::from(code),
            _ if code == 0 => NOTHING,
            _ => halved(i64::from(code) - 1),
        }
    }

    /// The blocks before the first pass.
    fn first_blocks(&self, table: &Table, direction: Direction) -> Vec<u8> {
        match direction {
            Direction::Backward => vec![0; table.states()],
            Direction::Forward => numbered_by_first_use(self.finals(table)),
        }
    }

    /// The coarsest blocks.
    fn blocks(&self, table: &Table, direction: Direction) -> Vec<u8> {
        let mut blocks = self.first_blocks(table, direction);
        loop {
            let finer = self.pass(table, direction, &blocks);
            if finer == blocks {
                return blocks;
            }
            blocks = finer;
        }
    }

    /// The final weight of a block, from those of its members.
    fn final_weight(&self, arithmetic: u8, direction: Direction, members: &[i64]) -> i64 {
        match direction {
            Direction::Backward => self.sum(arithmetic, members),
            Direction::Forward => members[0],
        }
    }

    /// The weight of a collapsed transition, from those that it stands for.
    fn transition_weight(&self, arithmetic: u8, weights: &[i64]) -> i64 {
        self.sum(arithmetic, weights)
    }

    /// Whether a collapsed transition of this weight is written.
    fn is_written(&self, arithmetic: u8, weight: i64) -> bool {
        weight != self.zero(arithmetic)
    }

    // From here on, what no wrong shrinker replaces.

    /// The weight of what isn't listed.
    fn zero(&self, arithmetic: u8) -> i64 {
        self.meaning(arithmetic, 0)
    }

    fn sum(&self, arithmetic: u8, weights: &[i64]) -> i64 {
        let plus = match arithmetic {
            0 => Modulo::plus,
            _ => MaxPlus::plus,
        };
        weights.iter().copied().fold(self.zero(arithmetic), plus)
    }

    /// The final weight of each state.
    fn finals(&self, table: &Table) -> Vec<i64> {
        let finals = table.finals.iter();
        finals
            .map(|&code| self.meaning(table.arithmetic, code))
            .collect()
    }

    /// Parts the states of a block that differ in a sum.
    fn pass(&self, table: &Table, direction: Direction, blocks: &[u8]) -> Vec<u8> {
        let mut weights = vec![BTreeMap::<Vec<u8>, Vec<i64>>::new(); table.states()];
        for transition in &table.transitions {
            let weight = self.meaning(table.arithmetic, transition.code);
            for (state, choice) in choices(table, direction, blocks, transition) {
                let of_state = &mut weights[usize::from(state)];
                of_state.entry(choice).or_default().push(weight);
            }
        }
        let zero = self.zero(table.arithmetic);
        let sums = weights.into_iter().map(|of_state| {
            let sums = of_state
                .into_iter()
                .map(|(choice, weights)| (choice, self.sum(table.arithmetic, &weights)));
            sums.filter(|(_, sum)| *sum != zero).collect::<Vec<_>>()
        });
        numbered_by_first_use(blocks.iter().zip(sums))
    }

    fn collapse(&self, table: &Table, direction: Direction, blocks: &[u8]) -> Table {
        let finals = self.finals(table);
        let final_code = |block| {
            let members = (0..table.states()).filter(|&state| usize::from(blocks[state]) == block);
            let members: Vec<i64> = members.map(|state| finals[state]).collect();
            let weight = self.final_weight(table.arithmetic, direction, &members);
            code(table.arithmetic, weight)
        };
        Table {
            arithmetic: table.arithmetic,
            ranks: table.ranks.clone(),
            finals: (0..count(blocks)).map(final_code).collect(),
            transitions: self.transitions(table, direction, blocks),
        }
    }

    fn transitions(&self, table: &Table, direction: Direction, blocks: &[u8]) -> Vec<Transition> {
        let listed = table.transitions.iter();
        let counting = listed.filter(|transition| counts(table, direction, blocks, transition));
        let mut renamed: Vec<Transition> = counting.map(|t| rename(table, blocks, t)).collect();
        renamed.sort_by_key(Transition::key);
        let alike = renamed.chunk_by(|a, b| a.key() == b.key());
        alike
            .filter_map(|alike| self.one_for(table.arithmetic, alike))
            .collect()
    }

    /// One transition for those with the same symbol, child blocks and target block.
    fn one_for(&self, arithmetic: u8, alike: &[Transition]) -> Option<Transition> {
        let weights = alike.iter().map(|t| self.meaning(arithmetic, t.code));
        let weight = self.transition_weight(arithmetic, &weights.collect::<Vec<_>>());
        self.is_written(arithmetic, weight).then(|| Transition {
            code: code(arithmetic, weight),
            ..alike[0]
        })
    }

    fn answer(&self, table: &Table, direction: Direction) -> Answer {
        let blocks = self.blocks(table, direction);
        let collapsed = self.collapse(table, direction, &blocks);
        Answer {
            blocks,
            bytes: table::write(&collapsed),
            collapsed,
        }
    }
}

/// What a shrinker makes of a table in one direction.
#[derive(Clone, PartialEq, Eq, Debug)]
pub struct Answer {
    pub blocks: Vec<u8>,
    pub collapsed: Table,
    pub bytes: Vec<u8>,
}

/// The shrinker with every step as it should be.
pub struct Plain;

impl Shrinker for Plain {}

/// z/2 for even z and -(z + 1)/2 for odd z.
pub fn halved(z: i64) -> i64 {
    if z % 2 == 0 {
        z / 2
    } else {
        -(z + 1) / 2
    }
}

fn code(arithmetic: u8, weight: i64) -> u32 {
    match arithmetic {
        0 => Modulo::code(weight),
        _ => MaxPlus::code(weight),
    }
}

/// The states that a transition is about, each with what its weight is added up under: backward the
/// target, with the symbol and the child blocks; forward each child, with the symbol, its place, the
/// other children and the target block.
fn choices(
    table: &Table,
    direction: Direction,
    blocks: &[u8],
    transition: &Transition,
) -> Vec<(u8, Vec<u8>)> {
    let block = |&state: &u8| blocks[usize::from(state)];
    let children = table.children(transition);
    match direction {
        Direction::Backward => {
            let child_blocks = children.iter().map(block);
            let choice = [transition.symbol].into_iter().chain(child_blocks);
            vec![(transition.target, choice.collect())]
        }
        Direction::Forward => {
            let choice = |place: usize| {
                let head = [transition.symbol, place as u8, block(&transition.target)];
                [&head, &children[..place], &children[place + 1..]].concat()
            };
            let places = children.iter().enumerate();
            places
                .map(|(place, &child)| (child, choice(place)))
                .collect()
        }
    }
}

/// Whether a transition is one of those that are added up: the first state of a block stands for it,
/// backward as the target, forward as a child.
fn counts(table: &Table, direction: Direction, blocks: &[u8], transition: &Transition) -> bool {
    let is_first = |&state: &u8| {
        let state = usize::from(state);
        !blocks[..state].contains(&blocks[state])
    };
    match direction {
        Direction::Backward => is_first(&transition.target),
        Direction::Forward => table.children(transition).iter().all(is_first),
    }
}

/// The transition with blocks for states.
fn rename(table: &Table, blocks: &[u8], transition: &Transition) -> Transition {
    let mut renamed = *transition;
    renamed.target = blocks[usize::from(transition.target)];
    for child in &mut renamed.children[..table.rank(transition.symbol)] {
        *child = blocks[usize::from(*child)];
    }
    renamed
}

#[cfg(test)]
mod tests {
    use super::*;
    use crate::library;
    use crate::search;
    use second::examples;
    use second::make;
    use second::random::Random;

    #[test]
    fn every_example() {
        for example in examples::collapses() {
            let table = table::read(&example.table).unwrap();
            let answer = Plain.answer(&table, example.direction);
            assert_eq!(answer.blocks, example.blocks, "{}", example.name);
            assert_eq!(answer.bytes, example.collapsed, "{}", example.name);
        }
    }

    /// Beyond this length there are so many tables that asking the library takes minutes.
    const MOST_BYTES: usize = 13;

    #[test]
    fn the_library_says_the_same_of_the_first_tables_of_the_search() {
        let mut tried = 0;
        search::each(|bytes| {
            let is_over = bytes.len() > MOST_BYTES;
            if !is_over {
                same_as_the_library(bytes);
                tried += 1;
            }
            is_over
        });
        assert!(tried > 20_000, "only {tried}");
    }

    #[test]
    fn the_library_says_the_same_of_random_tables() {
        let mut random = Random::new(16);
        for _ in 0..1_000 {
            same_as_the_library(&table::write(&make::tiny(&mut random)));
            same_as_the_library(&table::write(&make::small(&mut random)));
        }
    }

    fn same_as_the_library(bytes: &[u8]) {
        let table = table::read(bytes).unwrap();
        for direction in Direction::BOTH {
            let plain = Plain.answer(&table, direction);
            assert_eq!(plain, library::answer(bytes, direction), "{bytes:?}");
        }
    }
}
