//! Collapsing a table by its coarsest bisimulation, and shrinking it by turns.

use crate::blocks::{self, passes, Direction};
use crate::in_arithmetic_of;
use crate::table::{Table, Transition};
use crate::weight::Arithmetic;

/// The collapse of a table by its coarsest bisimulation of this direction.
pub fn collapse(table: &Table, direction: Direction) -> Table {
    collapse_by(table, direction, &passes::coarsest(table, direction))
}

/// The collapse of a table by a bisimulation of this direction, numbered by first use.
pub fn collapse_by(table: &Table, direction: Direction, blocks: &[u8]) -> Table {
    in_arithmetic_of!(table, collapse_in(table, direction, blocks))
}

/// From the first side on, collapses take turns until one merges no states.
pub fn shrink(table: &Table, first: Direction) -> Table {
    shrink_by(table, first, passes::coarsest)
}

/// The same with any way to find the coarsest bisimulation.
pub fn shrink_by(
    table: &Table,
    first: Direction,
    coarsest: fn(&Table, Direction) -> Vec<u8>,
) -> Table {
    let mut direction = first;
    let mut table = table.clone();
    loop {
        let collapsed = collapse_by(&table, direction, &coarsest(&table, direction));
        let has_merged = collapsed.states() < table.states();
        table = collapsed;
        if !has_merged {
            return table;
        }
        direction = direction.other();
    }
}

fn collapse_in<A: Arithmetic>(table: &Table, direction: Direction, blocks: &[u8]) -> Table {
    Table {
        arithmetic: table.arithmetic,
        ranks: table.ranks.clone(),
        finals: finals::<A>(table, direction, blocks),
        transitions: transitions::<A>(table, direction, blocks),
    }
}

/// Whether each state is the first of its block and stands for it where any member would do.
fn stand_for_blocks(blocks: &[u8]) -> Vec<bool> {
    let mut known = 0;
    let is_new = |&block: &u8| {
        let is_new = usize::from(block) == known;
        known += usize::from(is_new);
        is_new
    };
    blocks.iter().map(is_new).collect()
}

/// Backward a block's final weights are added up, forward they are all the same.
fn finals<A: Arithmetic>(table: &Table, direction: Direction, blocks: &[u8]) -> Vec<u32> {
    let mut sums = vec![A::ZERO; blocks::count(blocks)];
    for (&block, &code) in blocks.iter().zip(&table.finals) {
        let sum = &mut sums[usize::from(block)];
        *sum = match direction {
            Direction::Backward => A::plus(*sum, A::meaning(code)),
            Direction::Forward => A::meaning(code),
        };
    }
    sums.into_iter().map(A::code).collect()
}

fn transitions<A: Arithmetic>(
    table: &Table,
    direction: Direction,
    blocks: &[u8],
) -> Vec<Transition> {
    let stands = stand_for_blocks(blocks);
    let stands = |&state: &u8| stands[usize::from(state)];
    let counts = |transition: &&Transition| match direction {
        Direction::Backward => stands(&transition.target),
        Direction::Forward => table.children(transition).iter().all(stands),
    };
    let counting = table.transitions.iter().filter(counts);
    let mut renamed: Vec<Transition> = counting.map(|t| rename(table, t, blocks)).collect();
    renamed.sort_unstable_by_key(Transition::key);
    renamed
        .chunk_by(|a, b| a.key() == b.key())
        .filter_map(added_up::<A>)
        .collect()
}

/// The transition with blocks for states.
fn rename(table: &Table, transition: &Transition, blocks: &[u8]) -> Transition {
    let block = |state: u8| blocks[usize::from(state)];
    let mut renamed = *transition;
    renamed.target = block(transition.target);
    for (child, &before) in renamed.children.iter_mut().zip(table.children(transition)) {
        *child = block(before);
    }
    renamed
}

/// One transition for several with the same symbol, children and target, unless the sum is zero.
fn added_up<A: Arithmetic>(alike: &[Transition]) -> Option<Transition> {
    let sum = alike
        .iter()
        .map(|t| A::meaning(t.code))
        .fold(A::ZERO, A::plus);
    (sum != A::ZERO).then(|| Transition {
        code: A::code(sum),
        ..alike[0]
    })
}

#[cfg(test)]
mod tests {
    use super::*;
    use crate::examples;
    use crate::grow;
    use crate::make;
    use crate::plant;
    use crate::random::Random;
    use crate::table;
    use crate::weight;

    fn weight_of(table: &Table, tree: &[u8]) -> i64 {
        weight::weigh(table, tree, &mut vec![0; tree.len() * table.states()])
    }

    #[test]
    fn every_example() {
        for example in examples::collapses() {
            let table = table::read(&example.table).unwrap();
            let collapsed = table::write(&collapse(&table, example.direction));
            assert_eq!(collapsed, example.collapsed, "{}", example.name);
        }
    }

    #[test]
    fn a_shrink_of_b_ends_at_once_from_the_backward_side() {
        let b = table::read(&examples::B).unwrap();
        assert_eq!(shrink(&b, Direction::Backward), b);
        assert_eq!(shrink(&b, Direction::Forward).states(), 2);
    }

    /// The weight of a transition, listed or not.
    fn listed<A: Arithmetic>(table: &Table, symbol: u8, children: &[u8], target: u8) -> i64 {
        let found = table
            .transitions
            .iter()
            .find(|t| t.symbol == symbol && table.children(t) == children && t.target == target);
        A::meaning(found.map_or(0, |t| t.code))
    }

    /// Every list of `length` numbers below `bound`.
    fn words(bound: usize, length: u8) -> Vec<Vec<u8>> {
        (0..length).fold(vec![vec![]], |words, _| {
            let extended =
                |word: Vec<u8>| (0..bound as u8).map(move |number| [&word[..], &[number]].concat());
            words.into_iter().flat_map(extended).collect()
        })
    }

    /// Definitions 3 and 18 word for word: whichever members stand for the blocks, the sum is the
    /// collapsed table's weight.
    fn is_by_definition<A: Arithmetic>(
        table: &Table,
        direction: Direction,
        blocks: &[u8],
        collapsed: &Table,
    ) {
        let block = |&state: &u8| blocks[usize::from(state)];
        for (symbol, &rank) in table.ranks.iter().enumerate() {
            let symbol = symbol as u8;
            let all_words = words(table.states(), rank);
            for word in &all_words {
                let choice: Vec<u8> = word.iter().map(block).collect();
                for target in 0..table.states() as u8 {
                    let weights: Vec<i64> = match direction {
                        Direction::Backward => all_words
                            .iter()
                            .filter(|other| other.iter().map(block).eq(choice.iter().copied()))
                            .map(|other| listed::<A>(table, symbol, other, target))
                            .collect(),
                        Direction::Forward => (0..table.states() as u8)
                            .filter(|other| block(other) == block(&target))
                            .map(|other| listed::<A>(table, symbol, word, other))
                            .collect(),
                    };
                    let sum = weights.into_iter().fold(A::ZERO, A::plus);
                    assert_eq!(listed::<A>(collapsed, symbol, &choice, block(&target)), sum);
                }
            }
        }
    }

    #[test]
    fn collapses_of_tiny_tables_are_by_definition() {
        let mut random = Random::new(11);
        for _ in 0..300 {
            let table = make::tiny(&mut random);
            for direction in Direction::BOTH {
                let blocks = passes::coarsest(&table, direction);
                let collapsed = collapse_by(&table, direction, &blocks);
                in_arithmetic_of!(
                    table,
                    is_by_definition(&table, direction, &blocks, &collapsed)
                );
            }
        }
    }

    /// A table that merges states, of some kind or planted.
    fn some_table(random: &mut Random) -> Table {
        match random.below(4) {
            0 => make::tiny(random),
            1 => make::small(random),
            2 => plant::some(random, Direction::Backward).table,
            _ => plant::some(random, Direction::Forward).table,
        }
    }

    #[test]
    fn collapses_in_any_order_keep_every_weight() {
        let mut random = Random::new(12);
        let mut weights_that_are_not_zero = 0;
        for _ in 0..500 {
            let start = some_table(&mut random);
            let trees: Vec<Vec<u8>> = (0..8)
                .filter_map(|_| grow::tree(&mut random, &start.ranks, 12))
                .collect();
            let weights: Vec<i64> = trees.iter().map(|tree| weight_of(&start, tree)).collect();
            let zero = if start.arithmetic == 0 {
                0
            } else {
                weight::NOTHING
            };
            weights_that_are_not_zero += weights.iter().filter(|&&weight| weight != zero).count();
            let mut now = start;
            for _ in 0..4 {
                let direction = random.pick(&Direction::BOTH);
                now = collapse(&now, direction);
                assert_eq!(collapse(&now, direction), now);
                assert_eq!(table::read(&table::write(&now)).as_ref(), Ok(&now));
                for (tree, &weight) in trees.iter().zip(&weights) {
                    assert_eq!(weight_of(&now, tree), weight);
                }
            }
        }
        assert!(
            weights_that_are_not_zero > 500,
            "only {weights_that_are_not_zero}"
        );
    }
}
