//! The coarsest bisimulation by plain passes: each looks at every state again, until one changes
//! nothing. It is the reference for tables of any size.

use std::collections::BTreeMap;

use super::{numbered_by_first_use, Direction};
use crate::in_arithmetic_of;
use crate::table::{Table, Transition};
use crate::weight::Arithmetic;

pub fn coarsest(table: &Table, direction: Direction) -> Vec<u8> {
    in_arithmetic_of!(table, coarsest_in(table, direction))
}

/// What tells the summed weights of one state apart: the symbol, the child place (forward only),
/// the blocks of the children or the states in the other places, and the block of the target
/// (forward only).
type Choice = (u8, usize, Vec<u8>, u8);

/// The sums that are not zero.
type Sums = BTreeMap<Choice, i64>;

fn coarsest_in<A: Arithmetic>(table: &Table, direction: Direction) -> Vec<u8> {
    let mut blocks = match direction {
        Direction::Backward => vec![0; table.states()],
        Direction::Forward => numbered_by_first_use(&table.finals),
    };
    loop {
        let sums = sums::<A>(table, direction, &blocks);
        let finer = numbered_by_first_use(blocks.iter().zip(&sums));
        if finer == blocks {
            return blocks;
        }
        blocks = finer;
    }
}

/// The sums of every state.
fn sums<A: Arithmetic>(table: &Table, direction: Direction, blocks: &[u8]) -> Vec<Sums> {
    let mut sums = vec![Sums::new(); table.states()];
    for transition in &table.transitions {
        let seen = match direction {
            Direction::Backward => vec![seen_by_target(table, blocks, transition)],
            Direction::Forward => seen_by_children(table, blocks, transition),
        };
        for (state, choice) in seen {
            let sum = sums[usize::from(state)].entry(choice).or_insert(A::ZERO);
            *sum = A::plus(*sum, A::meaning(transition.code));
        }
    }
    for of_state in &mut sums {
        of_state.retain(|_, sum| *sum != A::ZERO);
    }
    sums
}

fn seen_by_target(table: &Table, blocks: &[u8], transition: &Transition) -> (u8, Choice) {
    let children = table.children(transition).iter();
    let child_blocks = children.map(|&child| blocks[usize::from(child)]).collect();
    (transition.target, (transition.symbol, 0, child_blocks, 0))
}

fn seen_by_children(table: &Table, blocks: &[u8], transition: &Transition) -> Vec<(u8, Choice)> {
    let children = table.children(transition);
    let target_block = blocks[usize::from(transition.target)];
    let seen_in = |place: usize| {
        let mut others = children.to_vec();
        let state = others.remove(place);
        (state, (transition.symbol, place, others, target_block))
    };
    (0..children.len()).map(seen_in).collect()
}
