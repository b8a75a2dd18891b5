//! Tables in which blocks were planted, ones that a shrink takes turns with, and deep ones.

use std::collections::BTreeMap;

use crate::blocks::{numbered_by_first_use, Direction};
use crate::make::{self, few_codes};
use crate::random::Random;
use crate::table::{Table, Transition, MOST_RANK, MOST_STATES, MOST_TRANSITIONS};
use crate::weight::{Arithmetic, MaxPlus};

/// A table and a bisimulation of it, numbered by first use.
#[derive(Debug)]
pub struct Planted {
    pub table: Table,
    pub blocks: Vec<u8>,
}

/// What a planted table is to look like.
pub struct Plan {
    pub direction: Direction,
    pub arithmetic: u8,
    pub states: usize,
    pub blocks: usize,
    pub ranks: Vec<u8>,
    /// How many choices of a symbol, child blocks and a target block are drawn. Each becomes many
    /// transitions; there are never more than a table may have.
    pub choices: usize,
}

/// A planted table of some middling plan.
pub fn some(random: &mut Random, direction: Direction) -> Planted {
    let states = random.within(1, 30);
    let symbols = random.within(1, 6);
    let plan = Plan {
        direction,
        arithmetic: random.below(2) as u8,
        states,
        blocks: random.within(1, states),
        ranks: (0..symbols)
            .map(|_| random.pick(&[0, 1, 1, 2, 2, 3]))
            .collect(),
        choices: random.below(40),
    };
    planted(random, &plan)
}

/// A table with 256 states, as many transitions as there may be, all of rank 4, and many merges.
pub fn many_merges(random: &mut Random, direction: Direction) -> Planted {
    let (states, transitions) = (MOST_STATES as usize, MOST_TRANSITIONS as usize);
    merges_within(random, direction, states, transitions)
}

/// A table with so many states, no more than so many transitions and hardly fewer, all of rank 4,
/// and many merges. There are at least 4 states.
pub fn merges_within(
    random: &mut Random,
    direction: Direction,
    states: usize,
    transitions: usize,
) -> Planted {
    // Forward every filling of the child blocks needs its transitions, so the blocks are smaller.
    let states_of_a_block = match direction {
        Direction::Backward => 4,
        Direction::Forward => 2,
    };
    let plan = Plan {
        direction,
        arithmetic: 0,
        states,
        blocks: states / states_of_a_block,
        ranks: vec![MOST_RANK as u8; 8],
        // A choice becomes more than four transitions on average, so there are choices to spare.
        choices: transitions / 4,
    };
    planted_within(random, &plan, transitions)
}

/// A table of this plan.
pub fn planted(random: &mut Random, plan: &Plan) -> Planted {
    planted_within(random, plan, MOST_TRANSITIONS as usize)
}

/// A table of this plan with no more than so many transitions.
fn planted_within(random: &mut Random, plan: &Plan, most: usize) -> Planted {
    let blocks = random_blocks(random, plan);
    let members: Vec<Vec<u8>> = (0..plan.blocks)
        .map(|block| {
            let inside = |&state: &u8| usize::from(blocks[usize::from(state)]) == block;
            (0..=255).take(plan.states).filter(inside).collect()
        })
        .collect();
    let table = Table {
        arithmetic: plan.arithmetic,
        ranks: plan.ranks.clone(),
        finals: finals(random, plan, &blocks),
        transitions: transitions(random, plan, &members, most),
    };
    Planted { table, blocks }
}

/// Puts every state in some block, and some state in every block.
fn random_blocks(random: &mut Random, plan: &Plan) -> Vec<u8> {
    let mut blocks: Vec<usize> = (0..plan.states)
        .map(|state| {
            if state < plan.blocks {
                state
            } else {
                random.below(plan.blocks)
            }
        })
        .collect();
    for end in (1..plan.states).rev() {
        blocks.swap(end, random.below(end + 1));
    }
    numbered_by_first_use(blocks)
}

/// Backward any final codes will do; forward a block's are equal.
fn finals(random: &mut Random, plan: &Plan, blocks: &[u8]) -> Vec<u32> {
    let mut draw = || random.pick(&[0, 0, 1, 5]);
    let drawn: Vec<u32> = (0..plan.states).map(|_| draw()).collect();
    match plan.direction {
        Direction::Backward => drawn,
        Direction::Forward => blocks
            .iter()
            .map(|&block| drawn[usize::from(block)])
            .collect(),
    }
}

/// A choice of a symbol, child blocks and a target block.
type Choice = (u8, Vec<usize>, usize);

fn transitions(
    random: &mut Random,
    plan: &Plan,
    members: &[Vec<u8>],
    most: usize,
) -> Vec<Transition> {
    let mut choices = BTreeMap::new();
    for _ in 0..plan.choices {
        choices.insert(draw_choice(random, plan), draw_sum(random, plan));
    }
    let (direction, arithmetic) = (plan.direction, plan.arithmetic);
    unfolded(random, direction, arithmetic, members, choices, most)
}

/// Transitions that collapse to these choices with these sums. A choice that would make them more
/// than `most` is left out.
fn unfolded(
    random: &mut Random,
    direction: Direction,
    arithmetic: u8,
    members: &[Vec<u8>],
    choices: BTreeMap<Choice, u32>,
    most: usize,
) -> Vec<Transition> {
    let unfold = match direction {
        Direction::Backward => into_each_target,
        Direction::Forward => from_each_filling,
    };
    let mut by_key = BTreeMap::new();
    for (choice, sum) in choices {
        let added = unfold(random, arithmetic, members, &choice, sum);
        if by_key.len() + added.len() <= most {
            by_key.extend(
                added
                    .into_iter()
                    .map(|transition| (transition.key(), transition)),
            );
        }
    }
    by_key.into_values().collect()
}

fn draw_choice(random: &mut Random, plan: &Plan) -> Choice {
    let symbol = random.below(plan.ranks.len());
    let children = (0..plan.ranks[symbol])
        .map(|_| random.below(plan.blocks))
        .collect();
    (symbol as u8, children, random.below(plan.blocks))
}

/// The code of a sum. In arithmetic 0 weights that are not zero may sum to zero.
fn draw_sum(random: &mut Random, plan: &Plan) -> u32 {
    if plan.arithmetic == 0 && random.one_in(6) {
        0
    } else {
        few_codes(random)
    }
}

/// For each target of the block, transitions with children in the child blocks that have the sum.
fn into_each_target(
    random: &mut Random,
    arithmetic: u8,
    members: &[Vec<u8>],
    (symbol, child_blocks, target_block): &Choice,
    sum: u32,
) -> Vec<Transition> {
    let mut added = Vec::new();
    for &target in &members[*target_block] {
        let words = one_to_three(random, |random| {
            child_blocks
                .iter()
                .map(|&block| random.pick(&members[block]))
                .collect::<Vec<u8>>()
        });
        let codes = parts(random, arithmetic, sum, words.len());
        for (word, code) in words.iter().zip(codes) {
            added.push(transition(*symbol, word, target, code));
        }
    }
    added
}

/// For each filling of the child blocks, transitions into the target block that have the sum.
fn from_each_filling(
    random: &mut Random,
    arithmetic: u8,
    members: &[Vec<u8>],
    (symbol, child_blocks, target_block): &Choice,
    sum: u32,
) -> Vec<Transition> {
    let mut words = vec![vec![]];
    for &block in child_blocks {
        let extended = |word: Vec<u8>| {
            members[block]
                .iter()
                .map(move |&child| [&word[..], &[child]].concat())
        };
        words = words.into_iter().flat_map(extended).collect();
    }
    let mut added = Vec::new();
    for word in words {
        let targets = one_to_three(random, |random| random.pick(&members[*target_block]));
        let codes = parts(random, arithmetic, sum, targets.len());
        for (&target, code) in targets.iter().zip(codes) {
            added.push(transition(*symbol, &word, target, code));
        }
    }
    added
}

/// One to three different things.
fn one_to_three<T: Ord>(random: &mut Random, draw: impl Fn(&mut Random) -> T) -> Vec<T> {
    let mut drawn: Vec<T> = (0..random.within(1, 3)).map(|_| draw(random)).collect();
    drawn.sort_unstable();
    drawn.dedup();
    drawn
}

/// So many codes, none of them 0, with this sum. A sum of zero has none if one code is wanted.
fn parts(random: &mut Random, arithmetic: u8, sum: u32, count: usize) -> Vec<u32> {
    match arithmetic {
        0 if sum == 0 && count == 1 => vec![],
        0 => parts_of_sum(random, sum, count),
        _ => parts_of_maximum(random, sum, count),
    }
}

fn parts_of_sum(random: &mut Random, sum: u32, count: usize) -> Vec<u32> {
    loop {
        let mut parts: Vec<u32> = (1..count).map(|_| few_codes(random)).collect();
        let rest = parts
            .iter()
            .fold(sum, |rest, &part| rest.wrapping_sub(part));
        if rest != 0 {
            parts.push(rest);
            return parts;
        }
    }
}

fn parts_of_maximum(random: &mut Random, greatest: u32, count: usize) -> Vec<u32> {
    let mut parts: Vec<u32> = (1..count)
        .map(|_| few_codes(random))
        .map(|code| {
            if MaxPlus::meaning(code) < MaxPlus::meaning(greatest) {
                code
            } else {
                greatest
            }
        })
        .collect();
    parts.push(greatest);
    parts
}

fn transition(symbol: u8, word: &[u8], target: u8, code: u32) -> Transition {
    let mut children = [0; MOST_RANK as usize];
    children[..word.len()].copy_from_slice(word);
    Transition {
        symbol,
        children,
        target,
        code,
    }
}

/// A table with which a shrink takes turns: one state was parted in two that a collapse merges,
/// again and again and each time on the other side, so that a merge shows only once the parting
/// after it is undone. The last parting was on this side.
pub fn ladder(random: &mut Random, last: Direction) -> Table {
    let mut table = make::tiny(random);
    let partings = random.within(1, 6);
    for left in (0..partings).rev() {
        let side = if left % 2 == 0 { last } else { last.other() };
        table = parted(random, &table, side);
    }
    table
}

/// The table with one state more, which the collapse of this direction merges with state 0.
fn parted(random: &mut Random, table: &Table, direction: Direction) -> Table {
    let new = table.states() as u8;
    let mut members: Vec<Vec<u8>> = (0..new).map(|state| vec![state]).collect();
    members[0].push(new);
    let as_choice = |t: &Transition| {
        let children = table.children(t).iter().map(|&child| usize::from(child));
        let choice = (t.symbol, children.collect(), usize::from(t.target));
        (choice, t.code)
    };
    let choices = table.transitions.iter().map(as_choice).collect();
    let mut finals = table.finals.clone();
    let shared = match direction {
        Direction::Backward => parts(random, table.arithmetic, finals[0], 2),
        Direction::Forward => vec![finals[0]; 2],
    };
    finals[0] = shared[0];
    finals.push(shared[1]);
    let (arithmetic, most) = (table.arithmetic, MOST_TRANSITIONS as usize);
    Table {
        arithmetic,
        ranks: table.ranks.clone(),
        finals,
        transitions: unfolded(random, direction, arithmetic, &members, choices, most),
    }
}

/// So many chains side by side, all of weight 1: each begins with the symbol of rank 0 and goes up
/// by that of rank 1, and its last state is final. State numbers go up level by level.
fn chains(levels: usize, chains: usize) -> Table {
    let leaves = (0..chains).map(|state| transition(0, &[], state as u8, 1));
    let steps = (0..(levels - 1) * chains)
        .map(|state| transition(1, &[state as u8], (state + chains) as u8, 1));
    let last = (levels - 1) * chains;
    Table {
        arithmetic: 0,
        ranks: vec![0, 1],
        finals: (0..levels * chains)
            .map(|state| u32::from(state >= last))
            .collect(),
        transitions: leaves.chain(steps).collect(),
    }
}

/// One chain, as document 01's table E. In both directions its states are all different, and it
/// takes as many passes as there are levels to see it.
pub fn chain(levels: usize) -> Table {
    chains(levels, 1)
}

/// Two chains of which the states of one level are alike in both directions.
pub fn twin_chains(levels: usize) -> Table {
    chains(levels, 2)
}

/// Two chains that differ only where the direction looks last.
pub fn parted_chains(levels: usize, direction: Direction) -> Table {
    let mut table = chains(levels, 2);
    match direction {
        Direction::Backward => table.transitions[1].code = 2,
        Direction::Forward => table.finals[2 * levels - 1] = 2,
    }
    table
}

#[cfg(test)]
mod tests {
    use super::*;
    use crate::collapse::collapse;

    /// How many collapses of a shrink from this side merge states.
    fn turns(table: &Table, first: Direction) -> usize {
        let collapsed = collapse(table, first);
        if collapsed.states() == table.states() {
            0
        } else {
            1 + turns(&collapsed, first.other())
        }
    }

    #[test]
    fn ladders_take_turns() {
        let mut random = Random::new(16);
        for last in Direction::BOTH {
            let many = (0..200).filter(|_| turns(&ladder(&mut random, last), last) >= 3);
            assert!(many.count() >= 20);
        }
    }
}
