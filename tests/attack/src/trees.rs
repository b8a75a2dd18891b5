//! The groups of inputs that are about trees.

use second::examples;
use second::grow;
use second::make::{self, Shape};
use second::random::Random;
use second::table;
use second::tree::MOST_NODES;

use crate::attack::Attack;
use crate::lengths::Lengths;

/// Up to so many numbers below the bound.
pub fn symbols(random: &mut Random, bound: usize, most: usize) -> Vec<u8> {
    let count = random.below(most + 1);
    (0..count).map(|_| random.below(bound) as u8).collect()
}

fn weigh(attack: &mut Attack, table: &[u8], tree: &[u8], lengths: Lengths) -> Result<(), String> {
    attack.next_input();
    attack.weigh(table, tree, lengths)
}

/// g(g(..a)) of every length, without its end, and with a byte more, in both arithmetics.
pub fn every_length(attack: &mut Attack, _times: usize) -> Result<(), String> {
    for length in 0..=4_200 {
        let open = vec![1; length];
        let whole = [&open[..], &[0]].concat();
        let longer = [&whole[..], &[0]].concat();
        for table in [&examples::A, &examples::C] {
            for tree in [&open, &whole, &longer] {
                weigh(attack, table, tree, Lengths::Few)?;
            }
        }
    }
    Ok(())
}

/// Trees of about as many nodes as there may be, over symbols of every rank, by tables of one state
/// up to as many as there may be.
pub fn around_the_limits(attack: &mut Attack, times: usize) -> Result<(), String> {
    for states in [1, 2, 17, 256] {
        let lengths = if states < 100 {
            Lengths::Edges
        } else {
            Lengths::Few
        };
        for most_rank in 1..=4 {
            for _ in 0..times {
                let bytes = some_table(&mut attack.random, states);
                for nodes in MOST_NODES - 6..=MOST_NODES + 6 {
                    for tree in variants(&mut attack.random, nodes, most_rank) {
                        weigh(attack, &bytes, &tree, lengths)?;
                    }
                }
            }
        }
    }
    Ok(())
}

const RANKS: [u8; 6] = [0, 1, 2, 3, 4, 0];

fn some_table(random: &mut Random, states: usize) -> Vec<u8> {
    let shape = Shape {
        states,
        ranks: RANKS.to_vec(),
        transitions: (40 * states).min(4_000),
        lowest_state: 0,
        code: make::mixed_code,
    };
    table::write(&make::table(random, &shape))
}

/// A tree of so many nodes: as it is, without its last byte, with one more, and with a symbol that
/// isn't in the table as its last.
fn variants(random: &mut Random, nodes: usize, most_rank: u8) -> [Vec<u8>; 4] {
    let tree = grow::tree_of(random, &RANKS, nodes, most_rank).expect("a symbol has rank 0");
    let start = &tree[..tree.len() - 1];
    let longer = [&tree[..], &[0]].concat();
    let foreign = [start, &[RANKS.len() as u8]].concat();
    [start.to_vec(), longer, foreign, tree]
}

/// A small tree over symbols of every rank with each of its bytes changed in every way.
pub fn every_change(attack: &mut Attack, times: usize) -> Result<(), String> {
    for _ in 0..times {
        let table = some_table(&mut attack.random, 3);
        let tree = grow::tree_of(&mut attack.random, &RANKS, 14, 4).expect("a symbol has rank 0");
        for at in 0..tree.len() {
            for byte in (0..=255).filter(|&byte| byte != tree[at]) {
                let mut changed = tree.clone();
                changed[at] = byte;
                weigh(attack, &table, &changed, Lengths::Every)?;
            }
        }
    }
    Ok(())
}

/// Raw bytes, and raw symbols, as trees.
pub fn random(attack: &mut Attack, times: usize) -> Result<(), String> {
    for _ in 0..20_000 * times {
        let random = &mut attack.random;
        let table = table::write(&make::small(random));
        let bound = random.pick(&[2, 3, 6, 256]);
        let most = random.pick(&[5, 30, 30, 30, 6_000]);
        let tree = symbols(random, bound, most);
        weigh(attack, &table, &tree, Lengths::Few)?;
    }
    Ok(())
}

/// What is only read may be the same memory twice: every part of a table as a tree.
pub fn parts_of_the_table(attack: &mut Attack, times: usize) -> Result<(), String> {
    let mut tables = vec![examples::A.to_vec(), examples::C.to_vec()];
    let random = &mut attack.random;
    tables.extend((0..5 * times).map(|_| table::write(&make::tiny(random))));
    for table in tables {
        for end in 0..=table.len() {
            for start in 0..=end {
                attack.next_input();
                attack.weigh_part(&table, start..end, Lengths::Few)?;
            }
        }
    }
    Ok(())
}
