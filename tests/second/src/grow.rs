//! Random trees, whole and damaged.

use crate::random::Random;
use crate::table::MOST_RANK;
use crate::tree::MOST_NODES;

/// A tree over symbols of these ranks with at most so many nodes, mostly with few less. There is
/// none if no symbol has rank 0.
pub fn tree(random: &mut Random, ranks: &[u8], most: usize) -> Option<Vec<u8>> {
    let nodes = random.within(1, most);
    tree_of(random, ranks, nodes, MOST_RANK as u8)
}

/// A tree with so many nodes, none of a greater rank than this one. It has fewer nodes where no
/// symbol fills the last places; one of rank 1 always does.
pub fn tree_of(random: &mut Random, ranks: &[u8], nodes: usize, most: u8) -> Option<Vec<u8>> {
    let rank = |symbol: u8| ranks[usize::from(symbol)];
    let mut symbols: Vec<u8> = (0..ranks.len() as u8)
        .filter(|&symbol| rank(symbol) <= most)
        .collect();
    symbols.sort_by_key(|&symbol| rank(symbol));
    let up_to = |most: usize| symbols.partition_point(|&symbol| usize::from(rank(symbol)) <= most);
    let leaves = up_to(0);
    if leaves == 0 {
        return None;
    }
    let mut tree = Vec::with_capacity(nodes);
    let mut due = 1;
    // The nodes that there may be beside those that are due.
    let mut spare = nodes - 1;
    while due > 0 {
        let fitting = up_to(spare);
        // A leaf for the last node due would end the tree before it is as large as wanted.
        let first = if due == 1 && fitting > leaves {
            leaves
        } else {
            0
        };
        let symbol = random.pick(&symbols[first..fitting]);
        tree.push(symbol);
        let children = usize::from(rank(symbol));
        due = due + children - 1;
        spare -= children;
    }
    Some(tree)
}

/// Bytes that were a tree over symbols of these ranks before some damage. They may still be one by
/// chance.
pub fn damaged(random: &mut Random, ranks: &[u8], most: usize) -> Vec<u8> {
    let tree = tree(random, ranks, most).unwrap_or_default();
    match random.below(6) {
        0 => tree[..random.below(tree.len() + 1)].to_vec(),
        1 => extended(random, tree),
        2 => with_one_byte(random, tree, |random| foreign(random, ranks)),
        3 => with_one_byte(random, tree, |random| random.below(ranks.len()) as u8),
        4 => too_large(random, ranks),
        _ => {
            let count = random.below(12);
            let bound = ranks.len() + 1;
            (0..count).map(|_| random.below(bound) as u8).collect()
        }
    }
}

fn extended(random: &mut Random, mut tree: Vec<u8>) -> Vec<u8> {
    for _ in 0..random.within(1, 4) {
        tree.push(random.byte());
    }
    tree
}

fn with_one_byte(
    random: &mut Random,
    mut tree: Vec<u8>,
    draw: impl Fn(&mut Random) -> u8,
) -> Vec<u8> {
    if !tree.is_empty() {
        let at = random.below(tree.len());
        tree[at] = draw(random);
    }
    tree
}

/// A symbol that is not in the table, often the first that isn't.
fn foreign(random: &mut Random, ranks: &[u8]) -> u8 {
    if random.one_in(2) {
        ranks.len() as u8
    } else {
        random.within(ranks.len(), 255) as u8
    }
}

/// A tree that has about as many nodes as there may be and does not end, or only just, or goes on
/// with a foreign symbol. Without a symbol that has children there is none.
fn too_large(random: &mut Random, ranks: &[u8]) -> Vec<u8> {
    let (leaves, inner): (Vec<u8>, Vec<u8>) =
        (0..ranks.len() as u8).partition(|&symbol| ranks[usize::from(symbol)] == 0);
    if inner.is_empty() {
        return leaves;
    }
    let length = random.within(MOST_NODES - 1, MOST_NODES + 2);
    let mut tree: Vec<u8> = (0..length).map(|_| random.pick(&inner)).collect();
    if random.one_in(2) {
        tree[length - 1] = foreign(random, ranks);
    } else if !leaves.is_empty() {
        tree[length - 1] = random.pick(&leaves);
    }
    tree
}

#[cfg(test)]
mod tests {
    use super::*;
    use crate::tree;
    use std::collections::BTreeSet;

    #[test]
    fn trees_are_whole_and_as_large_as_wanted() {
        let mut random = Random::new(14);
        for nodes in [1, 2, 7, 100, MOST_NODES] {
            for most in 1..=4 {
                let ranks = [4, 1, 0, 3, 2, 0];
                let tree = tree_of(&mut random, &ranks, nodes, most).unwrap();
                assert_eq!(tree::check(&ranks, &tree), Ok(nodes));
            }
        }
        assert_eq!(tree_of(&mut random, &[0, 2], 4, 4).unwrap().len(), 3);
        assert_eq!(tree_of(&mut random, &[1, 2], 4, 4), None);
    }

    #[test]
    fn the_damages_meet_every_refusal() {
        let mut random = Random::new(15);
        let ranks = [0, 1, 2, 0];
        let codes: BTreeSet<u32> = (0..500)
            .filter_map(|_| tree::check(&ranks, &damaged(&mut random, &ranks, 20)).err())
            .map(|refusal| refusal.code)
            .collect();
        assert_eq!(codes, (8..=11).collect());
    }
}
