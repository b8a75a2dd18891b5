//! Trees: one byte a node, the symbol, in prefix order.

use crate::answer::{Refusal, NODE_NOT_IN_TABLE, TREE_ENDS, TREE_GOES_ON, TREE_TOO_LARGE};

pub const MOST_NODES: usize = 4_096;

/// Tests a tree over symbols of these ranks: the number of its nodes, or the first refusal that
/// applies.
pub fn check(ranks: &[u8], tree: &[u8]) -> Result<usize, Refusal> {
    let mut due = 1;
    let mut at = 0;
    while due > 0 {
        let Some(&symbol) = tree.get(at) else {
            return Err(Refusal::new(TREE_ENDS, tree.len()));
        };
        if at == MOST_NODES {
            return Err(Refusal::new(TREE_TOO_LARGE, MOST_NODES));
        }
        let Some(&rank) = ranks.get(usize::from(symbol)) else {
            return Err(Refusal::new(NODE_NOT_IN_TABLE, at));
        };
        due += usize::from(rank);
        due -= 1;
        at += 1;
    }
    if at == tree.len() {
        Ok(at)
    } else {
        Err(Refusal::new(TREE_GOES_ON, at))
    }
}

#[cfg(test)]
mod tests {
    use super::*;

    /// A chain of `nodes` nodes of rank 1 with nothing below the last.
    fn open_chain(nodes: usize) -> Vec<u8> {
        vec![1; nodes]
    }

    fn closed_chain(nodes: usize) -> Vec<u8> {
        let mut tree = open_chain(nodes);
        tree[nodes - 1] = 0;
        tree
    }

    fn refused(code: u32, figure: usize) -> Result<usize, Refusal> {
        Err(Refusal::new(code, figure))
    }

    #[test]
    fn each_code_once() {
        let ranks = [0, 1, 2];
        assert_eq!(check(&ranks, &[2, 1, 0, 0]), Ok(4));
        assert_eq!(check(&ranks, &[]), refused(TREE_ENDS, 0));
        assert_eq!(check(&ranks, &[2, 0]), refused(TREE_ENDS, 2));
        assert_eq!(check(&ranks, &[2, 0, 3]), refused(NODE_NOT_IN_TABLE, 2));
        assert_eq!(check(&ranks, &[2, 0, 0, 3, 3]), refused(TREE_GOES_ON, 3));
    }

    #[test]
    fn at_the_greatest_number_of_nodes() {
        let ranks = [0, 1];
        assert_eq!(check(&ranks, &closed_chain(4_096)), Ok(4_096));
        assert_eq!(check(&ranks, &open_chain(4_096)), refused(TREE_ENDS, 4_096));
        assert_eq!(
            check(&ranks, &closed_chain(4_097)),
            refused(TREE_TOO_LARGE, 4_096)
        );
        let mut one_more = closed_chain(4_096);
        one_more.push(0);
        assert_eq!(check(&ranks, &one_more), refused(TREE_GOES_ON, 4_096));
    }

    #[test]
    fn eleven_comes_before_nine() {
        let mut tree = open_chain(4_096);
        tree.push(200);
        assert_eq!(check(&[0, 1], &tree), refused(TREE_TOO_LARGE, 4_096));
    }
}
