//! Small trees, and whether two tables weigh them alike.

use second::tree;

use crate::library;
use crate::search::words;

pub const MOST_NODES: usize = 5;

/// Every tree of at most `MOST_NODES` nodes over symbols of these ranks: those with fewer nodes
/// first, then in byte order.
fn small(ranks: &[u8]) -> impl Iterator<Item = Vec<u8>> + '_ {
    let symbols: Vec<u8> = (0..ranks.len() as u8).collect();
    let of_length = move |nodes| words(&symbols, nodes);
    let all = (1..=MOST_NODES).flat_map(of_length);
    all.filter(|tree| tree::check(ranks, tree).is_ok())
}

/// The first small tree that the library weighs otherwise in the second table than in the first,
/// which have the same symbols.
pub fn first_changed(ranks: &[u8], first: &[u8], second: &[u8]) -> Option<Vec<u8>> {
    small(ranks).find(|tree| library::weight(first, tree) != library::weight(second, tree))
}

#[cfg(test)]
mod tests {
    use super::*;
    use second::examples;

    #[test]
    fn the_small_trees_over_a_and_g() {
        let chains: Vec<Vec<u8>> = (0..MOST_NODES)
            .map(|many| [vec![1; many], vec![0]].concat())
            .collect();
        assert_eq!(small(&[0, 1]).collect::<Vec<_>>(), chains);
        assert_eq!(small(&[1, 2]).count(), 0);
    }

    #[test]
    fn a_collapse_changes_no_weight_and_another_table_does() {
        let ranks = [0, 1];
        let changed = |other: &[u8]| first_changed(&ranks, &examples::A, other);
        assert_eq!(changed(&examples::A_BACKWARD), None);
        assert_eq!(changed(&examples::B), Some(examples::G_A.to_vec()));
    }
}
