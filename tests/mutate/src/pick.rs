//! Picking some mutations of a crate: by a seed, and spread over the kinds of edits.

use crate::mutation::Mutation;
use crate::points::KINDS;

/// At most `count` of the mutations, in their order. The kinds take turns, so that a frequent kind leaves room for a rare one.
pub fn pick(mutations: Vec<Mutation>, count: usize, seed: u64) -> Vec<Mutation> {
    let mut random = Random(seed);
    let mut by_kind: Vec<Vec<Mutation>> = KINDS.iter().map(|_| Vec::new()).collect();
    for mutation in mutations {
        by_kind[mutation.edit.kind as usize].push(mutation);
    }
    for list in &mut by_kind {
        random.shuffle(list);
    }
    let mut picked = Vec::new();
    while picked.len() < count && by_kind.iter().any(|list| !list.is_empty()) {
        for list in &mut by_kind {
            if picked.len() < count {
                picked.extend(list.pop());
            }
        }
    }
    picked
        .sort_by(|a, b| (&a.file, a.edit.from, a.edit.to).cmp(&(&b.file, b.edit.from, b.edit.to)));
    picked
}

/// SplitMix64: the same numbers from the same seed on every machine.
struct Random(u64);

impl Random {
    fn next(&mut self) -> u64 {
        self.0 = self.0.wrapping_add(0x9e37_79b9_7f4a_7c15);
        let mut z = self.0;
        z = (z ^ (z >> 30)).wrapping_mul(0xbf58_476d_1ce4_e5b9);
        z = (z ^ (z >> 27)).wrapping_mul(0x94d0_49bb_1331_11eb);
        z ^ (z >> 31)
    }

    fn shuffle<T>(&mut self, list: &mut [T]) {
        for i in (1..list.len()).rev() {
            list.swap(i, (self.next() % (i as u64 + 1)) as usize);
        }
    }
}

#[cfg(test)]
mod tests {
    use super::*;
    use crate::points::{Edit, Kind};
    use std::sync::Arc;

    fn mutation(kind: Kind, from: usize) -> Mutation {
        let edit = Edit {
            kind,
            from,
            to: from,
            new: String::new(),
            what: String::new(),
            inside: String::new(),
        };
        Mutation {
            krate: "k".to_string(),
            file: "f".to_string(),
            source: Arc::from(""),
            edit,
            nth: 1,
        }
    }

    fn many() -> Vec<Mutation> {
        let literals = (0..50).map(|i| mutation(Kind::Literal, i));
        literals.chain([mutation(Kind::Index, 60)]).collect()
    }

    fn places(seed: u64, count: usize) -> Vec<usize> {
        pick(many(), count, seed)
            .iter()
            .map(|m| m.edit.from)
            .collect()
    }

    #[test]
    fn a_rare_kind_is_picked_beside_a_frequent_one() {
        assert!(places(1, 2).contains(&60));
    }

    #[test]
    fn the_seed_decides() {
        assert_eq!(places(1, 10), places(1, 10));
        assert_ne!(places(1, 10), places(2, 10));
    }

    #[test]
    fn no_more_than_there_are() {
        assert_eq!(places(1, 100).len(), 51);
    }
}
