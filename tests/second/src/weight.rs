//! The two arithmetics, and the weight of a tree.

use std::array::from_fn;

use crate::table::{Table, Transition};

/// "Nothing" of arithmetic 1, in a sheet and in a weight given back. It is below every number.
pub const NOTHING: i64 = i64::MIN;

/// An arithmetic over weights that are held as signed 64-bit numbers.
pub trait Arithmetic {
    const ZERO: i64;
    fn meaning(code: u32) -> i64;
    /// The code of a weight, which must be one that a code means.
    fn code(weight: i64) -> u32;
    fn plus(a: i64, b: i64) -> i64;
    fn times(a: i64, b: i64) -> i64;
}

/// Arithmetic 0: whole numbers modulo 2^32.
pub struct Modulo;

/// Arithmetic 1: the sum is the maximum, the product is addition.
pub struct MaxPlus;

impl Arithmetic for Modulo {
    const ZERO: i64 = 0;

    fn meaning(code: u32) -> i64 {
        i64::from(code)
    }

    fn code(weight: i64) -> u32 {
        u32::try_from(weight).expect("weights stay below 2^32")
    }

    #[inline]
    fn plus(a: i64, b: i64) -> i64 {
        i64::from((a as u32).wrapping_add(b as u32))
    }

    #[inline]
    fn times(a: i64, b: i64) -> i64 {
        i64::from((a as u32).wrapping_mul(b as u32))
    }
}

impl Arithmetic for MaxPlus {
    const ZERO: i64 = NOTHING;

    fn meaning(code: u32) -> i64 {
        match code {
            0 => NOTHING,
            _ => {
                let z = i64::from(code) - 1;
                if z % 2 == 0 {
                    z / 2
                } else {
                    -(z + 1) / 2
                }
            }
        }
    }

    fn code(weight: i64) -> u32 {
        let code = match weight {
            NOTHING => 0,
            0.. => 2 * weight + 1,
            _ => -2 * weight,
        };
        u32::try_from(code).expect("no listed weight's maximum leaves the range of codes")
    }

    #[inline]
    fn plus(a: i64, b: i64) -> i64 {
        a.max(b)
    }

    #[inline]
    fn times(a: i64, b: i64) -> i64 {
        if a == NOTHING || b == NOTHING {
            NOTHING
        } else {
            a + b
        }
    }
}

/// Calls a function of an arithmetic with the one that a table names.
#[macro_export]
macro_rules! in_arithmetic_of {
    ($table:expr, $function:ident ( $($argument:expr),* )) => {
        match $table.arithmetic {
            0 => $function::<$crate::weight::Modulo>($($argument),*),
            _ => $function::<$crate::weight::MaxPlus>($($argument),*),
        }
    };
}

/// Weighs a tree that `tree::check` accepts. The sheet has one number for each node and state, and
/// afterwards holds at node times n plus state the weight of the node's subtree at that state.
pub fn weigh(table: &Table, tree: &[u8], sheet: &mut [i64]) -> i64 {
    in_arithmetic_of!(table, weigh_in(table, tree, sheet))
}

fn weigh_in<A: Arithmetic>(table: &Table, tree: &[u8], sheet: &mut [i64]) -> i64 {
    let states = table.states();
    let listed: Vec<(Transition, i64)> = table
        .transitions
        .iter()
        .map(|&t| (t, A::meaning(t.code)))
        .collect();
    let starts = symbol_starts(table);
    sheet.fill(A::ZERO);
    // A node's children stand behind it, so the tree is walked from its end. The roots of the
    // finished subtrees wait here, the leftmost on top.
    let mut waiting = Vec::new();
    for (node, &symbol) in tree.iter().enumerate().rev() {
        let (row, behind) = sheet[node * states..].split_at_mut(states);
        let mut next_child_row = || {
            let child: usize = waiting.pop().expect("the tree was accepted");
            &behind[(child - node - 1) * states..][..states]
        };
        let of_symbol = &listed[starts[usize::from(symbol)]..starts[usize::from(symbol) + 1]];
        // The rank is made a constant, so that the loop over the children is none.
        match table.rank(symbol) {
            0 => weigh_node::<A, 0>(of_symbol, from_fn(|_| next_child_row()), row),
            1 => weigh_node::<A, 1>(of_symbol, from_fn(|_| next_child_row()), row),
            2 => weigh_node::<A, 2>(of_symbol, from_fn(|_| next_child_row()), row),
            3 => weigh_node::<A, 3>(of_symbol, from_fn(|_| next_child_row()), row),
            _ => weigh_node::<A, 4>(of_symbol, from_fn(|_| next_child_row()), row),
        }
        waiting.push(node);
    }
    let root = sheet.iter().zip(&table.finals);
    root.map(|(&weight, &code)| A::times(A::meaning(code), weight))
        .fold(A::ZERO, A::plus)
}

/// Adds the weights of a node's transitions to its row.
fn weigh_node<A: Arithmetic, const RANK: usize>(
    listed: &[(Transition, i64)],
    child_rows: [&[i64]; RANK],
    row: &mut [i64],
) {
    for (transition, weight) in listed {
        let mut weight = *weight;
        for (child_row, &child) in child_rows.iter().zip(&transition.children) {
            weight = A::times(weight, child_row[usize::from(child)]);
        }
        let sum = &mut row[usize::from(transition.target)];
        *sum = A::plus(*sum, weight);
    }
}

/// Where each symbol's transitions begin, and the end of the last one's.
pub fn symbol_starts(table: &Table) -> Vec<usize> {
    let mut starts = vec![0; table.ranks.len() + 1];
    for transition in &table.transitions {
        starts[usize::from(transition.symbol) + 1] += 1;
    }
    for symbol in 1..starts.len() {
        starts[symbol] += starts[symbol - 1];
    }
    starts
}

#[cfg(test)]
mod tests {
    use super::*;
    use crate::examples;
    use crate::grow;
    use crate::make;
    use crate::random::Random;
    use crate::table;

    fn weighed(table: &Table, tree: &[u8]) -> (Vec<i64>, i64) {
        let mut sheet = vec![77; tree.len() * table.states()];
        let weight = weigh(table, tree, &mut sheet);
        (sheet, weight)
    }

    #[test]
    fn every_example() {
        for example in examples::weighings() {
            let table = table::read(&example.table).unwrap();
            let (_, weight) = weighed(&table, &example.tree);
            assert_eq!(weight, example.weight, "{}", example.name);
        }
    }

    #[test]
    fn p4_the_sheet() {
        let a = table::read(&examples::A).unwrap();
        assert_eq!(weighed(&a, &examples::G_A).0, examples::A_SHEET);
    }

    #[test]
    fn p10_the_codes_and_their_meanings() {
        let meanings = [
            (1, 0),
            (2, -1),
            (3, 1),
            (4, -2),
            (4_294_967_295, 2_147_483_647),
            (4_294_967_294, -2_147_483_647),
            (0, NOTHING),
        ];
        for (code, meaning) in meanings {
            assert_eq!(MaxPlus::meaning(code), meaning);
            assert_eq!(MaxPlus::code(meaning), code);
        }
    }

    #[test]
    fn nothing_is_not_the_number_0() {
        assert_eq!(MaxPlus::times(NOTHING, 5), NOTHING);
        assert_eq!(MaxPlus::plus(NOTHING, -5), -5);
        assert_eq!(MaxPlus::plus(0, -5), 0);
    }

    #[test]
    fn arithmetic_0_wraps() {
        assert_eq!(Modulo::plus(4_294_967_295, 2), 1);
        assert_eq!(Modulo::times(4_294_967_295, 4_294_967_295), 1);
        assert_eq!(Modulo::times(65_536, 65_536), 0);
    }

    /// Where the subtree of this node ends.
    fn end_of(ranks: &[u8], tree: &[u8], node: usize) -> usize {
        let mut due = 1;
        let mut next = node;
        while due > 0 {
            due = due + usize::from(ranks[usize::from(tree[next])]) - 1;
            next += 1;
        }
        next
    }

    fn child_nodes(ranks: &[u8], tree: &[u8], node: usize) -> Vec<usize> {
        let mut next = node + 1;
        let take_one = |_| {
            let child = next;
            next = end_of(ranks, tree, child);
            child
        };
        (0..ranks[usize::from(tree[node])]).map(take_one).collect()
    }

    /// ZIGZAG of source document 001, example 2, for the subtree of this node.
    fn zigzag(tree: &[u8], node: usize) -> i64 {
        let children = |node| child_nodes(&[0, 2], tree, node);
        match (tree[node], tree.get(node + 1)) {
            (0, _) => 1,
            (_, Some(0)) => 2,
            _ => 2 + zigzag(tree, children(children(node)[0])[1]),
        }
    }

    #[test]
    fn examples_2_and_17_of_001_recognise_zigzag() {
        let mut random = Random::new(6);
        for _ in 0..300 {
            let tree = grow::tree(&mut random, &[0, 2], 60).unwrap();
            for automaton in [examples::zigzag_2(), examples::zigzag_17()] {
                assert_eq!(weighed(&automaton, &tree).1, zigzag(&tree, 0));
            }
        }
    }

    /// The weight as the sum over all ways to put a state on each node (the root's subtree first).
    fn by_readings<A: Arithmetic>(table: &Table, tree: &[u8]) -> i64 {
        let ways = table.states().pow(tree.len() as u32);
        (0..ways)
            .map(|way| reading::<A>(table, tree, way))
            .fold(A::ZERO, A::plus)
    }

    fn reading<A: Arithmetic>(table: &Table, tree: &[u8], way: usize) -> i64 {
        let states = table.states();
        let state_of = |node: usize| (way / states.pow(node as u32) % states) as u8;
        let mut weight = A::meaning(table.finals[usize::from(state_of(0))]);
        for (node, &symbol) in tree.iter().enumerate() {
            let children: Vec<u8> = child_nodes(&table.ranks, tree, node)
                .into_iter()
                .map(state_of)
                .collect();
            let listed = table.transitions.iter().find(|t| {
                t.symbol == symbol && table.children(t) == children && t.target == state_of(node)
            });
            let code = listed.map_or(0, |t| t.code);
            weight = A::times(weight, A::meaning(code));
        }
        weight
    }

    #[test]
    fn weighing_agrees_with_the_sum_over_readings() {
        let mut random = Random::new(7);
        let mut compared = 0;
        while compared < 300 {
            let table = make::tiny(&mut random);
            let Some(tree) = grow::tree(&mut random, &table.ranks, 5) else {
                continue;
            };
            let due = in_arithmetic_of!(table, by_readings(&table, &tree));
            assert_eq!(weighed(&table, &tree).1, due);
            compared += 1;
        }
    }
}
