//! Tables, trees and weights in words.

use second::blocks::Direction;
use second::table::{Table, Transition};
use second::weight::NOTHING;

use crate::plain::{Plain, Shrinker};

pub fn hex(bytes: &[u8]) -> String {
    joined(bytes.iter().map(|byte| format!("{byte:02X}")), " ")
}

pub fn numbers(numbers: &[u8]) -> String {
    joined(numbers.iter().map(u8::to_string), " ")
}

pub fn direction(direction: Direction) -> &'static str {
    match direction {
        Direction::Backward => "backward",
        Direction::Forward => "forward",
    }
}

pub fn weight(weight: i64) -> String {
    match weight {
        NOTHING => "nothing".to_string(),
        _ => weight.to_string(),
    }
}

/// What a collapse leaves alone: the arithmetic and the symbols.
pub fn frame(table: &Table) -> String {
    let arithmetic = match table.arithmetic {
        0 => "arithmetic 0 (modulo 2^32)",
        _ => "arithmetic 1 (max and plus)",
    };
    let names = names(&table.ranks);
    let symbols = names.iter().zip(&table.ranks);
    let symbols = symbols.map(|(name, rank)| format!("{name} of rank {rank}"));
    format!("{arithmetic}, {}", joined(symbols, ", "))
}

/// What a collapse changes: the states with their final weights, and the transitions.
pub fn content(table: &Table) -> String {
    let finals = Plain.finals(table).into_iter().map(weight);
    let transitions = table.transitions.iter().map(|t| transition(table, t));
    let transitions = match table.transitions.len() {
        0 => "no transitions".to_string(),
        _ => joined(transitions, ", "),
    };
    let states = match table.states() {
        1 => "1 state, final weight".to_string(),
        many => format!("{many} states, final weights"),
    };
    format!("{states} {}; {transitions}", joined(finals, ", "))
}

fn transition(table: &Table, transition: &Transition) -> String {
    let name = names(&table.ranks)[usize::from(transition.symbol)];
    let children = table.children(transition).iter().map(u8::to_string);
    format!(
        "{} → {} weighs {}",
        applied(name, children),
        transition.target,
        weight(Plain.meaning(table.arithmetic, transition.code))
    )
}

/// A tree as its symbols with their children in parentheses.
pub fn tree(ranks: &[u8], tree: &[u8]) -> String {
    subtree(ranks, &mut tree.iter())
}

fn subtree(ranks: &[u8], rest: &mut std::slice::Iter<u8>) -> String {
    let symbol = usize::from(*rest.next().expect("a whole tree"));
    let children: Vec<String> = (0..ranks[symbol]).map(|_| subtree(ranks, rest)).collect();
    applied(names(ranks)[symbol], children.into_iter())
}

fn applied(name: char, children: impl Iterator<Item = String>) -> String {
    match joined(children, ", ") {
        none if none.is_empty() => name.to_string(),
        some => format!("{name}({some})"),
    }
}

/// Names for symbols, so that document 01's have the names that it gives them: from a on for rank 0,
/// from g on for the others.
fn names(ranks: &[u8]) -> Vec<char> {
    let (mut leaves, mut others) = ('a'.., 'g'..);
    let name = |&rank: &u8| match rank {
        0 => leaves.next(),
        _ => others.next(),
    };
    ranks.iter().filter_map(name).collect()
}

fn joined(items: impl Iterator<Item = String>, between: &str) -> String {
    items.collect::<Vec<_>>().join(between)
}

#[cfg(test)]
mod tests {
    use super::*;
    use second::examples;
    use second::table;

    #[test]
    fn table_c_in_words() {
        let c = table::read(&examples::C).unwrap();
        assert_eq!(
            frame(&c),
            "arithmetic 1 (max and plus), a of rank 0, g of rank 1"
        );
        assert_eq!(
            content(&c),
            "3 states, final weights nothing, nothing, 0; a → 0 weighs 3, a → 1 weighs 3, \
             g(0) → 2 weighs 5, g(1) → 2 weighs 7"
        );
    }

    #[test]
    fn a_tree_in_words() {
        assert_eq!(tree(&[0, 2, 1, 0], &[1, 2, 0, 3]), "g(h(a), b)");
    }
}
