//! Weighing: the library's `weigh` against the second program's, both with the reading of the table
//! and the tree, and both in a sheet that was there before.

use std::cell::RefCell;
use std::hint::black_box;

use second::grow;
use second::make::{self, Shape};
use second::random::Random;
use second::table::{self, Table, MOST_RANK, MOST_TRANSITIONS};
use second::tree::{self, MOST_NODES};
use second::weight;

use super::{Case, SEED};

pub fn all() -> Vec<Case> {
    let random = &mut Random::new(SEED);
    vec![
        case(
            random,
            "chain of 4,096 nodes, modulo 2^32",
            0,
            &[0, 1, 1, 1],
        ),
        case(
            random,
            "chain of 4,096 nodes, max and plus",
            1,
            &[0, 1, 1, 1],
        ),
        case(
            random,
            "bushy, 4,096 nodes, modulo 2^32",
            0,
            &[0, 1, 2, 3, 4],
        ),
        case(
            random,
            "bushy, 4,096 nodes, max and plus",
            1,
            &[0, 1, 2, 3, 4],
        ),
    ]
}

/// 100 states, 4,000 transitions of symbols of these ranks, and a tree that is as large as it can
/// be.
fn case(random: &mut Random, input: &'static str, arithmetic: u8, ranks: &[u8]) -> Case {
    let shape = Shape {
        states: 100,
        ranks: ranks.to_vec(),
        transitions: MOST_TRANSITIONS as usize,
        lowest_state: 0,
        code: make::mixed_code,
    };
    let made = Table {
        arithmetic,
        ..make::table(random, &shape)
    };
    let tree =
        grow::tree_of(random, ranks, MOST_NODES, MOST_RANK as u8).expect("a symbol has rank 0");
    let table = table::write(&made);
    let sheet = || RefCell::new(vec![0; MOST_NODES * shape.states]);
    let (library_sheet, plain_sheet) = (sheet(), sheet());
    let (same_table, same_tree) = (table.clone(), tree.clone());
    Case {
        call: "weigh",
        input: input.to_string(),
        bytes: table.len(),
        library: Box::new(move || {
            let sheet = &mut library_sheet.borrow_mut();
            let mut weight = 0;
            black_box(face::weigh(black_box(&table), &tree, sheet, &mut weight));
            black_box(weight);
        }),
        plain: Box::new(move || {
            let sheet = &mut plain_sheet.borrow_mut();
            black_box(plain(black_box(&same_table), &same_tree, sheet));
        }),
    }
}

fn plain(table: &[u8], tree: &[u8], sheet: &mut [i64]) -> Option<i64> {
    let table = table::read(table).ok()?;
    let needed = tree::check(&table.ranks, tree).ok()? * table.states();
    Some(weight::weigh(&table, tree, sheet.get_mut(..needed)?))
}
