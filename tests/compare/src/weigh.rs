//! Weighing a tree.

use second::answer::{packed, DONE, OF_TABLES, OF_TREES, ROOM_TOO_SHORT};
use second::calls;
use second::examples::{self, Weighing};
use second::families;
use second::grow;
use second::make::{self, Shape};
use second::random::Random;
use second::table::{self, Table, MOST_RANK, MOST_TRANSITIONS};
use second::tree::MOST_NODES;
use second::weight::NOTHING;

use crate::call::{hex, same_answer, with_input, Call, Met};
use crate::lent::Lent;
use crate::room;
use crate::tally::Tally;

pub const CALL: Call = Call {
    name: "weigh",
    codes: &[&[DONE, ROOM_TOO_SHORT], &OF_TABLES, &OF_TREES],
    families: families::all,
    compare,
};

/// Weighs trees, whole and damaged, in this table. One is enough where the table is refused.
fn compare(bytes: &[u8], random: &mut Random, met: &mut Met) -> Result<(), String> {
    match table::read(bytes) {
        Ok(table) => some_trees(&table.ranks, random)
            .iter()
            .try_for_each(|tree| compare_tree(bytes, tree, random, met).map(|_| ())),
        Err(_) => {
            let tree = grow::damaged(random, &[0, 1, 2], 10);
            compare_tree(bytes, &tree, random, met).map(|_| ())
        }
    }
}

/// Trees over symbols of these ranks, whole ones only if a symbol has rank 0.
fn some_trees(ranks: &[u8], random: &mut Random) -> Vec<Vec<u8>> {
    let mut trees: Vec<Vec<u8>> = [1, 5, 50]
        .iter()
        .filter_map(|&most| grow::tree(random, ranks, most))
        .collect();
    trees.extend((0..3).map(|_| grow::damaged(random, ranks, 20)));
    trees
}

/// Weighs this tree in sheets of every length worth trying. Gives the weight, if there is one.
fn compare_tree(
    table: &[u8],
    tree: &[u8],
    random: &mut Random,
    met: &mut Met,
) -> Result<Option<i64>, String> {
    let whole = calls::weigh(table, tree, usize::MAX);
    let lengths = match whole.answer {
        Ok(_) => room::lengths(whole.sheet.len(), random),
        Err(_) => vec![0, random.below(40)],
    };
    for sheet_len in lengths {
        compare_in_sheet(table, tree, sheet_len, random, met).map_err(|wrong| {
            format!("with a sheet of {sheet_len}: {wrong}\ntree: {}", hex(tree))
        })?;
    }
    Ok(whole.weight)
}

fn compare_in_sheet(
    table: &[u8],
    tree: &[u8],
    sheet_len: usize,
    random: &mut Random,
    met: &mut Met,
) -> Result<(), String> {
    let due = calls::weigh(table, tree, sheet_len);
    let lent_table = Lent::holding(table, random);
    let lent_tree = Lent::holding(tree, random);
    let mut sheet = Lent::room(sheet_len, random);
    let mut weight = Lent::room(1, random);
    let got = face::weigh(
        lent_table.piece(),
        lent_tree.piece(),
        sheet.piece_mut(),
        &mut weight.piece_mut()[0],
    );
    same_answer(got, packed(due.answer), met)?;
    let named = |what| move |wrong| format!("the {what} is wrong: {wrong}");
    sheet.holds(&due.sheet).map_err(named("sheet"))?;
    weight
        .holds(due.weight.as_slice())
        .map_err(named("weight"))?;
    lent_table.untouched().map_err(named("table"))?;
    lent_tree.untouched().map_err(named("tree"))
}

/// The examples, and tables and trees that belong together.
pub fn run(tally: &mut Tally, times: usize, seed: u64) {
    for example in examples::weighings() {
        let outcome = run_example(&example).map_err(|wrong| with_input(&wrong, &example.table));
        tally.note(&format!("weigh: {}", example.name), outcome);
    }
    tally.note("weigh: P4, the sheet", sheet_of_a());
    for (number, pairs) in (0..).zip(&PAIRS) {
        let name = format!("weigh: {}", pairs.name);
        tally.note(&name, pairs.run(times, seed.wrapping_add(number)));
    }
}

/// Holds the library to the weight that is written out, and to the second program.
fn run_example(example: &Weighing) -> Result<String, String> {
    let mut random = Random::new(0);
    let weight = compare_tree(
        &example.table,
        &example.tree,
        &mut random,
        &mut Met::default(),
    )?;
    if weight == Some(example.weight) {
        Ok(format!("weighs {}", example.weight))
    } else {
        Err(format!("weighs {weight:?} and should {}", example.weight))
    }
}

fn sheet_of_a() -> Result<String, String> {
    let mut sheet = [7; 6];
    face::weigh(&examples::A, &examples::G_A, &mut sheet, &mut 0);
    if sheet == examples::A_SHEET {
        Ok(format!("{sheet:?}"))
    } else {
        Err(format!("it is {sheet:?}"))
    }
}

/// Tables with trees that were made for each other.
struct Pairs {
    name: &'static str,
    count: usize,
    make: fn(&mut Random) -> (Table, Vec<u8>),
}

const PAIRS: [Pairs; 6] = [
    Pairs {
        name: "chains of 4,096 nodes",
        count: 12,
        make: |random| {
            let states = random.within(1, 12);
            pair(random, &[0, 1, 1, 0], states, MOST_NODES, make::mixed_code)
        },
    },
    Pairs {
        name: "trees of 4,096 nodes",
        count: 12,
        make: |random| {
            let states = random.within(1, 40);
            pair(
                random,
                &[0, 1, 2, 3, 4, 0],
                states,
                MOST_NODES,
                make::mixed_code,
            )
        },
    },
    Pairs {
        name: "the longest sheet",
        count: 1,
        make: |random| pair(random, &[0, 1], 256, MOST_NODES, make::long_code),
    },
    Pairs {
        name: "sums at both ends of the range",
        count: 30,
        make: |random| {
            let (states, most_rank) = (random.within(1, 3), random.within(1, 2) as u8);
            in_arithmetic(
                1,
                pair(random, &[0, 1, most_rank], states, MOST_NODES, end_code),
            )
        },
    },
    Pairs {
        name: "ties and nothings",
        count: 1_000,
        make: |random| {
            let (states, nodes) = (random.within(1, 4), random.within(1, 12));
            in_arithmetic(
                1,
                pair(random, &[0, 0, 1, 2, 3], states, nodes, near_zero_code),
            )
        },
    },
    Pairs {
        name: "sums and products that wrap",
        count: 1_000,
        make: |random| {
            let (states, nodes) = (random.within(1, 4), random.within(1, 30));
            in_arithmetic(
                0,
                pair(random, &[0, 0, 1, 2, 4], states, nodes, make::mixed_code),
            )
        },
    },
];

impl Pairs {
    fn run(&self, times: usize, seed: u64) -> Result<String, String> {
        let mut random = Random::new(seed);
        let mut met = Met::default();
        let mut zeros = 0;
        let count = self.count * times;
        for _ in 0..count {
            let (table, tree) = (self.make)(&mut random);
            let bytes = table::write(&table);
            let weight = compare_tree(&bytes, &tree, &mut random, &mut met)
                .map_err(|wrong| with_input(&wrong, &bytes))?;
            let zero = if table.arithmetic == 0 { 0 } else { NOTHING };
            zeros += usize::from(weight == Some(zero));
        }
        if zeros == count {
            return Err("every tree weighs zero, which tries little".to_string());
        }
        Ok(format!("{count} trees, {zeros} weigh zero, seed {seed}"))
    }
}

/// A table with so many states and symbols of these ranks, with few transitions or many, and a tree
/// of so many nodes.
fn pair(
    random: &mut Random,
    ranks: &[u8],
    states: usize,
    nodes: usize,
    code: fn(&mut Random) -> u32,
) -> (Table, Vec<u8>) {
    let shape = Shape {
        states,
        ranks: ranks.to_vec(),
        transitions: random
            .within(states, 30 * states)
            .min(MOST_TRANSITIONS as usize),
        lowest_state: 0,
        code,
    };
    let tree = grow::tree_of(random, ranks, nodes, MOST_RANK as u8).expect("a symbol has rank 0");
    (make::table(random, &shape), tree)
}

fn in_arithmetic(arithmetic: u8, (table, tree): (Table, Vec<u8>)) -> (Table, Vec<u8>) {
    (
        Table {
            arithmetic,
            ..table
        },
        tree,
    )
}

/// The greatest or the least weight of arithmetic 1.
fn end_code(random: &mut Random) -> u32 {
    random.pick(&[u32::MAX, u32::MAX - 1])
}

/// 0, -1 or 1 in arithmetic 1.
fn near_zero_code(random: &mut Random) -> u32 {
    random.within(1, 3) as u32
}
