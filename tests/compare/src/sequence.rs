//! Demand 3: a tree keeps its weight through any sequence of collapses, and the last collapse made
//! again returns the same bytes. Only the library is asked here; the second program grows the
//! tables and the trees.

use second::answer;
use second::blocks::Direction;
use second::grow;
use second::make;
use second::plant;
use second::random::Random;
use second::table::{self, Table, LONGEST_TABLE};
use second::tree::MOST_NODES;
use second::weight::NOTHING;

use crate::call::{hex, with_input};
use crate::tally::Tally;

pub fn run(tally: &mut Tally, times: usize, seed: u64) {
    let outcome = all(1_000 * times, seed, some_table, &[1, 4, 9, 30]);
    tally.note("collapses in any order keep every weight", outcome);
    let outcome = all(6 * times, seed, many_merges, &[5, 40, MOST_NODES]);
    tally.note("the same in the largest tables and trees", outcome);
}

/// What the sequences came across, so that a run which tries nothing is seen.
#[derive(Default)]
struct Seen {
    merges: usize,
    weights: usize,
    zeros: usize,
}

fn all(
    count: usize,
    seed: u64,
    make: impl Fn(&mut Random) -> Table,
    sizes: &[usize],
) -> Result<String, String> {
    let mut random = Random::new(seed);
    let mut seen = Seen::default();
    for _ in 0..count {
        let start = make(&mut random);
        let bytes = table::write(&start);
        one(&mut random, &start, &bytes, sizes, &mut seen)
            .map_err(|wrong| with_input(&wrong, &bytes))?;
    }
    let note = format!(
        "{count} sequences, {} merges, {} weights of which {} zero, seed {seed}",
        seen.merges, seen.weights, seen.zeros
    );
    if seen.merges > 0 && seen.zeros < seen.weights {
        Ok(note)
    } else {
        Err(note)
    }
}

/// A table over symbols one of which has rank 0, mostly one that merges states.
fn some_table(random: &mut Random) -> Table {
    loop {
        let direction = random.pick(&Direction::BOTH);
        let table = match random.below(4) {
            0 => make::tiny(random),
            1 => make::small(random),
            2 => plant::ladder(random, direction),
            _ => plant::some(random, direction).table,
        };
        if table.ranks.contains(&0) {
            return table;
        }
    }
}

/// A large table that merges states, with two symbols for leaves and chains.
fn many_merges(random: &mut Random) -> Table {
    let direction = random.pick(&Direction::BOTH);
    let plan = plant::Plan {
        direction,
        arithmetic: random.below(2) as u8,
        states: table::MOST_STATES as usize,
        blocks: 128,
        ranks: vec![0, 1, 2, 0, 1, 2],
        choices: 1_000,
    };
    plant::planted(random, &plan).table
}

fn one(
    random: &mut Random,
    start: &Table,
    bytes: &[u8],
    sizes: &[usize],
    seen: &mut Seen,
) -> Result<(), String> {
    let trees: Vec<Vec<u8>> = sizes
        .iter()
        .filter_map(|&most| grow::tree(random, &start.ranks, most))
        .collect();
    let weights: Vec<i64> = trees
        .iter()
        .map(|tree| weight(bytes, tree))
        .collect::<Result<_, String>>()?;
    let zero = if start.arithmetic == 0 { 0 } else { NOTHING };
    seen.weights += weights.len();
    seen.zeros += weights.iter().filter(|&&weight| weight == zero).count();
    let mut now = bytes.to_vec();
    for _ in 0..random.within(1, 5) {
        let direction = random.below(2) as u32;
        let collapsed = collapse(direction, &now)?;
        if collapse(direction, &collapsed)? != collapsed {
            return Err(format!(
                "direction {direction} again gives other bytes than\n{}",
                hex(&collapsed)
            ));
        }
        seen.merges += usize::from(states(&collapsed)? < states(&now)?);
        now = collapsed;
        for (tree, &before) in trees.iter().zip(&weights) {
            let after = weight(&now, tree)?;
            if after != before {
                return Err(format!(
                    "the weight was {before} and is {after}\ntree: {}\ncollapsed: {}",
                    hex(tree),
                    hex(&now)
                ));
            }
        }
    }
    Ok(())
}

/// The done figure of an answer.
fn done(call: &str, answer: u64) -> Result<usize, String> {
    match answer::unpacked(answer) {
        (0, figure) => Ok(figure as usize),
        (code, figure) => Err(format!("{call} is refused with {code} and {figure}")),
    }
}

fn collapse(direction: u32, table: &[u8]) -> Result<Vec<u8>, String> {
    let mut room = vec![0; LONGEST_TABLE];
    let length = done("collapse", face::collapse(direction, table, &mut room))?;
    room.get(..length)
        .map(<[u8]>::to_vec)
        .ok_or_else(|| format!("collapse says that it wrote {length} bytes"))
}

fn states(table: &[u8]) -> Result<usize, String> {
    done("check", face::check(table))
}

fn weight(table: &[u8], tree: &[u8]) -> Result<i64, String> {
    let mut sheet = vec![0; tree.len() * states(table)?];
    let mut weight = 0;
    let answer = face::weigh(table, tree, &mut sheet, &mut weight);
    done("weigh", answer).map(|_| weight)
}
