//! The groups of inputs.

use second::blocks::Direction;
use second::examples;
use second::families;
use second::grow;
use second::make;
use second::plant;
use second::random::Random;
use second::table::{self, Table, LONGEST_TABLE};

use crate::attack::{Attack, LONGEST_INPUT};
use crate::call::Call;
use crate::huge;
use crate::lengths::Lengths;
use crate::trees;

type Run = fn(&mut Attack, usize) -> Result<(), String>;

pub struct Group {
    pub name: &'static str,
    /// Tries the inputs, so many times as many random ones as usual.
    pub run: Run,
}

const fn group(name: &'static str, run: Run) -> Group {
    Group { name, run }
}

pub const GROUPS: &[Group] = &[
    group("raw random bytes", raw_bytes),
    group("random bytes behind the start of a table", behind_a_start),
    group("every change of one byte of A", |attack, _| {
        every_change(attack, &examples::A)
    }),
    group("every change of one byte of P2", |attack, _| {
        every_change(attack, &examples::A_BACKWARD)
    }),
    group(
        "every prefix of the longest table",
        every_prefix_of_the_longest,
    ),
    group("every prefix of other tables", every_prefix),
    group("every length of room", every_room),
    group("rooms of the largest tables", large_rooms),
    group("every direction of one or two bits", every_direction),
    group("trees of every length to 4,200", trees::every_length),
    group(
        "trees and sheets around the limits",
        trees::around_the_limits,
    ),
    group("every change of one byte of a tree", trees::every_change),
    group("random trees", trees::random),
    group("parts of the table as trees", trees::parts_of_the_table),
    group("lengths above 2^32", huge::run),
    group("tables of every kind, whole and damaged", every_kind),
];

/// A further input: every call on this table, and weighing some tree by it.
fn everything(attack: &mut Attack, bytes: &[u8], lengths: Lengths) -> Result<(), String> {
    attack.next_input();
    let calls = Call::all(&mut attack.random);
    attack.table(bytes, &calls, lengths)?;
    let tree = some_tree(&mut attack.random, bytes);
    attack.weigh(bytes, &tree, lengths)
}

/// A small tree over the table's symbols, or something like one.
fn some_tree(random: &mut Random, bytes: &[u8]) -> Vec<u8> {
    let ranks = table::read(bytes).map_or(vec![0, 1], |table| table.ranks);
    match grow::tree(random, &ranks, 8) {
        Some(tree) if random.one_in(2) => tree,
        _ => trees::symbols(random, ranks.len() + 1, 8),
    }
}

fn raw_bytes(attack: &mut Attack, times: usize) -> Result<(), String> {
    for _ in 0..40_000 * times {
        let random = &mut attack.random;
        let most = random.pick(&[10, 100, 100, 1_000]);
        let most = if random.one_in(500) {
            LONGEST_INPUT
        } else {
            most
        };
        let length = random.below(most + 1);
        let bytes = random.bytes(length);
        everything(attack, &bytes, Lengths::Every)?;
    }
    Ok(())
}

/// The bytes are often small, so that the reader gets far with them.
fn behind_a_start(attack: &mut Attack, times: usize) -> Result<(), String> {
    for _ in 0..20_000 * times {
        let random = &mut attack.random;
        let make = random.pick(&[make::tiny, make::small, make::small, make::middle]);
        let mut bytes = table::write(&make(random));
        bytes.truncate(random.below(bytes.len() + 1));
        let most = random.pick(&[2, 4, 255]);
        let count = random.below(20);
        bytes.extend((0..count).map(|_| random.below(most + 1) as u8));
        everything(attack, &bytes, Lengths::Few)?;
    }
    Ok(())
}

fn every_change(attack: &mut Attack, table: &[u8]) -> Result<(), String> {
    for at in 0..table.len() {
        for byte in (0..=255).filter(|&byte| byte != table[at]) {
            let mut changed = table.to_vec();
            changed[at] = byte;
            everything(attack, &changed, Lengths::Every)?;
        }
    }
    Ok(())
}

/// From the longest down, so that behind a prefix the rest of the table still lies where there is
/// no guard. Each is checked and has its turn of one other call; those close to either end have
/// every call.
fn every_prefix_of_the_longest(attack: &mut Attack, _times: usize) -> Result<(), String> {
    const CLOSE: usize = 100;
    let longest = table::write(&make::longest(&mut attack.random));
    if longest.len() != LONGEST_TABLE {
        return Err(format!("it has {} bytes", longest.len()));
    }
    for length in (0..=longest.len()).rev() {
        let prefix = &longest[..length];
        if length <= CLOSE || length + CLOSE >= longest.len() {
            everything(attack, prefix, Lengths::Few)?;
        } else {
            attack.next_input();
            one_other_call(attack, prefix, length)?;
        }
    }
    Ok(())
}

fn one_other_call(attack: &mut Attack, table: &[u8], turn: usize) -> Result<(), String> {
    let direction = (turn / 4 % 3) as u32;
    let other = match turn % 4 {
        0 if direction == 0 => {
            attack.weigh(table, &[0], Lengths::Few)?;
            Call::Check
        }
        0 => Call::Rewrite,
        kind => Call::directed(direction)[kind - 1],
    };
    attack.table(table, &[Call::Check, other], Lengths::Few)
}

fn every_prefix(attack: &mut Attack, times: usize) -> Result<(), String> {
    let mut tables = of_examples();
    let random = &mut attack.random;
    tables.extend((0..40 * times).map(|_| table::write(&make::small(random))));
    tables.extend((0..3 * times).map(|_| table::write(&make::middle(random))));
    for table in tables {
        for length in (0..=table.len()).rev() {
            everything(attack, &table[..length], Lengths::Few)?;
        }
    }
    Ok(())
}

/// The tables of document 01 and of source document 001.
fn of_examples() -> Vec<Vec<u8>> {
    let mut tables = vec![examples::A_BACKWARD.to_vec(), examples::NINE.to_vec()];
    tables.extend(
        examples::collapses()
            .into_iter()
            .map(|example| example.table),
    );
    tables.sort();
    tables.dedup();
    tables
}

fn every_room(attack: &mut Attack, times: usize) -> Result<(), String> {
    let mut tables = of_examples();
    let random = &mut attack.random;
    let mut add = |count: usize, make: fn(&mut Random) -> Table| {
        tables.extend((0..count * times).map(|_| table::write(&make(random))));
    };
    add(40, make::tiny);
    add(40, make::small);
    add(10, |random| plant::some(random, Direction::Backward).table);
    add(10, |random| plant::some(random, Direction::Forward).table);
    add(10, |random| plant::ladder(random, Direction::Backward));
    add(1, make::bare);
    add(1, make::middle);
    for table in tables {
        everything(attack, &table, Lengths::Every)?;
    }
    Ok(())
}

fn large_rooms(attack: &mut Attack, times: usize) -> Result<(), String> {
    let random = &mut attack.random;
    let mut tables = vec![plant::chain(256), plant::twin_chains(125)];
    for _ in 0..times {
        tables
            .extend([make::dense, make::large, make::full, make::longest].map(|make| make(random)));
        tables.extend(Direction::BOTH.map(|side| plant::many_merges(random, side).table));
    }
    for table in tables {
        everything(attack, &table::write(&table), Lengths::Edges)?;
    }
    Ok(())
}

/// A direction is tested before the table, be it one or not.
fn every_direction(attack: &mut Attack, _times: usize) -> Result<(), String> {
    for high in 0..32 {
        for low in 0..=high {
            let direction = 1 << high | 1 << low;
            for bytes in [&examples::A[..], &examples::A[..22], &[]] {
                attack.next_input();
                attack.table(bytes, &Call::directed(direction), Lengths::Few)?;
            }
        }
    }
    Ok(())
}

/// The comparison's inputs but for its many tables of at most two bytes, which are refused at once.
fn every_kind(attack: &mut Attack, times: usize) -> Result<(), String> {
    let seed = attack.random.draw();
    let families = families::all(times, seed).into_iter();
    for family in families.filter(|family| !family.name.contains("two bytes")) {
        for input in family.inputs() {
            everything(attack, &input, Lengths::Few)
                .map_err(|wrong| format!("{}: {wrong}", family.name))?;
        }
    }
    Ok(())
}
