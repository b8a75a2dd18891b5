//! Blocks, collapse and shrink, with the second program's fast refinement as the baseline.
//!
//! The call `collapse` reads, finds the blocks and collapses, and so does its baseline: that is
//! checking, blocks and collapse together. `three` makes the three calls one after another, and
//! its baseline does each of the three from the table's bytes.

use std::cell::RefCell;
use std::hint::black_box;

use second::blocks::{fast, Direction};
use second::collapse::{collapse_by, shrink_by};
use second::make::{self, Shape};
use second::plant;
use second::random::Random;
use second::table::{self, Table, LONGEST_TABLE, MOST_TRANSITIONS};

use super::{Case, SEED};

type Library = fn(u32, &[u8], &mut [u8]);
type Plain = fn(Direction, &[u8], &mut [u8]);

/// A call's name, the library's side and the plain side.
pub type Call = (&'static str, Library, Plain);

pub const BLOCKS: Call = ("blocks", library_blocks, plain_blocks);
pub const COLLAPSE: Call = ("collapse", library_collapse, plain_collapse);
const CALLS: [Call; 4] = [
    BLOCKS,
    COLLAPSE,
    (
        "three",
        |direction, table, room| {
            black_box(face::check(table));
            library_blocks(direction, table, room);
            library_collapse(direction, table, room);
        },
        |direction, table, room| {
            black_box(table::read(table).is_ok());
            plain_blocks(direction, table, room);
            plain_collapse(direction, table, room);
        },
    ),
    (
        "shrink",
        |direction, table, room| {
            black_box(face::shrink(direction, table, room));
        },
        plain_shrink,
    ),
];

pub fn all() -> Vec<Case> {
    let inputs = inputs();
    let of_call = |call| inputs.iter().map(move |input| case(call, input));
    CALLS.into_iter().flat_map(of_call).collect()
}

pub struct Input {
    pub name: String,
    pub direction: Direction,
    pub table: Vec<u8>,
}

/// The families of the issue on blocks, each in both directions.
fn inputs() -> Vec<Input> {
    let random = &mut Random::new(SEED);
    let merging = Direction::BOTH.map(|direction| plant::many_merges(random, direction).table);
    let [merging_backward, merging_forward] = merging.each_ref();
    let chain = plant::chain(250);
    let longest = make::longest(random);
    let few_states = ten_states(random);
    let backward = Direction::Backward;
    let forward = Direction::Forward;
    vec![
        input("many merges, rank 4, backward", backward, merging_backward),
        input("many merges, rank 4, forward", forward, merging_forward),
        input("a chain of 250 levels, backward", backward, &chain),
        input("a chain of 250 levels, forward", forward, &chain),
        input("the longest table, backward", backward, &longest),
        input("the longest table, forward", forward, &longest),
        input(
            "10 states, 4,000 transitions, backward",
            backward,
            &few_states,
        ),
        input(
            "10 states, 4,000 transitions, forward",
            forward,
            &few_states,
        ),
    ]
}

fn input(name: &str, direction: Direction, table: &Table) -> Input {
    Input {
        name: name.to_string(),
        direction,
        table: table::write(table),
    }
}

fn ten_states(random: &mut Random) -> Table {
    let shape = Shape {
        states: 10,
        ranks: vec![2, 3, 4],
        transitions: MOST_TRANSITIONS as usize,
        lowest_state: 0,
        code: make::small_code,
    };
    make::table(random, &shape)
}

pub fn case((call, library, plain): Call, input: &Input) -> Case {
    let direction = input.direction;
    let (table, same_table) = (input.table.clone(), input.table.clone());
    let room = || RefCell::new(vec![0; LONGEST_TABLE]);
    let (library_room, plain_room) = (room(), room());
    Case {
        call,
        input: input.name.clone(),
        bytes: table.len(),
        library: Box::new(move || {
            let room = &mut library_room.borrow_mut();
            library(direction as u32, black_box(&table), room);
        }),
        plain: Box::new(move || {
            let room = &mut plain_room.borrow_mut();
            plain(direction, black_box(&same_table), room);
        }),
    }
}

fn library_blocks(direction: u32, table: &[u8], room: &mut [u8]) {
    black_box(face::blocks(direction, table, room));
}

fn library_collapse(direction: u32, table: &[u8], room: &mut [u8]) {
    black_box(face::collapse(direction, table, room));
}

fn read(table: &[u8]) -> Table {
    table::read(table).expect("the table is valid")
}

fn write(written: &[u8], room: &mut [u8]) {
    room[..written.len()].copy_from_slice(written);
}

fn plain_blocks(direction: Direction, table: &[u8], room: &mut [u8]) {
    write(&fast::coarsest(&read(table), direction), room);
}

fn plain_collapse(direction: Direction, table: &[u8], room: &mut [u8]) {
    let table = read(table);
    let blocks = fast::coarsest(&table, direction);
    write(
        &table::write(&collapse_by(&table, direction, &blocks)),
        room,
    );
}

fn plain_shrink(direction: Direction, table: &[u8], room: &mut [u8]) {
    let shrunk = shrink_by(&read(table), direction, fast::coarsest);
    write(&table::write(&shrunk), room);
}
