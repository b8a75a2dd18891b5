//! The calls with a direction: blocks, collapse and shrink.

use second::answer::{packed, OTHERS, OF_TABLES};
use second::blocks::{self, definition, Direction};
use second::calls::{self, Outcome};
use second::examples::{self, Collapse};
use second::families;
use second::make;
use second::random::Random;
use second::table::{self, Table};

use crate::call::{same_answer, with_input, Call, Met};
use crate::room::{compare_in_room, compare_in_rooms};
use crate::tally::Tally;

const CODES: &[&[u32]] = &[&OTHERS, &OF_TABLES];

pub const BLOCKS: Call = Call {
    name: "blocks",
    codes: CODES,
    families: families::for_directions,
    compare: |table, random, met| compare(face::blocks, calls::blocks, table, random, met),
};

pub const COLLAPSE: Call = Call {
    name: "collapse",
    codes: CODES,
    families: families::for_directions,
    compare: |table, random, met| {
        let due =
            |direction, table: &[u8], room_len| calls::collapse(direction, table, room_len).outcome;
        compare(face::collapse, due, table, random, met)
    },
};

pub const SHRINK: Call = Call {
    name: "shrink",
    codes: CODES,
    families: families::for_directions,
    compare: |table, random, met| {
        let due =
            |direction, table: &[u8], room_len| calls::shrink(direction, table, room_len).outcome;
        compare(face::shrink, due, table, random, met)
    },
};

type Library = fn(u32, &[u8], &mut [u8]) -> u64;

/// Makes a call in both directions and in one that there isn't.
fn compare(
    library: Library,
    second: impl Fn(u32, &[u8], usize) -> Outcome,
    table: &[u8],
    random: &mut Random,
    met: &mut Met,
) -> Result<(), String> {
    let due_and_call = |direction| {
        let due = second(direction, table, usize::MAX);
        let call = move |table: &[u8], room: &mut [u8]| library(direction, table, room);
        (due, call)
    };
    let named = |direction| move |wrong| format!("direction {direction}: {wrong}");
    for direction in [0, 1] {
        let (due, call) = due_and_call(direction);
        compare_in_rooms(call, table, &due, random, met).map_err(named(direction))?;
    }
    let direction = random.pick(&[2, 3, 1 << 8, 1 << 16, u32::MAX]);
    let (due, call) = due_and_call(direction);
    let room_len = random.below(40);
    compare_in_room(call, table, room_len, &due, random, met).map_err(named(direction))
}

/// The examples, and the smallest tables against the definition itself.
pub fn run(tally: &mut Tally, times: usize, seed: u64) {
    for example in examples::collapses() {
        let outcome = run_example(&example).map_err(|wrong| with_input(&wrong, &example.table));
        tally.note(&format!("blocks and collapse: {}", example.name), outcome);
    }
    tally.note(
        "blocks: tiny, against every partition",
        against_every_partition(300 * times, seed),
    );
}

/// Holds blocks and collapse to what is written out, and every call to the second program.
fn run_example(example: &Collapse) -> Result<String, String> {
    let mut random = Random::new(0);
    let mut met = Met::default();
    let due = outcome(blocks::count(&example.blocks), &example.blocks);
    exactly(face::blocks, example, &due, &mut random, &mut met)?;
    let due = outcome(example.collapsed.len(), &example.collapsed);
    exactly(face::collapse, example, &due, &mut random, &mut met)?;
    for call in [BLOCKS, COLLAPSE, SHRINK] {
        (call.compare)(&example.table, &mut random, &mut met)
            .map_err(|wrong| format!("{}: {wrong}", call.name))?;
    }
    Ok(format!("{} bytes", example.collapsed.len()))
}

fn outcome(figure: usize, written: &[u8]) -> Outcome {
    Outcome {
        answer: Ok(figure),
        written: written.to_vec(),
    }
}

fn exactly(
    library: Library,
    example: &Collapse,
    due: &Outcome,
    random: &mut Random,
    met: &mut Met,
) -> Result<(), String> {
    let call = |table: &[u8], room: &mut [u8]| library(example.direction as u32, table, room);
    compare_in_rooms(call, &example.table, due, random, met)
}

fn against_every_partition(count: usize, seed: u64) -> Result<String, String> {
    let mut random = Random::new(seed);
    for _ in 0..count {
        let table = make::tiny(&mut random);
        let bytes = table::write(&table);
        for direction in Direction::BOTH {
            is_coarsest(&table, &bytes, direction).map_err(|wrong| with_input(&wrong, &bytes))?;
        }
    }
    Ok(format!("{count} tables, seed {seed}"))
}

fn is_coarsest(table: &Table, bytes: &[u8], direction: Direction) -> Result<(), String> {
    let due = definition::coarsest(table, direction);
    let mut room = vec![0; due.len()];
    let got = face::blocks(direction as u32, bytes, &mut room);
    same_answer(got, packed(Ok(blocks::count(&due))), &mut Met::default())?;
    if room == due {
        Ok(())
    } else {
        Err(format!("{direction:?}: {room:?} and should be {due:?}"))
    }
}
