//! Lengths above 2^32, of which a call that counts in 32 bits would see the low part only. The
//! memory is there to the last byte but takes none of the machine's, since hardly any of it is ever
//! written.

use second::calls;
use second::examples::{A, G_A};
use second::tree::MOST_NODES;

use crate::attack::Attack;
use crate::call::Call;
use crate::guarded::{Memory, Plain};
use crate::lengths::Lengths;
use crate::lent::Guard;

/// Some lengths of which the low part would be too short, and some of which it would be enough.
const LENGTHS: [usize; 8] = [
    OVER,
    OVER + 1,
    OVER + 2,
    OVER + 3,
    OVER + 6,
    OVER + 15,
    OVER + 23,
    LONGEST,
];
const OVER: usize = 1 << 32;
const LONGEST: usize = OVER + 30;

pub fn run(attack: &mut Attack, _times: usize) -> Result<(), String> {
    if Memory::<i64>::try_new(LONGEST).is_none() {
        println!("not run: the system gives no 32 GiB of address space");
        return Ok(());
    }
    for guard in Guard::BOTH {
        for length in LENGTHS {
            let named = |what| move |wrong| format!("a {what} of {length}, {guard:?}: {wrong}");
            table(attack, guard, length).map_err(named("table"))?;
            tree(attack, guard, length).map_err(named("tree"))?;
            room(attack, guard, length).map_err(named("room"))?;
            sheet(attack, guard, length).map_err(named("sheet"))?;
        }
    }
    Ok(())
}

/// Every call on A with zeros behind it.
fn table(attack: &mut Attack, guard: Guard, length: usize) -> Result<(), String> {
    let mut memory = Memory::new(LONGEST);
    let piece = guard.piece(length, memory.len());
    memory[piece.start..][..A.len()].copy_from_slice(&A);
    attack.next_input();
    memory.while_read_only(|memory| {
        let table = &memory[piece];
        for call in Call::all(&mut attack.random) {
            let due = attack.caller.due(call, table, Lengths::Few);
            attack.caller.table(guard, table, &due)?;
        }
        let due = calls::weigh(table, &G_A, usize::MAX);
        attack.caller.tree(guard, table, &G_A, Lengths::Few, &due)
    })
}

/// Weighing g(a), and g(g(..)) without an end, with zeros behind it.
fn tree(attack: &mut Attack, guard: Guard, length: usize) -> Result<(), String> {
    for start in [&G_A[..], &[1; MOST_NODES], &[1; MOST_NODES + 1]] {
        let mut memory = Memory::new(LONGEST);
        let piece = guard.piece(length, memory.len());
        memory[piece.start..][..start.len()].copy_from_slice(start);
        attack.next_input();
        memory.while_read_only(|memory| {
            let tree = &memory[piece];
            let due = calls::weigh(&A, tree, usize::MAX);
            attack.caller.tree(guard, &A, tree, Lengths::Few, &due)
        })?;
    }
    Ok(())
}

/// Every call on A in a room of this length.
fn room(attack: &mut Attack, guard: Guard, length: usize) -> Result<(), String> {
    attack.next_input();
    for call in Call::all(&mut attack.random) {
        let due = call.due(&A);
        let make = |room: &mut [u8]| attack.caller.library.make(call, &A, room);
        let (got, room) = in_memory(guard, length, 0, make, &due.written);
        attack.caller.same_answer(got, due.answer)?;
        room?;
    }
    Ok(())
}

/// Weighing in a sheet of so many numbers.
fn sheet(attack: &mut Attack, guard: Guard, length: usize) -> Result<(), String> {
    attack.next_input();
    let due = calls::weigh(&A, &G_A, usize::MAX);
    let mut weight = 0;
    let weigh = |sheet: &mut [i64]| (attack.caller.library.weigh)(&A, &G_A, sheet, &mut weight);
    let (got, room) = in_memory(guard, length, 0, weigh, &due.sheet);
    attack.caller.same_answer(got, due.answer)?;
    room?;
    if Some(weight) == due.weight {
        Ok(())
    } else {
        Err(format!("the weight is {weight}"))
    }
}

/// Makes a call in fresh memory, all of it zero. Gives the answer, and whether the memory begins
/// with what is due to be written and is still zero close behind and close to its end.
fn in_memory<T: Plain + PartialEq>(
    guard: Guard,
    length: usize,
    zero: T,
    call: impl FnOnce(&mut [T]) -> u64,
    written: &[T],
) -> (u64, Result<(), String>) {
    const CLOSE: usize = 100_000;
    let mut memory = Memory::new(LONGEST);
    let piece = guard.piece(length, memory.len());
    let room = &mut memory[piece];
    let answer = call(room);
    let (start, rest) = room.split_at(written.len());
    let mut behind = rest[..CLOSE].iter().chain(&rest[rest.len() - CLOSE..]);
    let is_right = start == written && behind.all(|&item| item == zero);
    let wrong = || "the room is wrong".to_string();
    (answer, is_right.then_some(()).ok_or_else(wrong))
}
