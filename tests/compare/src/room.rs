//! Calls that write bytes in a lent room, made with every room worth trying.

use second::answer::packed;
use second::calls::Outcome;
use second::random::Random;

use crate::call::{same_answer, Met};
use crate::lent::Lent;

/// Makes a call on this table in several rooms, and holds it to `due`, the outcome with room
/// enough.
pub fn compare_in_rooms(
    call: impl Fn(&[u8], &mut [u8]) -> u64,
    table: &[u8],
    due: &Outcome,
    random: &mut Random,
    met: &mut Met,
) -> Result<(), String> {
    let exact = if due.answer.is_ok() {
        due.written.len()
    } else {
        table.len()
    };
    for room_len in lengths(exact, random) {
        compare_in_room(&call, table, room_len, due, random, met)
            .map_err(|wrong| format!("with room for {room_len} bytes: {wrong}"))?;
    }
    Ok(())
}

/// No room, the exact room, one short of it, one more, and any.
pub fn lengths(exact: usize, random: &mut Random) -> Vec<usize> {
    let mut lengths = vec![0, exact, exact + 1, random.below(exact + 300)];
    if exact > 0 {
        lengths.push(exact - 1);
    }
    lengths
}

/// The same in one room.
pub fn compare_in_room(
    call: impl Fn(&[u8], &mut [u8]) -> u64,
    table: &[u8],
    room_len: usize,
    due: &Outcome,
    random: &mut Random,
    met: &mut Met,
) -> Result<(), String> {
    let lent = Lent::holding(table, random);
    let mut room = Lent::room(room_len, random);
    let got = call(lent.piece(), room.piece_mut());
    let due = due.clone().in_room(room_len);
    same_answer(got, packed(due.answer), met)?;
    room.holds(&due.written)
        .map_err(|wrong| format!("the room is wrong: {wrong}"))?;
    lent.untouched()
        .map_err(|wrong| format!("the table was changed: {wrong}"))
}
