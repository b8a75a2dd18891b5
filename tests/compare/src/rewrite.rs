//! Writing a read table again.

use second::answer::{DONE, OF_TABLES, ROOM_TOO_SHORT};
use second::calls;
use second::families;
use second::random::Random;

use crate::call::{Call, Met};
use crate::room::compare_in_rooms;

pub const CALL: Call = Call {
    name: "rewrite",
    codes: &[&[DONE, ROOM_TOO_SHORT], &OF_TABLES],
    families: families::all,
    compare,
};

fn compare(table: &[u8], random: &mut Random, met: &mut Met) -> Result<(), String> {
    let due = calls::rewrite(table, usize::MAX);
    compare_in_rooms(face::rewrite, table, &due, random, met)
}
