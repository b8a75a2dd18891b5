//! What the library says, through its C calls.

use second::answer::{unpacked, Refusal};
use second::blocks::Direction;
use second::table;

use crate::plain::Answer;

/// The library's blocks and collapse of a table that it takes.
pub fn answer(bytes: &[u8], direction: Direction) -> Answer {
    let mut blocks = vec![0; usize::from(u8::MAX) + 1];
    let count = done(face::check(bytes));
    done(face::blocks(direction as u32, bytes, &mut blocks));
    blocks.truncate(count);
    let bytes = collapse(bytes, direction);
    Answer {
        blocks,
        collapsed: table::read(&bytes).expect("a collapse is a table"),
        bytes,
    }
}

/// The bytes of the library's collapse.
pub fn collapse(bytes: &[u8], direction: Direction) -> Vec<u8> {
    // A collapse has no more numbers than the table, and a number has at most five bytes.
    let mut room = vec![0; 5 * bytes.len()];
    let written = done(face::collapse(direction as u32, bytes, &mut room));
    room.truncate(written);
    room
}

/// Whether bytes are a table.
pub fn check(bytes: &[u8]) -> Result<(), Refusal> {
    match unpacked(face::check(bytes)) {
        (0, _) => Ok(()),
        (code, figure) => Err(Refusal::new(code as u32, figure as usize)),
    }
}

/// The weight of a tree in a table, both of which the library takes.
pub fn weight(bytes: &[u8], tree: &[u8]) -> i64 {
    let states = done(face::check(bytes));
    let mut sheet = vec![0; tree.len() * states];
    let mut weight = 0;
    done(face::weigh(bytes, tree, &mut sheet, &mut weight));
    weight
}

/// The figure of a call that must not refuse.
fn done(answer: u64) -> usize {
    let (code, figure) = unpacked(answer);
    assert_eq!(code, 0, "the library refuses with {code} at {figure}");
    figure as usize
}
