//! The public calls as document 01 describes them, each with all that a caller can see of it.

use crate::answer::{Refusal, ROOM_TOO_SHORT};
use crate::blocks::{self, passes, Direction};
use crate::collapse;
use crate::table::{self, Table};
use crate::tree;
use crate::weight;

/// What a call comes back with: its done figure or refusal, and what it writes from the start of
/// the lent room. A refused call writes nothing.
#[derive(Clone)]
pub struct Outcome {
    pub answer: Result<usize, Refusal>,
    pub written: Vec<u8>,
}

impl Outcome {
    fn refused(refusal: Refusal) -> Outcome {
        Outcome {
            answer: Err(refusal),
            written: Vec::new(),
        }
    }

    /// Done with this figure if `written` fits the room, which is tested last.
    fn done(figure: usize, written: Vec<u8>, room_len: usize) -> Outcome {
        let answer = Ok(figure);
        Outcome { answer, written }.in_room(room_len)
    }

    /// What the same call comes back with in a room of this length and no longer one.
    pub fn in_room(self, room_len: usize) -> Outcome {
        if self.written.len() > room_len {
            Outcome::refused(Refusal::new(ROOM_TOO_SHORT, self.written.len()))
        } else {
            self
        }
    }
}

/// Checking a table: the number of states.
pub fn check(table: &[u8]) -> Result<usize, Refusal> {
    table::read(table).map(|table| table.states())
}

/// Writing a read table again: its length.
pub fn rewrite(table: &[u8], room_len: usize) -> Outcome {
    match table::read(table) {
        Ok(table) => {
            let written = table::write(&table);
            Outcome::done(written.len(), written, room_len)
        }
        Err(refusal) => Outcome::refused(refusal),
    }
}

/// The blocks of a table, one byte a state: their number.
pub fn blocks(direction: u32, table: &[u8], room_len: usize) -> Outcome {
    match read_both(direction, table) {
        Ok((direction, table)) => {
            let written = passes::coarsest(&table, direction);
            Outcome::done(blocks::count(&written), written, room_len)
        }
        Err(refusal) => Outcome::refused(refusal),
    }
}

/// What a collapse or a shrink comes back with: beside the outcome the new counts, 0 if refused.
pub struct Smaller {
    pub outcome: Outcome,
    pub states: usize,
    pub transitions: usize,
}

/// Collapsing a table: the bytes written.
pub fn collapse(direction: u32, table: &[u8], room_len: usize) -> Smaller {
    smaller(direction, table, room_len, collapse::collapse)
}

/// Shrinking a table from this side: the bytes written.
pub fn shrink(direction: u32, table: &[u8], room_len: usize) -> Smaller {
    smaller(direction, table, room_len, collapse::shrink)
}

fn smaller(
    direction: u32,
    table: &[u8],
    room_len: usize,
    make: fn(&Table, Direction) -> Table,
) -> Smaller {
    let (direction, table) = match read_both(direction, table) {
        Ok(both) => both,
        Err(refusal) => {
            return Smaller {
                outcome: Outcome::refused(refusal),
                states: 0,
                transitions: 0,
            }
        }
    };
    let made = make(&table, direction);
    let written = table::write(&made);
    let outcome = Outcome::done(written.len(), written, room_len);
    let (states, transitions) = match outcome.answer {
        Ok(_) => (made.states(), made.transitions.len()),
        Err(_) => (0, 0),
    };
    Smaller {
        outcome,
        states,
        transitions,
    }
}

/// The direction is tested before the table.
fn read_both(direction: u32, table: &[u8]) -> Result<(Direction, Table), Refusal> {
    Ok((Direction::of_number(direction)?, table::read(table)?))
}

/// What a weighing comes back with: the nodes or a refusal, what it writes from the start of the
/// sheet, and the weight, of which there is none if refused.
pub struct Weighed {
    pub answer: Result<usize, Refusal>,
    pub sheet: Vec<i64>,
    pub weight: Option<i64>,
}

/// Weighing a tree in a sheet of so many numbers: the nodes.
pub fn weigh(table: &[u8], tree: &[u8], sheet_len: usize) -> Weighed {
    match try_weigh(table, tree, sheet_len) {
        Ok((sheet, weight)) => Weighed {
            answer: Ok(tree.len()),
            sheet,
            weight: Some(weight),
        },
        Err(refusal) => Weighed {
            answer: Err(refusal),
            sheet: Vec::new(),
            weight: None,
        },
    }
}

fn try_weigh(table: &[u8], tree: &[u8], sheet_len: usize) -> Result<(Vec<i64>, i64), Refusal> {
    let table = table::read(table)?;
    let needed = tree::check(&table.ranks, tree)? * table.states();
    if needed > sheet_len {
        return Err(Refusal::new(ROOM_TOO_SHORT, needed));
    }
    let mut sheet = vec![0; needed];
    let weight = weight::weigh(&table, tree, &mut sheet);
    Ok((sheet, weight))
}

/// What the second table's codes come back with when it is picked from.
const OF_THE_SECOND: u32 = 100;

/// Picking the smaller of two tables: the table itself. The second's refusal has 100 added.
pub fn pick<'a>(first: &'a [u8], second: &'a [u8]) -> Result<&'a [u8], Refusal> {
    let size = |table: Table| (table.states(), table.transitions.len());
    let of_first = size(table::read(first)?);
    let of_second = size(
        table::read(second)
            .map_err(|refusal| Refusal::new(refusal.code + OF_THE_SECOND, refusal.figure))?,
    );
    Ok(if of_second < of_first { second } else { first })
}

#[cfg(test)]
mod tests {
    use super::*;
    use crate::answer::{NO_SUCH_DIRECTION, TABLE_ENDS, TREE_ENDS};
    use crate::examples;

    /// The proved program `pick_try` tries these pairs, in this order, and prints what it gets.
    #[test]
    fn pick_try_prints_what_pick_gives() {
        let a = &examples::A[..];
        let collapsed = &examples::A_BACKWARD[..];
        let changed = |at: usize, byte: u8| {
            let mut table = a.to_vec();
            table[at] = byte;
            table
        };
        let other = &changed(22, 8)[..];
        let shorter = &changed(8, 3)[..19];
        let broken = &changed(17, 3)[..];
        let cut = &a[..5];
        let padded = &[0x80, 0x00, 0x03][..];
        let large = &[0xff, 0xff, 0xff, 0xff, 0x10][..];
        let pairs = [
            (a, collapsed),
            (collapsed, a),
            (a, other),
            (other, a),
            (a, shorter),
            (shorter, a),
            (broken, a),
            (a, broken),
            (broken, cut),
            (a, cut),
            (a, &cut[..0]),
            (padded, large),
            (large, padded),
            (a, padded),
            (a, large),
        ];
        let lines: String = pairs
            .iter()
            .map(|(first, second)| {
                let (code, figure, piece) = match pick(first, second) {
                    Ok(piece) => (0, piece.len(), piece),
                    Err(refusal) => (refusal.code, refusal.figure, &a[..0]),
                };
                let sum: u32 = piece.iter().map(|&byte| u32::from(byte)).sum();
                let length = piece.len();
                format!("code {code} figure {figure} piece {length} sum {sum}\n")
            })
            .collect();
        assert_eq!(lines, include_str!("../../../crates/pick_try/stdout"));
    }

    #[test]
    fn the_direction_is_tested_first_and_the_room_last() {
        let refused = |code, figure| Err(Refusal::new(code, figure));
        assert_eq!(blocks(2, &[], 0).answer, refused(NO_SUCH_DIRECTION, 0));
        assert_eq!(
            collapse(u32::MAX, &[], 0).outcome.answer,
            refused(NO_SUCH_DIRECTION, 0)
        );
        assert_eq!(blocks(1, &[], 0).answer, refused(TABLE_ENDS, 0));
        assert_eq!(
            blocks(1, &examples::A, 2).answer,
            refused(ROOM_TOO_SHORT, 3)
        );
        assert_eq!(
            collapse(0, &examples::A, 14).outcome.answer,
            refused(ROOM_TOO_SHORT, 15)
        );
        assert_eq!(weigh(&examples::A, &[1], 0).answer, refused(TREE_ENDS, 1));
        assert_eq!(
            weigh(&examples::A, &[1, 0], 5).answer,
            refused(ROOM_TOO_SHORT, 6)
        );
    }

    #[test]
    fn the_figures_of_table_a() {
        let done = blocks(0, &examples::A, 3);
        assert_eq!((done.answer, done.written), (Ok(2), vec![0, 0, 1]));
        let done = collapse(0, &examples::A, 15);
        assert_eq!(
            (done.outcome.answer, done.states, done.transitions),
            (Ok(15), 2, 2)
        );
        let done = weigh(&examples::A, &[1, 0], 6);
        assert_eq!((done.answer, done.weight), (Ok(2), Some(36)));
    }
}
