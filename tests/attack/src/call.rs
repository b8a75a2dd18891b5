//! The calls on a table alone, and what is due for them by the second program.

use second::answer::Refusal;
use second::blocks::{self, fast, Direction};
use second::calls::{self, Outcome};
use second::collapse;
use second::random::Random;
use second::table;

/// A call on a table. A room is lent for checking too, which doesn't get it.
#[derive(Clone, Copy, Debug)]
pub enum Call {
    Check,
    Rewrite,
    Directed(Kind, u32),
}

/// The calls that have a direction.
#[derive(Clone, Copy, Debug)]
pub enum Kind {
    Blocks,
    Collapse,
    Shrink,
}

impl Kind {
    const ALL: [Kind; 3] = [Kind::Blocks, Kind::Collapse, Kind::Shrink];
}

/// Some directions that there aren't. The low bits of most are those of one that there is.
const ABOVE: [u32; 8] = [
    2,
    3,
    1 << 8,
    (1 << 8) + 1,
    1 << 16,
    (1 << 31) + 1,
    u32::MAX - 1,
    u32::MAX,
];

/// Of tables up to this length the second program finds the blocks by plain passes, its reference
/// for every size; of longer ones in its fast way.
const LONGEST_FOR_PASSES: usize = 2_000;

impl Call {
    /// Every call, in both directions and in one that there isn't.
    pub fn all(random: &mut Random) -> Vec<Call> {
        let mut calls = vec![Call::Check, Call::Rewrite];
        for direction in [0, 1, random.pick(&ABOVE)] {
            calls.extend(Call::directed(direction));
        }
        calls
    }

    /// The calls of this direction.
    pub fn directed(direction: u32) -> [Call; 3] {
        Kind::ALL.map(|kind| Call::Directed(kind, direction))
    }

    /// What the call comes back with, given room enough.
    pub fn due(self, table: &[u8]) -> Outcome {
        match self {
            Call::Check => Outcome {
                answer: calls::check(table),
                written: Vec::new(),
            },
            Call::Rewrite => calls::rewrite(table, usize::MAX),
            Call::Directed(kind, direction) if table.len() <= LONGEST_FOR_PASSES => {
                by_passes(kind, direction, table)
            }
            Call::Directed(kind, direction) => {
                let (answer, written) = match fast(kind, direction, table) {
                    Ok((figure, written)) => (Ok(figure), written),
                    Err(refusal) => (Err(refusal), Vec::new()),
                };
                Outcome { answer, written }
            }
        }
    }
}

fn by_passes(kind: Kind, direction: u32, table: &[u8]) -> Outcome {
    match kind {
        Kind::Blocks => calls::blocks(direction, table, usize::MAX),
        Kind::Collapse => calls::collapse(direction, table, usize::MAX).outcome,
        Kind::Shrink => calls::shrink(direction, table, usize::MAX).outcome,
    }
}

/// The done figure and what is written.
fn fast(kind: Kind, direction: u32, table: &[u8]) -> Result<(usize, Vec<u8>), Refusal> {
    let direction = Direction::of_number(direction)?;
    let table = table::read(table)?;
    let smaller = match kind {
        Kind::Blocks => {
            let blocks = fast::coarsest(&table, direction);
            return Ok((blocks::count(&blocks), blocks));
        }
        Kind::Collapse => {
            let blocks = fast::coarsest(&table, direction);
            collapse::collapse_by(&table, direction, &blocks)
        }
        Kind::Shrink => collapse::shrink_by(&table, direction, fast::coarsest),
    };
    let written = table::write(&smaller);
    Ok((written.len(), written))
}
