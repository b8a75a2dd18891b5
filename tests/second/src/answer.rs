//! The codes and figures that come back.

pub const DONE: u32 = 0;
pub const TABLE_ENDS: u32 = 1;
pub const NUMBER_PADDED: u32 = 2;
pub const OUT_OF_RANGE: u32 = 3;
pub const NOT_IN_TABLE: u32 = 4;
pub const CODE_IS_ZERO: u32 = 5;
pub const NOT_ABOVE: u32 = 6;
pub const TABLE_GOES_ON: u32 = 7;
pub const TREE_ENDS: u32 = 8;
pub const NODE_NOT_IN_TABLE: u32 = 9;
pub const TREE_GOES_ON: u32 = 10;
pub const TREE_TOO_LARGE: u32 = 11;
pub const ROOM_TOO_SHORT: u32 = 12;
pub const NO_SUCH_DIRECTION: u32 = 13;
pub const NUMBER_TOO_LARGE: u32 = 19;

/// The codes that a table is refused with.
pub const OF_TABLES: [u32; 8] = [
    TABLE_ENDS,
    NUMBER_PADDED,
    NUMBER_TOO_LARGE,
    OUT_OF_RANGE,
    NOT_IN_TABLE,
    CODE_IS_ZERO,
    NOT_ABOVE,
    TABLE_GOES_ON,
];

/// The codes that a tree is refused with.
pub const OF_TREES: [u32; 4] = [TREE_ENDS, NODE_NOT_IN_TABLE, TREE_GOES_ON, TREE_TOO_LARGE];

/// The codes that neither has.
pub const OTHERS: [u32; 3] = [DONE, ROOM_TOO_SHORT, NO_SUCH_DIRECTION];

/// How many codes there are.
pub const CODES: usize = OF_TABLES.len() + OF_TREES.len() + OTHERS.len();

/// Every code.
pub fn codes() -> impl Iterator<Item = u32> {
    OTHERS.into_iter().chain(OF_TABLES).chain(OF_TREES)
}

/// Why something was not taken: one of the codes above other than `DONE`, and its figure.
#[derive(Clone, Copy, PartialEq, Eq, Debug)]
pub struct Refusal {
    pub code: u32,
    pub figure: usize,
}

impl Refusal {
    pub fn new(code: u32, figure: usize) -> Refusal {
        Refusal { code, figure }
    }
}

/// A done figure or a refusal in the one number of the C calls: code times 2^32 plus figure.
pub fn packed(outcome: Result<usize, Refusal>) -> u64 {
    let (code, figure) = match outcome {
        Ok(figure) => (DONE, figure),
        Err(refusal) => (refusal.code, refusal.figure),
    };
    (u64::from(code) << 32) + figure as u64
}

/// The code and the figure of a C call's number.
pub fn unpacked(answer: u64) -> (u64, u64) {
    (answer >> 32, answer & 0xffff_ffff)
}
