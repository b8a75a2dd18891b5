//! The examples of document 01 and of source document 001.

use crate::answer::{
    Refusal, CODE_IS_ZERO, NOT_ABOVE, NOT_IN_TABLE, NUMBER_PADDED, NUMBER_TOO_LARGE, OUT_OF_RANGE,
    TABLE_ENDS, TABLE_GOES_ON,
};
use crate::blocks::Direction::{self, Backward, Forward};
use crate::table::{self, Table, Transition};
use crate::tree::MOST_NODES;

/// Table A.
pub const A: [u8; 23] = [
    0x00, 0x03, 0x02, 0x00, 0x01, 0x00, 0x00, 0x01, 0x04, 0x00, 0x00, 0x03, 0x00, 0x01, 0x03, 0x01,
    0x00, 0x02, 0x05, 0x01, 0x01, 0x02, 0x07,
];

/// The backward collapse of table A (P2).
pub const A_BACKWARD: [u8; 15] = [
    0x00, 0x02, 0x02, 0x00, 0x01, 0x00, 0x01, 0x02, 0x00, 0x00, 0x03, 0x01, 0x00, 0x01, 0x0c,
];

/// Table B (P5).
pub const B: [u8; 23] = [
    0x00, 0x03, 0x02, 0x00, 0x01, 0x00, 0x00, 0x01, 0x04, 0x00, 0x00, 0x03, 0x00, 0x01, 0x04, 0x01,
    0x00, 0x02, 0x05, 0x01, 0x01, 0x02, 0x05,
];

/// Table C (P6).
pub const C: [u8; 23] = [
    0x01, 0x03, 0x02, 0x00, 0x01, 0x00, 0x00, 0x01, 0x04, 0x00, 0x00, 0x07, 0x00, 0x01, 0x07, 0x01,
    0x00, 0x02, 0x0b, 0x01, 0x01, 0x02, 0x0f,
];

/// Table D (P7).
pub fn d() -> Vec<u8> {
    let half = [0x80, 0x80, 0x80, 0x80, 0x08];
    let head = [0, 3, 2, 0, 1, 0, 1, 1, 3, 0, 0, 1];
    [&head[..], &[1, 0, 1], &half, &[1, 0, 2], &half].concat()
}

/// Table E (P8).
pub const E: [u8; 25] = [
    0, 4, 2, 0, 1, 0, 0, 0, 1, 4, 0, 0, 1, 1, 0, 1, 1, 1, 1, 2, 1, 1, 2, 3, 1,
];

/// The table of P9, with document 01's symbols.
pub const NINE: [u8; 7] = [0, 1, 2, 0, 1, 5, 0];

/// A table in arithmetic 0 over source 001's symbols, all of whose weights are 1: the final states,
/// the targets of its symbol of rank 0, and the transitions of its symbol of rank 2 as left child,
/// right child and target.
fn zigzag(states: usize, finals: &[u8], leaves: &[u8], nodes: &[[u8; 3]]) -> Table {
    let leaf = |&target| Transition {
        symbol: 0,
        children: [0; 4],
        target,
        code: 1,
    };
    let node = |&[l, r, target]: &[u8; 3]| Transition {
        symbol: 1,
        children: [l, r, 0, 0],
        target,
        code: 1,
    };
    let mut transitions: Vec<Transition> = leaves
        .iter()
        .map(leaf)
        .chain(nodes.iter().map(node))
        .collect();
    transitions.sort_by_key(Transition::key);
    Table {
        arithmetic: 0,
        ranks: vec![0, 2],
        finals: (0..states as u8)
            .map(|state| u32::from(finals.contains(&state)))
            .collect(),
        transitions,
    }
}

/// Example 2 of source 001, its states l, r, L, R and bottom numbered from 0 on.
pub fn zigzag_2() -> Table {
    let nodes = [
        [1, 4, 0],
        [4, 0, 1],
        [4, 4, 0],
        [3, 4, 2],
        [4, 2, 3],
        [4, 4, 3],
        [4, 4, 4],
    ];
    zigzag(5, &[0, 2], &[0, 3, 4], &nodes)
}

/// Example 17 of source 001, its states numbered likewise.
pub fn zigzag_17() -> Table {
    let nodes = [
        [4, 2, 3],
        [4, 2, 1],
        [4, 0, 1],
        [3, 4, 2],
        [3, 4, 0],
        [1, 4, 0],
        [4, 4, 4],
    ];
    zigzag(5, &[0], &[0, 1, 2, 3, 4], &nodes)
}

/// Examples 4 and 19 of source 001, which are the same: the states of l, r and bottom are 0, 1, 2.
pub fn zigzag_collapsed() -> Table {
    let nodes = [[1, 2, 0], [2, 0, 1], [2, 2, 0], [2, 2, 1], [2, 2, 2]];
    zigzag(3, &[0], &[0, 1, 2], &nodes)
}

/// A named table with its blocks and its collapse in one direction, written out and not computed.
pub struct Collapse {
    pub name: &'static str,
    pub table: Vec<u8>,
    pub direction: Direction,
    pub blocks: Vec<u8>,
    pub collapsed: Vec<u8>,
}

/// The collapses of 01's examples and of source document 001's.
pub fn collapses() -> Vec<Collapse> {
    let b_forward = [0, 2, 2, 0, 1, 0, 1, 2, 0, 0, 7, 1, 0, 1, 5];
    let c_backward = [1, 2, 2, 0, 1, 0, 1, 2, 0, 0, 7, 1, 0, 1, 15];
    let d_forward = [0, 2, 2, 0, 1, 0, 1, 1, 0, 0, 1];
    let (two, seventeen) = (table::write(&zigzag_2()), table::write(&zigzag_17()));
    let four = table::write(&zigzag_collapsed());
    vec![
        collapse("P1 and P2", &A, Backward, &[0, 0, 1], &A_BACKWARD),
        collapse("P3", &A, Forward, &[0, 1, 2], &A),
        collapse("P5, forward", &B, Forward, &[0, 0, 1], &b_forward),
        collapse("P5, backward", &B, Backward, &[0, 1, 2], &B),
        collapse("P6", &C, Backward, &[0, 0, 1], &c_backward),
        collapse("P7", &d(), Forward, &[0, 1, 1], &d_forward),
        collapse("P8", &E, Forward, &[0, 1, 2, 3], &E),
        collapse("P9, backward", &NINE, Backward, &[0], &NINE),
        collapse("P9, forward", &NINE, Forward, &[0], &NINE),
        collapse("001, 2 and 4", &two, Forward, &[0, 1, 0, 1, 2], &four),
        collapse(
            "001, 17 and 19",
            &seventeen,
            Backward,
            &[0, 1, 2, 2, 2],
            &four,
        ),
    ]
}

fn collapse(
    name: &'static str,
    table: &[u8],
    direction: Direction,
    blocks: &[u8],
    collapsed: &[u8],
) -> Collapse {
    Collapse {
        name,
        table: table.to_vec(),
        direction,
        blocks: blocks.to_vec(),
        collapsed: collapsed.to_vec(),
    }
}

/// g(a) over document 01's symbols.
pub const G_A: [u8; 2] = [1, 0];

/// A named table with a tree's weight in it, written out and not computed.
pub struct Weighing {
    pub name: &'static str,
    pub table: Vec<u8>,
    pub tree: Vec<u8>,
    pub weight: i64,
}

/// The weights of 01's examples, and the ends of the range of arithmetic 1.
pub fn weighings() -> Vec<Weighing> {
    let g_a = |name, table: &[u8], weight| Weighing {
        name,
        table: table.to_vec(),
        tree: G_A.to_vec(),
        weight,
    };
    vec![
        g_a("P4, in A", &A, 36),
        g_a("P4, in P2", &A_BACKWARD, 36),
        g_a("P5", &B, 35),
        g_a("P6", &C, 10),
        g_a("P7", &d(), 0),
        g_a("P9", &NINE, 0),
        of_one_code("the greatest weight", u32::MAX, 8_798_240_501_759),
        of_one_code("the least weight", u32::MAX - 1, -8_798_240_501_759),
    ]
}

/// The sheet of g(a) in A (P4).
pub const A_SHEET: [i64; 6] = [0, 0, 36, 3, 3, 0];

/// A chain of 4,096 nodes in a table of one state and arithmetic 1 with one code everywhere.
fn of_one_code(name: &'static str, code: u32, weight: i64) -> Weighing {
    let step = |symbol| Transition {
        symbol,
        children: [0; 4],
        target: 0,
        code,
    };
    let table = Table {
        arithmetic: 1,
        ranks: vec![0, 1],
        finals: vec![code],
        transitions: vec![step(0), step(1)],
    };
    Weighing {
        name,
        table: table::write(&table),
        tree: [vec![1; MOST_NODES - 1], vec![0]].concat(),
        weight,
    }
}

/// A named table with the answer of checking it, which is written out and not computed.
pub struct Example {
    pub name: &'static str,
    pub table: Vec<u8>,
    pub due: Result<usize, Refusal>,
}

/// All examples of 01's "Run only", each named after its sentence.
pub fn run_only() -> Vec<Example> {
    let mut examples = of_table_a();
    examples.extend(at_the_bounds());
    examples
}

fn example(name: &'static str, table: Vec<u8>, due: Result<usize, Refusal>) -> Example {
    Example { name, table, due }
}

fn refused(code: u32, figure: usize) -> Result<usize, Refusal> {
    Err(Refusal::new(code, figure))
}

fn a_with(byte: u8, offset: usize) -> Vec<u8> {
    let mut table = A.to_vec();
    table[offset] = byte;
    table
}

fn of_table_a() -> Vec<Example> {
    let one_byte_more = [&A[..], &[0]].concat();
    vec![
        example("no bytes, 1 at 0", vec![], refused(TABLE_ENDS, 0)),
        example(
            "A with 03 at byte 17, 4 at 17",
            a_with(0x03, 17),
            refused(NOT_IN_TABLE, 17),
        ),
        example(
            "A with 00 at 18, 5 at 18",
            a_with(0x00, 18),
            refused(CODE_IS_ZERO, 18),
        ),
        example(
            "A with 00 at 13, 6 at 12",
            a_with(0x00, 13),
            refused(NOT_ABOVE, 12),
        ),
        example(
            "A with one byte more, 7 at 23",
            one_byte_more,
            refused(TABLE_GOES_ON, 23),
        ),
    ]
}

fn at_the_bounds() -> Vec<Example> {
    let greatest = [0xff, 0xff, 0xff, 0xff, 0x0f];
    let above = [0xff, 0xff, 0xff, 0xff, 0x10];
    vec![
        example("256 states pass", many_states(&[0x80, 0x02], 256), Ok(256)),
        example(
            "257 states don't",
            many_states(&[0x81, 0x02], 257),
            refused(OUT_OF_RANGE, 1),
        ),
        example(
            "4,000 transitions pass",
            many_transitions(&[0xa0, 0x1f], 4_000),
            Ok(100),
        ),
        example(
            "4,001 transitions don't",
            many_transitions(&[0xa1, 0x1f], 4_001),
            refused(OUT_OF_RANGE, 104),
        ),
        example("rank 4 passes", one_rank(4), Ok(1)),
        example("rank 5 doesn't", one_rank(5), refused(OUT_OF_RANGE, 3)),
        example("a code of FF FF FF FF 0F passes", one_code(greatest), Ok(1)),
        example(
            "a code of FF FF FF FF 10 doesn't",
            one_code(above),
            refused(NUMBER_TOO_LARGE, 8),
        ),
        example(
            "a final code of FF FF FF FF 0F passes",
            one_final(greatest),
            Ok(1),
        ),
        example(
            "a final code of FF FF FF FF 10 doesn't",
            one_final(above),
            refused(NUMBER_TOO_LARGE, 4),
        ),
    ]
}

/// Tables to which two codes could apply, or which lie at a bound that 01's own examples leave out.
pub fn first_that_applies() -> Vec<Example> {
    let mut examples = within_a_number();
    examples.extend(within_a_transition());
    examples.extend(more_bounds());
    examples
}

fn within_a_number() -> Vec<Example> {
    vec![
        example(
            "a fifth byte of 128, no sixth",
            vec![0x80; 5],
            refused(NUMBER_TOO_LARGE, 0),
        ),
        example(
            "a fifth byte of 0",
            vec![0x80, 0x80, 0x80, 0x80, 0],
            refused(NUMBER_PADDED, 0),
        ),
        example(
            "a fifth byte due at the end",
            vec![0x80; 4],
            refused(TABLE_ENDS, 4),
        ),
        example("2 before 3", vec![0x82, 0], refused(NUMBER_PADDED, 0)),
        example(
            "19 before 3",
            vec![0, 0x81, 0x80, 0x80, 0x80, 0x10],
            refused(NUMBER_TOO_LARGE, 1),
        ),
        example(
            "a padded number of states",
            vec![0, 0x83, 0],
            refused(NUMBER_PADDED, 1),
        ),
    ]
}

fn within_a_transition() -> Vec<Example> {
    let foreign_symbol = [&A[..19], &[2]].concat();
    let equal = a_with(0x00, 13);
    let equal_and = |rest: &[u8]| [&equal[..14], rest].concat();
    vec![
        example(
            "4 for a symbol before its children",
            foreign_symbol,
            refused(NOT_IN_TABLE, 19),
        ),
        example(
            "4 for a child before the target",
            a_with_end(&[1, 3]),
            refused(NOT_IN_TABLE, 20),
        ),
        example(
            "4 for a target before 5",
            a_with_end(&[1, 1, 3, 0]),
            refused(NOT_IN_TABLE, 21),
        ),
        example(
            "4 before 6",
            a_with_end(&[0, 3, 1]),
            refused(NOT_IN_TABLE, 20),
        ),
        example("5 before 6", equal_and(&[0]), refused(CODE_IS_ZERO, 14)),
        example(
            "2 before 6",
            equal_and(&[0x83, 0]),
            refused(NUMBER_PADDED, 14),
        ),
        example(
            "19 before 6",
            equal_and(&[0x83, 0x80, 0x80, 0x80, 0x10]),
            refused(NUMBER_TOO_LARGE, 14),
        ),
        example(
            "2 before 19",
            a_with_end(&[1, 0x81, 0, 0x80, 0x80, 0x80, 0x80, 0x10]),
            refused(NUMBER_PADDED, 20),
        ),
        example(
            "19 before 2",
            a_with_end(&[1, 0x80, 0x80, 0x80, 0x80, 0x10, 0x81, 0]),
            refused(NUMBER_TOO_LARGE, 20),
        ),
        example("1 before 6", equal_and(&[0x83]), refused(TABLE_ENDS, 15)),
        example(
            "6 before what follows",
            equal_and(&[3]),
            refused(NOT_ABOVE, 12),
        ),
    ]
}

/// A with these bytes for its last transition.
fn a_with_end(end: &[u8]) -> Vec<u8> {
    [&A[..19], end].concat()
}

fn more_bounds() -> Vec<Example> {
    let state_256 = |child: &[u8]| {
        let head = [&[0, 0x80, 0x02, 1, 1], &[0; 256][..], &[1, 0]].concat();
        [&head, child, &[0, 1]].concat()
    };
    vec![
        example("arithmetic 2", vec![2], refused(OUT_OF_RANGE, 0)),
        example("arithmetic 256", vec![0x80, 0x02], refused(OUT_OF_RANGE, 0)),
        example("no states", vec![0, 0], refused(OUT_OF_RANGE, 1)),
        example("no symbols", vec![0, 1, 0], refused(OUT_OF_RANGE, 2)),
        example("128 symbols", many_symbols(&[0x80, 0x01], 128), Ok(1)),
        example(
            "129 symbols",
            many_symbols(&[0x81, 0x01], 129),
            refused(OUT_OF_RANGE, 2),
        ),
        example("state 255 of 256", state_256(&[0xff, 0x01]), Ok(256)),
        example(
            "state 256 of 256",
            state_256(&[0x80, 0x02]),
            refused(NOT_IN_TABLE, 263),
        ),
    ]
}

/// One state, this many symbols of rank 0, no transitions.
fn many_symbols(written: &[u8], symbols: usize) -> Vec<u8> {
    [&[0, 1], written, &vec![0; symbols], &[0, 0]].concat()
}

/// One symbol of rank 0, this many states with final code 0, no transitions.
fn many_states(written: &[u8], states: usize) -> Vec<u8> {
    [&[0], written, &[1, 0], &vec![0; states], &[0]].concat()
}

/// 100 states, one symbol of rank 1, and this many of the transitions g(c) to t, in order.
fn many_transitions(written: &[u8], transitions: u32) -> Vec<u8> {
    let mut table = [&[0, 100, 1, 1], &[0; 100][..], written].concat();
    for number in 0..transitions {
        table.extend([0, (number / 100) as u8, (number % 100) as u8, 1]);
    }
    table
}

/// One state, one symbol of this rank, and the one transition of it.
fn one_rank(rank: u8) -> Vec<u8> {
    let children = vec![0; usize::from(rank)];
    [&[0, 1, 1, rank, 0, 1, 0], &children[..], &[0, 1]].concat()
}

/// One state, one symbol of rank 0, and one transition of this code.
fn one_code(code: [u8; 5]) -> Vec<u8> {
    [&[0, 1, 1, 0, 0, 1, 0, 0], &code[..]].concat()
}

/// One state of this final code, one symbol of rank 0, no transitions.
fn one_final(code: [u8; 5]) -> Vec<u8> {
    [&[0, 1, 1, 0], &code[..], &[0]].concat()
}
