//! Random tables of many shapes, all within document 01's bounds.

use std::collections::BTreeMap;

use crate::random::Random;
use crate::table::{Table, Transition, MOST_RANK, MOST_STATES, MOST_SYMBOLS, MOST_TRANSITIONS};

/// A kind of table and how one of it is made.
pub struct Kind {
    pub name: &'static str,
    /// Whether its tables are small enough to be tried by the hundred.
    pub light: bool,
    pub make: fn(&mut Random) -> Table,
}

pub const KINDS: [Kind; 7] = [
    Kind {
        name: "small",
        light: true,
        make: small,
    },
    Kind {
        name: "without transitions",
        light: true,
        make: bare,
    },
    Kind {
        name: "middle",
        light: true,
        make: middle,
    },
    Kind {
        name: "few states and many transitions",
        light: false,
        make: dense,
    },
    Kind {
        name: "large",
        light: false,
        make: large,
    },
    Kind {
        name: "at every bound",
        light: false,
        make: full,
    },
    Kind {
        name: "longest",
        light: false,
        make: longest,
    },
];

/// What a random table is to look like.
pub struct Shape {
    pub states: usize,
    pub ranks: Vec<u8>,
    /// How many transitions to draw. Those drawn twice count once.
    pub transitions: usize,
    /// Children and targets are this state or a later one.
    pub lowest_state: usize,
    /// Draws a weight's code, which may be 0 for a final weight only.
    pub code: fn(&mut Random) -> u32,
}

pub fn small(random: &mut Random) -> Table {
    let shape = Shape {
        states: random.within(1, 6),
        ranks: ranks(random, 1, 4),
        transitions: random.below(16),
        lowest_state: 0,
        code: mixed_code,
    };
    table(random, &shape)
}

pub fn bare(random: &mut Random) -> Table {
    let shape = Shape {
        states: random.within(1, 256),
        ranks: ranks(random, 1, 128),
        transitions: 0,
        lowest_state: 0,
        code: mixed_code,
    };
    table(random, &shape)
}

pub fn middle(random: &mut Random) -> Table {
    let shape = Shape {
        states: random.within(1, 150),
        ranks: ranks(random, 1, 20),
        transitions: random.below(200),
        lowest_state: 0,
        code: mixed_code,
    };
    table(random, &shape)
}

/// Nearly every transition that the states allow is there.
pub fn dense(random: &mut Random) -> Table {
    let shape = Shape {
        states: random.within(1, 10),
        ranks: ranks(random, 3, 8),
        transitions: MOST_TRANSITIONS as usize,
        lowest_state: 0,
        code: small_code,
    };
    table(random, &shape)
}

pub fn large(random: &mut Random) -> Table {
    let shape = Shape {
        states: random.within(240, 256),
        ranks: ranks(random, 120, 128),
        transitions: random.within(3_000, 4_000),
        lowest_state: 0,
        code: mixed_code,
    };
    table(random, &shape)
}

/// 256 states, 128 symbols, every rank, 4,000 transitions.
pub fn full(random: &mut Random) -> Table {
    let mut ranks = ranks(random, 128, 128);
    for rank in 0..=MOST_RANK {
        ranks[rank as usize] = rank as u8;
    }
    let shape = Shape {
        states: MOST_STATES as usize,
        ranks,
        transitions: MOST_TRANSITIONS as usize,
        lowest_state: 0,
        code: mixed_code,
    };
    table(random, &shape)
}

/// The longest tables: every number takes as many bytes as it can.
pub fn longest(random: &mut Random) -> Table {
    let shape = Shape {
        states: MOST_STATES as usize,
        ranks: vec![MOST_RANK as u8; MOST_SYMBOLS as usize],
        transitions: MOST_TRANSITIONS as usize,
        lowest_state: 128,
        code: long_code,
    };
    table(random, &shape)
}

/// A table small enough for what is tried in every possible way. The weights come from few codes,
/// so that sums meet, wrap and tie.
pub fn tiny(random: &mut Random) -> Table {
    let symbols = random.within(1, 3);
    let shape = Shape {
        states: random.within(1, 5),
        ranks: (0..symbols)
            .map(|_| random.pick(&[0, 0, 1, 1, 2, 2, 3, 4]))
            .collect(),
        transitions: random.below(20),
        lowest_state: 0,
        code: few_codes,
    };
    table(random, &shape)
}

fn ranks(random: &mut Random, least: usize, most: usize) -> Vec<u8> {
    let symbols = random.within(least, most);
    (0..symbols)
        .map(|_| random.within(0, MOST_RANK as usize) as u8)
        .collect()
}

/// A table of this shape, of either arithmetic.
pub fn table(random: &mut Random, shape: &Shape) -> Table {
    Table {
        arithmetic: random.below(2) as u8,
        ranks: shape.ranks.clone(),
        finals: (0..shape.states)
            .map(|_| final_code(random, shape))
            .collect(),
        transitions: transitions(random, shape),
    }
}

/// The long codes are never 0, and a 0 among them would make the longest table shorter.
fn final_code(random: &mut Random, shape: &Shape) -> u32 {
    let code = (shape.code)(random);
    if code < 1 << 28 && random.one_in(3) {
        0
    } else {
        code
    }
}

/// Draws until there are as many transitions as asked for, but not for ever: a shape with few
/// states may not have that many.
fn transitions(random: &mut Random, shape: &Shape) -> Vec<Transition> {
    let mut by_key = BTreeMap::new();
    for _ in 0..4 * shape.transitions {
        if by_key.len() == shape.transitions {
            break;
        }
        let transition = transition(random, shape);
        by_key.insert(transition.key(), transition);
    }
    by_key.into_values().collect()
}

fn transition(random: &mut Random, shape: &Shape) -> Transition {
    let symbol = random.below(shape.ranks.len());
    let mut children = [0; MOST_RANK as usize];
    for child in &mut children[..usize::from(shape.ranks[symbol])] {
        *child = state(random, shape);
    }
    let target = state(random, shape);
    Transition {
        symbol: symbol as u8,
        children,
        target,
        code: (shape.code)(random),
    }
}

fn state(random: &mut Random, shape: &Shape) -> u8 {
    random.within(shape.lowest_state, shape.states - 1) as u8
}

/// A code of one byte.
pub fn small_code(random: &mut Random) -> u32 {
    random.within(1, 127) as u32
}

/// One of few codes. In arithmetic 0 two halves sum to 0, in arithmetic 1 the order of the codes is
/// not that of the weights.
pub fn few_codes(random: &mut Random) -> u32 {
    random.pick(&[1, 1, 2, 3, 1 << 31, 1 << 31, u32::MAX])
}

/// A code of five bytes.
pub fn long_code(random: &mut Random) -> u32 {
    random.within(1 << 28, u32::MAX as usize) as u32
}

/// A code of any length, often next to a power of 2^7 or at an end of the range.
pub fn mixed_code(random: &mut Random) -> u32 {
    const EDGES: [u32; 12] = [
        1,
        2,
        127,
        128,
        (1 << 14) - 1,
        1 << 14,
        (1 << 21) - 1,
        1 << 21,
        (1 << 28) - 1,
        1 << 28,
        u32::MAX - 1,
        u32::MAX,
    ];
    match random.below(4) {
        0 => random.pick(&EDGES),
        1 => random.within(1, u32::MAX as usize) as u32,
        _ => small_code(random),
    }
}

#[cfg(test)]
mod tests {
    use super::*;

    #[test]
    fn the_kinds_reach_the_bounds() {
        let mut random = Random::new(3);
        for table in [full(&mut random), longest(&mut random)] {
            assert_eq!(table.states(), 256);
            assert_eq!(table.ranks.len(), 128);
            assert_eq!(table.transitions.len(), 4_000);
        }
    }

    #[test]
    fn one_seed_gives_one_table() {
        assert_eq!(middle(&mut Random::new(4)), middle(&mut Random::new(4)));
    }
}
