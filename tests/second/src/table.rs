//! A table: the record, its reader and its writer.

use crate::answer::{Refusal, CODE_IS_ZERO, NOT_ABOVE, NOT_IN_TABLE, OUT_OF_RANGE, TABLE_GOES_ON};
use crate::number::{self, Cursor};

pub const MOST_STATES: u32 = 256;
pub const MOST_SYMBOLS: u32 = 128;
pub const MOST_RANK: u32 = 4;
pub const MOST_TRANSITIONS: u32 = 4_000;
pub const LONGEST_TABLE: usize = 65_415;

/// A transition. Child places behind the symbol's rank hold 0.
#[derive(Clone, Copy, PartialEq, Eq, Debug)]
pub struct Transition {
    pub symbol: u8,
    pub children: [u8; MOST_RANK as usize],
    pub target: u8,
    pub code: u32,
}

impl Transition {
    /// The place in the order of a table as one number: symbol, then children left to right, then
    /// target. Transitions of one symbol have one rank, so the places behind it do no harm.
    #[inline]
    pub fn key(&self) -> u64 {
        let children = u64::from(u32::from_be_bytes(self.children));
        u64::from(self.symbol) << 40 | children << 8 | u64::from(self.target)
    }
}

#[derive(Clone, PartialEq, Eq, Debug)]
pub struct Table {
    pub arithmetic: u8,
    /// The rank of each symbol.
    pub ranks: Vec<u8>,
    /// The final code of each state; its length is the number of states.
    pub finals: Vec<u32>,
    /// Ascending strictly by `Transition::key`.
    pub transitions: Vec<Transition>,
}

impl Table {
    pub fn states(&self) -> usize {
        self.finals.len()
    }

    pub fn rank(&self, symbol: u8) -> usize {
        usize::from(self.ranks[usize::from(symbol)])
    }

    /// The children that a transition of this table really has.
    pub fn children<'a>(&self, transition: &'a Transition) -> &'a [u8] {
        &transition.children[..self.rank(transition.symbol)]
    }
}

/// Reads a table, or gives the first refusal that applies.
pub fn read(bytes: &[u8]) -> Result<Table, Refusal> {
    let mut cursor = Cursor::new(bytes);
    let mut table = read_head(&mut cursor)?;
    let count = cursor.number_within(0, MOST_TRANSITIONS, OUT_OF_RANGE)?;
    table.transitions.reserve_exact(count as usize);
    let mut before = None;
    for _ in 0..count {
        let first = cursor.at();
        let transition = read_transition(&mut cursor, &table)?;
        let key = Some(transition.key());
        if key <= before {
            return Err(Refusal::new(NOT_ABOVE, first));
        }
        before = key;
        table.transitions.push(transition);
    }
    if cursor.at_end() {
        Ok(table)
    } else {
        Err(Refusal::new(TABLE_GOES_ON, cursor.at()))
    }
}

/// Everything before the number of transitions, as a table without transitions.
fn read_head(cursor: &mut Cursor) -> Result<Table, Refusal> {
    let arithmetic = cursor.number_within(0, 1, OUT_OF_RANGE)? as u8;
    let states = cursor.number_within(1, MOST_STATES, OUT_OF_RANGE)?;
    let symbols = cursor.number_within(1, MOST_SYMBOLS, OUT_OF_RANGE)?;
    let mut ranks = Vec::with_capacity(symbols as usize);
    for _ in 0..symbols {
        ranks.push(cursor.number_within(0, MOST_RANK, OUT_OF_RANGE)? as u8);
    }
    let mut finals = Vec::with_capacity(states as usize);
    for _ in 0..states {
        finals.push(cursor.number()?);
    }
    Ok(Table {
        arithmetic,
        ranks,
        finals,
        transitions: Vec::new(),
    })
}

#[inline]
fn read_transition(cursor: &mut Cursor, table: &Table) -> Result<Transition, Refusal> {
    let last_symbol = table.ranks.len() as u32 - 1;
    let last_state = table.finals.len() as u32 - 1;
    let symbol = cursor.number_within(0, last_symbol, NOT_IN_TABLE)? as u8;
    // The children are gathered in one number and not in an array, which would be stored byte by
    // byte and loaded whole for the order test: that costs more than all the rest.
    let mut children = 0;
    for place in 0..table.rank(symbol) {
        let child = cursor.number_within(0, last_state, NOT_IN_TABLE)?;
        children |= child << (24 - 8 * place);
    }
    let children = children.to_be_bytes();
    let target = cursor.number_within(0, last_state, NOT_IN_TABLE)? as u8;
    let code = cursor.number_within(1, u32::MAX, CODE_IS_ZERO)?;
    Ok(Transition {
        symbol,
        children,
        target,
        code,
    })
}

/// The one written form of a table.
pub fn write(table: &Table) -> Vec<u8> {
    let mut bytes = Vec::new();
    each_number(table, |_, value| number::write(&mut bytes, value));
    bytes
}

/// What a number of a table is there for.
#[derive(Clone, Copy, PartialEq, Eq, Debug)]
pub enum Role {
    Arithmetic,
    States,
    Symbols,
    Rank,
    Final,
    Transitions,
    Symbol,
    Child,
    Target,
    Code,
}

/// The numbers of a table in the order in which they are written.
pub fn numbers(table: &Table) -> Vec<(Role, u32)> {
    let mut numbers = Vec::new();
    each_number(table, |role, value| numbers.push((role, value)));
    numbers
}

/// Hands over the numbers of a table one by one: a list of them all would cost the writer more than
/// the writing.
#[inline]
fn each_number(table: &Table, mut take: impl FnMut(Role, u32)) {
    take(Role::Arithmetic, u32::from(table.arithmetic));
    take(Role::States, table.finals.len() as u32);
    take(Role::Symbols, table.ranks.len() as u32);
    for &rank in &table.ranks {
        take(Role::Rank, u32::from(rank));
    }
    for &code in &table.finals {
        take(Role::Final, code);
    }
    take(Role::Transitions, table.transitions.len() as u32);
    for transition in &table.transitions {
        take(Role::Symbol, u32::from(transition.symbol));
        for &child in table.children(transition) {
            take(Role::Child, u32::from(child));
        }
        take(Role::Target, u32::from(transition.target));
        take(Role::Code, transition.code);
    }
}

#[cfg(test)]
mod tests {
    use super::*;
    use crate::examples;
    use crate::make;
    use crate::random::Random;

    #[test]
    fn table_a_reads_as_what_01_says_of_it() {
        let table = read(&examples::A).unwrap();
        assert_eq!((table.arithmetic, table.states()), (0, 3));
        assert_eq!(table.ranks, [0, 1]);
        assert_eq!(table.finals, [0, 0, 1]);
        let seen: Vec<_> = table
            .transitions
            .iter()
            .map(|t| (t.symbol, table.children(t).to_vec(), t.target, t.code))
            .collect();
        let due = [
            (0, vec![], 0, 3),
            (0, vec![], 1, 3),
            (1, vec![0], 2, 5),
            (1, vec![1], 2, 7),
        ];
        assert_eq!(seen, due);
        assert_eq!(write(&table), examples::A);
    }

    #[test]
    fn every_example_of_checking() {
        let further = examples::first_that_applies();
        for example in examples::run_only().into_iter().chain(further) {
            let seen = read(&example.table).map(|table| table.states());
            assert_eq!(seen, example.due, "{}", example.name);
        }
    }

    #[test]
    fn tables_read_back_as_written() {
        let mut random = Random::new(1);
        for kind in make::KINDS {
            for _ in 0..20 {
                let table = (kind.make)(&mut random);
                assert_eq!(read(&write(&table)).as_ref(), Ok(&table), "{}", kind.name);
            }
        }
    }

    #[test]
    fn the_greatest_length() {
        let bytes = write(&make::longest(&mut Random::new(2)));
        assert_eq!(bytes.len(), LONGEST_TABLE);
        assert!(read(&bytes).is_ok());
    }
}
