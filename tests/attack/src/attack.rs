//! Lends tables and trees in guarded memory, and has calls made on them.

use std::ops::Range;

use second::calls;
use second::random::Random;

use crate::call::Call;
use crate::caller::{Caller, Due};
use crate::guarded::Memory;
use crate::lengths::Lengths;
use crate::lent::Guard;
use crate::library::Library;

/// The longest table or tree that is lent.
pub const LONGEST_INPUT: usize = 100_000;

pub struct Attack {
    table: Memory<u8>,
    tree: Memory<u8>,
    guards: &'static [Guard],
    pub caller: Caller,
    /// For the inputs.
    pub random: Random,
}

impl Attack {
    /// An attack on this library, with guards on one of these sides after the other.
    pub fn new(library: Library, guards: &'static [Guard], seed: u64) -> Attack {
        Attack {
            table: Memory::new(LONGEST_INPUT),
            tree: Memory::new(LONGEST_INPUT),
            guards,
            caller: Caller::new(library, !seed),
            random: Random::new(seed),
        }
    }

    /// Takes down that what follows is a further input.
    pub fn next_input(&mut self) {
        self.caller.count.inputs += 1;
    }

    /// Makes these calls on a table, in rooms of these lengths.
    pub fn table(&mut self, bytes: &[u8], calls: &[Call], lengths: Lengths) -> Result<(), String> {
        let caller = &mut self.caller;
        let due: Vec<Due> = calls
            .iter()
            .map(|&call| caller.due(call, bytes, lengths))
            .collect();
        self.guards
            .iter()
            .try_for_each(|&guard| {
                lend(&mut self.table, guard, bytes, |table| {
                    due.iter()
                        .try_for_each(|due| caller.table(guard, table, due))
                })
            })
            .map_err(|wrong| with_table(&wrong, bytes))
    }

    /// Weighs a tree in sheets of these lengths.
    pub fn weigh(&mut self, bytes: &[u8], nodes: &[u8], lengths: Lengths) -> Result<(), String> {
        let due = calls::weigh(bytes, nodes, usize::MAX);
        self.guards
            .iter()
            .try_for_each(|&guard| {
                lend(&mut self.table, guard, bytes, |table| {
                    lend(&mut self.tree, guard, nodes, |tree| {
                        self.caller.tree(guard, table, tree, lengths, &due)
                    })
                })
            })
            .map_err(|wrong| with_table(&format!("{wrong}\ntree: {}", hex(nodes)), bytes))
    }

    /// Weighs a tree that is a part of the table, in sheets of these lengths.
    pub fn weigh_part(
        &mut self,
        bytes: &[u8],
        part: Range<usize>,
        lengths: Lengths,
    ) -> Result<(), String> {
        let due = calls::weigh(bytes, &bytes[part.clone()], usize::MAX);
        self.guards
            .iter()
            .try_for_each(|&guard| {
                lend(&mut self.table, guard, bytes, |table| {
                    let tree = &table[part.clone()];
                    self.caller.tree(guard, table, tree, lengths, &due)
                })
            })
            .map_err(|wrong| with_table(&format!("{wrong}\ntree: {part:?}"), bytes))
    }
}

/// Lends these bytes for reading only, with a guard on this side.
fn lend<R>(memory: &mut Memory<u8>, guard: Guard, bytes: &[u8], run: impl FnOnce(&[u8]) -> R) -> R {
    let piece = guard.piece(bytes.len(), memory.len());
    memory[piece.clone()].copy_from_slice(bytes);
    memory.while_read_only(|memory| run(&memory[piece]))
}

fn with_table(wrong: &str, bytes: &[u8]) -> String {
    format!("{wrong}\ntable: {}", hex(bytes))
}

/// The bytes in hex, of large inputs the first ones only: those can be had again by the seed.
fn hex(bytes: &[u8]) -> String {
    let first = bytes.iter().take(4_000);
    let spelled: Vec<String> = first.map(|byte| format!("{byte:02X}")).collect();
    format!("{} bytes, {}", bytes.len(), spelled.join(" "))
}
