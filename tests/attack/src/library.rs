//! The library's calls as a record, so that a wrong library can be put in its place.

use crate::call::{Call, Kind};

#[derive(Clone, Copy)]
pub struct Library {
    pub check: fn(&[u8]) -> u64,
    pub rewrite: fn(&[u8], &mut [u8]) -> u64,
    pub blocks: Directed,
    pub collapse: Directed,
    pub shrink: Directed,
    pub weigh: Weigh,
}

pub type Weigh = fn(&[u8], &[u8], &mut [i64], &mut i64) -> u64;
type Directed = fn(u32, &[u8], &mut [u8]) -> u64;

/// The library that is attacked.
pub const THE_LIBRARY: Library = Library {
    check: face::check,
    rewrite: face::rewrite,
    blocks: face::blocks,
    collapse: face::collapse,
    shrink: face::shrink,
    weigh: face::weigh,
};

impl Library {
    /// Makes a call on a table alone.
    pub fn make(&self, call: Call, table: &[u8], room: &mut [u8]) -> u64 {
        match call {
            Call::Check => (self.check)(table),
            Call::Rewrite => (self.rewrite)(table, room),
            Call::Directed(kind, direction) => {
                let make = match kind {
                    Kind::Blocks => self.blocks,
                    Kind::Collapse => self.collapse,
                    Kind::Shrink => self.shrink,
                };
                make(direction, table, room)
            }
        }
    }
}
