//! Splits by final weights backward too.

use second::blocks::{numbered_by_first_use, Direction};
use second::table::Table;

use crate::plain::Shrinker;

pub struct SplitByFinals;

impl Shrinker for SplitByFinals {
    fn first_blocks(&self, table: &Table, _direction: Direction) -> Vec<u8> {
        numbered_by_first_use(self.finals(table))
    }
}
