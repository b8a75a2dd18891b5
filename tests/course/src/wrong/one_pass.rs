//! Stops after one pass.

use second::blocks::Direction;
use second::table::Table;

use crate::plain::Shrinker;

pub struct OnePass;

impl Shrinker for OnePass {
    fn blocks(&self, table: &Table, direction: Direction) -> Vec<u8> {
        let blocks = self.first_blocks(table, direction);
        self.pass(table, direction, &blocks)
    }
}
