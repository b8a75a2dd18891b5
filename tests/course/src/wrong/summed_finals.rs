//! Sums final weights forward too.

use second::blocks::Direction;

use crate::plain::Shrinker;

pub struct SummedFinals;

impl Shrinker for SummedFinals {
    fn final_weight(&self, arithmetic: u8, _direction: Direction, members: &[i64]) -> i64 {
        self.sum(arithmetic, members)
    }
}
