//! Takes "nothing" for the number 0.

use crate::plain::{halved, Shrinker};

pub struct NothingAsZero;

impl Shrinker for NothingAsZero {
    fn meaning(&self, arithmetic: u8, code: u32) -> i64 {
        match arithmetic {
            0 => i64::from(code),
            _ => halved(i64::from(code) - 1),
        }
    }
}
