//! Writes a transition whose sum is zero.

use crate::plain::Shrinker;

pub struct WrittenZero;

impl Shrinker for WrittenZero {
    fn is_written(&self, _arithmetic: u8, _weight: i64) -> bool {
        // No transition that was added up has weight zero.
        true
    }
}
