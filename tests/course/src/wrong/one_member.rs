//! Keeps one member's transition.

use crate::plain::Shrinker;

pub struct KeepsTheLast;
pub struct KeepsTheFirst;

impl Shrinker for KeepsTheLast {
    fn transition_weight(&self, _arithmetic: u8, weights: &[i64]) -> i64 {
        weights[weights.len() - 1]
    }
}

impl Shrinker for KeepsTheFirst {
    fn transition_weight(&self, _arithmetic: u8, weights: &[i64]) -> i64 {
        weights[0]
    }
}
