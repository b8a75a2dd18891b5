//! Pieces of guarded memory, lent to a call.

use std::fmt::Display;
use std::ops::Range;

use second::random::Random;

use crate::guarded::{Memory, Plain};

/// On which side of a piece the guard lies.
#[derive(Clone, Copy, PartialEq, Eq, Debug)]
pub enum Guard {
    Behind,
    Before,
}

impl Guard {
    pub const BOTH: [Guard; 2] = [Guard::Behind, Guard::Before];

    /// Where a piece of so many items lies in memory of so many.
    pub fn piece(self, length: usize, memory: usize) -> Range<usize> {
        match self {
            Guard::Behind => memory - length..memory,
            Guard::Before => 0..length,
        }
    }

    /// The same with some items more on the side that has no guard.
    fn with_margin(self, length: usize, memory: usize) -> Range<usize> {
        self.piece(memory.min(length + MARGIN), memory)
    }
}

const MARGIN: usize = 64;

/// At how many places of the noise a room's first content may begin.
const STARTS: usize = 1_000;

/// Memory from which rooms are lent. A room and its margin hold random items before the call, so
/// that every one can be accounted for after it.
pub struct Rooms<T: Plain> {
    memory: Memory<T>,
    noise: Vec<T>,
    now: Room,
}

/// The room that is lent at the moment.
struct Room {
    piece: Range<usize>,
    with_margin: Range<usize>,
    noise_from: usize,
}

impl<T: Plain + PartialEq + Display> Rooms<T> {
    pub fn new(longest: usize, random: &mut Random, draw: fn(&mut Random) -> T) -> Rooms<T> {
        let memory = Memory::new(longest + MARGIN);
        let noise = (0..memory.len() + STARTS).map(|_| draw(random)).collect();
        let now = Room {
            piece: 0..0,
            with_margin: 0..0,
            noise_from: 0,
        };
        Rooms { memory, noise, now }
    }

    /// Lends a room with a guard on this side.
    pub fn lend(&mut self, guard: Guard, length: usize, random: &mut Random) -> &mut [T] {
        self.now = Room {
            piece: guard.piece(length, self.memory.len()),
            with_margin: guard.with_margin(length, self.memory.len()),
            noise_from: random.below(STARTS),
        };
        let around = self.now.with_margin.clone();
        let noise = &self.noise[self.now.noise_from..][..around.len()];
        self.memory[around].copy_from_slice(noise);
        &mut self.memory[self.now.piece.clone()]
    }

    /// Whether the room and its margin are as before the call but for `written`, which the call was
    /// due to put at the start of the room. If not, says where they first differ.
    pub fn holds(&self, written: &[T]) -> Result<(), String> {
        let is = &self.memory[self.now.with_margin.clone()];
        let was = &self.noise[self.now.noise_from..][..is.len()];
        let start = self.now.piece.start - self.now.with_margin.start;
        let end = start + written.len();
        if is[..start] == was[..start] && is[start..end] == *written && is[end..] == was[end..] {
            return Ok(());
        }
        let due = [&was[..start], written, &was[end..]].concat();
        let at = (0..is.len()).find(|&at| is[at] != due[at]);
        let at = at.expect("they differ");
        Err(format!(
            "at offset {} of {} lent there is {} and should be {}",
            at as isize - start as isize,
            self.now.piece.len(),
            is[at],
            due[at]
        ))
    }
}
