//! Memory lent to a call, with guards before and behind.

use second::random::Random;

const GUARD: usize = 64;

/// What lent memory consists of.
pub trait Item: Copy + PartialEq {
    /// Any item, to fill a room with.
    fn any(random: &mut Random) -> Self;
    /// A small number: a call that reads on behind the end finds something that it could use.
    fn guard(random: &mut Random) -> Self;
    fn spelled(self) -> String;
}

impl Item for u8 {
    fn any(random: &mut Random) -> u8 {
        random.byte()
    }

    fn guard(random: &mut Random) -> u8 {
        random.byte() % 3
    }

    fn spelled(self) -> String {
        format!("{self:02X}")
    }
}

impl Item for i64 {
    fn any(random: &mut Random) -> i64 {
        random.draw() as i64
    }

    fn guard(random: &mut Random) -> i64 {
        random.below(3) as i64
    }

    fn spelled(self) -> String {
        self.to_string()
    }
}

/// A piece of lent memory between two guards. All its items are known before the call, so that
/// every one can be accounted for after it.
pub struct Lent<T> {
    memory: Vec<T>,
    before_call: Vec<T>,
}

impl<T: Item> Lent<T> {
    /// Lends these items.
    pub fn holding(content: &[T], random: &mut Random) -> Lent<T> {
        let mut guard = || (0..GUARD).map(|_| T::guard(random)).collect::<Vec<T>>();
        let memory = [&guard(), content, &guard()].concat();
        Lent {
            before_call: memory.clone(),
            memory,
        }
    }

    /// Lends a room full of random items.
    pub fn room(length: usize, random: &mut Random) -> Lent<T> {
        let content: Vec<T> = (0..length).map(|_| T::any(random)).collect();
        Lent::holding(&content, random)
    }

    pub fn piece(&self) -> &[T] {
        &self.memory[GUARD..self.memory.len() - GUARD]
    }

    pub fn piece_mut(&mut self) -> &mut [T] {
        let end = self.memory.len() - GUARD;
        &mut self.memory[GUARD..end]
    }

    /// Whether the memory, guards included, is as before the call but for `written`, which the call
    /// was due to put at the start of the piece. If not, says where it first differs.
    pub fn holds(&self, written: &[T]) -> Result<(), String> {
        let end = GUARD + written.len();
        let due = |at: usize| {
            if (GUARD..end).contains(&at) {
                written[at - GUARD]
            } else {
                self.before_call[at]
            }
        };
        match (0..self.memory.len()).find(|&at| due(at) != self.memory[at]) {
            None => Ok(()),
            Some(at) => Err(format!(
                "at offset {} of {} lent there is {} and should be {}",
                at as isize - GUARD as isize,
                self.piece().len(),
                self.memory[at].spelled(),
                due(at).spelled()
            )),
        }
    }

    /// Whether nothing was written.
    pub fn untouched(&self) -> Result<(), String> {
        self.holds(&[])
    }
}
