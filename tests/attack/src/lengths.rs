//! How long the rooms are that a call gets.

use second::random::Random;

#[derive(Clone, Copy)]
pub enum Lengths {
    /// Every length from none to three above what is needed; if the call is refused, none and any.
    Every,
    /// Those close to either end of that, and some between.
    Edges,
    /// No room, the room needed, one less and three more; if the call is refused, any.
    Few,
}

impl Lengths {
    /// The lengths for a call that needs so much room, or none because it is refused.
    pub fn of(self, needed: Option<usize>, random: &mut Random) -> Vec<usize> {
        match (self, needed) {
            (Lengths::Few, None) => vec![random.below(20)],
            (_, None) => vec![0, random.below(40)],
            (Lengths::Every, Some(needed)) => (0..=needed + 3).collect(),
            (Lengths::Edges, Some(needed)) => {
                let between = (0..10).map(|_| random.below(needed + 1));
                let low = 0..=3;
                let high = needed.saturating_sub(3)..=needed + 3;
                low.chain(between).chain(high).collect()
            }
            (Lengths::Few, Some(needed)) => vec![0, needed.saturating_sub(1), needed, needed + 3],
        }
    }
}
