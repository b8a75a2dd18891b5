//! The coarsest bisimulation straight from its definition, for the smallest tables: every partition
//! of the states is tried.

use super::{count, numbered_by_first_use, Direction};
use crate::in_arithmetic_of;
use crate::table::Table;
use crate::weight::Arithmetic;

/// With more states there are too many partitions.
pub const MOST_STATES: usize = 5;

/// Two states share a block exactly if some bisimulation of the direction relates them.
pub fn coarsest(table: &Table, direction: Direction) -> Vec<u8> {
    let states = table.states();
    assert!(states <= MOST_STATES, "there are too many partitions");
    let bisimulations = in_arithmetic_of!(table, bisimulations(table, direction));
    let related = |p: usize, q: usize| bisimulations.iter().any(|blocks| blocks[p] == blocks[q]);
    let least_related = |q| (0..=q).find(|&p| related(p, q));
    numbered_by_first_use((0..states).map(least_related))
}

fn bisimulations<A: Arithmetic>(table: &Table, direction: Direction) -> Vec<Vec<u8>> {
    let symbols: Vec<Weights> = (0..table.ranks.len())
        .map(|symbol| Weights::new::<A>(table, symbol))
        .collect();
    let holds = |blocks: &Vec<u8>| match direction {
        Direction::Backward => symbols.iter().all(|of| backward_holds::<A>(of, blocks)),
        Direction::Forward => {
            related(blocks)
                .iter()
                .all(|&(p, q)| table.finals[p] == table.finals[q])
                && symbols.iter().all(|of| forward_holds::<A>(of, blocks))
        }
    };
    partitions(table.states())
        .into_iter()
        .filter(holds)
        .collect()
}

/// Every partition of so many states, numbered by first use.
fn partitions(states: usize) -> Vec<Vec<u8>> {
    let mut partitions = vec![vec![]];
    for _ in 0..states {
        let extended = |blocks: Vec<u8>| {
            (0..=count(&blocks) as u8).map(move |block| [&blocks[..], &[block]].concat())
        };
        partitions = partitions.into_iter().flat_map(extended).collect();
    }
    partitions
}

/// The pairs of different states that these blocks relate.
fn related(blocks: &[u8]) -> Vec<(usize, usize)> {
    let pairs = (0..blocks.len()).flat_map(|q| (0..q).map(move |p| (p, q)));
    pairs.filter(|&(p, q)| blocks[p] == blocks[q]).collect()
}

/// The weights of one symbol for every word of children and every target, listed or not.
struct Weights {
    rank: usize,
    states: usize,
    /// At word times n plus target, a word being the number with its children as digits.
    weights: Vec<i64>,
}

impl Weights {
    fn new<A: Arithmetic>(table: &Table, symbol: usize) -> Weights {
        let (rank, states) = (usize::from(table.ranks[symbol]), table.states());
        let mut weights = vec![A::ZERO; states.pow(rank as u32 + 1)];
        for transition in table
            .transitions
            .iter()
            .filter(|t| usize::from(t.symbol) == symbol)
        {
            let digits = table
                .children(transition)
                .iter()
                .chain([&transition.target]);
            let place = digits.fold(0, |place, &state| place * states + usize::from(state));
            weights[place] = A::meaning(transition.code);
        }
        Weights {
            rank,
            states,
            weights,
        }
    }

    fn words(&self) -> std::ops::Range<usize> {
        0..self.states.pow(self.rank as u32)
    }

    /// What one more in this child place adds to a word.
    fn step(&self, place: usize) -> usize {
        self.states.pow((self.rank - 1 - place) as u32)
    }

    fn child(&self, word: usize, place: usize) -> usize {
        word / self.step(place) % self.states
    }

    /// The number with the blocks of a word's children as digits.
    fn choice(&self, word: usize, blocks: &[u8]) -> usize {
        let child_block = |place| usize::from(blocks[self.child(word, place)]);
        (0..self.rank).fold(0, |choice, place| {
            choice * count(blocks) + child_block(place)
        })
    }

    /// The sums of the weights that `cell` puts together, over all words and targets.
    fn sums<A: Arithmetic>(&self, cells: usize, cell: impl Fn(usize, usize) -> usize) -> Vec<i64> {
        let mut sums = vec![A::ZERO; cells];
        for word in self.words() {
            for target in 0..self.states {
                let sum = &mut sums[cell(word, target)];
                *sum = A::plus(*sum, self.weights[word * self.states + target]);
            }
        }
        sums
    }
}

/// Definition 16 for one symbol: for each choice of blocks, the weights of the words in them sum to
/// the same for related targets.
fn backward_holds<A: Arithmetic>(of: &Weights, blocks: &[u8]) -> bool {
    let choices = count(blocks).pow(of.rank as u32);
    let states = of.states;
    let sums = of.sums::<A>(choices * states, |word, target| {
        of.choice(word, blocks) * states + target
    });
    related(blocks).iter().all(|&(p, q)| {
        (0..choices).all(|choice| sums[choice * states + p] == sums[choice * states + q])
    })
}

/// Definition 1, its second condition for one symbol: in each child place, with the other places
/// filled in any way, the weights into each block sum to the same with related states there.
fn forward_holds<A: Arithmetic>(of: &Weights, blocks: &[u8]) -> bool {
    let count = count(blocks);
    let sums = of.sums::<A>(of.words().len() * count, |word, target| {
        word * count + usize::from(blocks[target])
    });
    let row = |word: usize| &sums[word * count..(word + 1) * count];
    related(blocks).iter().all(|&(p, q)| {
        (0..of.rank).all(|place| {
            let with_p = of.words().filter(|&word| of.child(word, place) == p);
            let mut pairs = with_p.map(|word| (word, word + (q - p) * of.step(place)));
            pairs.all(|(with_p, with_q)| row(with_p) == row(with_q))
        })
    })
}
