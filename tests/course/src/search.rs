//! The smallest table that shows something: every table within small bounds is tried, those with
//! fewer bytes first, and of one length in byte order.

use second::blocks::Direction;
use second::number;

pub const MOST_BYTES: usize = 20;
pub const MOST_STATES: u8 = 3;
pub const MOST_SYMBOLS: usize = 2;
pub const MOST_RANK: u8 = 2;
pub const FINAL_CODES: [u32; 3] = [0, 1, 2];
/// In the byte order of their written forms. The last is the code of -1 modulo 2^32.
pub const CODES: [u32; 4] = [1, 2, 3, u32::MAX];

/// The bytes of a table, and the direction in which it shows what was asked for.
pub type Found = (Vec<u8>, Direction);

/// The first table within the bounds, and direction, backward first, of which `shows` holds.
pub fn smallest(shows: impl Fn(&[u8], Direction) -> bool) -> Option<Found> {
    let mut found = None;
    each(|table| {
        let direction = Direction::BOTH.into_iter().find(|&d| shows(table, d));
        found = direction.map(|direction| (table.to_vec(), direction));
        found.is_some()
    });
    found
}

/// Hands over every table within the bounds, in order, until one is taken.
pub fn each(mut take: impl FnMut(&[u8]) -> bool) {
    let heads = heads();
    for length in 0..=MOST_BYTES {
        for head in &heads {
            if head.each_of_length(length, &mut take) {
                return;
            }
        }
    }
}

/// A table up to its number of transitions, and the transitions that there can be.
struct Head {
    bytes: Vec<u8>,
    /// Symbol, children and target of each, ascending.
    keys: Vec<Vec<u8>>,
}

/// The fewest bytes of a transition: symbol, target and code.
const SHORTEST: usize = 3;

impl Head {
    fn each_of_length(&self, length: usize, take: &mut dyn FnMut(&[u8]) -> bool) -> bool {
        let Some(left) = length.checked_sub(self.bytes.len() + 1) else {
            return false;
        };
        (0..=left / SHORTEST).any(|count| {
            let mut table = self.bytes.clone();
            table.push(count as u8);
            each_end(&mut table, &self.keys, count, length, take)
        })
    }
}

/// Goes on with `due` transitions, each above the one before.
fn each_end(
    table: &mut Vec<u8>,
    keys: &[Vec<u8>],
    due: usize,
    length: usize,
    take: &mut dyn FnMut(&[u8]) -> bool,
) -> bool {
    if due == 0 {
        return table.len() == length && take(table);
    }
    if table.len() + due * SHORTEST > length {
        return false;
    }
    let before = table.len();
    for (at, key) in keys.iter().enumerate() {
        for code in CODES {
            table.extend(key);
            number::write(table, code);
            if each_end(table, &keys[at + 1..], due - 1, length, take) {
                return true;
            }
            table.truncate(before);
        }
    }
    false
}

/// All heads in byte order.
fn heads() -> Vec<Head> {
    let ranks: Vec<u8> = (0..=MOST_RANK).collect();
    let mut heads = Vec::new();
    for arithmetic in [0, 1] {
        for states in 1..=MOST_STATES {
            for symbols in 1..=MOST_SYMBOLS {
                for ranks in words(&ranks, symbols) {
                    let start = [&[arithmetic, states, symbols as u8], &ranks[..]].concat();
                    let keys = keys(states, &ranks);
                    let finals = words(&FINAL_CODES, usize::from(states));
                    heads.extend(finals.iter().map(|finals| Head {
                        bytes: with_numbers(&start, finals),
                        keys: keys.clone(),
                    }));
                }
            }
        }
    }
    heads
}

fn with_numbers(start: &[u8], numbers: &[u32]) -> Vec<u8> {
    let mut bytes = start.to_vec();
    for &number in numbers {
        number::write(&mut bytes, number);
    }
    bytes
}

fn keys(states: u8, ranks: &[u8]) -> Vec<Vec<u8>> {
    let states: Vec<u8> = (0..states).collect();
    let of_symbol = |(symbol, &rank): (usize, &u8)| {
        let ends = words(&states, usize::from(rank) + 1);
        ends.into_iter()
            .map(move |end| [&[symbol as u8], &end[..]].concat())
    };
    ranks.iter().enumerate().flat_map(of_symbol).collect()
}

/// Every list of `length` of these letters, in their order.
pub fn words<T: Copy>(letters: &[T], length: usize) -> Vec<Vec<T>> {
    (0..length).fold(vec![vec![]], |words, _| {
        let longer = |word: Vec<T>| {
            letters
                .iter()
                .map(move |&letter| [&word[..], &[letter]].concat())
        };
        words.into_iter().flat_map(longer).collect()
    })
}

#[cfg(test)]
mod tests {
    use super::*;
    use second::table;

    /// Whether bytes are a table within the bounds.
    fn is_within(bytes: &[u8]) -> bool {
        table::read(bytes).is_ok_and(|table| {
            let codes = table.transitions.iter().map(|t| t.code);
            table.states() <= usize::from(MOST_STATES)
                && table.ranks.len() <= MOST_SYMBOLS
                && table.ranks.iter().all(|&rank| rank <= MOST_RANK)
                && table.finals.iter().all(|code| FINAL_CODES.contains(code))
                && codes.into_iter().all(|code| CODES.contains(&code))
        })
    }

    #[test]
    fn no_short_table_within_the_bounds_is_left_out() {
        // No table this short has room for the code of five bytes.
        let due = (0..=10).flat_map(|length| words(&[0, 1, 2, 3], length));
        let due: Vec<Vec<u8>> = due.filter(|bytes| is_within(bytes)).collect();
        let mut tried = Vec::new();
        each(|table| {
            let is_over = table.len() > 10;
            if !is_over {
                tried.push(table.to_vec());
            }
            is_over
        });
        assert_eq!(tried, due);
    }

    #[test]
    fn the_tables_are_within_the_bounds_and_in_order() {
        let mut before = Vec::new();
        each(|table| {
            assert!(is_within(table), "{table:?}");
            assert!((before.len(), &before[..]) < (table.len(), table));
            before = table.to_vec();
            table.len() > 17
        });
    }

    #[test]
    fn the_first_that_shows_it_is_found() {
        let found = smallest(|table, direction| {
            direction == Direction::Forward && table::read(table).unwrap().transitions.len() == 1
        });
        let first = vec![0, 1, 1, 0, 0, 1, 0, 0, 1];
        assert_eq!(found, Some((first, Direction::Forward)));
    }
}
