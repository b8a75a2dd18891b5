//! Damaged tables: each damage is one that a client's writer, or a bad line, may do.
//!
//! A damaged table may still be a valid one by chance; the second program says which it is.

// Every blow has the one type that those need which change the number of words.
#![allow(clippy::ptr_arg)]

use crate::number;
use crate::random::Random;
use crate::table::{self, Role, Table};

/// One written number of a table, perhaps not in the fewest bytes.
#[derive(Clone)]
struct Word {
    role: Role,
    bytes: Vec<u8>,
}

/// A damage to the written numbers. It leaves them alone where it finds nothing to damage.
type Blow = fn(&mut Random, &mut Vec<Word>);

/// A kind of damage and how it is done.
pub struct Damage {
    pub name: &'static str,
    blow: Blow,
}

pub const DAMAGES: [Damage; 14] = [
    Damage {
        name: "one byte changed",
        blow: change_byte,
    },
    Damage {
        name: "one bit changed",
        blow: change_bit,
    },
    Damage {
        name: "cut",
        blow: cut,
    },
    Damage {
        name: "extended",
        blow: extend,
    },
    Damage {
        name: "a padded number",
        blow: pad,
    },
    Damage {
        name: "a number too large",
        blow: too_large,
    },
    Damage {
        name: "two transitions exchanged",
        blow: exchange,
    },
    Damage {
        name: "equal neighbours",
        blow: equal_neighbours,
    },
    Damage {
        name: "a code of zero",
        blow: zero_code,
    },
    Damage {
        name: "a state out of range",
        blow: foreign_state,
    },
    Damage {
        name: "a symbol out of range",
        blow: foreign_symbol,
    },
    Damage {
        name: "a count out of range",
        blow: count_out_of_range,
    },
    Damage {
        name: "a count that isn't met",
        blow: wrong_count,
    },
    Damage {
        name: "two damages in one transition",
        blow: two_in_one_transition,
    },
];

impl Damage {
    /// The bytes of `table` with this damage done to them.
    pub fn apply(&self, random: &mut Random, table: &Table) -> Vec<u8> {
        damaged(random, table, &[self.blow])
    }
}

/// The bytes of `table` with two or three damages, so that the first that applies has to be found.
pub fn several(random: &mut Random, table: &Table) -> Vec<u8> {
    let count = random.within(2, 3);
    let blows: Vec<Blow> = (0..count)
        .map(|_| DAMAGES[random.below(DAMAGES.len())].blow)
        .collect();
    damaged(random, table, &blows)
}

fn damaged(random: &mut Random, table: &Table, blows: &[Blow]) -> Vec<u8> {
    let spell = |(role, value)| Word {
        role,
        bytes: number::written(value),
    };
    let mut words: Vec<Word> = table::numbers(table).into_iter().map(spell).collect();
    for blow in blows {
        blow(random, &mut words);
    }
    words.into_iter().flat_map(|word| word.bytes).collect()
}

/// The position of a random word for which `wanted` holds.
fn find(random: &mut Random, words: &[Word], wanted: impl Fn(&Word) -> bool) -> Option<usize> {
    let found: Vec<usize> = (0..words.len()).filter(|&at| wanted(&words[at])).collect();
    if found.is_empty() {
        None
    } else {
        Some(random.pick(&found))
    }
}

fn find_role(random: &mut Random, words: &[Word], roles: &[Role]) -> Option<usize> {
    find(random, words, |word| roles.contains(&word.role))
}

fn find_written(random: &mut Random, words: &[Word]) -> Option<usize> {
    find(random, words, |word| !word.bytes.is_empty())
}

/// The value of the first word of this role as first written (its lowest 14 bits, which is enough
/// for a count).
fn count_of(words: &[Word], role: Role) -> u32 {
    let Some(word) = words.iter().find(|word| word.role == role) else {
        return 0;
    };
    let group = |at: usize| word.bytes.get(at).map_or(0, |&byte| u32::from(byte & 0x7f));
    group(0) + (group(1) << 7)
}

/// Where each transition begins among the words, and the end of the last.
fn transition_starts(words: &[Word]) -> Vec<usize> {
    let is_symbol = |&at: &usize| words[at].role == Role::Symbol;
    let mut starts: Vec<usize> = (0..words.len()).filter(is_symbol).collect();
    starts.push(words.len());
    starts
}

/// A random transition that has one behind it: the words of it and of that one.
fn neighbours(random: &mut Random, words: &[Word]) -> Option<(usize, usize, usize)> {
    let starts = transition_starts(words);
    if starts.len() < 3 {
        return None;
    }
    let at = random.below(starts.len() - 2);
    Some((starts[at], starts[at + 1], starts[at + 2]))
}

fn change_byte(random: &mut Random, words: &mut Vec<Word>) {
    if let Some(at) = find_written(random, words) {
        let bytes = &mut words[at].bytes;
        let place = random.below(bytes.len());
        bytes[place] ^= random.within(1, 255) as u8;
    }
}

fn change_bit(random: &mut Random, words: &mut Vec<Word>) {
    if let Some(at) = find_written(random, words) {
        let bytes = &mut words[at].bytes;
        let place = random.below(bytes.len());
        bytes[place] ^= 1 << random.below(8);
    }
}

/// Cuts inside a number as well as between two.
fn cut(random: &mut Random, words: &mut Vec<Word>) {
    if let Some(at) = find_written(random, words) {
        words.truncate(at + 1);
        let keep = random.below(words[at].bytes.len());
        words[at].bytes.truncate(keep);
    }
}

fn extend(random: &mut Random, words: &mut Vec<Word>) {
    let count = random.within(1, 9);
    if let Some(last) = words.last_mut() {
        last.bytes.extend(random.bytes(count));
    }
}

/// Writes a number in more bytes than it needs, up to six in all.
fn pad(random: &mut Random, words: &mut Vec<Word>) {
    let Some(at) = find_written(random, words) else {
        return;
    };
    let bytes = &mut words[at].bytes;
    for _ in 0..random.within(1, 3) {
        if bytes.len() < 6 {
            *bytes.last_mut().expect("the word is written") |= 0x80;
            bytes.push(0);
        }
    }
}

/// Writes five bytes with a fifth of 16 or more, now and then with more behind it.
fn too_large(random: &mut Random, words: &mut Vec<Word>) {
    if let Some(at) = find_written(random, words) {
        let mut bytes: Vec<u8> = random.bytes(4).iter().map(|byte| byte | 0x80).collect();
        bytes.push(if random.one_in(3) {
            16
        } else {
            random.within(16, 255) as u8
        });
        if random.one_in(4) {
            bytes.push(random.byte());
        }
        words[at].bytes = bytes;
    }
}

fn exchange(random: &mut Random, words: &mut Vec<Word>) {
    if let Some((first, second, end)) = neighbours(random, words) {
        words[first..end].rotate_left(second - first);
    }
}

/// Puts a transition's words in the place of the next one's, with the next one's code.
fn equal_neighbours(random: &mut Random, words: &mut Vec<Word>) {
    if let Some((first, second, end)) = neighbours(random, words) {
        let mut copy = words[first..second].to_vec();
        copy[second - first - 1] = words[end - 1].clone();
        words.splice(second..end, copy);
    }
}

fn zero_code(random: &mut Random, words: &mut Vec<Word>) {
    if let Some(at) = find_role(random, words, &[Role::Code]) {
        words[at].bytes = vec![0];
    }
}

fn foreign_state(random: &mut Random, words: &mut Vec<Word>) {
    if let Some(at) = find_role(random, words, &[Role::Child, Role::Target]) {
        words[at].bytes = number::written(at_or_above(random, count_of(words, Role::States)));
    }
}

fn foreign_symbol(random: &mut Random, words: &mut Vec<Word>) {
    if let Some(at) = find_role(random, words, &[Role::Symbol]) {
        words[at].bytes = number::written(at_or_above(random, count_of(words, Role::Symbols)));
    }
}

/// This number, one close above it, one that is small again modulo 2^8 or 2^16, or the greatest.
fn at_or_above(random: &mut Random, least: u32) -> u32 {
    match random.below(4) {
        0 => least,
        1 => least + random.below(4) as u32,
        2 => random.pick(&[1 << 8, 1 << 16, 1 << 24]) + random.below(256) as u32,
        _ => u32::MAX - random.below(2) as u32,
    }
}

/// A table has many ranks and one of each count, so what is hurt is drawn by role first.
fn count_out_of_range(random: &mut Random, words: &mut Vec<Word>) {
    let (role, least, most) = random.pick(&[
        (Role::Arithmetic, 0, 1),
        (Role::States, 1, table::MOST_STATES),
        (Role::Symbols, 1, table::MOST_SYMBOLS),
        (Role::Rank, 0, table::MOST_RANK),
        (Role::Transitions, 0, table::MOST_TRANSITIONS),
    ]);
    if let Some(at) = find_role(random, words, &[role]) {
        let below = least == 1 && random.one_in(2);
        let value = if below {
            0
        } else {
            at_or_above(random, most + 1)
        };
        words[at].bytes = number::written(value);
    }
}

/// Makes a count one more or one less, so that what follows is read as something else.
fn wrong_count(random: &mut Random, words: &mut Vec<Word>) {
    let role = random.pick(&[Role::States, Role::Symbols, Role::Transitions]);
    if let Some(at) = find_role(random, words, &[role]) {
        let count = count_of(words, role);
        let wrong = if random.one_in(2) {
            count + 1
        } else {
            count.saturating_sub(1)
        };
        words[at].bytes = number::written(wrong);
    }
}

/// Does to one transition two things that different codes refuse: of 2, 4, 5, 6 and 19 the first
/// that applies is not always the one of the lowest number.
fn two_in_one_transition(random: &mut Random, words: &mut Vec<Word>) {
    if let Some((first, second, end)) = neighbours(random, words) {
        let mut copy = words[first..second].to_vec();
        let hurt = random.below(copy.len());
        copy[hurt].bytes = match random.below(4) {
            0 => vec![0],
            1 => number::written(u32::MAX),
            2 => vec![0x80, 0],
            _ => vec![0x80, 0x80, 0x80, 0x80, 0x10],
        };
        words.splice(second..end, copy);
    }
}

#[cfg(test)]
mod tests {
    use super::*;
    use crate::{answer, make};
    use std::collections::BTreeSet;

    #[test]
    fn the_damages_meet_every_refusal() {
        let mut random = Random::new(5);
        let mut codes = BTreeSet::new();
        for damage in &DAMAGES {
            for _ in 0..200 {
                let table = make::small(&mut random);
                let bytes = damage.apply(&mut random, &table);
                codes.extend(table::read(&bytes).err().map(|refusal| refusal.code));
            }
        }
        assert_eq!(codes, answer::OF_TABLES.into_iter().collect());
    }
}
