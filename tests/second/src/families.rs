//! Families of inputs: tables of every kind, whole and damaged.

use crate::blocks::Direction;
use crate::damage::{self, DAMAGES};
use crate::examples;
use crate::make::{self, KINDS};
use crate::number;
use crate::plant;
use crate::random::Random;
use crate::table::{self, Table};

type Inputs = Box<dyn Iterator<Item = Vec<u8>>>;

/// A named family. Its inputs are made anew each time they are asked for, the same each time.
pub struct Family {
    pub name: String,
    pub seed: u64,
    make: Box<dyn Fn() -> Inputs>,
}

impl Family {
    pub fn inputs(&self) -> Inputs {
        (self.make)()
    }

    /// A family of `count` random inputs.
    fn random(
        name: String,
        count: usize,
        seed: u64,
        one: impl Fn(&mut Random) -> Vec<u8> + Copy + 'static,
    ) -> Family {
        let make = Box::new(move || {
            let mut random = Random::new(seed);
            Box::new((0..count).map(move |_| one(&mut random))) as Inputs
        });
        Family { name, seed, make }
    }

    /// A family of fixed inputs, or of all inputs of some sort.
    fn listed(name: &str, make: fn() -> Inputs) -> Family {
        Family {
            name: name.to_string(),
            seed: 0,
            make: Box::new(make),
        }
    }
}

/// Tables of every kind, whole and damaged.
pub fn all(times: usize, seed: u64) -> Vec<Family> {
    let mut families = of_a();
    families.extend([
        Family::listed("every table of at most two bytes", at_most_two_bytes),
        Family::listed("every spelling of one number", every_spelling),
    ]);
    families.extend(of_every_kind(500 * times, 15 * times, seed));
    families
}

/// Tables of every kind, and those on which the directions matter. The second program goes over a
/// table again and again for these, so that there are fewer heavy ones and none that no direction
/// ever gets to.
pub fn for_directions(times: usize, seed: u64) -> Vec<Family> {
    let mut families = of_a();
    families.extend(of_every_kind(250 * times, 4 * times, seed));
    let seeds = &mut (seed.wrapping_add(1_000)..);
    let mut random_family = |name: &str, count, one: fn(&mut Random) -> Table| {
        let seed = seeds.next().expect("there are enough seeds");
        Family::random(name.to_string(), count * times, seed, move |random| {
            table::write(&one(random))
        })
    };
    families.extend([
        random_family("tiny", 400, make::tiny),
        random_family("planted backward", 200, planted_backward),
        random_family("planted forward", 200, planted_forward),
        random_family("planted, then one code changed", 200, nearly_planted),
        random_family("parted on both sides in turn", 200, |random| {
            let last = random.pick(&Direction::BOTH);
            plant::ladder(random, last)
        }),
        random_family("many merges backward", 2, |random| {
            plant::many_merges(random, Direction::Backward).table
        }),
        random_family("many merges forward", 2, |random| {
            plant::many_merges(random, Direction::Forward).table
        }),
        Family::listed("a difference 250 levels away", chains),
    ]);
    families
}

fn of_a() -> Vec<Family> {
    vec![
        Family::listed("every way to change one byte of A", a_with_one_byte_changed),
        Family::listed("A cut at every length", a_cut),
        Family::listed("A with one number spelled anew", a_with_one_number_spelled_anew),
    ]
}

/// Tables of every kind, whole and damaged, so many of a light kind and of one that isn't.
fn of_every_kind(light: usize, heavy: usize, seed: u64) -> Vec<Family> {
    let mut families = Vec::new();
    let seeds = &mut (seed..);
    let mut next_seed = || seeds.next().expect("there are enough seeds");
    for kind in &KINDS {
        let name = format!("valid, {}", kind.name);
        let count = if kind.light { light } else { heavy };
        families.push(Family::random(name, count, next_seed(), |random| {
            table::write(&(kind.make)(random))
        }));
    }
    for damage in &DAMAGES {
        let name = format!("damaged, {}", damage.name);
        families.push(Family::random(name, light, next_seed(), |random| {
            let table = some_table(random);
            damage.apply(random, &table)
        }));
    }
    families.push(Family::random(
        "damaged, several damages".to_string(),
        8 * light,
        next_seed(),
        |random| {
            let table = some_table(random);
            damage::several(random, &table)
        },
    ));
    families.push(Family::random(
        "random bytes".to_string(),
        4 * light,
        next_seed(),
        random_bytes,
    ));
    families.push(Family::random(
        "random small bytes".to_string(),
        40 * light,
        next_seed(),
        random_small_bytes,
    ));
    families
}

/// Mostly small tables, on which a damage is likelier to meet another rule's edge.
fn some_table(random: &mut Random) -> Table {
    match random.below(40) {
        0 => (KINDS[random.below(KINDS.len())].make)(random),
        1..=9 => make::middle(random),
        _ => make::small(random),
    }
}

fn planted_backward(random: &mut Random) -> Table {
    plant::some(random, Direction::Backward).table
}

fn planted_forward(random: &mut Random) -> Table {
    plant::some(random, Direction::Forward).table
}

/// A planted table in which one code was changed, so that states which nearly share a block do not.
fn nearly_planted(random: &mut Random) -> Table {
    let direction = random.pick(&Direction::BOTH);
    let mut table = plant::some(random, direction).table;
    let code = make::few_codes(random);
    if table.transitions.is_empty() || random.one_in(4) {
        let state = random.below(table.states());
        table.finals[state] = code;
    } else {
        let at = random.below(table.transitions.len());
        table.transitions[at].code = code;
    }
    table
}

/// Chains of both arithmetics, in which code 1 is one and zero's neighbour.
fn chains() -> Inputs {
    let tables = [
        plant::chain(250),
        plant::chain(256),
        plant::twin_chains(125),
        plant::parted_chains(125, Direction::Backward),
        plant::parted_chains(125, Direction::Forward),
    ];
    Box::new(tables.into_iter().flat_map(|table| {
        [0, 1].map(|arithmetic| {
            table::write(&Table {
                arithmetic,
                ..table.clone()
            })
        })
    }))
}

fn random_bytes(random: &mut Random) -> Vec<u8> {
    let count = random.below(100);
    random.bytes(count)
}

/// Bytes that are mostly tiny, so that the reader often gets as far as the transitions.
fn random_small_bytes(random: &mut Random) -> Vec<u8> {
    let count = random.within(5, 30);
    let most = random.within(2, 4) as u8;
    let byte = |_| {
        if random.one_in(60) {
            random.byte()
        } else {
            random.byte() % most
        }
    };
    (0..count).map(byte).collect()
}

fn a_with_one_byte_changed() -> Inputs {
    let places = (0..examples::A.len()).flat_map(|at| (0..=255).map(move |byte| (at, byte)));
    Box::new(places.map(|(at, byte)| {
        let mut table = examples::A.to_vec();
        table[at] = byte;
        table
    }))
}

fn a_cut() -> Inputs {
    Box::new((0..=examples::A.len()).map(|length| examples::A[..length].to_vec()))
}

/// A with each of its numbers in turn, all of one byte, padded to each length up to six bytes, with
/// fifth bytes on both sides of each edge, or with the table's end behind one to four bytes.
fn a_with_one_number_spelled_anew() -> Inputs {
    Box::new((0..examples::A.len()).flat_map(|at| {
        let begun = |bytes: usize| {
            let mut table = examples::A[..=at].to_vec();
            table[at] |= 0x80;
            table.resize(at + bytes, 0x80);
            table
        };
        let ending =
            |bytes, last: u8| [&begun(bytes)[..], &[last], &examples::A[at + 1..]].concat();
        let padded = (1..=5).map(|bytes| ending(bytes, 0));
        let fifth = [1, 15, 16, 127, 128, 255].map(|last| ending(4, last));
        let cut = (1..=4).map(begun);
        padded.chain(fifth).chain(cut).collect::<Vec<_>>()
    }))
}

fn at_most_two_bytes() -> Inputs {
    let one = (0..=255).map(|byte| vec![byte]);
    let two = (0..=255).flat_map(|first| (0..=255).map(move |second| vec![first, second]));
    Box::new([vec![]].into_iter().chain(one).chain(two))
}

/// A table of one state whose final code is spelled in every way that matters: each length up to
/// six bytes, each group empty or full or in between, and each last byte.
fn every_spelling() -> Inputs {
    let starts = (0..=5).flat_map(|length| [0x80, 0x81, 0xff].map(|byte| vec![byte; length]));
    let spellings =
        starts.flat_map(|start| (0..=255).map(move |last| [&start[..], &[last]].concat()));
    Box::new(spellings.map(|code| [&[0, 1, 1, 0], &code[..], &number::written(0)].concat()))
}
