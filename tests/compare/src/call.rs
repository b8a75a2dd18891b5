//! What every compared call shares.

use std::collections::BTreeMap;

use second::answer;
use second::families::Family;
use second::random::Random;

use crate::tally::Tally;

/// One of the library's calls and how an input's answer is compared.
pub struct Call {
    pub name: &'static str,
    /// The codes that the inputs are to meet, so that no part of the comparison is idle.
    pub codes: &'static [&'static [u32]],
    /// The inputs: so many times as many random ones as usual, from this seed on.
    pub families: fn(usize, u64) -> Vec<Family>,
    /// Makes the call on this table, in every way worth trying, and compares all that it changes.
    pub compare: fn(&[u8], &mut Random, &mut Met) -> Result<(), String>,
}

impl Call {
    /// Compares the call on every input of every family.
    pub fn run(&self, tally: &mut Tally, times: usize, seed: u64) {
        let mut met = Met::default();
        for family in (self.families)(times, seed) {
            let name = format!("{}: {}", self.name, family.name);
            tally.note(&name, self.run_family(&family, &mut met));
        }
        tally.note(
            &format!("{}: every code was met", self.name),
            met.all_of(&self.codes.concat()),
        );
    }

    fn run_family(&self, family: &Family, met: &mut Met) -> Result<String, String> {
        let mut random = Random::new(!family.seed);
        let mut tried = 0;
        for input in family.inputs() {
            (self.compare)(&input, &mut random, met).map_err(|wrong| {
                let which = format!("{wrong} (input {tried} of seed {})", family.seed);
                with_input(&which, &input)
            })?;
            tried += 1;
        }
        if tried == 0 {
            return Err("there was no input".to_string());
        }
        Ok(format!("{tried} inputs, seed {}", family.seed))
    }
}

/// How often each code came back.
#[derive(Default)]
pub struct Met {
    times: BTreeMap<u32, usize>,
}

impl Met {
    fn count(&mut self, answer: u64) {
        let (code, _) = answer::unpacked(answer);
        *self.times.entry(code as u32).or_default() += 1;
    }

    fn all_of(&self, codes: &[u32]) -> Result<String, String> {
        let times = |code| self.times.get(code).copied().unwrap_or(0);
        let listed: Vec<String> = codes
            .iter()
            .map(|code| format!("{code}: {} times", times(code)))
            .collect();
        let listed = listed.join(", ");
        if codes.iter().all(|code| times(code) > 0) {
            Ok(listed)
        } else {
            Err(listed)
        }
    }
}

/// Compares the number that came back with the one that is due, and counts its code.
pub fn same_answer(got: u64, due: u64, met: &mut Met) -> Result<(), String> {
    if got == due {
        met.count(due);
        Ok(())
    } else {
        Err(format!(
            "the answer is {} and should be {}",
            spelled(got),
            spelled(due)
        ))
    }
}

fn spelled(answer: u64) -> String {
    let (code, figure) = answer::unpacked(answer);
    format!("code {code} figure {figure}")
}

/// What went wrong, with the input that it went wrong on.
pub fn with_input(wrong: &str, input: &[u8]) -> String {
    format!("{wrong}\ninput: {}", hex(input))
}

pub fn hex(bytes: &[u8]) -> String {
    let spelled: Vec<String> = bytes.iter().map(|byte| format!("{byte:02X}")).collect();
    spelled.join(" ")
}
