//! What was tried: the inputs, the calls, and how often each code came back.

use std::fmt;
use std::str::FromStr;

use second::answer::{self, CODES};

#[derive(Clone, Copy, Default)]
pub struct Count {
    /// An input is a table, or a table with a tree. Each is tried in several calls.
    pub inputs: usize,
    calls: usize,
    /// In the order of `answer::codes`.
    codes: [usize; CODES],
}

impl Count {
    /// Takes down a call for which this answer is due.
    pub fn call(&mut self, due: u64) {
        let (code, _) = answer::unpacked(due);
        self.calls += 1;
        let place = answer::codes().position(|known| u64::from(known) == code);
        self.codes[place.expect("the second program gives known codes only")] += 1;
    }

    pub fn add(&mut self, more: &Count) {
        self.inputs += more.inputs;
        self.calls += more.calls;
        for (code, more) in self.codes.iter_mut().zip(&more.codes) {
            *code += more;
        }
    }

    pub fn spelled(&self) -> String {
        format!("{} inputs, {} calls", self.inputs, self.calls)
    }

    /// How often each code came back, as a check that each one did.
    pub fn all_codes(&self) -> Result<String, String> {
        let one = |(code, times)| format!("{code}: {times} times");
        let listed: Vec<String> = answer::codes().zip(&self.codes).map(one).collect();
        let listed = listed.join(", ");
        if self.codes.contains(&0) {
            Err(listed)
        } else {
            Ok(listed)
        }
    }
}

/// All numbers in a row, in which form a process hands its count to the one that started it.
impl fmt::Display for Count {
    fn fmt(&self, f: &mut fmt::Formatter) -> fmt::Result {
        write!(f, "{} {}", self.inputs, self.calls)?;
        self.codes.iter().try_for_each(|code| write!(f, " {code}"))
    }
}

impl FromStr for Count {
    type Err = String;

    fn from_str(row: &str) -> Result<Count, String> {
        let numbers: Option<Vec<usize>> = row
            .split_whitespace()
            .map(|number| number.parse().ok())
            .collect();
        match numbers.as_deref() {
            Some([inputs, calls, codes @ ..]) if codes.len() == CODES => {
                let mut count = Count {
                    inputs: *inputs,
                    calls: *calls,
                    ..Count::default()
                };
                count.codes.copy_from_slice(codes);
                Ok(count)
            }
            _ => Err(format!("this is no count: {row}")),
        }
    }
}
