//! Attacks the library's C calls. Every lent piece of memory ends at a guard, and in a second run
//! begins at one, so that a byte touched outside ends the process; what is only read is locked
//! against writing. Answers and rooms are held to the second program. The last line is `N passed, M
//! failed`.
//!
//!     attack [TIMES [SEED]]
//!
//! TIMES multiplies the number of random inputs (1 if not given), SEED begins the random ones.
//!
//! Each group of inputs runs in a process of its own: `attack group NUMBER TIMES SEED`.

mod attack;
mod call;
mod caller;
mod count;
mod faults;
mod groups;
mod guarded;
mod huge;
mod lengths;
mod lent;
mod library;
mod process;
#[path = "../../compare/src/tally.rs"]
mod tally;
mod trees;

use std::env;
use std::process::ExitCode;

use attack::Attack;
use count::Count;
use groups::GROUPS;
use lent::Guard;
use library::THE_LIBRARY;
use process::Ending;
use tally::Tally;

fn main() -> ExitCode {
    let words: Vec<String> = env::args().skip(1).collect();
    let (what, rest) = match words.first().map(String::as_str) {
        Some(what @ ("group" | "fault")) => (what, &words[1..]),
        _ => ("everything", &words[..]),
    };
    let numbers: Option<Vec<u64>> = rest.iter().map(|word| word.parse().ok()).collect();
    match (what, numbers.as_deref()) {
        ("group", Some(&[number, times, seed])) => group(number, times, seed),
        ("fault", Some(&[number])) => ended(faults::all()[number as usize].run()),
        ("everything", Some([])) => everything(1, SEED),
        ("everything", Some(&[times])) if times > 0 => everything(times, SEED),
        ("everything", Some(&[times, seed])) if times > 0 => everything(times, seed),
        _ => {
            eprintln!("usage: attack [TIMES [SEED]], both whole numbers, TIMES at least 1");
            ExitCode::from(2)
        }
    }
}

const SEED: u64 = 20_260_101;

fn everything(times: u64, seed: u64) -> ExitCode {
    let mut tally = Tally::new();
    tally.note("wrong libraries are seen", see_faults());
    let mut total = Count::default();
    for (number, group) in (0..).zip(GROUPS) {
        let words = [
            "group",
            &number.to_string(),
            &times.to_string(),
            &seed.to_string(),
        ];
        tally.note(
            group.name,
            run_group(&words.map(str::to_string), &mut total),
        );
    }
    tally.note("every code came back", total.all_codes());
    println!("in all {}", total.spelled());
    tally.finish()
}

/// Whether each fault has the ending that is due.
fn see_faults() -> Result<String, String> {
    let faults = faults::all();
    for (number, fault) in faults.iter().enumerate() {
        let (ending, said) = process::run(&["fault".to_string(), number.to_string()]);
        if ending != fault.ending {
            let due = fault.ending;
            return Err(format!(
                "{}: {ending:?} and should be {due:?}\n{said}",
                fault.name
            ));
        }
    }
    let ends = |ending| faults.iter().filter(|fault| fault.ending == ending).count();
    let (crashes, mismatches) = (ends(Ending::Crash), ends(Ending::Mismatch));
    Ok(format!("{crashes} at a guard, {mismatches} by a mismatch"))
}

fn run_group(words: &[String], total: &mut Count) -> Result<String, String> {
    let (ending, said) = process::run(words);
    if ending != Ending::Done {
        let words = words.join(" ");
        let how = format!("{ending:?}, again with: attack {words}\n{said}");
        return Err(how.trim_end().to_string());
    }
    let count: Count = said.parse()?;
    if count.inputs == 0 {
        return Err("there was no input".to_string());
    }
    total.add(&count);
    Ok(count.spelled())
}

/// Runs one group in this process, and prints its count.
fn group(number: u64, times: u64, seed: u64) -> ExitCode {
    let seed = seed.wrapping_add(number);
    let mut attack = Attack::new(THE_LIBRARY, &Guard::BOTH, seed);
    let outcome = (GROUPS[number as usize].run)(&mut attack, times as usize);
    if outcome.is_ok() {
        println!("{}", attack.caller.count);
    }
    ended(outcome)
}

/// The status by which the process that started this one knows how it ended.
fn ended(outcome: Result<(), String>) -> ExitCode {
    match outcome {
        Ok(()) => ExitCode::SUCCESS,
        Err(wrong) => {
            println!("{wrong}");
            ExitCode::from(1)
        }
    }
}
