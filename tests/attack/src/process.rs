//! Runs part of the attack in a process of its own, so that its end at a guard is a result.

use std::env;
use std::os::unix::process::ExitStatusExt;
use std::process::{Command, Stdio};

/// How a process ended.
#[derive(Clone, Copy, PartialEq, Eq, Debug)]
pub enum Ending {
    Done,
    /// Something was not as the second program says.
    Mismatch,
    /// The system ended it because of memory that it touched.
    Crash,
    /// Any other way, which is never expected.
    Other,
}

/// The signals of a forbidden access, as on Linux.
const FORBIDDEN: [Option<i32>; 2] = [Some(7), Some(11)];

/// Runs this program with these words. Gives what it said, too.
pub fn run(words: &[String]) -> (Ending, String) {
    let this = env::current_exe().expect("a running program has a file");
    let output = Command::new(this)
        .args(words)
        .stderr(Stdio::inherit())
        .output()
        .expect("the system starts this program again");
    let ending = match output.status.code() {
        Some(0) => Ending::Done,
        Some(1) => Ending::Mismatch,
        None if FORBIDDEN.contains(&output.status.signal()) => Ending::Crash,
        _ => Ending::Other,
    };
    let said = String::from_utf8_lossy(&output.stdout);
    (ending, said.trim_end().to_string())
}
