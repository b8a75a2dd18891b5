//! Counts the named checks.

use std::process::ExitCode;

pub struct Tally {
    passed: usize,
    failed: usize,
}

impl Tally {
    pub fn new() -> Tally {
        Tally {
            passed: 0,
            failed: 0,
        }
    }

    /// Takes down a named check: a note of what was tried, or what went wrong.
    pub fn note(&mut self, name: &str, outcome: Result<String, String>) {
        match outcome {
            Ok(tried) => {
                self.passed += 1;
                println!("ok      {name} ({tried})");
            }
            Err(wrong) => {
                self.failed += 1;
                println!("FAILED  {name}\n{wrong}");
            }
        }
    }

    /// Prints the last line. A run that tried nothing has not passed.
    pub fn finish(self) -> ExitCode {
        println!("{} passed, {} failed", self.passed, self.failed);
        if self.failed == 0 && self.passed > 0 {
            ExitCode::SUCCESS
        } else {
            ExitCode::FAILURE
        }
    }
}
