//! Which definitions must be believed: those that the contracts of the public calls and the statements of the chief theorems
//! name, and what these name in turn. Everything else is checked against them.
//!
//!     believed [--lines]
//!
//! Holds `docs/DEFINITIONS.md` to them: each has one row there, and each row names one of them. The last line is
//! `N passed, M failed`. `--lines` prints instead how many lines they have, as a Markdown table. The exit status is 0 if all
//! is well, 1 if a row is missing or wrong, 2 if nothing could be found out.

mod closure;
mod contracts;
mod item;
mod lines;
mod listed;
mod names;
mod read;
mod report;
mod sources;
mod theorems;
mod token;
mod uses;

use std::fs;
use std::io;
use std::path::Path;
use std::process::ExitCode;

use closure::{closure, Set};
use sources::Sources;

fn main() -> ExitCode {
    let words: Vec<String> = std::env::args().skip(1).collect();
    let words: Vec<&str> = words.iter().map(String::as_str).collect();
    let done = match words[..] {
        [] => run(false),
        ["--lines"] => run(true),
        _ => Err(io::Error::other("usage: believed [--lines]")),
    };
    match done {
        Ok(true) => ExitCode::SUCCESS,
        Ok(false) => ExitCode::FAILURE,
        Err(error) => {
            eprintln!("believed: {error}");
            ExitCode::from(2)
        }
    }
}

/// Whether all is well.
fn run(lines: bool) -> io::Result<bool> {
    let repository = Path::new(env!("CARGO_MANIFEST_DIR")).join("../..");
    let crates = repository.join("crates");
    let sources = Sources::load(&crates)?;
    let promised = contracts::roots(&sources, &crates)?;
    let contracts = closure(&sources, promised).map_err(io::Error::other)?;
    let stated = theorems::roots(&sources).map_err(io::Error::other)?;
    let theorems = closure(&sources, stated).map_err(io::Error::other)?;
    if lines {
        report::print_lines(&sources, &contracts, &theorems);
        return Ok(true);
    }
    let all: Set = contracts.union(&theorems).cloned().collect();
    let page = fs::read_to_string(repository.join("docs/DEFINITIONS.md"))?;
    Ok(report::compare(&sources, &all, &listed::rows(&page)))
}
