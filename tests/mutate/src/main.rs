//! Makes small edits to the proved code, one at a time, and counts how many the prover refuses. What it takes must be in the
//! list `survivors.txt` with a reason.
//!
//!     mutate [--crate NAME]... [--only WORDS] [--each N] [--seed S] [--jobs J] [--limit SECONDS] [--logs FOLDER] [--list]
//!
//! Without `--crate` every crate is tried, without `--each` every edit. `--only` keeps the edits whose line has the words,
//! `--list` says which edits there are and tries none, `--logs` keeps what the prover said of each. The exit status is 0 if
//! every edit got a verdict and every survivor is in the list, 1 if not, 2 if nothing could be tried.

mod arguments;
mod code;
mod groups;
mod mutation;
mod pick;
mod points;
#[cfg(test)]
mod points_tests;
mod returned;
mod run;
mod statements;
mod survivors;
mod token;
mod trial;
mod verdict;

use std::fs;
use std::io;
use std::path::Path;
use std::process::ExitCode;

use arguments::Arguments;
use mutation::{all_signatures, crate_names, mutations, Mutation};
use survivors::Survivor;

fn main() -> ExitCode {
    let words: Vec<String> = std::env::args().skip(1).collect();
    let tried = Arguments::read(&words)
        .map_err(io::Error::other)
        .and_then(|arguments| mutate(&arguments));
    match tried {
        Ok(true) => ExitCode::SUCCESS,
        Ok(false) => ExitCode::FAILURE,
        Err(error) => {
            eprintln!("mutate: {error}");
            ExitCode::from(2)
        }
    }
}

/// Whether all is well.
fn mutate(arguments: &Arguments) -> io::Result<bool> {
    let own = Path::new(env!("CARGO_MANIFEST_DIR"));
    let repository = own.join("../..");
    let all = crate_names(&repository)?;
    let chosen = arguments.chosen(&all).map_err(io::Error::other)?;
    let known = all_signatures(&repository, &all)?;
    let list = fs::read_to_string(own.join("survivors.txt"))?;
    let list = survivors::read(&list).map_err(io::Error::other)?;
    let mut wanted = Vec::new();
    let mut well = true;
    for krate in &chosen {
        let found = mutations(&repository, krate, &known)?;
        well &= none_is_stale(&list, krate, &found);
        wanted.extend(chosen_of(found, arguments));
    }
    if arguments.list {
        for mutation in &wanted {
            println!("{}", run::name(mutation));
        }
        return Ok(well);
    }
    Ok(run::run(&repository, arguments, &chosen, wanted, &list)? && well)
}

/// The edits of a crate that are tried.
fn chosen_of(found: Vec<Mutation>, arguments: &Arguments) -> Vec<Mutation> {
    let words = arguments.only.as_deref().unwrap_or("");
    let kept = found
        .into_iter()
        .filter(|one| run::name(one).contains(words));
    match arguments.each {
        Some(count) => pick::pick(kept.collect(), count, arguments.seed),
        None => kept.collect(),
    }
}

/// Says which entries of the list are no edit of the crate: its code has changed, or the entry is wrong.
fn none_is_stale(list: &[Survivor], krate: &str, found: &[Mutation]) -> bool {
    let mut none = true;
    for survivor in list.iter().filter(|survivor| survivor.krate == krate) {
        if !found.iter().any(|mutation| survivor.is(mutation)) {
            println!(
                "survivors.txt has what is no edit of {krate}:\n{}",
                survivor.text()
            );
            none = false;
        }
    }
    none
}
