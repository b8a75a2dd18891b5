//! Writes inputs for the program of document 01, and beside each what the program is to write.
//!
//!     inputs FOLDER [TIMES [SEED]]
//!
//! Each family of inputs has a folder in FOLDER, in which N.in is an input and N.out is what is due
//! for it. TIMES and SEED are those of the comparison.

use std::env;
use std::fs;
use std::io;
use std::path::{Path, PathBuf};
use std::process::ExitCode;

use second::examples;
use second::families;
use second::inspect::inspect;
use second::make;
use second::random::Random;
use second::table::{self, LONGEST_TABLE};

/// A run of the program costs more than a call, so that it gets some of a family's inputs only.
const OF_A_FAMILY: usize = 12;
const STEP: usize = 5;

fn main() -> ExitCode {
    let Some((folder, times, seed)) = arguments() else {
        eprintln!("usage: inputs FOLDER [TIMES [SEED]]");
        return ExitCode::from(2);
    };
    match write_all(&folder, times, seed) {
        Ok(()) => ExitCode::SUCCESS,
        Err(error) => {
            eprintln!("{}: {error}", folder.display());
            ExitCode::FAILURE
        }
    }
}

fn arguments() -> Option<(PathBuf, usize, u64)> {
    let mut words = env::args_os().skip(1);
    let folder = PathBuf::from(words.next()?);
    let mut number = |otherwise: u64| {
        words.next().map_or(Some(otherwise), |word| {
            word.to_str().and_then(|word| word.parse().ok())
        })
    };
    let times = usize::try_from(number(1)?).ok()?;
    Some((folder, times, number(20_260_101)?))
}

fn write_all(folder: &Path, times: usize, seed: u64) -> io::Result<()> {
    write_family(folder, "table A", [examples::A.to_vec()])?;
    write_family(folder, "01 and 001, examples", examples())?;
    write_family(folder, "longer than is read", long(&mut Random::new(seed)))?;
    for family in families::for_directions(times, seed) {
        let inputs = family.inputs().step_by(STEP).take(OF_A_FAMILY * times);
        write_family(folder, &family.name, inputs)?;
    }
    Ok(())
}

fn write_family(
    folder: &Path,
    name: &str,
    inputs: impl IntoIterator<Item = Vec<u8>>,
) -> io::Result<()> {
    let folder = folder.join(name);
    fs::create_dir_all(&folder)?;
    for (number, input) in inputs.into_iter().enumerate() {
        fs::write(folder.join(format!("{number}.in")), &input)?;
        fs::write(folder.join(format!("{number}.out")), inspect(&input))?;
    }
    Ok(())
}

fn examples() -> Vec<Vec<u8>> {
    let checked = examples::run_only()
        .into_iter()
        .chain(examples::first_that_applies());
    let collapsed = examples::collapses();
    checked
        .map(|example| example.table)
        .chain(collapsed.into_iter().map(|example| example.table))
        .collect()
}

/// Inputs of about the length that is read and far longer.
fn long(random: &mut Random) -> Vec<Vec<u8>> {
    let longest = table::write(&make::longest(random));
    let and = |start: &[u8], more: usize| [start, &vec![7; more]].concat();
    let mut inputs: Vec<Vec<u8>> = [0, 1, 2, 1_000, 300_000]
        .iter()
        .map(|&more| and(&longest, more))
        .collect();
    inputs.push(and(&longest[..LONGEST_TABLE - 1], 0));
    inputs.push(and(&examples::A, LONGEST_TABLE));
    inputs.push(random.bytes(100_000));
    inputs.push(vec![0; 100_000]);
    inputs
}
