//! The words of the command.

use std::path::PathBuf;
use std::str::FromStr;
use std::time::Duration;

pub struct Arguments {
    pub crates: Vec<String>,
    pub only: Option<String>,
    pub each: Option<usize>,
    pub seed: u64,
    pub jobs: usize,
    pub limit: Duration,
    pub logs: Option<PathBuf>,
    pub list: bool,
}

impl Arguments {
    pub fn read(words: &[String]) -> Result<Arguments, String> {
        let mut read = Arguments {
            crates: Vec::new(),
            only: None,
            each: None,
            seed: 1,
            jobs: 1,
            limit: Duration::from_secs(900),
            logs: None,
            list: false,
        };
        let mut words = words.iter();
        while let Some(word) = words.next() {
            let mut next = || words.next().ok_or(format!("{word} needs a word behind it"));
            match word.as_str() {
                "--crate" => read.crates.push(next()?.clone()),
                "--only" => read.only = Some(next()?.clone()),
                "--each" => read.each = Some(number(next()?)?),
                "--seed" => read.seed = number(next()?)?,
                "--jobs" => read.jobs = number::<usize>(next()?)?.max(1),
                "--limit" => read.limit = Duration::from_secs(number(next()?)?),
                "--logs" => read.logs = Some(PathBuf::from(next()?)),
                "--list" => read.list = true,
                _ => return Err(format!("{word} is no option")),
            }
        }
        Ok(read)
    }

    /// The crates that are named, or all.
    pub fn chosen(&self, all: &[String]) -> Result<Vec<String>, String> {
        if let Some(unknown) = self.crates.iter().find(|name| !all.contains(name)) {
            return Err(format!("crates.txt lists no crate {unknown}"));
        }
        Ok(if self.crates.is_empty() {
            all.to_vec()
        } else {
            self.crates.clone()
        })
    }
}

fn number<T: FromStr>(word: &str) -> Result<T, String> {
    word.parse().map_err(|_| format!("{word} is no number"))
}
