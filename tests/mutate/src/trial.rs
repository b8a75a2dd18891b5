//! Trying an edit: in a copy of the repository with each crate's `out/`, so that what a crate depends on counts as proved.

use std::fs;
use std::io;
use std::path::{Path, PathBuf};
use std::process::{self, Command, ExitStatus};
use std::time::{Duration, Instant};

use crate::mutation::Mutation;
use crate::verdict::{verdict, Verdict};

pub struct Outcome {
    pub verdict: Verdict,
    pub time: Duration,
    pub said: String,
}

/// A folder that holds the copies. It is removed in the end.
pub struct Scratch {
    root: PathBuf,
}

/// A copy of the repository in which one edit is tried after another.
pub struct Copy {
    repository: PathBuf,
}

impl Scratch {
    pub fn new() -> io::Result<Scratch> {
        let root = std::env::temp_dir().join(format!("mutate-{}", process::id()));
        fs::create_dir(&root)?;
        Ok(Scratch { root })
    }

    /// A clean copy in which the crates are proved. An edit tells nothing of a crate that is not proved without it.
    pub fn clean_copy(&self, repository: &Path, crates: &[String]) -> io::Result<()> {
        let clean = self.clean();
        for part in ["crates", "crates.txt"] {
            copy(&repository.join(part), &clean.join(part))?;
        }
        for krate in crates {
            let status = rt_check(&clean, krate, None)?.0;
            if !status.success() {
                let said = format!("{krate} is not proved as it stands");
                return Err(io::Error::other(said));
            }
        }
        Ok(())
    }

    /// A further copy of the clean one.
    pub fn copy(&self, number: usize) -> io::Result<Copy> {
        let repository = self.root.join(format!("copy-{number}"));
        copy(&self.clean(), &repository)?;
        Ok(Copy { repository })
    }

    fn clean(&self) -> PathBuf {
        self.root.join("clean")
    }
}

impl Drop for Scratch {
    fn drop(&mut self) {
        // a folder that stays does no harm
        let _ = fs::remove_dir_all(&self.root);
    }
}

impl Copy {
    /// Makes the edit, asks for the verdict on its crate and takes the edit back. What crates above use of the crate is built under
    /// another name than what a check keeps, and by the sum of its text, so that it counts as proved again afterwards.
    pub fn attempt(&self, mutation: &Mutation, limit: Duration) -> io::Result<Outcome> {
        let file = self
            .repository
            .join("crates")
            .join(&mutation.krate)
            .join(&mutation.file);
        if fs::read_to_string(&file)? != *mutation.source {
            let changed = format!("{} changed while it was copied", mutation.file);
            return Err(io::Error::other(changed));
        }
        fs::write(&file, mutation.applied())?;
        let began = Instant::now();
        let (status, said) = rt_check(&self.repository, &mutation.krate, Some(limit))?;
        let time = began.elapsed();
        fs::write(&file, mutation.source.as_bytes())?;
        Ok(Outcome {
            verdict: verdict(status.code(), &said),
            time,
            said,
        })
    }
}

/// Copies a file or a folder, in the place of what stands there.
fn copy(from: &Path, to: &Path) -> io::Result<()> {
    if to.is_dir() {
        fs::remove_dir_all(to)?;
    }
    if let Some(folder) = to.parent() {
        fs::create_dir_all(folder)?;
    }
    let status = Command::new("cp").arg("-r").arg(from).arg(to).status()?;
    if status.success() {
        return Ok(());
    }
    Err(io::Error::other(format!("cp -r {} failed", from.display())))
}

/// Runs `rt check` in the crate's folder. `timeout` ends the prover too when the time is up.
fn rt_check(
    repository: &Path,
    krate: &str,
    limit: Option<Duration>,
) -> io::Result<(ExitStatus, String)> {
    let seconds = limit.map_or(0, |limit| limit.as_secs());
    let output = Command::new("timeout")
        .args(["--kill-after=5", &seconds.to_string(), "rt", "check"])
        .args(["--jobs", "1"])
        .current_dir(repository.join("crates").join(krate))
        .output()?;
    let mut said = String::from_utf8_lossy(&output.stdout).into_owned();
    said.push_str(&String::from_utf8_lossy(&output.stderr));
    if limit.is_none() && !output.status.success() {
        eprint!("{said}");
    }
    Ok((output.status, said))
}
