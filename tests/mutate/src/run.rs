//! Trying the mutations, a line for each, and the counts.

use std::fs;
use std::io;
use std::path::Path;
use std::sync::Mutex;
use std::thread;

use crate::arguments::Arguments;
use crate::mutation::Mutation;
use crate::points::{Kind, KINDS};
use crate::survivors::Survivor;
use crate::trial::{Copy, Outcome, Scratch};
use crate::verdict::{Verdict, VERDICTS};

/// Tries them all. Whether each got a verdict and each survivor is in the list.
pub fn run(
    repository: &Path,
    arguments: &Arguments,
    crates: &[String],
    wanted: Vec<Mutation>,
    list: &[Survivor],
) -> io::Result<bool> {
    if let Some(folder) = &arguments.logs {
        fs::create_dir_all(folder)?;
    }
    let scratch = Scratch::new()?;
    scratch.clean_copy(repository, crates)?;
    let shared = Shared {
        arguments,
        list,
        waiting: Mutex::new(wanted.into_iter()),
        done: Mutex::new(Vec::new()),
    };
    let copies = (0..arguments.jobs).map(|number| scratch.copy(number));
    let copies = copies.collect::<io::Result<Vec<Copy>>>()?;
    thread::scope(|scope| {
        let workers: Vec<_> = copies
            .iter()
            .map(|copy| scope.spawn(|| shared.work(copy)))
            .collect();
        let ends = workers
            .into_iter()
            .map(|worker| worker.join().expect("a worker ends"));
        ends.collect::<io::Result<Vec<()>>>()
    })?;
    Ok(shared.finish(crates))
}

/// What the workers share.
struct Shared<'a> {
    arguments: &'a Arguments,
    list: &'a [Survivor],
    waiting: Mutex<std::vec::IntoIter<Mutation>>,
    done: Mutex<Vec<Done>>,
}

struct Done {
    krate: String,
    kind: &'static str,
    verdict: Verdict,
    explained: bool,
    /// an entry for the list, if one is missing
    entry: Option<String>,
}

impl Shared<'_> {
    fn work(&self, copy: &Copy) -> io::Result<()> {
        while let Some(mutation) = self.next() {
            let outcome = copy.attempt(&mutation, self.arguments.limit)?;
            self.note(&mutation, &outcome)?;
        }
        Ok(())
    }

    fn next(&self) -> Option<Mutation> {
        self.waiting.lock().expect("no worker has failed").next()
    }

    /// Prints the line of an edit and keeps what counts.
    fn note(&self, mutation: &Mutation, outcome: &Outcome) -> io::Result<()> {
        let mut done = self.done.lock().expect("no worker has failed");
        let listed = self.list.iter().any(|survivor| survivor.is(mutation));
        let taken = outcome.verdict == Verdict::Taken;
        let word = match (taken, listed) {
            (true, true) => "taken, explained",
            (true, false) => "TAKEN",
            (false, true) => "refused, and the list says that it is taken",
            (false, false) => outcome.verdict.word(),
        };
        println!(
            "{}: {word}, {:.0} s",
            name(mutation),
            outcome.time.as_secs_f64()
        );
        if let Some(folder) = &self.arguments.logs {
            let file = format!("{}-{}.log", mutation.krate, done.len());
            fs::write(
                folder.join(file),
                format!("{}: {word}\n{}", name(mutation), outcome.said),
            )?;
        }
        done.push(Done {
            krate: mutation.krate.clone(),
            kind: mutation.edit.kind.word(),
            verdict: outcome.verdict,
            explained: listed,
            entry: (taken && !listed).then(|| Survivor::of(mutation, "").text()),
        });
        Ok(())
    }

    /// Prints the counts. Whether all is well.
    fn finish(self, crates: &[String]) -> bool {
        let done = self.done.into_inner().expect("no worker has failed");
        print_tables(crates, &done);
        let missing: Vec<&String> = done.iter().filter_map(|one| one.entry.as_ref()).collect();
        for entry in &missing {
            println!("\nnot in survivors.txt:\n{entry}");
        }
        let judged = done.iter().all(|one| one.verdict != Verdict::None);
        let listed = done
            .iter()
            .all(|one| !one.explained || one.verdict == Verdict::Taken);
        missing.is_empty() && judged && listed
    }
}

/// The edit, as a line names it.
pub fn name(mutation: &Mutation) -> String {
    let (krate, file, line) = (&mutation.krate, &mutation.file, mutation.line());
    format!(
        "{krate} {file}:{line} {} in {}",
        mutation.edit.what, mutation.edit.inside
    )
}

/// The counts by crate, and by kind of edit.
fn print_tables(crates: &[String], done: &[Done]) {
    print_head("crate");
    for krate in crates {
        print_row(krate, done.iter().filter(|one| one.krate == *krate));
    }
    print_row("all", done.iter());
    print_head("kind");
    let met = |kind: &&Kind| done.iter().any(|one| one.kind == kind.word());
    for kind in KINDS.iter().filter(met) {
        print_row(
            kind.word(),
            done.iter().filter(|one| one.kind == kind.word()),
        );
    }
}

fn print_head(name: &str) {
    let words: Vec<String> = VERDICTS
        .iter()
        .map(|v| format!("{:>9}", v.word()))
        .collect();
    println!("\n{name:<12}{:>7}{}", "edits", words.concat());
}

fn print_row<'a>(name: &str, done: impl Iterator<Item = &'a Done>) {
    let verdicts: Vec<Verdict> = done.map(|one| one.verdict).collect();
    let count = |verdict: &Verdict| verdicts.iter().filter(|one| *one == verdict).count();
    let counts: Vec<String> = VERDICTS
        .iter()
        .map(|v| format!("{:>9}", count(v)))
        .collect();
    println!("{name:<12}{:>7}{}", verdicts.len(), counts.concat());
}
