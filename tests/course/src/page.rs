//! The page, as Markdown.

use second::blocks::Direction;
use second::collapse;
use second::table::{self, Table};

use crate::errors::{self, Error};
use crate::lemma::{self, Lemma};
use crate::library;
use crate::plain::{Answer, Plain, Shrinker};
use crate::search;
use crate::trees;
use crate::words;

pub fn page() -> String {
    let sections = errors::ALL.iter().zip(1..);
    let sections = sections.map(|(error, number)| section(number, error));
    introduction() + &sections.collect::<String>()
}

fn introduction() -> String {
    let codes = |codes: &[u32]| {
        let codes: Vec<String> = codes.iter().map(u32::to_string).collect();
        let (last, others) = codes.split_last().expect("some codes");
        format!("{} and {last}", others.join(", "))
    };
    format!(
        include_str!("introduction.md"),
        bytes = search::MOST_BYTES,
        states = search::MOST_STATES,
        symbols = search::MOST_SYMBOLS,
        rank = search::MOST_RANK,
        finals = codes(&search::FINAL_CODES),
        codes = codes(&search::CODES),
        nodes = trees::MOST_NODES,
        lemmas = lemma::FILE,
    )
}

fn section(number: usize, error: &Error) -> String {
    let parts = [
        format!("\n## {number}. {}", error.title),
        error.cause.to_string(),
        format!("The step as it should be:\n\n{}", rust(&step(error.step))),
        format!("As it is wrong:\n\n{}", rust(replaced(error.source))),
        smallest(error),
        ruled_out(error),
    ];
    parts.join("\n\n") + "\n"
}

fn rust(source: &str) -> String {
    format!("```rust\n{}\n```", source.trim_end())
}

/// A step of the plain shrinker, from its own text.
fn step(name: &str) -> String {
    let plain = include_str!("plain.rs");
    let start = plain.find(&format!("    fn {name}(")).expect("a step");
    let length = plain[start..].find("\n    }\n").expect("its end") + "\n    }\n".len();
    let lines = plain[start..start + length].lines();
    let lines: Vec<&str> = lines
        .map(|line| line.strip_prefix("    ").unwrap_or(line))
        .collect();
    lines.join("\n")
}

/// What a wrong shrinker replaces, from its own text.
fn replaced(source: &str) -> &str {
    &source[source.find("impl Shrinker").expect("a shrinker")..]
}

/// The smallest table on which the answers differ, and if no tree's weight changes there, the
/// smallest on which one does.
fn smallest(error: &Error) -> String {
    let (_, shrinker) = error.shrinkers[0];
    let (bytes, direction) = search::smallest(|bytes, direction| {
        let table = read(bytes);
        shrinker.answer(&table, direction) != Plain.answer(&table, direction)
    })
    .expect("the bounds are wide enough");
    let case = Case::new(error, &bytes, direction);
    let shown = format!("### The smallest table\n\n{}", case.shown());
    match error.keeps_weights {
        Some(why) => format!("{shown}\n\n{why}"),
        None if case.tree.is_some() => shown,
        None => format!("{shown}\n\n{}", smallest_with_tree(error)),
    }
}

fn smallest_with_tree(error: &Error) -> String {
    let (_, shrinker) = error.shrinkers[0];
    let (bytes, direction) = search::smallest(|bytes, direction| {
        let table = read(bytes);
        let wrong = shrinker.answer(&table, direction);
        wrong != Plain.answer(&table, direction)
            && trees::first_changed(&table.ranks, bytes, &wrong.bytes).is_some()
    })
    .expect("the bounds are wide enough");
    format!(
        "### The smallest table in which a tree's weight changes\n\n{}",
        Case::new(error, &bytes, direction).shown()
    )
}

fn ruled_out(error: &Error) -> String {
    let lemma = Lemma::read(error.lemma);
    let case = Case::new(error, &lemma.table, lemma.direction);
    for (name, answer) in &case.wrong {
        assert!(lemma.rules_out(answer), "{}: {name}", error.lemma);
    }
    format!(
        "### {}\n\n{}\n\n### What rules it out\n\n{}\n\n\
         That `{}` does not allow the wrong answer to the table above is `{}` in `{}`:\n\n```\n{}\n```",
        error.table,
        case.shown(),
        error.promise,
        lemma.promise,
        error.lemma,
        lemma::FILE,
        lemma.statement
    )
}

fn read(bytes: &[u8]) -> Table {
    table::read(bytes).expect("what is tried is a table")
}

/// A table with what everyone makes of it in one direction.
struct Case {
    bytes: Vec<u8>,
    table: Table,
    direction: Direction,
    wrong: Vec<(&'static str, Answer)>,
    ours: Answer,
    /// The first tree that weighs something else in the first wrong answer, if that is a table.
    tree: Option<Vec<u8>>,
}

impl Case {
    fn new(error: &Error, bytes: &[u8], direction: Direction) -> Case {
        let table = read(bytes);
        let ours = library::answer(bytes, direction);
        assert_eq!(ours, Plain.answer(&table, direction), "the plain shrinker");
        assert_eq!(
            ours.collapsed,
            collapse::collapse(&table, direction),
            "the second program"
        );
        let shrinkers = error.shrinkers.iter();
        let wrong: Vec<_> = shrinkers
            .map(|(name, shrinker)| (*name, shrinker.answer(&table, direction)))
            .collect();
        let changed = &wrong[0].1.bytes;
        let is_table = library::check(changed).is_ok();
        let tree = is_table.then(|| trees::first_changed(&table.ranks, bytes, changed));
        Case {
            bytes: bytes.to_vec(),
            tree: tree.flatten(),
            table,
            direction,
            wrong,
            ours,
        }
    }

    fn shown(&self) -> String {
        format!(
            "{} bytes, {}; the collapse is {}.\n\n{}{}",
            self.bytes.len(),
            words::frame(&self.table),
            words::direction(self.direction),
            self.rows(),
            self.note()
        )
    }

    fn rows(&self) -> String {
        let weighs = |tree| format!(" {} weighs |", words::tree(&self.table.ranks, tree));
        let head = self.tree.as_deref().map(weighs).unwrap_or_default();
        let line = if self.tree.is_some() { "---|" } else { "" };
        let mut rows = vec![
            format!("| | blocks | bytes | in words |{head}"),
            format!("|---|---|---|---|{line}"),
            self.row("the table", "", &self.bytes, &self.table),
        ];
        let wrong = self.wrong.iter();
        rows.extend(wrong.map(|(name, answer)| self.answer_row(name, answer)));
        rows.push(self.answer_row("the library", &self.ours));
        rows.join("\n")
    }

    fn answer_row(&self, who: &str, answer: &Answer) -> String {
        let blocks = words::numbers(&answer.blocks);
        self.row(who, &blocks, &answer.bytes, &answer.collapsed)
    }

    fn row(&self, who: &str, blocks: &str, bytes: &[u8], table: &Table) -> String {
        let weighs = |tree| format!(" {} |", words::weight(library::weight(bytes, tree)));
        format!(
            "| {who} | {blocks} | `{}` | {} |{}",
            words::hex(bytes),
            words::content(table),
            self.tree.as_deref().map(weighs).unwrap_or_default()
        )
    }

    /// Why the rows have no tree, if they have none.
    fn note(&self) -> String {
        let note = match library::check(&self.wrong[0].1.bytes) {
            Err(refusal) => format!(
                "The wrong shrinker's bytes are no table: check gives code {}, figure {}.",
                refusal.code, refusal.figure
            ),
            Ok(()) if self.tree.is_some() => return String::new(),
            Ok(()) if !self.table.ranks.contains(&0) => {
                "Without a symbol of rank 0 there are no trees.".to_string()
            }
            Ok(()) => format!(
                "No tree of up to {} nodes changes its weight.",
                trees::MOST_NODES
            ),
        };
        format!("\n\n{note}")
    }
}

#[cfg(test)]
mod tests {
    use super::*;
    use std::fs;
    use std::path::Path;

    fn root() -> &'static Path {
        Path::new(concat!(env!("CARGO_MANIFEST_DIR"), "/../.."))
    }

    /// The names that the page cites, each with the file it cites them from: both are quoted, and
    /// only "and", "in" or a comma stands between them.
    fn cited(page: &str) -> Vec<(&str, &str)> {
        let mut cited = Vec::new();
        let mut names = Vec::new();
        for (at, part) in page.split('`').enumerate() {
            let is_quoted = at % 2 == 1;
            if is_quoted && part.ends_with(".antt") {
                cited.extend(names.drain(..).map(|name| (name, part)));
            } else if is_quoted {
                names.push(part);
            } else if !["and", "in", ","].contains(&part.trim()) {
                names.clear();
            }
        }
        cited
    }

    #[test]
    fn every_name_that_the_page_cites_stands_in_its_file() {
        let page = fs::read_to_string(root().join("docs/COURSE.md")).unwrap();
        let cited = cited(&page);
        assert!(cited.len() > 15, "{cited:?}");
        for (name, file) in cited {
            let text = fs::read_to_string(root().join(file)).unwrap();
            assert!(text.contains(name), "{name} in {file}");
        }
    }

    #[test]
    fn a_step_is_cut_out_whole() {
        let text = "fn is_written(&self, arithmetic: u8, weight: i64) -> bool {\n    \
                    weight != self.zero(arithmetic)\n}";
        assert_eq!(step("is_written"), text);
    }
}
