//! The mutations of the repository's crates: each is one edit of one file.

use std::collections::HashMap;
use std::fs;
use std::io;
use std::path::Path;
use std::sync::Arc;

use crate::code::{signatures, Signatures};
use crate::points::{edits, signature_in, Edit};

pub struct Mutation {
    pub krate: String,
    /// below the crate's folder
    pub file: String,
    pub source: Arc<str>,
    pub edit: Edit,
    /// 1, or more if a function has equal lines that are edited in the same way
    pub nth: usize,
}

impl Mutation {
    pub fn applied(&self) -> String {
        self.edit.applied(&self.source)
    }

    pub fn line(&self) -> usize {
        self.edit.line(&self.source)
    }

    /// The lines that the edit changes, as they are.
    pub fn old(&self) -> String {
        lines_around(&self.source, self.edit.from, self.edit.to)
    }

    /// The same lines, as it makes them.
    pub fn new(&self) -> String {
        let end = self.edit.from + self.edit.new.len();
        lines_around(&self.applied(), self.edit.from, end)
    }
}

/// The lines from byte `from` to byte `to`, in one, with single spaces.
fn lines_around(text: &str, from: usize, to: usize) -> String {
    let begin = text[..from].rfind('\n').map_or(0, |at| at + 1);
    let end = text[to..].find('\n').map_or(text.len(), |at| to + at);
    text[begin..end]
        .split_whitespace()
        .collect::<Vec<_>>()
        .join(" ")
}

/// The crates that crates.txt lists, in its order.
pub fn crate_names(repository: &Path) -> io::Result<Vec<String>> {
    let text = fs::read_to_string(repository.join("crates.txt"))?;
    let lines = text
        .lines()
        .map(|line| line.split('#').next().unwrap_or(""));
    // the name of a static library is followed by that word
    let names = lines
        .filter_map(|line| line.split_once(':'))
        .filter_map(|(head, _)| head.split_whitespace().next());
    Ok(names.map(str::to_string).collect())
}

/// What the functions of each crate take.
pub fn all_signatures(
    repository: &Path,
    names: &[String],
) -> io::Result<Vec<(String, Signatures)>> {
    let mut found = Vec::new();
    for name in names {
        let mut of_crate = Signatures::new();
        for (_, source) in sources(repository, name)? {
            for (function, types) in signatures(&source) {
                of_crate.entry(function).or_default().extend(types);
            }
        }
        found.push((name.clone(), of_crate));
    }
    Ok(found)
}

/// Every mutation of a crate, by file and place.
pub fn mutations(
    repository: &Path,
    krate: &str,
    known: &[(String, Signatures)],
) -> io::Result<Vec<Mutation>> {
    let none = Signatures::new();
    let own = known.iter().find(|(name, _)| name == krate);
    let own = own.map_or(&none, |(_, signatures)| signatures);
    let mut found = Vec::new();
    for (file, source) in sources(repository, krate)? {
        for edit in edits(&source, &|path| signature_in(path, own, known)) {
            found.push(Mutation {
                krate: krate.to_string(),
                file: file.clone(),
                source: source.clone(),
                edit,
                nth: 1,
            });
        }
    }
    number_equal(&mut found);
    Ok(found)
}

fn number_equal(mutations: &mut [Mutation]) {
    let mut seen: HashMap<(String, String, String, String), usize> = HashMap::new();
    for mutation in mutations {
        let inside = mutation.edit.inside.clone();
        let count = seen
            .entry((
                mutation.file.clone(),
                inside,
                mutation.old(),
                mutation.new(),
            ))
            .or_insert(0);
        *count += 1;
        mutation.nth = *count;
    }
}

/// The source files of a crate with their text, by name.
fn sources(repository: &Path, krate: &str) -> io::Result<Vec<(String, Arc<str>)>> {
    let folder = repository.join("crates").join(krate).join("src");
    let mut found = Vec::new();
    for entry in fs::read_dir(&folder)? {
        let name = entry?.file_name().to_string_lossy().into_owned();
        if name.ends_with(".rt") {
            let text = fs::read_to_string(folder.join(&name))?;
            found.push((format!("src/{name}"), Arc::from(text)));
        }
    }
    found.sort_by(|a, b| a.0.cmp(&b.0));
    Ok(found)
}

#[cfg(test)]
mod tests {
    use super::*;
    use crate::code::signatures;

    fn all(source: &str) -> Vec<Mutation> {
        let own = signatures(source);
        let mut found: Vec<Mutation> = edits(source, &|path| signature_in(path, &own, &[]))
            .into_iter()
            .map(|edit| Mutation {
                krate: "k".to_string(),
                file: "src/lib.rt".to_string(),
                source: Arc::from(source),
                edit,
                nth: 1,
            })
            .collect();
        number_equal(&mut found);
        found
    }

    #[test]
    fn an_edit_is_told_by_its_lines() {
        let found = all("fn f() {\n    g(\n        a,\n        b,\n    );\n}\n");
        assert_eq!(found[1].old(), "a, b,");
        assert_eq!(found[1].new(), "b, a,");
        assert_eq!(found[0].old(), "g( a, b, );");
        assert_eq!(found[0].new(), "");
    }

    #[test]
    fn equal_lines_of_a_function_are_numbered() {
        let found =
            all("fn f() {\n    x = a < b;\n    x = a < b;\n}\nfn g() {\n    x = a < b;\n}\n");
        let numbers: Vec<usize> = found.iter().map(|m| m.nth).collect();
        assert_eq!(numbers, [1, 1, 2, 2, 1, 1]);
    }
}
