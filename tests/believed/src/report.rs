//! What is printed.

use std::collections::{BTreeMap, BTreeSet};

use crate::closure::Set;
use crate::listed::Row;
use crate::sources::{Id, Sources};

/// Says which definitions have no row and which rows are wrong. Whether all is well.
pub fn compare(sources: &Sources, believed: &Set, rows: &[Row]) -> bool {
    let failures = failures(sources, believed, rows);
    for failure in &failures {
        println!("FAILED  {failure}");
    }
    let right = believed
        .iter()
        .filter(|id| rows.contains(&row_of(sources, id)));
    println!("{} passed, {} failed", right.count(), failures.len());
    failures.is_empty()
}

fn failures(sources: &Sources, believed: &Set, rows: &[Row]) -> Vec<String> {
    let mut found = Vec::new();
    let wanted: BTreeSet<Row> = believed.iter().map(|id| row_of(sources, id)).collect();
    let mut met = BTreeSet::new();
    for row in rows {
        let named = format!("`{}` of {}", row.name, row.file);
        if !wanted.contains(row) {
            found.push(format!("{named} is nothing that a promise rests on"));
        } else if !met.insert(row.clone()) {
            found.push(format!("{named} has a second row"));
        }
    }
    for id in believed
        .iter()
        .filter(|id| !met.contains(&row_of(sources, id)))
    {
        let item = sources.item(id);
        let named = format!("`{}` of {}:{}", item.name, id.0, item.line);
        found.push(format!("{named} has no row in docs/DEFINITIONS.md"));
    }
    found
}

fn row_of(sources: &Sources, id: &Id) -> Row {
    Row {
        name: sources.item(id).name.clone(),
        file: id.0.clone(),
    }
}

/// How many definitions, and how many lines of them, a part of the promises rests on.
#[derive(Clone, Copy, Default)]
struct Count {
    definitions: usize,
    /// of definitions that contracts name
    contracts: usize,
    /// of those that only theorems name
    theorems: usize,
}

/// The number of definitions and lines by file, as a Markdown table.
pub fn print_lines(sources: &Sources, contracts: &Set, theorems: &Set) {
    let mut files: BTreeMap<&str, Count> = BTreeMap::new();
    let mut all = Count::default();
    for id in contracts.union(theorems) {
        for count in [files.entry(&id.0).or_default(), &mut all] {
            let lines = sources.item(id).lines;
            count.definitions += 1;
            if contracts.contains(id) {
                count.contracts += lines;
            } else {
                count.theorems += lines;
            }
        }
    }
    println!("| File | Definitions | Lines for the contracts | Further lines for the theorems |");
    println!("|---|---|---|---|");
    for (file, count) in files {
        print_row(&format!("`{file}`"), count);
    }
    print_row("all", all);
}

fn print_row(name: &str, count: Count) {
    println!(
        "| {name} | {} | {} | {} |",
        count.definitions, count.contracts, count.theorems
    );
}

#[cfg(test)]
mod tests {
    use super::*;

    fn row(name: &str) -> Row {
        Row {
            name: name.to_string(),
            file: "a/specs/A.antt".to_string(),
        }
    }

    #[test]
    fn each_definition_has_one_row_and_each_row_a_definition() {
        let mut sources = Sources::default();
        let text = "abbrev one : ℕ\none = 1\n\nabbrev two : ℕ\ntwo = 2\n";
        sources.add("a/specs/A.antt", text).unwrap();
        let believed: Set = [("a/specs/A.antt".to_string(), 0)].into();
        assert!(failures(&sources, &believed, &[row("one")]).is_empty());
        let missing = ["`one` of a/specs/A.antt:1 has no row in docs/DEFINITIONS.md"];
        assert_eq!(failures(&sources, &believed, &[]), missing);
        let wrong = failures(&sources, &believed, &[row("one"), row("two"), row("one")]);
        let wanted = [
            "`two` of a/specs/A.antt is nothing that a promise rests on",
            "`one` of a/specs/A.antt has a second row",
        ];
        assert_eq!(wrong, wanted);
    }
}
