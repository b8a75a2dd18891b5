//! The list of explained survivors: edits that are taken because they change nothing that is promised.

use std::collections::HashMap;

use crate::mutation::Mutation;

/// An edit by the lines that it changes, so that the list stays true when lines above are added.
#[derive(PartialEq, Eq, Debug)]
pub struct Survivor {
    pub krate: String,
    pub file: String,
    /// the function or constant, and a number behind it for the second or a later one of equal lines
    pub inside: String,
    pub old: String,
    pub new: String,
    pub why: String,
}

impl Survivor {
    pub fn of(mutation: &Mutation, why: &str) -> Survivor {
        let name = &mutation.edit.inside;
        let inside = match mutation.nth {
            1 => name.clone(),
            nth => format!("{name} {nth}"),
        };
        Survivor {
            krate: mutation.krate.clone(),
            file: mutation.file.clone(),
            inside,
            old: mutation.old(),
            new: mutation.new(),
            why: why.to_string(),
        }
    }

    pub fn is(&self, mutation: &Mutation) -> bool {
        *self == Survivor::of(mutation, &self.why)
    }

    /// The entry as it stands in the list.
    pub fn text(&self) -> String {
        format!(
            "crate: {}\nfile: {}\nin: {}\nold: {}\nnew: {}\nwhy: {}\n",
            self.krate, self.file, self.inside, self.old, self.new, self.why
        )
    }
}

/// Reads the list: entries apart by empty lines, `#` before a remark.
pub fn read(text: &str) -> Result<Vec<Survivor>, String> {
    let lines: Vec<&str> = text.lines().filter(|line| !line.starts_with('#')).collect();
    let entries = lines.split(|line| line.trim().is_empty());
    entries
        .filter(|entry| !entry.is_empty())
        .map(entry)
        .collect()
}

fn entry(lines: &[&str]) -> Result<Survivor, String> {
    let mut fields: HashMap<&str, String> = HashMap::new();
    for line in lines {
        let (name, value) = line.split_once(':').ok_or(format!("no field: {line}"))?;
        fields.insert(name, value.trim().to_string());
    }
    let mut field = |name: &str| {
        let missing = format!("an entry has no `{name}:`: {}", lines.join(" / "));
        fields.remove(name).ok_or(missing)
    };
    Ok(Survivor {
        krate: field("crate")?,
        file: field("file")?,
        inside: field("in")?,
        old: field("old")?,
        new: field("new")?,
        why: field("why")?,
    })
}

#[cfg(test)]
mod tests {
    use super::*;

    #[test]
    fn what_is_written_is_read() {
        let first = "crate: a\nfile: src/lib.rt\nin: f 2\nold: x: 1\nnew:\nwhy: because\n";
        let second = "crate: b\nfile: s\nin: g\nold: o\nnew: n\nwhy: w\n";
        let text = format!("# a remark\n{first}\n\n{second}");
        let found = read(&text).unwrap();
        assert_eq!(found.len(), 2);
        assert_eq!(found[0].inside, "f 2");
        assert_eq!(found[0].old, "x: 1");
        assert_eq!(found[0].new, "");
        assert_eq!(read(&found[1].text()).unwrap(), found[1..]);
    }

    #[test]
    fn an_entry_without_a_reason_is_refused() {
        assert!(read("crate: a\nfile: f\nin: g\nold: o\nnew: n\n").is_err());
    }
}
