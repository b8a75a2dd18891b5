//! What the `use` lines of a file bring in.

use std::collections::HashMap;

use crate::item::bare;

/// The libraries of the toolchain whose definitions a file may use.
const KIT: &[&str] = &["core", "std"];

/// Where a name comes from.
#[derive(Clone, PartialEq, Eq, Debug)]
pub enum Origin {
    /// of a file of definitions, as `theory/specs/Weight.antt`, under its name there
    Specs { file: String, name: String },
    /// a type that Rattle code declares
    Declared,
    /// of the toolchain's library
    Kit,
    /// of another file of this repository, which holds no definitions
    Other(String),
}

/// The names that a file may use from others.
#[derive(Default, Debug)]
pub struct Uses {
    names: HashMap<String, Origin>,
    /// the paths that have another name
    aliases: HashMap<String, String>,
}

impl Uses {
    /// Reads the lines `use PATH.{a, b as c}` and `use PATH as A`; in code they begin with `ghost` and end with `;`.
    pub fn read(source: &str) -> Uses {
        let mut uses = Uses::default();
        let mut lines = source.lines().map(str::trim);
        while let Some(line) = lines.next() {
            let Some(path) = line.trim_start_matches("ghost ").strip_prefix("use ") else {
                continue;
            };
            let mut path = path.to_string();
            while path.contains('{') && !path.contains('}') {
                let Some(line) = lines.next() else { break };
                path.push_str(line);
            }
            uses.add(path.trim_end_matches(';'));
        }
        uses
    }

    fn add(&mut self, path: &str) {
        if let Some((path, names)) = path.split_once(".{") {
            for name in names.trim_end_matches('}').split(',') {
                let (name, own) = name.split_once(" as ").unwrap_or((name, name));
                let origin = origin(&format!("{path}.{}", name.trim()));
                self.names.insert(bare(own.trim()).to_string(), origin);
            }
        } else if let Some((path, alias)) = path.split_once(" as ") {
            self.aliases
                .insert(alias.trim().to_string(), path.to_string());
        }
    }

    /// Where a name comes from, which may stand behind an alias or a whole path; none if no line brings it in.
    pub fn origin(&self, name: &str) -> Option<Origin> {
        if let Some(origin) = self.names.get(name) {
            return Some(origin.clone());
        }
        let (path, last) = name.rsplit_once('.')?;
        match self.aliases.get(path) {
            Some(path) => Some(origin(&format!("{path}.{last}"))),
            None => name.starts_with("Rattle.").then(|| origin(name)),
        }
    }
}

/// What a whole path names.
fn origin(path: &str) -> Origin {
    let Some(rest) = path.strip_prefix("Rattle.") else {
        return Origin::Kit;
    };
    let parts: Vec<&str> = rest.split('.').collect();
    match parts[..] {
        [krate, ..] if KIT.contains(&krate) => Origin::Kit,
        [_, "specs", "declared", ..] => Origin::Declared,
        [krate, "specs", module, name] => Origin::Specs {
            file: format!("{krate}/specs/{module}.antt"),
            name: bare(name).to_string(),
        },
        _ => Origin::Other(path.to_string()),
    }
}

#[cfg(test)]
mod tests {
    use super::*;

    const LINES: &str = "use lib.Dec.{leb}
use Rattle.std.specs.Prelude.{ℕ, ◌+◌, get_or}
use Rattle.model.specs.Tree.{
  Tree,
  ◌then◌
}
use Rattle.theory.specs.Weight.{weight as own_weight}
use Rattle.theory.specs.Bisimulation as General
use Rattle.trees.specs.declared.TreeRead.TheVariants as trees
ghost use Rattle.calls.specs.Answers.{Checks};
ghost use Rattle.calls.proofs.Steps.{step};
";

    fn specs(file: &str, name: &str) -> Option<Origin> {
        Some(Origin::Specs {
            file: file.to_string(),
            name: name.to_string(),
        })
    }

    #[test]
    fn names_are_found_in_their_files() {
        let uses = Uses::read(LINES);
        assert_eq!(uses.origin("Tree"), specs("model/specs/Tree.antt", "Tree"));
        assert_eq!(uses.origin("then"), specs("model/specs/Tree.antt", "then"));
        assert_eq!(
            uses.origin("Checks"),
            specs("calls/specs/Answers.antt", "Checks")
        );
        assert_eq!(uses.origin("leb"), Some(Origin::Kit));
        assert_eq!(uses.origin("get_or"), Some(Origin::Kit));
        assert_eq!(uses.origin("Forest"), None);
    }

    #[test]
    fn a_name_may_have_another_name_here() {
        let uses = Uses::read(LINES);
        assert_eq!(
            uses.origin("own_weight"),
            specs("theory/specs/Weight.antt", "weight")
        );
        assert_eq!(uses.origin("weight"), None);
        assert_eq!(
            uses.origin("General.Coarsest"),
            specs("theory/specs/Bisimulation.antt", "Coarsest")
        );
        assert_eq!(uses.origin("trees.Nodes"), Some(Origin::Declared));
    }

    #[test]
    fn a_whole_path_is_a_name() {
        let uses = Uses::read("");
        let path = "Rattle.calls.specs.Picking.chosen";
        assert_eq!(
            uses.origin(path),
            specs("calls/specs/Picking.antt", "chosen")
        );
    }

    #[test]
    fn a_file_of_proofs_holds_no_definitions() {
        let path = "Rattle.calls.proofs.Steps.step".to_string();
        assert_eq!(Uses::read(LINES).origin("step"), Some(Origin::Other(path)));
    }
}
