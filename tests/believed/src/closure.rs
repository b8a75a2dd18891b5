//! What some declarations rest on.

use std::collections::BTreeSet;

use crate::sources::{Id, Sources};

pub type Set = BTreeSet<Id>;

/// The definitions that hold proofs. A law that one of them names is checked and not believed.
const WITH_PROOFS: &[(&str, &str)] = &[
    ("theory/specs/Modular.antt", "residue"),
    ("theory/specs/Modular.antt", "modular"),
    ("theory/specs/MaxPlus.antt", "values"),
    ("theory/specs/MaxPlus.antt", "max_plus"),
];

/// These definitions, and those that they name in turn. Elsewhere than in a proof a declaration that nothing unfolds is an error: if
/// it is no law, it must be declared as a definition.
pub fn closure(sources: &Sources, roots: Vec<Id>) -> Result<Set, String> {
    let mut found = Set::new();
    let mut waiting = roots;
    while let Some(id) = waiting.pop() {
        let item = sources.item(&id);
        if !item.is_definition() {
            let place = format!("{}:{}", id.0, item.line);
            return Err(format!(
                "{place}: {} is named as a definition is",
                item.name
            ));
        }
        if found.insert(id.clone()) {
            let with_proofs = WITH_PROOFS.contains(&(id.0.as_str(), item.name.as_str()));
            let named = sources.named_by(&id)?.into_iter();
            waiting.extend(named.filter(|id| !with_proofs || sources.item(id).is_definition()));
        }
    }
    Ok(found)
}

#[cfg(test)]
mod tests {
    use super::*;

    const TREES: &str = "data Tree : Type 0 where
  node : Forest → Tree

data Forest : Type 0 where
  none : Forest
";
    const WEIGHTS: &str = "use Rattle.a.specs.Trees.{Tree, node}
abbrev weight : Tree → ℕ
weight (node ts) = one
  + one

abbrev one : ℕ
one = 1

abbrev unused : ℕ
unused = 2

law : ℕ

abbrev false : ℕ
false = law
";

    fn sources() -> Sources {
        let mut sources = Sources::default();
        sources.add("a/specs/Trees.antt", TREES).unwrap();
        sources.add("a/specs/Weights.antt", WEIGHTS).unwrap();
        sources
    }

    #[test]
    fn what_is_named_in_turn_is_found() {
        let sources = sources();
        let found = closure(&sources, sources.find("a/specs/", "weight")).unwrap();
        let names: Vec<&str> = found
            .iter()
            .map(|id| sources.item(id).name.as_str())
            .collect();
        assert_eq!(names, ["Tree", "Forest", "weight", "one"]);
    }

    #[test]
    fn a_law_is_no_definition() {
        let sources = sources();
        assert!(closure(&sources, sources.find("a/specs/", "law")).is_err());
        assert!(closure(&sources, sources.find("a/specs/", "false")).is_err());
    }

    #[test]
    fn a_name_that_its_file_does_not_declare_is_an_error() {
        let mut sources = sources();
        let text = "use Rattle.a.specs.Trees.{Leaf}\nabbrev f : Leaf\nf = 0\n";
        sources.add("a/specs/Other.antt", text).unwrap();
        assert!(closure(&sources, sources.find("a/specs/Other.antt", "f")).is_err());
    }
}
