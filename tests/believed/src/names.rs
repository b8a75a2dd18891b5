//! The names that a declaration or a contract names, without those that it binds itself.

use std::collections::BTreeSet;

use crate::item::{bare, Item, Kind};
use crate::token::{group_end, tokens, Token};

/// Whether a name is a constructor: in a pattern all others are bound.
pub type IsConstructor<'a> = dyn Fn(&str) -> bool + 'a;

/// The names of a definition, or of a law's statement, and of the parameters of the modules that it stands in.
pub fn names_of(item: &Item, is_constructor: &IsConstructor) -> BTreeSet<String> {
    let mut walk = Walk::new(is_constructor);
    for parameters in &item.around.parameters {
        walk.text(parameters);
    }
    let parameters = walk.bound.clone();
    walk.text(&item.head);
    for part in &item.parts {
        match item.kind {
            Kind::Function => {
                walk.bound = parameters.clone();
                walk.clause(part);
            }
            _ => walk.member(part),
        }
    }
    let mut found = walk.found;
    for (name, module) in &item.around.opened {
        if found.remove(bare(name)) {
            let mut walk = Walk::new(is_constructor);
            walk.bound = parameters.clone();
            walk.text(module);
            found.extend(walk.found);
        }
    }
    found
}

/// The names of a text in which some names are bound.
pub fn names_in(text: &str, bound: Vec<String>) -> BTreeSet<String> {
    let mut walk = Walk::new(&|_| false);
    walk.bound = bound;
    walk.text(text);
    walk.found
}

struct Walk<'a> {
    is_constructor: &'a IsConstructor<'a>,
    bound: Vec<String>,
    found: BTreeSet<String>,
}

impl<'a> Walk<'a> {
    fn new(is_constructor: &'a IsConstructor<'a>) -> Self {
        Walk {
            is_constructor,
            bound: Vec::new(),
            found: BTreeSet::new(),
        }
    }

    fn text(&mut self, text: &str) {
        self.group(&tokens(text));
    }

    /// `f x (node s ts) = …`: what is left of `=` binds all but constructors.
    fn clause(&mut self, text: &str) {
        let all = tokens(text);
        let mut at = 0;
        while at < all.len() && all[at].text != "=" {
            at = if all[at].opens() {
                group_end(&all, at) + 1
            } else {
                at + 1
            };
        }
        let at = at.min(all.len());
        self.pattern(&all[..at]);
        self.group(&all[at..]);
    }

    /// A field or some constructors with their type. A field is known to those behind it.
    fn member(&mut self, text: &str) {
        let all = tokens(text);
        let colon = all.iter().position(|token| token.text == ":").unwrap_or(0);
        self.bind(&all[..colon]);
        let outer = self.bound.len();
        self.group(&all[colon..]);
        self.bound.truncate(outer);
    }

    /// What is bound here is bound up to the end of the tokens, which are those of a group or of a whole text.
    fn group(&mut self, all: &[Token]) {
        let mut at = 0;
        while at < all.len() {
            let token = all[at];
            if token.opens() {
                let end = group_end(all, at).min(all.len());
                self.inner(&all[at + 1..end]);
                at = end + 1;
            } else if token.text == "λ" {
                at = self.lambda(all, at + 1);
            } else if token.text == "let" {
                let end = (at + 2).min(all.len());
                self.bind(&all[at + 1..end]);
                at = end;
            } else {
                let begins = at == 0 || all[at - 1].text == ";";
                let label = begins && all.get(at + 1).is_some_and(|next| next.text == "=");
                if token.is_word() && !label {
                    self.met(token.text);
                }
                at += 1;
            }
        }
    }

    /// What stands in brackets. `(x y : T)` binds x and y for what follows, anything else binds inside only.
    fn inner(&mut self, all: &[Token]) {
        let words = all
            .iter()
            .take_while(|token| token.is_word() && token.text != ":")
            .count();
        let binder = words > 0 && all.get(words).is_some_and(|token| token.text == ":");
        let outer = self.bound.len();
        self.group(if binder { &all[words..] } else { all });
        self.bound.truncate(outer);
        if binder {
            self.bind(&all[..words]);
        }
    }

    /// Binds what stands between a `λ` and its dot; the place behind it.
    fn lambda(&mut self, all: &[Token], from: usize) -> usize {
        let mut at = from;
        while at < all.len() && all[at].text != "." {
            if all[at].opens() {
                let end = group_end(all, at).min(all.len());
                let inside = &all[at + 1..end];
                if inside.iter().any(|token| token.text == ":") {
                    self.inner(inside);
                } else {
                    self.pattern(inside);
                }
                at = end + 1;
            } else {
                self.bind(&all[at..at + 1]);
                at += 1;
            }
        }
        at + 1
    }

    fn pattern(&mut self, all: &[Token]) {
        for token in all.iter().filter(|token| token.is_word()) {
            if (self.is_constructor)(token.text) {
                self.met(token.text);
            } else {
                self.bind(&[*token]);
            }
        }
    }

    fn bind(&mut self, names: &[Token]) {
        let words = names
            .iter()
            .filter(|token| token.is_word() && token.text != "pub");
        self.bound.extend(words.map(|token| token.text.to_string()));
    }

    /// Of `a.b` it is not known here whether b is in a module of another name a, or a field of a: both are met.
    fn met(&mut self, name: &str) {
        let first = name.split('.').next().unwrap_or(name);
        if self
            .bound
            .iter()
            .any(|bound| bound == name || bound == first)
        {
            return;
        }
        for name in [name, first] {
            self.found.insert(bare(name).to_string());
        }
    }
}

#[cfg(test)]
mod tests {
    use super::*;
    use crate::read::items;

    /// The names of the last declaration of a file in which `node` and `none` are constructors.
    fn names(file: &str) -> Vec<String> {
        let found = items(file).unwrap();
        let is_constructor = |name: &str| matches!(name, "node" | "none");
        let all = names_of(found.last().unwrap(), &is_constructor);
        let signs = [":", "→", "=", "≡", "×", "Type", "0", "λ", "ℕ"];
        all.into_iter()
            .filter(|name| !signs.contains(&name.as_str()))
            .collect()
    }

    #[test]
    fn a_pattern_binds_all_but_constructors() {
        let file = "abbrev f : Tree → ℕ\nf (node sheet) = g sheet\nf none = sheet\n";
        assert_eq!(names(file), ["Tree", "g", "node", "none", "sheet"]);
        let file = "abbrev f : Tree → ℕ\nf (node sheet) = g sheet\n";
        assert_eq!(names(file), ["Tree", "g", "node"]);
    }

    #[test]
    fn binders_bind_to_the_end_of_their_group() {
        assert_eq!(names("law : ((q : A) → P q) → Q q\n"), ["A", "P", "Q", "q"]);
        assert_eq!(
            names("law : (p q : A) {r : B} → P p q r\n"),
            ["A", "B", "P"]
        );
        assert_eq!(
            names("abbrev f : A\nf = g (λ q (r : B). h q r) q\n"),
            ["A", "B", "g", "h", "q"]
        );
        assert_eq!(
            names("abbrev f : A\nf = let x = g in x\n"),
            ["A", "g", "in"]
        );
    }

    #[test]
    fn fields_are_bound_and_their_labels_are_no_names() {
        let file = "record R (table : A) : Type 0 where\n  last : B\n  is : (t : C) → P table last t\n  so : t\n";
        assert_eq!(names(file), ["A", "B", "C", "P", "t"]);
        assert_eq!(
            names("abbrev f : A\nf = record { states = (x y).states; finals = y }\n"),
            ["A", "record", "x", "y"]
        );
    }

    #[test]
    fn a_field_belongs_to_the_name_before_it() {
        let file = "abbrev f : (x : A) → B\nf x = g x.states m.ranks\n";
        assert_eq!(names(file), ["A", "B", "g", "m", "m.ranks"]);
    }

    #[test]
    fn the_parameters_of_modules_count_and_bind() {
        let file = "module _ (X : Table) where\n  abbrev f : A\n  f = g X\n";
        assert_eq!(names(file), ["A", "Table", "g"]);
    }

    #[test]
    fn an_opened_name_stands_for_what_is_opened() {
        let open = "module _ (a : N) where\n  open Semiring (arithmetic a) using (zero as 𝟘, times as ◌⊗◌)\n";
        let file = format!("{open}  abbrev f : A\n  f = x ⊗ y\n");
        assert_eq!(names(&file), ["A", "N", "Semiring", "arithmetic", "x", "y"]);
        let file = format!("{open}  abbrev f : A\n  f = x\n");
        assert_eq!(names(&file), ["A", "N", "x"]);
    }

    #[test]
    fn the_proof_of_a_law_is_not_looked_at() {
        assert_eq!(names("law : A\nlaw = proof\n"), ["A"]);
    }
}
