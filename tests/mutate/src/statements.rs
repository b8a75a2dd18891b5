//! Dropped statements.

use crate::points::{shown, Edit, Finder, Kind, KEYWORDS};
use crate::token::Sort;

impl Finder<'_> {
    /// Drops an assignment or a call that stands as a statement.
    pub fn statements(&self, found: &mut Vec<Edit>) {
        for i in 0..self.tokens().len() {
            let begins = matches!(self.before(i), "" | "{" | "}" | ";");
            let word = self.tokens()[i].sort == Sort::Word && !KEYWORDS.contains(&self.text(i));
            if !begins || !word {
                continue;
            }
            let Some(end) = self.statement_end(i) else {
                continue;
            };
            let assigns = (i..end).any(|k| self.text(k).ends_with('=') && self.assigns(k));
            if assigns || self.text(end - 1) == ")" {
                let token = (self.tokens()[i].from, self.tokens()[end].to);
                let what = format!("dropped `{}`", shown(self.span(i, end + 1)));
                found.push(self.edit(Kind::Dropped, token.0, token.1, String::new(), what));
            }
        }
    }

    fn assigns(&self, i: usize) -> bool {
        !matches!(self.text(i), "==" | "!=" | "<=" | ">=" | "..=")
    }

    /// The semicolon that ends the statement from token i on; none if a block ends first.
    pub fn statement_end(&self, i: usize) -> Option<usize> {
        let mut at = i;
        while at < self.tokens().len() {
            match self.text(at) {
                ";" => return Some(at),
                ")" | "]" | "}" => return None,
                "(" | "[" | "{" => at = self.behind_group(at),
                _ => at += 1,
            }
        }
        None
    }
}
