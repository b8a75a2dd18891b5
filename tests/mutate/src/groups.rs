//! Edits of what stands in brackets: an index one off, two arguments of a call exchanged.

use crate::code::parts;
use crate::points::{shown, Edit, Finder, Kind};
use crate::token::Sort;

/// What a called function takes, by the path that the call names; several functions may have one name.
pub type Known<'a> = dyn Fn(&str) -> Vec<Vec<String>> + 'a;

impl Finder<'_> {
    pub fn groups(&self, signature: &Known, found: &mut Vec<Edit>) {
        for i in 1..self.tokens().len() {
            if !self.ends_value(i - 1) {
                continue;
            }
            match self.text(i) {
                "[" => self.index(i, found),
                "(" => self.exchanges(i, signature, found),
                _ => {}
            }
        }
    }

    /// A range is no index, and a literal index is already tried one more.
    fn index(&self, open: usize, found: &mut Vec<Edit>) {
        let end = self.behind_group(open) - 1;
        let range = (open..end).any(|i| self.text(i) == "..");
        let literal = end == open + 2 && self.tokens()[open + 1].sort == Sort::Number;
        if end <= open + 1 || range || literal {
            return;
        }
        let at = self.tokens()[end - 1].to;
        let what = format!("index `{}` one more", shown(self.span(open + 1, end)));
        found.push(self.edit(Kind::Index, at, at, " + 1".to_string(), what));
    }

    /// Of a function that is known only arguments of one type are exchanged: the compiler refuses the others.
    fn exchanges(&self, open: usize, signature: &Known, found: &mut Vec<Edit>) {
        let end = self.behind_group(open) - 1;
        let pattern = matches!(self.text(end + 1), "=>" | "=");
        let word = self.tokens()[open - 1].sort == Sort::Word;
        if pattern || !word {
            return;
        }
        let known = signature(&self.path(open - 1));
        let arguments = parts(self.source, self.tokens(), open + 1, end);
        for (k, &first) in arguments.iter().enumerate() {
            for (m, &second) in arguments.iter().enumerate().skip(k + 1) {
                let fit =
                    |types: &Vec<String>| types.len() == arguments.len() && types[k] == types[m];
                if known.is_empty() || known.iter().any(fit) {
                    found.extend(self.exchange(first, second));
                }
            }
        }
    }

    fn exchange(&self, first: (usize, usize), second: (usize, usize)) -> Option<Edit> {
        let a = self.span(first.0, first.1);
        let b = self.span(second.0, second.1);
        if a == b {
            return None;
        }
        let between = &self.source[self.tokens()[first.1 - 1].to..self.tokens()[second.0].from];
        let from = self.tokens()[first.0].from;
        let to = self.tokens()[second.1 - 1].to;
        let what = format!("`{}` and `{}` exchanged", shown(a), shown(b));
        Some(self.edit(Kind::Exchanged, from, to, format!("{b}{between}{a}"), what))
    }

    /// The path that ends with token i, as `arith::sum`.
    fn path(&self, i: usize) -> String {
        let mut first = i;
        while first >= 2 && self.text(first - 1) == "::" {
            first -= 2;
        }
        self.span(first, i + 1).to_string()
    }
}
