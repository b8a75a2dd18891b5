//! A number that a function gives back, one more.

use crate::code::parts;
use crate::points::{shown, Edit, Finder, Kind};
use crate::token::Sort;

const INTEGERS: &[&str] = &[
    "u8", "u16", "u32", "u64", "usize", "i8", "i16", "i32", "i64", "isize",
];

impl Finder<'_> {
    pub fn returns(&self, found: &mut Vec<Edit>) {
        let result = self.piece.result.as_deref().unwrap_or("");
        if !INTEGERS.contains(&result) {
            return;
        }
        let end = self.tokens().len();
        let mut values = Vec::new();
        for i in 0..end {
            let semicolon = self.statement_end(i).unwrap_or(end);
            if self.text(i) == "return" && i + 1 < semicolon {
                values.push((i + 1, semicolon));
            }
        }
        self.values_of_block(0, end, &mut values);
        for (from, to) in values {
            // a literal is already tried one more
            if to == from + 1 && self.tokens()[from].sort == Sort::Number {
                continue;
            }
            let at = self.tokens()[to - 1].to;
            let what = format!("returned `{}` plus one", shown(self.span(from, to)));
            found.push(self.edit(Kind::Returned, at, at, " + 1".to_string(), what));
        }
    }

    /// The values that the block from token `from` up to token `to` may end with.
    fn values_of_block(&self, from: usize, to: usize, values: &mut Vec<(usize, usize)>) {
        let begin = self.last_value(from, to);
        if begin < to {
            self.values_of(begin, to, values);
        }
    }

    /// Where the value begins that a block ends with: behind the last statement.
    fn last_value(&self, from: usize, to: usize) -> usize {
        let mut begin = from;
        let mut at = from;
        while at < to {
            match self.text(at) {
                ";" => {
                    at += 1;
                    begin = at;
                }
                "{" => {
                    at = self.behind_group(at);
                    let statement =
                        matches!(self.text(begin), "if" | "match" | "while" | "loop" | "for");
                    if statement && at < to && self.text(at) != "else" {
                        begin = at;
                    }
                }
                "(" | "[" => at = self.behind_group(at),
                _ => at += 1,
            }
        }
        begin
    }

    /// Of `if` and `match` the values of their blocks and arms.
    fn values_of(&self, from: usize, to: usize, values: &mut Vec<(usize, usize)>) {
        match self.text(from) {
            "if" => {
                for (open, end) in self.braces(from, to) {
                    self.values_of_block(open + 1, end, values);
                }
            }
            "match" => {
                for (open, end) in self.braces(from, to) {
                    self.values_of_arms(open + 1, end, values);
                }
            }
            "while" | "loop" | "for" | "return" => {}
            _ => values.push((from, to)),
        }
    }

    /// The groups in braces from token `from` up to token `to`, outside of one another.
    fn braces(&self, from: usize, to: usize) -> Vec<(usize, usize)> {
        let mut found = Vec::new();
        let mut at = from;
        while at < to {
            match self.text(at) {
                "(" | "[" => at = self.behind_group(at),
                "{" => {
                    found.push((at, self.behind_group(at) - 1));
                    at = self.behind_group(at);
                }
                _ => at += 1,
            }
        }
        found
    }

    fn values_of_arms(&self, from: usize, to: usize, values: &mut Vec<(usize, usize)>) {
        let mut at = from;
        while at < to {
            if self.text(at) != "=>" {
                at += 1;
            } else if self.text(at + 1) == "{" {
                let end = self.behind_group(at + 1);
                self.values_of_block(at + 2, end - 1, values);
                at = end;
            } else {
                let end = parts(self.source, self.tokens(), at + 1, to)[0].1;
                self.values_of(at + 1, end, values);
                at = end;
            }
        }
    }
}
