//! The finder: every small edit of a source file's code that is tried.

use crate::code::{group_end, pieces, Piece, Signatures};
use crate::groups::Known;
use crate::token::{Sort, Token};

#[derive(Clone, Copy, PartialEq, Eq, Debug)]
pub enum Kind {
    Comparison,
    Operator,
    Literal,
    Truth,
    Exchanged,
    Index,
    Dropped,
    Returned,
}

pub const KINDS: &[Kind] = &[
    Kind::Comparison,
    Kind::Operator,
    Kind::Literal,
    Kind::Truth,
    Kind::Exchanged,
    Kind::Index,
    Kind::Dropped,
    Kind::Returned,
];

impl Kind {
    pub fn word(self) -> &'static str {
        match self {
            Kind::Comparison => "comparison",
            Kind::Operator => "operator",
            Kind::Literal => "literal",
            Kind::Truth => "truth",
            Kind::Exchanged => "exchanged",
            Kind::Index => "index",
            Kind::Dropped => "dropped",
            Kind::Returned => "returned",
        }
    }
}

/// Replaces the bytes from `from` up to `to` of a file by `new`.
#[derive(Clone, Debug)]
pub struct Edit {
    pub kind: Kind,
    pub from: usize,
    pub to: usize,
    pub new: String,
    /// the edit in words
    pub what: String,
    /// the function or the constant that it is in
    pub inside: String,
}

impl Edit {
    pub fn applied(&self, source: &str) -> String {
        format!("{}{}{}", &source[..self.from], self.new, &source[self.to..])
    }

    /// The line that the edit begins in, counted from 1.
    pub fn line(&self, source: &str) -> usize {
        source[..self.from].matches('\n').count() + 1
    }
}

const COMPARISONS: &[(&str, &str)] = &[
    ("<", "<="),
    ("<=", "<"),
    (">", ">="),
    (">=", ">"),
    ("==", "!="),
    ("!=", "=="),
];

const OPERATORS: &[(&str, &str)] = &[
    ("+", "-"),
    ("-", "+"),
    ("*", "+"),
    ("/", "*"),
    ("+=", "-="),
    ("-=", "+="),
];

/// Words that no call and no value ends with.
pub const KEYWORDS: &[&str] = &[
    "as", "break", "continue", "else", "for", "if", "in", "let", "loop", "match", "mut", "return",
    "while",
];

/// The edits of one file.
pub fn edits(source: &str, known: &Known) -> Vec<Edit> {
    let mut found = Vec::new();
    for piece in pieces(source) {
        let finder = Finder {
            source,
            piece: &piece,
        };
        finder.marks(&mut found);
        finder.literals(&mut found);
        finder.groups(known, &mut found);
        finder.statements(&mut found);
        finder.returns(&mut found);
    }
    found.sort_by_key(|edit| (edit.from, edit.to));
    found
}

/// What a function of a crate's own or of another crate takes, by the path that a call names.
pub fn signature_in(
    path: &str,
    own: &Signatures,
    others: &[(String, Signatures)],
) -> Vec<Vec<String>> {
    let first = path.split("::").next().unwrap_or(path);
    let last = path.rsplit("::").next().unwrap_or(path);
    let other = others
        .iter()
        .find(|(name, _)| name == first && first != last);
    let known = other.map_or(own, |(_, signatures)| signatures);
    known.get(last).cloned().unwrap_or_default()
}

/// Finds the edits of one piece.
pub struct Finder<'a> {
    pub source: &'a str,
    pub piece: &'a Piece,
}

impl<'a> Finder<'a> {
    pub fn tokens(&self) -> &'a [Token] {
        &self.piece.tokens
    }

    /// The text of token i, empty outside of the piece.
    pub fn text(&self, i: usize) -> &'a str {
        self.tokens().get(i).map_or("", |t| t.text(self.source))
    }

    pub fn before(&self, i: usize) -> &'a str {
        i.checked_sub(1).map_or("", |k| self.text(k))
    }

    /// The source from token `from` up to token `to`.
    pub fn span(&self, from: usize, to: usize) -> &'a str {
        &self.source[self.tokens()[from].from..self.tokens()[to - 1].to]
    }

    /// The place behind the group that opens at token i.
    pub fn behind_group(&self, i: usize) -> usize {
        group_end(self.source, self.tokens(), i) + 1
    }

    /// Whether token i ends a value, so that what follows is a mark between two values, an index or a call.
    pub fn ends_value(&self, i: usize) -> bool {
        let text = self.text(i);
        match self.tokens()[i].sort {
            Sort::Word => !KEYWORDS.contains(&text),
            Sort::Number => true,
            Sort::Text => false,
            Sort::Mark => matches!(text, ")" | "]"),
        }
    }

    pub fn edit(&self, kind: Kind, from: usize, to: usize, new: String, what: String) -> Edit {
        Edit {
            kind,
            from,
            to,
            new,
            what,
            inside: self.piece.name.clone(),
        }
    }

    /// Replaces token i.
    fn replaced(&self, kind: Kind, i: usize, new: &str) -> Edit {
        let token = self.tokens()[i];
        let what = format!("`{}` to `{}`", self.text(i), new);
        self.edit(kind, token.from, token.to, new.to_string(), what)
    }

    /// Another comparison, another operator, true for false.
    fn marks(&self, found: &mut Vec<Edit>) {
        for i in 0..self.tokens().len() {
            let text = self.text(i);
            if text == "true" {
                found.push(self.replaced(Kind::Truth, i, "false"));
            } else if text == "false" {
                found.push(self.replaced(Kind::Truth, i, "true"));
            }
            if i == 0 || !self.ends_value(i - 1) {
                continue;
            }
            for (kind, list) in [(Kind::Comparison, COMPARISONS), (Kind::Operator, OPERATORS)] {
                if let Some((_, new)) = list.iter().find(|(old, _)| *old == text) {
                    found.push(self.replaced(kind, i, new));
                }
            }
        }
    }

    /// A literal one more. The length of an array is part of its type.
    fn literals(&self, found: &mut Vec<Edit>) {
        for i in 0..self.tokens().len() {
            let length = self.before(i) == ";" && self.text(i + 1) == "]";
            if self.tokens()[i].sort != Sort::Number || length {
                continue;
            }
            if let Some(new) = one_more(self.text(i)) {
                found.push(self.replaced(Kind::Literal, i, &new));
            }
        }
    }
}

/// A literal one more, with its suffix. None if it is not decimal.
fn one_more(literal: &str) -> Option<String> {
    let digits = literal
        .find(|c: char| c.is_ascii_alphabetic())
        .unwrap_or(literal.len());
    let value: u128 = literal[..digits].replace('_', "").parse().ok()?;
    let suffix = &literal[digits..];
    if suffix.starts_with('x') || suffix.starts_with('b') || suffix.starts_with('o') {
        return None;
    }
    Some(format!("{}{}", value + 1, suffix))
}

/// A piece of source for a message: on one line, and not long.
pub fn shown(text: &str) -> String {
    let line = text.split_whitespace().collect::<Vec<_>>().join(" ");
    if line.chars().count() <= 48 {
        return line;
    }
    let kept: String = line.chars().take(45).collect();
    format!("{kept}...")
}
