//! Which part of a source file is code: the bodies of functions and the values of constants. Signatures, contracts, imports
//! and types are not.

use std::collections::HashMap;

use crate::token::{tokens, Sort, Token};

/// The body of a function or the value of a constant.
pub struct Piece {
    /// of the function or the constant
    pub name: String,
    /// the type of what the function gives back, if any; none for a constant
    pub result: Option<String>,
    /// the tokens of the code, in order
    pub tokens: Vec<Token>,
}

/// The types of the parameters of each function, by its name. Several functions of a crate may have one name.
pub type Signatures = HashMap<String, Vec<Vec<String>>>;

/// A file in tokens, on the way to its pieces.
struct Reader<'a> {
    source: &'a str,
    tokens: Vec<Token>,
}

pub fn pieces(source: &str) -> Vec<Piece> {
    let reader = Reader::new(source);
    let mut found = Vec::new();
    let mut i = 0;
    while i < reader.tokens.len() {
        let end = match reader.text(i) {
            "requires" | "ensures" => reader.behind_clause(i),
            "fn" => reader.function(i, &mut found),
            "const" => reader.constant(i, &mut found),
            _ => i + 1,
        };
        i = end;
    }
    found
}

/// What the functions of a file take, by name.
pub fn signatures(source: &str) -> Signatures {
    let reader = Reader::new(source);
    let mut found = Signatures::new();
    for i in 0..reader.tokens.len() {
        if reader.text(i) == "fn" {
            let types = reader.parameter_types(i);
            found
                .entry(reader.text(i + 1).to_string())
                .or_default()
                .push(types);
        }
    }
    found
}

impl<'a> Reader<'a> {
    fn new(source: &'a str) -> Self {
        Reader {
            source,
            tokens: tokens(source),
        }
    }

    /// The text of token i, empty behind the end.
    fn text(&self, i: usize) -> &'a str {
        self.tokens.get(i).map_or("", |t| t.text(self.source))
    }

    /// The place behind the group that opens at token i.
    fn behind_group(&self, i: usize) -> usize {
        group_end(self.source, &self.tokens, i) + 1
    }

    /// The place behind the clause that token i begins. It may have a name.
    fn behind_clause(&self, i: usize) -> usize {
        let mut at = i + 1;
        while at < self.tokens.len() && self.text(at) != "{" {
            at += 1;
        }
        self.behind_group(at)
    }

    /// Takes the body of the function whose `fn` is token i; the place behind it. A declaration without a body has none.
    fn function(&self, i: usize, found: &mut Vec<Piece>) -> usize {
        let mut at = self.parameters(i);
        at = self.behind_group(at);
        let mut result = None;
        if self.text(at) == "->" {
            result = Some(self.type_text(at + 1));
        }
        while at < self.tokens.len() {
            match self.text(at) {
                "requires" | "ensures" => at = self.behind_clause(at),
                "{" => {
                    let end = group_end(self.source, &self.tokens, at);
                    found.push(self.piece(i + 1, result, at + 1, end));
                    return end + 1;
                }
                ";" => return at + 1,
                "(" | "[" => at = self.behind_group(at),
                _ => at += 1,
            }
        }
        at
    }

    /// Takes the value of the constant whose `const` is token i; the place behind it.
    fn constant(&self, i: usize, found: &mut Vec<Piece>) -> usize {
        let mut at = i;
        let mut from = i;
        while at < self.tokens.len() && self.text(at) != ";" {
            match self.text(at) {
                "(" | "[" | "{" => at = self.behind_group(at),
                "=" => {
                    from = at + 1;
                    at += 1;
                }
                _ => at += 1,
            }
        }
        found.push(self.piece(i + 1, None, from, at));
        at + 1
    }

    fn piece(&self, name: usize, result: Option<String>, from: usize, to: usize) -> Piece {
        Piece {
            name: self.text(name).to_string(),
            result,
            tokens: self.without_types(from, to),
        }
    }

    /// The tokens from `from` up to `to` without the types that `let` names.
    fn without_types(&self, from: usize, to: usize) -> Vec<Token> {
        let mut kept = Vec::new();
        let mut at = from;
        while at < to {
            let colon = at + if self.text(at + 1) == "mut" { 3 } else { 2 };
            if self.text(at) == "let" && self.text(colon) == ":" {
                kept.extend_from_slice(&self.tokens[at..colon]);
                at = self.behind_type(colon);
            } else {
                kept.push(self.tokens[at]);
                at += 1;
            }
        }
        kept
    }

    fn behind_type(&self, colon: usize) -> usize {
        let mut at = colon;
        while at < self.tokens.len() && !matches!(self.text(at), "=" | ";") {
            at = if self.text(at) == "[" {
                self.behind_group(at)
            } else {
                at + 1
            };
        }
        at
    }

    /// Where the parameters of the function at token i open.
    fn parameters(&self, i: usize) -> usize {
        let mut at = i;
        while at < self.tokens.len() && self.text(at) != "(" {
            at += 1;
        }
        at
    }

    fn parameter_types(&self, i: usize) -> Vec<String> {
        let open = self.parameters(i);
        let end = group_end(self.source, &self.tokens, open);
        let mut types = Vec::new();
        for (from, to) in parts(self.source, &self.tokens, open + 1, end) {
            let colon = (from..to).find(|&k| self.text(k) == ":");
            if let Some(colon) = colon {
                types.push(self.joined(colon + 1, to));
            }
        }
        types
    }

    /// The type behind `->`.
    fn type_text(&self, from: usize) -> String {
        let mut to = from;
        while to < self.tokens.len() && !matches!(self.text(to), "{" | "requires" | "ensures" | ";")
        {
            to = if self.text(to) == "[" {
                self.behind_group(to)
            } else {
                to + 1
            };
        }
        self.joined(from, to)
    }

    /// The text of some tokens of a type; lifetimes do not tell types apart here.
    fn joined(&self, from: usize, to: usize) -> String {
        let kept = self.tokens[from..to]
            .iter()
            .filter(|t| t.sort != Sort::Text);
        kept.map(|t| t.text(self.source))
            .collect::<Vec<_>>()
            .join(" ")
    }
}

/// The token that closes the group that token `open` opens. A group that is not closed ends with the file.
pub fn group_end(source: &str, tokens: &[Token], open: usize) -> usize {
    let mut depth = 0usize;
    for (i, token) in tokens.iter().enumerate().skip(open) {
        match token.text(source) {
            "(" | "[" | "{" => depth += 1,
            ")" | "]" | "}" => depth = depth.saturating_sub(1),
            _ => {}
        }
        if depth == 0 {
            return i;
        }
    }
    tokens.len()
}

/// What stands between commas from token `from` up to token `to`, as ranges of tokens.
pub fn parts(source: &str, tokens: &[Token], from: usize, to: usize) -> Vec<(usize, usize)> {
    let mut found = Vec::new();
    let mut begin = from;
    let mut at = from;
    while at < to {
        match tokens[at].text(source) {
            "(" | "[" | "{" => at = group_end(source, tokens, at) + 1,
            "," => {
                found.push((begin, at));
                at += 1;
                begin = at;
            }
            _ => at += 1,
        }
    }
    if begin < to {
        found.push((begin, to));
    }
    found
}

#[cfg(test)]
mod tests {
    use super::*;

    const FILE: &str = "
// a < b
ghost use Rattle.std.specs.Prelude.{◌<◌};
pub const MANY: [u8; 2] = [1, 2];
pub struct Size { pub states: usize }
impl Size {
    pub fn of<'a>(self, a: &'a [u8; 3], b: usize) -> usize
        requires { a.now < b × {A = ℕ} }
        ensures low { result < 2 }
        ensures high { 0 < result }
    {
        let mut x: [u8; 4] = [0u8; 4];
        b
    }
}
fn nothing(a: &[u8; 3]) {}
";

    fn code_of(piece: &Piece) -> String {
        piece
            .tokens
            .iter()
            .map(|t| t.text(FILE))
            .collect::<Vec<_>>()
            .join(" ")
    }

    #[test]
    fn only_bodies_and_values_are_code() {
        let found = pieces(FILE);
        let names: Vec<&str> = found.iter().map(|p| p.name.as_str()).collect();
        assert_eq!(names, ["MANY", "of", "nothing"]);
        assert_eq!(code_of(&found[0]), "[ 1 , 2 ]");
        assert_eq!(code_of(&found[1]), "let mut x = [ 0u8 ; 4 ] ; b");
        assert_eq!(code_of(&found[2]), "");
    }

    #[test]
    fn the_result_of_a_function_is_known() {
        let results: Vec<Option<String>> = pieces(FILE).into_iter().map(|p| p.result).collect();
        assert_eq!(results, [None, Some("usize".to_string()), None]);
    }

    #[test]
    fn the_types_of_parameters_have_no_lifetimes() {
        let found = signatures(FILE);
        assert_eq!(found["of"], [["& [ u8 ; 3 ]", "usize"]]);
        assert_eq!(found["nothing"], [["& [ u8 ; 3 ]"]]);
    }
}
