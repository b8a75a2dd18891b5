//! The words and marks of a source file. Comments are left out, so that nothing in them is edited.

#[derive(Clone, Copy, PartialEq, Eq, Debug)]
pub enum Sort {
    Word,
    Number,
    /// A string, a character or a label: taken as it stands.
    Text,
    Mark,
}

/// A word or a mark, from byte `from` up to byte `to` of the source.
#[derive(Clone, Copy, Debug)]
pub struct Token {
    pub sort: Sort,
    pub from: usize,
    pub to: usize,
}

impl Token {
    pub fn text<'a>(&self, source: &'a str) -> &'a str {
        &source[self.from..self.to]
    }
}

/// The marks of more than one character, a longer one before those that it begins with.
const LONG_MARKS: &[&str] = &[
    "..=", "<<=", ">>=", "==", "!=", "<=", ">=", "+=", "-=", "*=", "/=", "%=", "|=", "&=", "^=",
    "<<", ">>", "->", "=>", "::", "..", "&&", "||",
];

pub fn tokens(source: &str) -> Vec<Token> {
    let mut found: Vec<Token> = Vec::new();
    let mut at = 0;
    while at < source.len() {
        let rest = &source[at..];
        if let Some(blank) = blank_length(rest) {
            at += blank;
            continue;
        }
        let behind_dot = found.last().is_some_and(|t| t.text(source) == ".");
        let (sort, length) = first_token(rest, behind_dot);
        found.push(Token {
            sort,
            from: at,
            to: at + length,
        });
        at += length;
    }
    found
}

/// The length of a space or of a comment.
fn blank_length(rest: &str) -> Option<usize> {
    let first = rest.chars().next()?;
    if first.is_whitespace() {
        return Some(first.len_utf8());
    }
    if rest.starts_with("//") {
        return Some(rest.find('\n').unwrap_or(rest.len()));
    }
    None
}

/// The number behind a dot is the name of a field.
fn first_token(rest: &str, behind_dot: bool) -> (Sort, usize) {
    let first = rest.chars().next().unwrap_or(' ');
    if rest.starts_with('"') || rest.starts_with("b\"") {
        return (Sort::Text, string_length(rest));
    }
    if first == '\'' || rest.starts_with("b'") {
        return (Sort::Text, quote_length(rest));
    }
    if first.is_ascii_digit() {
        let sort = if behind_dot { Sort::Word } else { Sort::Number };
        return (sort, word_length(rest));
    }
    if first == '_' || first.is_alphabetic() {
        return (Sort::Word, word_length(rest));
    }
    let long = LONG_MARKS.iter().find(|mark| rest.starts_with(**mark));
    (Sort::Mark, long.map_or(first.len_utf8(), |mark| mark.len()))
}

fn word_length(rest: &str) -> usize {
    rest.find(|c: char| c != '_' && !c.is_alphanumeric())
        .unwrap_or(rest.len())
}

fn string_length(rest: &str) -> usize {
    let open = rest.find('"').unwrap_or(0);
    let mut escaped = false;
    for (i, c) in rest.char_indices().skip(open + 1) {
        if c == '"' && !escaped {
            return i + 1;
        }
        escaped = c == '\\' && !escaped;
    }
    rest.len()
}

/// A character between quotes, or a label or lifetime, which has a quote before it only.
fn quote_length(rest: &str) -> usize {
    let open = rest.find('\'').unwrap_or(0) + 1;
    let inner = &rest[open..];
    let character = if inner.starts_with('\\') {
        2
    } else {
        inner.chars().next().map_or(0, char::len_utf8)
    };
    if inner[character..].starts_with('\'') {
        return open + character + 1;
    }
    open + word_length(inner)
}

#[cfg(test)]
mod tests {
    use super::*;

    fn texts(source: &str) -> Vec<&str> {
        tokens(source).iter().map(|t| t.text(source)).collect()
    }

    #[test]
    fn long_marks_are_one_token() {
        assert_eq!(texts("a<=b<<1"), ["a", "<=", "b", "<<", "1"]);
        assert_eq!(texts("&a[..0]"), ["&", "a", "[", "..", "0", "]"]);
    }

    #[test]
    fn comments_are_left_out() {
        assert_eq!(texts("a // b < c\n+ d"), ["a", "+", "d"]);
    }

    #[test]
    fn strings_and_labels_are_taken_whole() {
        assert_eq!(
            texts(r#"print(b"a < \" b")"#),
            ["print", "(", r#"b"a < \" b""#, ")"]
        );
        assert_eq!(texts("break 'symbols;"), ["break", "'symbols", ";"]);
        assert_eq!(texts("b'+' + '-'"), ["b'+'", "+", "'-'"]);
    }

    #[test]
    fn a_field_by_number_is_no_literal() {
        let source = "child.0 + 0u8";
        let sorts: Vec<Sort> = tokens(source).iter().map(|t| t.sort).collect();
        assert_eq!(
            sorts,
            [Sort::Word, Sort::Mark, Sort::Word, Sort::Mark, Sort::Number]
        );
    }

    #[test]
    fn marks_of_the_logic_do_not_stop_it() {
        assert_eq!(texts("⌜ r ≡ a ⌝"), ["⌜", "r", "≡", "a", "⌝"]);
    }
}
