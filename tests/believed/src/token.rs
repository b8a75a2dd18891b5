//! A text in tokens: brackets, `,`, `;`, the dot behind bound names, and words, which are whatever stands between.

#[derive(Clone, Copy, PartialEq, Eq, Debug)]
pub struct Token<'a> {
    pub text: &'a str,
    /// the byte at which it begins
    pub at: usize,
}

impl Token<'_> {
    pub fn opens(&self) -> bool {
        matches!(self.text, "(" | "[" | "{")
    }

    pub fn closes(&self) -> bool {
        matches!(self.text, ")" | "]" | "}")
    }

    /// A word that can be a name: no bracket, no mark, no projection such as `.states`.
    pub fn is_word(&self) -> bool {
        !self.opens()
            && !self.closes()
            && !matches!(self.text, "," | ";")
            && !self.text.starts_with('.')
    }
}

pub fn tokens(text: &str) -> Vec<Token<'_>> {
    let mut found = Vec::new();
    let mut from = None;
    for (at, c) in text.char_indices() {
        let single = matches!(c, '(' | ')' | '[' | ']' | '{' | '}' | ',' | ';');
        if single || c.is_whitespace() {
            if let Some(from) = from.take() {
                run(text, from, at, &mut found);
            }
        } else if from.is_none() {
            from = Some(at);
        }
        if single {
            found.push(Token {
                text: &text[at..at + 1],
                at,
            });
        }
    }
    if let Some(from) = from {
        run(text, from, text.len(), &mut found);
    }
    found
}

/// A word, and the dot behind it if there is one: `λ q. …` binds q.
fn run<'a>(text: &'a str, from: usize, to: usize, found: &mut Vec<Token<'a>>) {
    let word = text[from..to].trim_end_matches('.');
    if !word.is_empty() {
        found.push(Token {
            text: word,
            at: from,
        });
    }
    let end = from + word.len();
    if end < to {
        found.push(Token {
            text: &text[end..end + 1],
            at: end,
        });
    }
}

/// The token that closes the group that token `open` opens; the number of tokens if none does.
pub fn group_end(tokens: &[Token], open: usize) -> usize {
    let mut depth = 0usize;
    for (i, token) in tokens.iter().enumerate().skip(open) {
        if token.opens() {
            depth += 1;
        } else if token.closes() {
            depth = depth.saturating_sub(1);
        }
        if depth == 0 {
            return i;
        }
    }
    tokens.len()
}

#[cfg(test)]
mod tests {
    use super::*;

    fn texts(text: &str) -> Vec<&str> {
        tokens(text).iter().map(|token| token.text).collect()
    }

    #[test]
    fn names_have_marks_and_dots_inside() {
        assert_eq!(
            texts("g·a_weighs (a→ x) trees.Nodes"),
            ["g·a_weighs", "(", "a→", "x", ")", "trees.Nodes"]
        );
    }

    #[test]
    fn the_dot_of_a_binder_stands_alone() {
        assert_eq!(texts("(λ q. q)"), ["(", "λ", "q", ".", "q", ")"]);
        assert_eq!(
            texts("λ (x, y). x"),
            ["λ", "(", "x", ",", "y", ")", ".", "x"]
        );
    }

    #[test]
    fn a_projection_is_no_word() {
        let text = "(f X).states .0";
        let words: Vec<&str> = tokens(text)
            .iter()
            .filter(|t| t.is_word())
            .map(|t| t.text)
            .collect();
        assert_eq!(words, ["f", "X"]);
    }

    #[test]
    fn groups_nest() {
        let found = tokens("(a {b} c) d");
        assert_eq!(group_end(&found, 0), 6);
        assert_eq!(group_end(&tokens("(a"), 0), 2);
    }
}
