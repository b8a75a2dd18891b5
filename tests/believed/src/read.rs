//! Reads the declarations of a file of definitions.

use crate::item::{Around, Item, Kind};
use crate::lines::{joined, lines, pieces, Line};
use crate::token::tokens;

/// The declarations of a file, in order. An error names the line that is not understood.
pub fn items(source: &str) -> Result<Vec<Item>, String> {
    let mut found = Vec::new();
    block(&lines(source), &Around::default(), false, &mut found)?;
    Ok(found)
}

/// Reads lines of one indentation, with what is deeper. In an `unfoldable mutual` each declaration is a definition.
fn block(
    lines: &[Line],
    around: &Around,
    unfoldable: bool,
    found: &mut Vec<Item>,
) -> Result<(), String> {
    let mut around = around.clone();
    let first = found.len();
    for piece in pieces(lines) {
        let text = piece[0].text;
        match text.split_whitespace().next().unwrap_or("") {
            "use" | "infix" | "infixl" | "infixr" => {}
            "open" => around.opened.extend(opened(&joined(piece))),
            "module" => {
                let (head, body) = headed(piece);
                let mut inner = around.clone();
                let parameters = behind(behind(&head, "module"), "_");
                inner.parameters.push(parameters.to_string());
                block(body, &inner, false, found)?;
            }
            "mutual" => block(&piece[1..], &around, false, found)?,
            "unfoldable" if text == "unfoldable mutual" => {
                block(&piece[1..], &around, true, found)?
            }
            "pub" if text.starts_with("pub mod ") => {}
            word if continues(word, &found[first..]) => continued(piece, &mut found[first..]),
            _ => found.push(item(piece, &around, unfoldable)?),
        }
    }
    Ok(())
}

/// Whether a piece that begins with the word belongs to an item before it: a clause, or the end of one.
fn continues(word: &str, before: &[Item]) -> bool {
    let closes = word.starts_with(['}', ')', ']']);
    closes || word == "unfolding" || before.iter().any(|item| item.name == word)
}

/// A law's clauses are its proof: they are not kept. An `unfolding` before the first item of a block is no line of it.
fn continued(piece: &[Line], before: &mut [Item]) {
    let word = piece[0].text.split_whitespace().next().unwrap_or("");
    let own = before.iter().rposition(|item| item.name == word);
    let Some(item) = own.or(before.len().checked_sub(1)).map(|i| &mut before[i]) else {
        return;
    };
    item.lines += piece.len();
    if item.kind != Kind::Law && word != "unfolding" {
        match own {
            Some(_) => item.parts.push(joined(piece)),
            None => item
                .parts
                .last_mut()
                .unwrap_or(&mut item.head)
                .push_str(&joined(piece)),
        }
    }
}

/// An item from its head: the clauses of a function come behind it.
fn item(piece: &[Line], around: &Around, unfoldable: bool) -> Result<Item, String> {
    let mut kind = if unfoldable {
        Kind::Function
    } else {
        Kind::Law
    };
    let (head, body) = headed(piece);
    let mut rest = head.as_str();
    loop {
        let word = rest.split_whitespace().next().unwrap_or("");
        kind = match word {
            "abbrev" | "unfoldable" => Kind::Function,
            "record" => Kind::Record,
            "data" => Kind::Data,
            "pub" => kind,
            _ => break,
        };
        rest = behind(rest, word);
    }
    let found = tokens(rest);
    let name = found.first().map_or("", |token| token.text);
    let declared = found
        .get(1)
        .is_some_and(|token| token.text == ":" || token.opens());
    if !declared {
        return Err(format!(
            "line {} is not understood: {}",
            piece[0].number, piece[0].text
        ));
    }
    Ok(Item {
        name: name.to_string(),
        kind,
        line: piece[0].number,
        lines: piece.len(),
        around: around.clone(),
        head: behind(rest, name).to_string(),
        parts: pieces(body).into_iter().map(joined).collect(),
    })
}

/// What stands up to the `where` that ends a line, without it, and the lines behind. Without such a line all is head.
fn headed<'a, 'b>(piece: &'b [Line<'a>]) -> (String, &'b [Line<'a>]) {
    let end = piece.iter().position(|line| line.text.ends_with(" where"));
    let end = end.map_or(piece.len(), |end| end + 1);
    let head = joined(&piece[..end]);
    (head.trim_end_matches(" where").to_string(), &piece[end..])
}

/// The text behind its first word.
fn behind<'a>(text: &'a str, word: &str) -> &'a str {
    let text = text.trim_start();
    text.strip_prefix(word).unwrap_or(text).trim_start()
}

/// The names that `open M using (a, b as c)` brings in, each with `M`.
fn opened(text: &str) -> Vec<(String, String)> {
    let Some((module, names)) = behind(text, "open").split_once(" using ") else {
        return Vec::new();
    };
    let names = names.trim_matches(['(', ')']).split(',');
    names
        .filter_map(|name| name.split_whitespace().last())
        .map(|name| (name.to_string(), module.to_string()))
        .collect()
}

#[cfg(test)]
mod tests {
    use super::*;

    const FILE: &str = "-- a file
use mathlib.Core.List.{List}

abbrev pub twice : ℕ → ℕ
twice zero = zero
-- a comment
twice (suc n) =
    suc (suc (twice n))

pub law : (n : ℕ)
    → twice n ≡ n + n
unfolding twice
law n = go
  where
    go : ℕ

pub record Pair (A : Type 0)
    (B : Type 0) : Type 0 where
  -- one
  pub first : A

  pub second : B
      → A

module _ (X : Table) where
  open Semiring S using (zero as 𝟘, times)

  record Inner : Type 0 where
    is : ℕ

  unfoldable mutual
    pub sheet : Tree → ℕ
    sheet (node s) = sheets s

    pub sheets : Forest → ℕ
    sheets none = 0

mutual
  pub data Tree : Type 0 where
    node leaf : Forest → Tree

abbrev pub made : Pair
made = record {
  first = 0;
}
";

    fn found() -> Vec<Item> {
        items(FILE).unwrap()
    }

    fn one(name: &str) -> Item {
        found().into_iter().find(|item| item.name == name).unwrap()
    }

    #[test]
    fn definitions_are_told_from_laws() {
        let named: Vec<(String, Kind)> = found()
            .into_iter()
            .map(|item| (item.name, item.kind))
            .collect();
        let named: Vec<(&str, Kind)> = named
            .iter()
            .map(|(name, kind)| (name.as_str(), *kind))
            .collect();
        let wanted = [
            ("twice", Kind::Function),
            ("law", Kind::Law),
            ("Pair", Kind::Record),
            ("Inner", Kind::Record),
            ("sheet", Kind::Function),
            ("sheets", Kind::Function),
            ("Tree", Kind::Data),
            ("made", Kind::Function),
        ];
        assert_eq!(named, wanted);
    }

    #[test]
    fn lines_are_counted_without_comments() {
        assert_eq!((one("twice").line, one("twice").lines), (4, 4));
        assert_eq!(one("Pair").lines, 5);
        assert_eq!(one("sheets").lines, 2);
        assert_eq!(one("made").lines, 4);
    }

    #[test]
    fn the_statement_of_a_law_is_without_its_proof() {
        assert_eq!(one("law").head, ": (n : ℕ)\n→ twice n ≡ n + n");
        assert!(one("law").parts.is_empty());
    }

    #[test]
    fn the_modules_around_are_kept() {
        let around = one("sheet").around;
        assert_eq!(around.parameters, ["(X : Table)"]);
        let module = "Semiring S".to_string();
        assert_eq!(around.opened[0], ("𝟘".to_string(), module.clone()));
        assert_eq!(around.opened[1], ("times".to_string(), module));
        assert!(one("Tree").around.parameters.is_empty());
    }

    #[test]
    fn members_are_fields_and_constructors() {
        assert_eq!(one("Pair").members(), ["first", "second"]);
        assert_eq!(one("Tree").members(), ["node", "leaf"]);
        assert!(one("twice").members().is_empty());
    }

    #[test]
    fn what_is_not_understood_is_an_error() {
        assert!(items("x ⊗ y = z\n").is_err());
    }
}
