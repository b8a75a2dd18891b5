//! The lemmas that rule wrong answers out, read from where they are proved.

use second::blocks::Direction;

use crate::plain::Answer;

pub const FILE: &str = "crates/collapse/specs/Wrong.antt";

const LEMMAS: &str = include_str!("../../../crates/collapse/specs/Wrong.antt");
const TABLES: [&str; 3] = [
    include_str!("../../../crates/format/specs/Examples.antt"),
    include_str!("../../../crates/collapse/specs/Examples.antt"),
    include_str!("../../../crates/collapse/specs/Shrinking.antt"),
];

/// A lemma that an answer to one table is not allowed.
pub struct Lemma {
    pub statement: &'static str,
    /// The promise that doesn't allow it: `Blocks` or `Collapses`.
    pub promise: &'static str,
    pub direction: Direction,
    pub table: Vec<u8>,
    /// What the lent room may not hold. A place that the lemma leaves open holds none.
    room: Vec<Option<u8>>,
}

impl Lemma {
    /// Reads the lemma of this name, which ends in `PROMISE DIRECTION TABLE (zeros N) ANSWER
    /// (BYTE ∷ .. ∷ []) → ⊥`.
    pub fn read(name: &str) -> Lemma {
        let statement = statement(name).unwrap_or_else(|| panic!("there is no lemma {name}"));
        let words = words(statement);
        let is_promise = |word: &&str| ["Blocks", "Collapses"].contains(word);
        let at = words.iter().position(is_promise);
        let [promise, direction, table, _zeros, _length, _answer, room @ ..] =
            &words[at.expect("a promise")..]
        else {
            panic!("{name} has another form");
        };
        Lemma {
            statement,
            promise,
            direction: Direction::of_number(direction.parse().expect("a direction")).unwrap(),
            table: list(&bytes_of(table)).into_iter().flatten().collect(),
            room: list(room),
        }
    }

    /// Whether the lemma is about this answer.
    pub fn rules_out(&self, answer: &Answer) -> bool {
        let given = match self.promise {
            "Blocks" => &answer.blocks,
            _ => &answer.bytes,
        };
        let agree = |(byte, open): (&u8, &Option<u8>)| open.is_none_or(|due| due == *byte);
        given.len() == self.room.len() && given.iter().zip(&self.room).all(agree)
    }
}

/// From the name to the next line that is not indented, where the proof begins.
fn statement(name: &str) -> Option<&'static str> {
    let start = LEMMAS.find(&format!("pub {name} :"))?;
    let text = &LEMMAS[start..];
    let mut ends = text.match_indices('\n').map(|(end, _)| end);
    let end = ends.find(|end| !text[end + 1..].starts_with(' '))?;
    Some(&text[..end])
}

fn words(text: &str) -> Vec<&str> {
    let is_between = |letter: char| letter.is_whitespace() || letter == '(' || letter == ')';
    text.split(is_between)
        .filter(|word| !word.is_empty())
        .collect()
}

/// The words of the list that a table's name stands for.
fn bytes_of(name: &str) -> Vec<&'static str> {
    let mut found = TABLES
        .iter()
        .filter_map(|text| text.split_once(&format!("\n{name} = ")));
    let (_, list) = found.next().unwrap_or_else(|| panic!("there is no {name}"));
    words(list)
}

/// The numbers of a list up to its end; another word is none.
fn list(words: &[&str]) -> Vec<Option<u8>> {
    let items = words.iter().take_while(|word| **word != "[]");
    items
        .filter(|word| **word != "∷")
        .map(|word| word.parse().ok())
        .collect()
}

#[cfg(test)]
mod tests {
    use super::*;
    use second::examples;

    #[test]
    fn the_lemmas_are_about_01s_tables() {
        let table = |name| Lemma::read(name).table;
        assert_eq!(table("collapse_keeps_one"), examples::A);
        assert_eq!(table("collapse_nothing_as_zero"), examples::C);
        assert_eq!(table("collapse_sums_finals"), examples::d());
        assert_eq!(table("collapse_writes_zero"), examples::d());
        assert_eq!(table("blocks_one_pass"), examples::E);
    }

    #[test]
    fn a_lemma_is_read_whole() {
        let lemma = Lemma::read("collapse_keeps_one");
        assert_eq!(lemma.promise, "Collapses");
        assert_eq!(lemma.direction, Direction::Backward);
        let mut room: Vec<Option<u8>> = examples::A_BACKWARD.map(Some).to_vec();
        room[14] = None;
        assert_eq!(lemma.room, room);
    }
}
