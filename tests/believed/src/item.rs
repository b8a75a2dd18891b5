//! What a file declares.

/// A definition, or a law with its proof.
#[derive(Debug)]
pub struct Item {
    pub name: String,
    pub kind: Kind,
    /// the line of its head, from 1
    pub line: usize,
    /// how many lines it has that are neither empty nor a comment
    pub lines: usize,
    pub around: Around,
    /// what stands behind the name: parameters and type
    pub head: String,
    /// the clauses of a function, the fields of a record, the constructors of a data type; nothing of a law
    pub parts: Vec<String>,
}

#[derive(Clone, Copy, PartialEq, Eq, Debug)]
pub enum Kind {
    Function,
    Record,
    Data,
    /// a declaration that nothing unfolds: a law
    Law,
}

/// The modules that an item stands in.
#[derive(Clone, Default, Debug)]
pub struct Around {
    /// the parameters of each
    pub parameters: Vec<String>,
    /// the names that an `open` brings in, each with what is opened
    pub opened: Vec<(String, String)>,
}

impl Item {
    pub fn is_definition(&self) -> bool {
        self.kind != Kind::Law
    }

    /// The names of a record's fields or of a data type's constructors.
    pub fn members(&self) -> Vec<&str> {
        if !matches!(self.kind, Kind::Record | Kind::Data) {
            return Vec::new();
        }
        let names = self.parts.iter().filter_map(|part| part.split_once(" :"));
        names
            .flat_map(|(names, _)| names.split_whitespace())
            .filter(|&name| name != "pub")
            .collect()
    }
}

/// A name without the places of its arguments: `◌then◌` is also met as `then`.
pub fn bare(name: &str) -> &str {
    let inner = name
        .strip_prefix('◌')
        .and_then(|name| name.strip_suffix('◌'));
    inner.filter(|inner| !inner.is_empty()).unwrap_or(name)
}

#[cfg(test)]
mod tests {
    use super::*;

    #[test]
    fn the_places_of_arguments_are_taken_off() {
        assert_eq!(bare("◌then◌"), "then");
        assert_eq!(bare("◌"), "◌");
        assert_eq!(bare("_"), "_");
        assert_eq!(bare("weight_at"), "weight_at");
    }
}
