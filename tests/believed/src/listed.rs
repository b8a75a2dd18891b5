//! The rows of `docs/DEFINITIONS.md`.

/// A row names a definition and its file.
#[derive(Clone, PartialEq, Eq, PartialOrd, Ord, Debug)]
pub struct Row {
    pub name: String,
    pub file: String,
}

/// The rows `| \`name\` | \`crate/specs/File.antt\` | … |` of a page.
pub fn rows(page: &str) -> Vec<Row> {
    page.lines().filter_map(row).collect()
}

fn row(line: &str) -> Option<Row> {
    let mut cells = line.strip_prefix('|')?.split('|').map(str::trim);
    let mut code = || cells.next()?.strip_prefix('`')?.strip_suffix('`');
    let (name, file) = (code()?.to_string(), code()?.to_string());
    file.ends_with(".antt").then_some(Row { name, file })
}

#[cfg(test)]
mod tests {
    use super::*;

    #[test]
    fn a_row_names_a_definition_and_its_file() {
        let page = "# Page\n| Definition | File | What 01 says |\n|---|---|---|\n| `g·a` | `theory/specs/Examples.antt` | \"0 \\| done\" |\n";
        let wanted = Row {
            name: "g·a".to_string(),
            file: "theory/specs/Examples.antt".to_string(),
        };
        assert_eq!(rows(page), [wanted]);
    }
}
