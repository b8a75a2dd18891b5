//! The lines of a file that are neither empty nor a comment, and the pieces that their indentation makes of them.

#[derive(Clone, Copy, PartialEq, Eq, Debug)]
pub struct Line<'a> {
    /// from 1
    pub number: usize,
    pub indent: usize,
    pub text: &'a str,
}

pub fn lines(source: &str) -> Vec<Line<'_>> {
    let numbered = source.lines().enumerate().map(|(i, line)| Line {
        number: i + 1,
        indent: line.len() - line.trim_start().len(),
        text: line.trim(),
    });
    numbered
        .filter(|line| !line.text.is_empty() && !line.text.starts_with("--"))
        .collect()
}

/// The pieces of a block: a line at the block's indentation with the deeper lines behind it.
pub fn pieces<'a, 'b>(block: &'b [Line<'a>]) -> Vec<&'b [Line<'a>]> {
    let base = block.first().map_or(0, |line| line.indent);
    let mut starts: Vec<usize> = (0..block.len())
        .filter(|&i| block[i].indent <= base)
        .collect();
    starts.push(block.len());
    starts
        .windows(2)
        .map(|pair| &block[pair[0]..pair[1]])
        .collect()
}

/// The text of some lines, in one.
pub fn joined(lines: &[Line]) -> String {
    lines
        .iter()
        .map(|line| line.text)
        .collect::<Vec<_>>()
        .join("\n")
}

#[cfg(test)]
mod tests {
    use super::*;

    #[test]
    fn deeper_lines_belong_to_the_line_before() {
        let found = lines("-- a comment\na\n  b\n\n    c\nd\n  -- another\n");
        let texts: Vec<String> = pieces(&found).into_iter().map(joined).collect();
        assert_eq!(texts, ["a\nb\nc", "d"]);
        assert_eq!(found[1].number, 3);
    }
}
