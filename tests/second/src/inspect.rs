//! What the program of document 01 writes.

use std::fmt::Write;

use crate::blocks::{self, passes, Direction};
use crate::collapse::collapse_by;
use crate::table::{self, Table, LONGEST_TABLE};

/// What the program writes for this standard input, of which it reads one byte more than the
/// longest table has.
pub fn inspect(input: &[u8]) -> String {
    let read = &input[..input.len().min(LONGEST_TABLE + 1)];
    match table::read(read) {
        Ok(table) => described(&table),
        Err(refusal) => format!("refused {} at {}\n", refusal.code, refusal.figure),
    }
}

fn described(table: &Table) -> String {
    let names = ["backward", "forward"];
    let blocks = Direction::BOTH.map(|direction| passes::coarsest(table, direction));
    let mut text = format!(
        "arithmetic {} states {} symbols {} transitions {}\n",
        table.arithmetic,
        table.states(),
        table.ranks.len(),
        table.transitions.len()
    );
    for (name, blocks) in names.iter().zip(&blocks) {
        let listed: String = blocks.iter().map(|block| format!(" {block}")).collect();
        writeln!(text, "{name} blocks {} :{listed}", blocks::count(blocks))
            .expect("a string takes everything");
    }
    for ((name, direction), blocks) in names.iter().zip(Direction::BOTH).zip(&blocks) {
        let collapsed = collapse_by(table, direction, blocks);
        let length = table::write(&collapsed).len();
        writeln!(
            text,
            "{name} table {length} bytes {} transitions",
            collapsed.transitions.len()
        )
        .expect("a string takes everything");
    }
    text
}

#[cfg(test)]
mod tests {
    use super::*;
    use crate::examples;
    use crate::make;
    use crate::random::Random;

    #[test]
    fn what_01_shows_for_table_a() {
        let due = "arithmetic 0 states 3 symbols 2 transitions 4\n\
                   backward blocks 2 : 0 0 1\n\
                   forward blocks 3 : 0 1 2\n\
                   backward table 15 bytes 2 transitions\n\
                   forward table 23 bytes 4 transitions\n";
        assert_eq!(inspect(&examples::A), due);
    }

    #[test]
    fn a_refused_table() {
        let mut table = examples::A;
        table[17] = 3;
        assert_eq!(inspect(&table), "refused 4 at 17\n");
        assert_eq!(inspect(&[]), "refused 1 at 0\n");
    }

    #[test]
    fn bytes_behind_the_65416th_are_not_read() {
        let mut input = table::write(&make::longest(&mut Random::new(13)));
        input.extend([9; 1_000]);
        assert_eq!(inspect(&input), "refused 7 at 65415\n");
    }
}
