//! Tables with a name of their own, and the answer written out beside them.

use second::answer::packed;
use second::examples::{self, Example};
use second::random::Random;

use crate::call::{same_answer, with_input, Call, Met};
use crate::lent::Lent;
use crate::tally::Tally;

pub fn run(tally: &mut Tally, calls: &[Call]) {
    run_all(tally, "01, run only", examples::run_only(), calls);
    run_all(
        tally,
        "the first that applies",
        examples::first_that_applies(),
        calls,
    );
}

fn run_all(tally: &mut Tally, list: &str, examples: Vec<Example>, calls: &[Call]) {
    for example in examples {
        let outcome = run_one(&example, calls).map_err(|wrong| with_input(&wrong, &example.table));
        tally.note(&format!("{list}: {}", example.name), outcome);
    }
}

/// Holds checking to the answer that is written out, and every call to the second program.
fn run_one(example: &Example, calls: &[Call]) -> Result<String, String> {
    let mut met = Met::default();
    let mut random = Random::new(0);
    let lent = Lent::holding(&example.table, &mut random);
    same_answer(face::check(lent.piece()), packed(example.due), &mut met)?;
    for call in calls {
        (call.compare)(&example.table, &mut random, &mut met)
            .map_err(|wrong| format!("{}: {wrong}", call.name))?;
    }
    Ok(format!(
        "{} bytes, {} calls",
        example.table.len(),
        calls.len()
    ))
}
