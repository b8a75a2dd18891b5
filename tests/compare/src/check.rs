//! Checking a table.

use second::answer::{packed, DONE, OF_TABLES};
use second::calls;
use second::families;
use second::random::Random;

use crate::call::{same_answer, Call, Met};
use crate::lent::Lent;

pub const CALL: Call = Call {
    name: "check",
    codes: &[&[DONE], &OF_TABLES],
    families: families::all,
    compare,
};

fn compare(table: &[u8], random: &mut Random, met: &mut Met) -> Result<(), String> {
    let lent = Lent::holding(table, random);
    let got = face::check(lent.piece());
    same_answer(got, packed(calls::check(table)), met)?;
    lent.untouched()
        .map_err(|wrong| format!("the table was changed: {wrong}"))
}
