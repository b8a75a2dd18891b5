//! Makes calls in guarded rooms, and holds the answer and every byte of room to the second program.

use second::answer::{self, packed, Refusal, ROOM_TOO_SHORT};
use second::calls::{Outcome, Weighed};
use second::random::Random;
use second::table::LONGEST_TABLE;

use crate::call::Call;
use crate::count::Count;
use crate::lengths::Lengths;
use crate::lent::{Guard, Rooms};
use crate::library::Library;

const LONGEST_SHEET: usize = 1 << 20;

pub struct Caller {
    pub library: Library,
    room: Rooms<u8>,
    sheet: Rooms<i64>,
    weight: Rooms<i64>,
    /// For the rooms.
    random: Random,
    pub count: Count,
}

/// A call, what it comes back with in a room that is long enough, and the rooms to try.
pub struct Due {
    call: Call,
    outcome: Outcome,
    rooms: Vec<usize>,
}

impl Caller {
    pub fn new(library: Library, seed: u64) -> Caller {
        let mut random = Random::new(seed);
        let number = |random: &mut Random| random.draw() as i64;
        Caller {
            library,
            room: Rooms::new(LONGEST_TABLE + 3, &mut random, Random::byte),
            sheet: Rooms::new(LONGEST_SHEET + 3, &mut random, number),
            weight: Rooms::new(1, &mut random, number),
            random,
            count: Count::default(),
        }
    }

    /// What is due for a call on this table, in rooms of these lengths.
    pub fn due(&mut self, call: Call, table: &[u8], lengths: Lengths) -> Due {
        let outcome = call.due(table);
        let needed = outcome.answer.ok().map(|_| outcome.written.len());
        let rooms = match call {
            Call::Check => vec![0],
            _ => lengths.of(needed, &mut self.random),
        };
        Due {
            call,
            outcome,
            rooms,
        }
    }

    /// Makes a call on this table, which lies at a guard, with the room at a guard too.
    pub fn table(&mut self, guard: Guard, table: &[u8], due: &Due) -> Result<(), String> {
        due.rooms.iter().try_for_each(|&length| {
            self.in_room(guard, table, length, due)
                .map_err(|wrong| format!("{:?}, room {length}, guard {guard:?}: {wrong}", due.call))
        })
    }

    fn in_room(
        &mut self,
        guard: Guard,
        table: &[u8],
        length: usize,
        due: &Due,
    ) -> Result<(), String> {
        let room = self.room.lend(guard, length, &mut self.random);
        let got = self.library.make(due.call, table, room);
        let due = due.outcome.clone().in_room(length);
        self.same_answer(got, due.answer)?;
        self.room.holds(&due.written)
    }

    /// Weighs this tree by this table, which lie at guards, in sheets of these lengths.
    pub fn tree(
        &mut self,
        guard: Guard,
        table: &[u8],
        tree: &[u8],
        lengths: Lengths,
        due: &Weighed,
    ) -> Result<(), String> {
        let needed = due.answer.ok().map(|_| due.sheet.len());
        let sheets = lengths.of(needed, &mut self.random);
        sheets.into_iter().try_for_each(|length| {
            self.in_sheet(guard, table, tree, length, due)
                .map_err(|wrong| format!("Weigh, sheet {length}, guard {guard:?}: {wrong}"))
        })
    }

    fn in_sheet(
        &mut self,
        guard: Guard,
        table: &[u8],
        tree: &[u8],
        length: usize,
        due: &Weighed,
    ) -> Result<(), String> {
        let sheet = self.sheet.lend(guard, length, &mut self.random);
        let weight = self.weight.lend(guard, 1, &mut self.random);
        let got = (self.library.weigh)(table, tree, sheet, &mut weight[0]);
        let needed = due.sheet.len();
        let (answer, sheet, weight) = if needed <= length {
            (due.answer, &due.sheet[..], due.weight.as_slice())
        } else {
            let refusal = Refusal::new(ROOM_TOO_SHORT, needed);
            (Err(refusal), &[][..], &[][..])
        };
        self.same_answer(got, answer)?;
        self.sheet.holds(sheet)?;
        self.weight
            .holds(weight)
            .map_err(|wrong| format!("the weight: {wrong}"))
    }

    /// Compares the number that came back with the answer that is due, and counts its code.
    pub fn same_answer(&mut self, got: u64, due: Result<usize, Refusal>) -> Result<(), String> {
        let due = packed(due);
        self.count.call(due);
        if got == due {
            return Ok(());
        }
        let spelled = |answer| {
            let (code, figure) = answer::unpacked(answer);
            format!("code {code} figure {figure}")
        };
        Err(format!(
            "the answer is {} and should be {}",
            spelled(got),
            spelled(due)
        ))
    }
}
