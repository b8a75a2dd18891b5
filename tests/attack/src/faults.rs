//! Wrong libraries that the attack must see: by the end of the process at a guard, or by a
//! mismatch.

use second::answer;
use second::examples;

use crate::attack::Attack;
use crate::call::Call;
use crate::guarded::{read_anyway, write_anyway};
use crate::lengths::Lengths;
use crate::lent::Guard::{self, Before, Behind};
use crate::library::{Library, Weigh, THE_LIBRARY};
use crate::process::Ending::{self, Crash, Done, Mismatch};

pub struct Fault {
    pub name: &'static str,
    /// The side on which the guards lie.
    guard: Guard,
    library: Library,
    /// How the process that tries it must end.
    pub ending: Ending,
}

impl Fault {
    /// Tries the library on table A and the tree g(a).
    pub fn run(&self) -> Result<(), String> {
        let guards: &[Guard] = match self.guard {
            Behind => &[Behind],
            Before => &[Before],
        };
        let mut attack = Attack::new(self.library, guards, 0);
        let calls = Call::all(&mut attack.random);
        attack.table(&examples::A, &calls, Lengths::Every)?;
        attack.weigh(&examples::A, &examples::G_A, Lengths::Every)
    }
}

pub fn all() -> Vec<Fault> {
    let mut faults = vec![
        fault("none, guards behind", Behind, THE_LIBRARY, Done),
        fault("none, guards before", Before, THE_LIBRARY, Done),
    ];
    faults.extend(touches_of_inputs());
    faults.extend(touches_of_rooms());
    faults.extend(touches_of_sheets());
    faults.extend(wrong_answers());
    faults.extend(wrong_rooms());
    faults.extend(wrong_weighings());
    faults
}

fn fault(name: &'static str, guard: Guard, library: Library, ending: Ending) -> Fault {
    Fault {
        name,
        guard,
        library,
        ending,
    }
}

fn check(check: fn(&[u8]) -> u64) -> Library {
    Library {
        check,
        ..THE_LIBRARY
    }
}

fn rewrite(rewrite: fn(&[u8], &mut [u8]) -> u64) -> Library {
    Library {
        rewrite,
        ..THE_LIBRARY
    }
}

fn weigh(weigh: Weigh) -> Library {
    Library {
        weigh,
        ..THE_LIBRARY
    }
}

fn touches_of_inputs() -> Vec<Fault> {
    let read_behind = check(|table| {
        read_anyway(table.as_ptr_range().end);
        face::check(table)
    });
    let read_before = check(|table| {
        read_anyway(table.as_ptr().wrapping_sub(1));
        face::check(table)
    });
    let written = check(|table| {
        write_anyway(table.as_ptr(), table[0]);
        face::check(table)
    });
    let tree_read_behind = weigh(|table, tree, sheet, weight| {
        read_anyway(tree.as_ptr_range().end);
        face::weigh(table, tree, sheet, weight)
    });
    let tree_read_before = weigh(|table, tree, sheet, weight| {
        read_anyway(tree.as_ptr().wrapping_sub(1));
        face::weigh(table, tree, sheet, weight)
    });
    let tree_written = weigh(|table, tree, sheet, weight| {
        write_anyway(tree.as_ptr(), tree[0]);
        face::weigh(table, tree, sheet, weight)
    });
    vec![
        fault("read behind the table", Behind, read_behind, Crash),
        fault("read before the table", Before, read_before, Crash),
        fault("the table written", Behind, written, Crash),
        fault("read behind the tree", Behind, tree_read_behind, Crash),
        fault("read before the tree", Before, tree_read_before, Crash),
        fault("the tree written", Before, tree_written, Crash),
    ]
}

/// On the side without a guard a byte written outside is a mismatch.
fn touches_of_rooms() -> Vec<Fault> {
    let behind = rewrite(|table, room| {
        write_anyway(room.as_ptr_range().end, 77);
        face::rewrite(table, room)
    });
    let before = rewrite(|table, room| {
        write_anyway(room.as_ptr().wrapping_sub(1), 77);
        face::rewrite(table, room)
    });
    vec![
        fault("write behind the room", Behind, behind, Crash),
        fault("write behind the room", Before, behind, Mismatch),
        fault("write before the room", Before, before, Crash),
        fault("write before the room", Behind, before, Mismatch),
    ]
}

/// The same for the sheet and the weight.
fn touches_of_sheets() -> Vec<Fault> {
    let behind_sheet = weigh(|table, tree, sheet, weight| {
        write_anyway(sheet.as_ptr_range().end, 77);
        face::weigh(table, tree, sheet, weight)
    });
    let before_sheet = weigh(|table, tree, sheet, weight| {
        write_anyway(sheet.as_ptr().wrapping_sub(1), 77);
        face::weigh(table, tree, sheet, weight)
    });
    let behind_weight = weigh(|table, tree, sheet, weight| {
        write_anyway(std::ptr::from_ref(weight).wrapping_add(1), 77);
        face::weigh(table, tree, sheet, weight)
    });
    let before_weight = weigh(|table, tree, sheet, weight| {
        write_anyway(std::ptr::from_ref(weight).wrapping_sub(1), 77);
        face::weigh(table, tree, sheet, weight)
    });
    vec![
        fault("write behind the sheet", Behind, behind_sheet, Crash),
        fault("write behind the sheet", Before, behind_sheet, Mismatch),
        fault("write before the sheet", Before, before_sheet, Crash),
        fault("write before the sheet", Behind, before_sheet, Mismatch),
        fault("write behind the weight", Behind, behind_weight, Crash),
        fault("write behind the weight", Before, behind_weight, Mismatch),
        fault("write before the weight", Before, before_weight, Crash),
        fault("write before the weight", Behind, before_weight, Mismatch),
    ]
}

fn wrong_answers() -> Vec<Fault> {
    let figure = check(|table| face::check(table) + 1);
    let code = check(|table| face::check(table) + (1 << 32));
    let direction = Library {
        blocks: |direction, table, room| face::blocks(direction % 2, table, room),
        ..THE_LIBRARY
    };
    let side = Library {
        collapse: |direction, table, room| face::collapse(direction ^ 1, table, room),
        ..THE_LIBRARY
    };
    let copy = Library {
        shrink: |_, table, room| face::rewrite(table, room),
        ..THE_LIBRARY
    };
    vec![
        fault("a figure one too high", Behind, figure, Mismatch),
        fault("a code one too high", Behind, code, Mismatch),
        fault("a direction above 1 taken", Behind, direction, Mismatch),
        fault("the other direction", Behind, side, Mismatch),
        fault("a copy for a shrink", Behind, copy, Mismatch),
    ]
}

fn wrong_rooms() -> Vec<Fault> {
    let beyond = rewrite(|table, room| {
        let answer = face::rewrite(table, room);
        if room.len() > table.len() {
            room[table.len()] ^= 1;
        }
        answer
    });
    let unwritten = rewrite(|table, room| {
        let last = room.last().copied();
        let answer = face::rewrite(table, room);
        if let Some(last) = last {
            room[room.len() - 1] = last;
        }
        answer
    });
    let refused = rewrite(|table, room| {
        let answer = face::rewrite(table, room);
        if answer::unpacked(answer).0 != 0 && !room.is_empty() {
            room[0] ^= 1;
        }
        answer
    });
    vec![
        fault("the room behind is written", Behind, beyond, Mismatch),
        fault("the last byte isn't written", Behind, unwritten, Mismatch),
        fault("a refusal writes", Before, refused, Mismatch),
    ]
}

fn wrong_weighings() -> Vec<Fault> {
    let off = weigh(|table, tree, sheet, weight| {
        let answer = face::weigh(table, tree, sheet, weight);
        *weight = weight.wrapping_add(1);
        answer
    });
    let refused = weigh(|table, tree, sheet, weight| {
        let answer = face::weigh(table, tree, sheet, weight);
        if answer::unpacked(answer).0 != 0 {
            *weight = 0;
        }
        answer
    });
    let beyond = weigh(|table, tree, sheet, weight| {
        let answer = face::weigh(table, tree, sheet, weight);
        if let Some(behind) = sheet.get_mut(6) {
            *behind ^= 1;
        }
        answer
    });
    vec![
        fault("a weight one too high", Behind, off, Mismatch),
        fault("a refusal writes the weight", Behind, refused, Mismatch),
        fault("the sheet behind is written", Behind, beyond, Mismatch),
    ]
}
