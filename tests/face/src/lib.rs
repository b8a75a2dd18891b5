//! The library's C calls, each behind a safe function. A call gives code times 2^32 plus figure.
//!
//! Nothing holds these declarations to the library's own source, so there is one place for them.

mod c {
    extern "C" {
        pub fn peristhox_check(table: *const u8, table_len: usize) -> u64;
        pub fn peristhox_rewrite(
            table: *const u8,
            table_len: usize,
            room: *mut u8,
            room_len: usize,
        ) -> u64;
    }

    #[cfg(feature = "weigh")]
    extern "C" {
        pub fn peristhox_weigh(
            table: *const u8,
            table_len: usize,
            tree: *const u8,
            tree_len: usize,
            sheet: *mut i64,
            sheet_len: usize,
            weight: *mut i64,
        ) -> u64;
    }

    /// A call with a direction, a table and a room.
    #[cfg(feature = "shrink")]
    pub type Directed = unsafe extern "C" fn(
        direction: u32,
        table: *const u8,
        table_len: usize,
        room: *mut u8,
        room_len: usize,
    ) -> u64;

    #[cfg(feature = "shrink")]
    extern "C" {
        pub fn peristhox_blocks(
            direction: u32,
            table: *const u8,
            table_len: usize,
            room: *mut u8,
            room_len: usize,
        ) -> u64;
        pub fn peristhox_collapse(
            direction: u32,
            table: *const u8,
            table_len: usize,
            room: *mut u8,
            room_len: usize,
        ) -> u64;
        pub fn peristhox_shrink(
            direction: u32,
            table: *const u8,
            table_len: usize,
            room: *mut u8,
            room_len: usize,
        ) -> u64;
    }
}

pub fn check(table: &[u8]) -> u64 {
    // SAFETY: the pointer and the length are those of a slice that lives through the call.
    unsafe { c::peristhox_check(table.as_ptr(), table.len()) }
}

pub fn rewrite(table: &[u8], room: &mut [u8]) -> u64 {
    // SAFETY: as above, and the borrows say that the room is no part of the table.
    unsafe { c::peristhox_rewrite(table.as_ptr(), table.len(), room.as_mut_ptr(), room.len()) }
}

#[cfg(feature = "weigh")]
pub fn weigh(table: &[u8], tree: &[u8], sheet: &mut [i64], weight: &mut i64) -> u64 {
    // SAFETY: as above, and the borrows say that sheet and weight are no part of each other or of
    // what is read.
    unsafe {
        c::peristhox_weigh(
            table.as_ptr(),
            table.len(),
            tree.as_ptr(),
            tree.len(),
            sheet.as_mut_ptr(),
            sheet.len(),
            weight,
        )
    }
}

#[cfg(feature = "shrink")]
pub fn blocks(direction: u32, table: &[u8], room: &mut [u8]) -> u64 {
    directed(c::peristhox_blocks, direction, table, room)
}

#[cfg(feature = "shrink")]
pub fn collapse(direction: u32, table: &[u8], room: &mut [u8]) -> u64 {
    directed(c::peristhox_collapse, direction, table, room)
}

#[cfg(feature = "shrink")]
pub fn shrink(direction: u32, table: &[u8], room: &mut [u8]) -> u64 {
    directed(c::peristhox_shrink, direction, table, room)
}

#[cfg(feature = "shrink")]
fn directed(call: c::Directed, direction: u32, table: &[u8], room: &mut [u8]) -> u64 {
    // SAFETY: as for `rewrite`.
    unsafe {
        call(
            direction,
            table.as_ptr(),
            table.len(),
            room.as_mut_ptr(),
            room.len(),
        )
    }
}
