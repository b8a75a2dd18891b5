//! Memory between two guards: pages that can be neither read nor written, so that a byte touched
//! outside ends the process. All unsafe code of this program is here.
//!
//! It is sound because a `Memory` alone has the pages between its guards, from the moment the
//! system gives them until it is dropped. They are there to the last byte, they begin as zeros, and
//! every pattern of bits is a value of what they hold. They can be read all the time, and written
//! all the time that a borrow which writes can exist. The functions at the end are the exception,
//! and say so.

use std::ffi::{c_int, c_void};
use std::ops::{Deref, DerefMut};
use std::{mem, ptr, slice};

/// A multiple of the size of a page, which is 4, 16 or 64 KiB.
const PAGES: usize = 65_536;
const GUARD: usize = 16 * PAGES;

/// The system's numbers, as on Linux.
const NO_ACCESS: c_int = 0;
const READ: c_int = 1;
const READ_AND_WRITE: c_int = 3;
const PRIVATE: c_int = 0x02;
const WITHOUT_FILE: c_int = 0x20;
/// Pages that are never written cost nothing, however many there are.
const UNRESERVED: c_int = 0x4000;

extern "C" {
    fn mmap(
        at: *mut c_void,
        bytes: usize,
        access: c_int,
        flags: c_int,
        file: c_int,
        offset: i64,
    ) -> *mut c_void;
    fn mprotect(at: *mut c_void, bytes: usize, access: c_int) -> c_int;
    fn munmap(at: *mut c_void, bytes: usize) -> c_int;
}

/// What guarded memory may hold.
///
/// # Safety
///
/// Every pattern of bits must be a value.
pub unsafe trait Plain: Copy {}

// SAFETY: they are whole numbers.
unsafe impl Plain for u8 {}
unsafe impl Plain for i64 {}

pub struct Memory<T: Plain> {
    start: *mut T,
    items: usize,
}

impl<T: Plain> Memory<T> {
    /// Memory for so many items, or some more: it ends where a page does.
    pub fn new(items: usize) -> Memory<T> {
        Memory::try_new(items).expect("the system refused the memory")
    }

    /// The same, or nothing where the system refuses it.
    pub fn try_new(items: usize) -> Option<Memory<T>> {
        let bytes = (items * mem::size_of::<T>()).next_multiple_of(PAGES);
        let flags = PRIVATE | WITHOUT_FILE | UNRESERVED;
        // SAFETY: the system chooses a place where nothing is, and what is opened to reading and
        // writing lies inside.
        let base = unsafe { mmap(ptr::null_mut(), bytes + 2 * GUARD, NO_ACCESS, flags, -1, 0) };
        if base as isize == -1 {
            return None;
        }
        let start = unsafe { base.byte_add(GUARD) };
        let memory = Memory {
            start: start.cast(),
            items: bytes / mem::size_of::<T>(),
        };
        memory.try_allow(READ_AND_WRITE).then_some(memory)
    }

    /// Runs something that gets the memory while nobody can write to it. (If it panics, the memory
    /// stays so, and a later write ends the process.)
    pub fn while_read_only<R>(&mut self, run: impl FnOnce(&[T]) -> R) -> R {
        self.allow(READ);
        let outcome = run(self);
        self.allow(READ_AND_WRITE);
        outcome
    }

    fn bytes(&self) -> usize {
        self.items * mem::size_of::<T>()
    }

    fn allow(&self, access: c_int) {
        assert!(self.try_allow(access), "the system refused to change the access");
    }

    fn try_allow(&self, access: c_int) -> bool {
        // SAFETY: the pages are this memory's own.
        unsafe { mprotect(self.start.cast(), self.bytes(), access) == 0 }
    }
}

impl<T: Plain> Deref for Memory<T> {
    type Target = [T];

    fn deref(&self) -> &[T] {
        // SAFETY: see the head of this file.
        unsafe { slice::from_raw_parts(self.start, self.items) }
    }
}

impl<T: Plain> DerefMut for Memory<T> {
    fn deref_mut(&mut self) -> &mut [T] {
        // SAFETY: see the head of this file.
        unsafe { slice::from_raw_parts_mut(self.start, self.items) }
    }
}

impl<T: Plain> Drop for Memory<T> {
    fn drop(&mut self) {
        // SAFETY: this is what the system gave, and nobody borrows it any more.
        unsafe { munmap(self.start.byte_sub(GUARD).cast(), self.bytes() + 2 * GUARD) };
    }
}

/// Reads an item that may lie outside of what was lent. It is wrong on purpose, to see that the
/// guard ends the process, and must be called in a process of its own only.
pub fn read_anyway<T: Plain>(at: *const T) {
    // SAFETY: none.
    unsafe { at.read_volatile() };
}

/// Writes an item that may lie outside of what was lent or may only be read, to the same end.
pub fn write_anyway<T: Plain>(at: *const T, item: T) {
    // SAFETY: none.
    unsafe { at.cast_mut().write_volatile(item) };
}
