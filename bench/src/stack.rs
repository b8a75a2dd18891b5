//! The stack that a call uses.
//!
//! The call runs on a thread whose stack is memory of ours, painted with one byte before the thread
//! starts. After it has ended, the lowest byte that is no longer paint is the deepest that the call
//! has written. That is exact, needs no crash, and does not depend on a guard page: a call with a
//! large frame can step over one, so that a search for the least stack that survives would answer
//! too little. A second run with another paint sees the bytes that happened to be the first paint.
//! The count begins where the thread makes the call. (For a call that uses next to nothing it is
//! the thread's own ending that goes deepest, so that a few hundred bytes mean "almost none".)

use std::alloc::{alloc, dealloc, handle_alloc_error, Layout};
use std::ffi::{c_int, c_void};
use std::ptr;

use crate::cases::Case;

const STACK: usize = 8 << 20;
const PAGE: usize = 4_096;
const PAINTS: [u8; 2] = [0x5a, 0xa5];

pub fn report(cases: &[Case]) {
    let known = used(&|| known_frame());
    println!("Bytes of stack a call. A frame of {FRAME} bytes is measured as {known}.");
    assert!(
        (FRAME..FRAME + 1_000).contains(&known),
        "the measure is wrong"
    );
    println!(
        "{:<8} {:<42} {:>9} {:>9}",
        "call", "input", "library", "plain"
    );
    for case in cases {
        let (library, plain) = (used(&case.library), used(&case.plain));
        println!(
            "{:<8} {:<42} {:>9} {:>9}",
            case.call, case.input, library, plain
        );
    }
}

const FRAME: usize = 100_000;

/// A call whose use of the stack is known.
#[inline(never)]
fn known_frame() {
    let mut frame = [0u8; FRAME];
    std::hint::black_box(&mut frame);
}

/// The bytes of stack from where this call is made to the deepest that it writes.
fn used(call: &dyn Fn()) -> usize {
    PAINTS
        .iter()
        .map(|&paint| used_in_paint(call, paint))
        .max()
        .expect("there are paints")
}

fn used_in_paint(call: &dyn Fn(), paint: u8) -> usize {
    let stack = Stack::painted(paint);
    let made_at = run_on(&stack, call);
    let untouched = stack
        .bytes()
        .iter()
        .take_while(|&&byte| byte == paint)
        .count();
    assert!(
        untouched > PAGE,
        "the call needs more than {STACK} bytes of stack"
    );
    made_at - (stack.start as usize + untouched)
}

/// Memory for a stack.
struct Stack {
    start: *mut u8,
}

impl Stack {
    fn layout() -> Layout {
        Layout::from_size_align(STACK, PAGE).expect("the size and the alignment are fixed")
    }

    fn painted(paint: u8) -> Stack {
        // SAFETY: the layout has a size, and what is painted is what was allocated.
        unsafe {
            let start = alloc(Stack::layout());
            if start.is_null() {
                handle_alloc_error(Stack::layout());
            }
            ptr::write_bytes(start, paint, STACK);
            Stack { start }
        }
    }

    fn bytes(&self) -> &[u8] {
        // SAFETY: all of the memory was painted, and no thread is left that writes to it.
        unsafe { std::slice::from_raw_parts(self.start, STACK) }
    }
}

impl Drop for Stack {
    fn drop(&mut self) {
        // SAFETY: it was allocated with this layout.
        unsafe { dealloc(self.start, Stack::layout()) }
    }
}

/// Room for a `pthread_attr_t`, which takes 56 bytes on 64-bit Linux and less than this anywhere.
#[repr(C, align(16))]
struct Attributes([u8; 256]);

extern "C" {
    fn pthread_attr_init(attributes: *mut Attributes) -> c_int;
    fn pthread_attr_setstack(attributes: *mut Attributes, at: *mut c_void, size: usize) -> c_int;
    fn pthread_attr_destroy(attributes: *mut Attributes) -> c_int;
    fn pthread_create(
        thread: *mut usize,
        attributes: *const Attributes,
        start: extern "C" fn(*mut c_void) -> *mut c_void,
        argument: *mut c_void,
    ) -> c_int;
    fn pthread_join(thread: usize, result: *mut *mut c_void) -> c_int;
}

/// What the thread is given, and what it leaves behind.
struct Work<'a> {
    call: &'a dyn Fn(),
    /// An address in the frame that makes the call.
    made_at: usize,
}

/// Makes the call on a thread with this stack, and says where on it the call was made. The standard
/// library's threads choose their own stack, so this one is asked of the system.
fn run_on(stack: &Stack, call: &dyn Fn()) -> usize {
    let mut attributes = Attributes([0; 256]);
    let mut thread = 0;
    let mut work = Work { call, made_at: 0 };
    // SAFETY: the stack and the work outlive the thread, which is joined before they are used
    // again.
    unsafe {
        must(pthread_attr_init(&mut attributes));
        must(pthread_attr_setstack(
            &mut attributes,
            stack.start.cast(),
            STACK,
        ));
        must(pthread_create(
            &mut thread,
            &attributes,
            start,
            ptr::from_mut(&mut work).cast(),
        ));
        must(pthread_join(thread, ptr::null_mut()));
        must(pthread_attr_destroy(&mut attributes));
    }
    work.made_at
}

fn must(status: c_int) {
    assert_eq!(status, 0, "the system refused a thread");
}

extern "C" fn start(argument: *mut c_void) -> *mut c_void {
    // SAFETY: `run_on` passes a pointer to its own work, and waits.
    let work = unsafe { &mut *argument.cast::<Work>() };
    let here = 0u8;
    work.made_at = ptr::from_ref(std::hint::black_box(&here)) as usize;
    (work.call)();
    ptr::null_mut()
}
