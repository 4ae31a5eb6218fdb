//! How much stack a call uses: it runs on a thread whose stack is painted
//! beforehand, and the lowest byte that lost its paint tells.
//!
//! Trusted here: the declarations of the thread functions that the system's C
//! library has.

use crate::calls::{Function, Lent};
use std::alloc::{alloc, dealloc, handle_alloc_error, Layout};
use std::ffi::c_void;
use std::hint::black_box;
use std::ptr;

const STACK_BYTES: usize = 8 << 20;
const STACK_ALIGNMENT: usize = 4_096;
const PAINT: u8 = 0xA5;

/// At least as large as the system's own type.
#[repr(C, align(16))]
struct ThreadAttributes([u8; 256]);

type ThreadStart = extern "C" fn(*mut c_void) -> *mut c_void;

extern "C" {
    fn pthread_attr_init(attributes: *mut ThreadAttributes) -> i32;
    fn pthread_attr_setstack(
        attributes: *mut ThreadAttributes,
        lowest: *mut c_void,
        bytes: usize,
    ) -> i32;
    fn pthread_attr_destroy(attributes: *mut ThreadAttributes) -> i32;
    fn pthread_create(
        thread: *mut usize,
        attributes: *const ThreadAttributes,
        start: ThreadStart,
        argument: *mut c_void,
    ) -> i32;
    fn pthread_join(thread: usize, result: *mut *mut c_void) -> i32;
}

struct Job<'a, 'b> {
    function: Function,
    lent: &'a mut Lent<'b>,
    number: u32,
    /// Where the stack stood when the call was made.
    top: usize,
}

extern "C" fn run(job: *mut c_void) -> *mut c_void {
    // SAFETY: `bytes_used` passes a job that lives until this thread is joined.
    let job = unsafe { &mut *job.cast::<Job>() };
    let here = 0_u8;
    job.top = ptr::from_ref(black_box(&here)).addr();
    job.number = (job.function)(job.lent);
    ptr::null_mut()
}

/// Makes the call; gives its number and the bytes of stack it touched.
pub fn bytes_used(function: Function, lent: &mut Lent) -> (u32, usize) {
    let mut job = Job { function, lent, number: 0, top: 0 };
    let stack = PaintedStack::new();
    // SAFETY: the stack and the job live until the thread is joined, and
    // nothing else uses them before that.
    unsafe {
        let mut attributes = ThreadAttributes([0; 256]);
        let mut thread = 0;
        let mut result = ptr::null_mut();
        let lowest = stack.lowest.cast();
        succeeds(pthread_attr_init(&mut attributes));
        succeeds(pthread_attr_setstack(&mut attributes, lowest, STACK_BYTES));
        succeeds(pthread_create(&mut thread, &attributes, run, ptr::from_mut(&mut job).cast()));
        succeeds(pthread_join(thread, &mut result));
        succeeds(pthread_attr_destroy(&mut attributes));
    }
    let painted = stack.bytes().iter().take_while(|byte| **byte == PAINT).count();
    assert_ne!(painted, 0, "the call used the whole stack");
    (job.number, job.top - (stack.lowest.addr() + painted))
}

fn succeeds(result: i32) {
    assert_eq!(result, 0, "a thread function fails");
}

struct PaintedStack {
    lowest: *mut u8,
}

impl PaintedStack {
    const LAYOUT: Layout = match Layout::from_size_align(STACK_BYTES, STACK_ALIGNMENT) {
        Ok(layout) => layout,
        Err(_) => panic!("an alignment is a power of two"),
    };

    fn new() -> PaintedStack {
        // SAFETY: the layout is not empty, and all of it is painted.
        unsafe {
            let lowest = alloc(PaintedStack::LAYOUT);
            if lowest.is_null() {
                handle_alloc_error(PaintedStack::LAYOUT);
            }
            lowest.write_bytes(PAINT, STACK_BYTES);
            PaintedStack { lowest }
        }
    }

    /// To be called when no thread runs on the stack.
    fn bytes(&self) -> &[u8] {
        // SAFETY: all of it was painted, and whatever a thread wrote is bytes.
        unsafe { std::slice::from_raw_parts(self.lowest, STACK_BYTES) }
    }
}

impl Drop for PaintedStack {
    fn drop(&mut self) {
        // SAFETY: `new` allocated it with this layout.
        unsafe { dealloc(self.lowest, PaintedStack::LAYOUT) }
    }
}
