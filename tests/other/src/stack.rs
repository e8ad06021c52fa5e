//! How deep a call goes: it runs in a thread whose stack is painted beforehand, between pages
//! that nobody may touch.

use crate::pages::{self, Region};
use std::ffi::{c_int, c_void};

/// Larger than the C library's own, which no call looks into.
type Attributes = [u64; 16];

extern "C" {
    fn pthread_attr_init(attributes: *mut Attributes) -> c_int;
    fn pthread_attr_setstack(attributes: *mut Attributes, at: *mut c_void, length: usize) -> c_int;
    fn pthread_attr_destroy(attributes: *mut Attributes) -> c_int;
    fn pthread_create(
        thread: *mut usize,
        attributes: *const Attributes,
        start: extern "C" fn(*mut c_void) -> *mut c_void,
        argument: *mut c_void,
    ) -> c_int;
    fn pthread_join(thread: usize, value: *mut *mut c_void) -> c_int;
}

/// What the stack holds before.
const PAINT: u8 = 0xc5;

/// What the thread is given.
struct Task<'a> {
    call: &'a mut dyn FnMut(),
    signals: Vec<u8>,
}

extern "C" fn start(argument: *mut c_void) -> *mut c_void {
    // `depth` lends it until the thread has ended.
    let task = unsafe { &mut *argument.cast::<Task>() };
    pages::tell_on(&mut task.signals[..]);
    (task.call)();
    std::ptr::null_mut()
}

/// Runs the call in a thread of exactly so many bytes of stack, and answers how many of them
/// were touched, the thread's own included.
pub fn depth(stack: usize, mut call: impl FnMut()) -> usize {
    let mut region = Region::of(stack);
    let at = region.start();
    let mut task = Task { call: &mut call, signals: vec![0; 1 << 16] };
    let argument = std::ptr::from_mut(&mut task).cast();
    let (mut attributes, mut thread): (Attributes, usize) = ([0; 16], 0);
    // The pages are this stack's alone until the thread has ended; it begins at their start, so
    // that a call that goes too deep is stopped by the page before it.
    let touched = unsafe {
        std::ptr::write_bytes(at, PAINT, stack);
        let set = pthread_attr_init(&mut attributes) == 0
            && pthread_attr_setstack(&mut attributes, at.cast(), stack) == 0
            && pthread_create(&mut thread, &attributes, start, argument) == 0
            && pthread_join(thread, std::ptr::null_mut()) == 0
            && pthread_attr_destroy(&mut attributes) == 0;
        assert!(set, "no thread with a stack of {stack} bytes");
        let all = std::slice::from_raw_parts(at, stack);
        stack - all.iter().position(|&byte| byte != PAINT).unwrap_or(stack)
    };
    region.give_back();
    touched
}
