//! Memory that is not there: a sentence and status 2, where Rust would abort. What a text asks for is bounded by its length and by the limits that are said,
//! and that can still be more than a machine, or `ulimit -v`, has.

use crate::{drafts, sys};
use std::{
    alloc::{GlobalAlloc, Layout, System},
    sync::{
        atomic::{AtomicBool, Ordering},
        OnceLock,
    },
};

/// Who says it.
pub static PROGRAM: OnceLock<&'static str> = OnceLock::new();

struct Memory;

#[global_allocator]
static MEMORY: Memory = Memory;

// SAFETY: every call goes to the system's allocator as it came, and its answer comes back as it is, unless there is none.
unsafe impl GlobalAlloc for Memory {
    unsafe fn alloc(&self, layout: Layout) -> *mut u8 {
        there(System.alloc(layout), layout.size())
    }

    unsafe fn alloc_zeroed(&self, layout: Layout) -> *mut u8 {
        there(System.alloc_zeroed(layout), layout.size())
    }

    unsafe fn realloc(&self, old: *mut u8, layout: Layout, size: usize) -> *mut u8 {
        there(System.realloc(old, layout, size), size)
    }

    unsafe fn dealloc(&self, old: *mut u8, layout: Layout) {
        System.dealloc(old, layout);
    }
}

fn there(memory: *mut u8, size: usize) -> *mut u8 {
    if memory.is_null() {
        end(size);
    }
    memory
}

/// Says it, without asking for memory, and ends the program without what it has begun to write.
#[cold]
fn end(size: usize) -> ! {
    static ENDING: AtomicBool = AtomicBool::new(false);
    if !ENDING.swap(true, Ordering::Relaxed) {
        let mut digits = [0; 20];
        let parts = [
            PROGRAM.get().copied().unwrap_or("arraymap"),
            ": out of memory: ",
            decimal(size, &mut digits),
            " more bytes are not to be had\n",
        ];
        parts.iter().for_each(|part| sys::write_error(part));
        drafts::remove_all();
    }
    sys::end_at_once(2)
}

fn decimal(mut number: usize, digits: &mut [u8; 20]) -> &str {
    let mut first = digits.len();
    loop {
        first -= 1;
        digits[first] = b'0' + (number % 10) as u8;
        number /= 10;
        if number == 0 || first == 0 {
            return std::str::from_utf8(&digits[first..]).unwrap_or_default();
        }
    }
}
