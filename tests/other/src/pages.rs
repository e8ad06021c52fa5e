//! Pages that nobody may touch, around pages that are lent: the operating system sees
//! every read and write outside, however far.

use std::cell::RefCell;
use std::ffi::{c_int, c_long, c_void};
use std::sync::atomic::{AtomicU8, AtomicUsize, Ordering};
use std::sync::OnceLock;

extern "C" {
    fn mmap(at: *mut c_void, length: usize, access: c_int, flags: c_int, file: c_int, offset: c_long) -> *mut c_void;
    fn mprotect(at: *mut c_void, length: usize, access: c_int) -> c_int;
    fn sysconf(name: c_int) -> c_long;
    fn sigaction(number: c_int, action: *const Action, before: *mut Action) -> c_int;
    fn sigaltstack(stack: *const SignalStack, before: *mut SignalStack) -> c_int;
    fn write(file: c_int, bytes: *const c_void, length: usize) -> isize;
    fn _exit(status: c_int) -> !;
}

/// What may be done with open pages; Linux's numbers, as those below are.
#[derive(Clone, Copy, Debug, PartialEq, Eq)]
pub enum Access {
    Nothing = 0,
    Read = 1,
    Write = 3,
}

/// MAP_PRIVATE, MAP_ANONYMOUS and MAP_NORESERVE.
const OF_NO_FILE: c_int = 0x4022;
const PAGE_SIZE: c_int = 30;
const SIGNALS: [c_int; 2] = [11, 7];

pub fn page() -> usize {
    static PAGE: OnceLock<usize> = OnceLock::new();
    *PAGE.get_or_init(|| usize::try_from(unsafe { sysconf(PAGE_SIZE) }).expect("a page has a size"))
}

/// Reserved addresses: a page that stays closed, the open ones, and closed ones to the end.
#[derive(Debug)]
pub struct Region {
    base: usize,
    room: usize,
    open: usize,
    access: Access,
}

/// Room for the work memory of any two graphs, or of any check.
const ROOM: usize = 4 << 20;

thread_local! {
    static UNUSED: RefCell<Vec<Region>> = const { RefCell::new(Vec::new()) };
}

impl Region {
    /// One with so many bytes of open pages, that can be written.
    pub fn of(bytes: usize) -> Region {
        let open = bytes.next_multiple_of(page());
        let found = UNUSED.with_borrow_mut(|unused| {
            let at = unused.iter().rposition(|region| region.room >= open)?;
            Some(unused.swap_remove(at))
        });
        let mut region = found.unwrap_or_else(|| Region::reserved(open.max(ROOM)));
        region.resize(open);
        region
    }

    fn reserved(room: usize) -> Region {
        let length = room + 2 * page();
        let base = unsafe { mmap(std::ptr::null_mut(), length, Access::Nothing as c_int, OF_NO_FILE, -1, 0) } as usize;
        assert!(base != usize::MAX, "{length} bytes of addresses cannot be reserved");
        Region { base, room, open: 0, access: Access::Write }
    }

    fn protect(&self, from: usize, to: usize, access: Access) {
        if from < to {
            let at = (self.base + page() + from) as *mut c_void;
            let answer = unsafe { mprotect(at, to - from, access as c_int) };
            assert!(answer == 0, "pages cannot be protected");
        }
    }

    fn resize(&mut self, open: usize) {
        if self.access != Access::Write {
            self.protect(0, self.open.min(open), Access::Write);
            self.access = Access::Write;
        }
        self.protect(self.open, open, Access::Write);
        self.protect(open, self.open, Access::Nothing);
        self.open = open;
    }

    /// The open pages can only be read from here on.
    pub fn close(&mut self) {
        self.protect(0, self.open, Access::Read);
        self.access = Access::Read;
    }

    /// The first byte of the open pages.
    pub fn start(&self) -> *mut u8 {
        (self.base + page()) as *mut u8
    }

    /// How many bytes are open.
    pub fn open(&self) -> usize {
        self.open
    }

    /// Hands the pages on to the next that asks.
    pub fn give_back(&mut self) {
        let region = Region { ..*self };
        self.room = 0;
        UNUSED.with_borrow_mut(|unused| unused.push(region));
    }
}

// ---------------------------------------------------------------- faults

static TOLD: [AtomicU8; 240] = [const { AtomicU8::new(0) }; 240];
static LENGTH: AtomicUsize = AtomicUsize::new(0);

/// What is said on standard error, once `watch` is called, where a page that nobody may
/// touch is touched: which case it is and how it is run again.
pub fn tell(what: &str) {
    LENGTH.store(what.len().min(TOLD.len()), Ordering::Relaxed);
    for (to, from) in TOLD.iter().zip(what.bytes()) {
        to.store(from, Ordering::Relaxed);
    }
}

/// What a signal does, as the C library has it.
#[repr(C)]
struct Action {
    handler: extern "C" fn(c_int),
    mask: [u64; 16],
    flags: c_int,
    restorer: usize,
}

/// SA_ONSTACK: a thread that has used up its stack has none left for the handler.
const ON_ITS_OWN_STACK: c_int = 0x0800_0000;

#[repr(C)]
struct SignalStack {
    at: *mut u8,
    flags: c_int,
    length: usize,
}

/// Ends the run with status 1 and in words where a page that nobody may touch is touched.
pub fn watch() {
    let action = Action { handler: fault, mask: [0; 16], flags: ON_ITS_OWN_STACK, restorer: 0 };
    for number in SIGNALS {
        let answer = unsafe { sigaction(number, &action, std::ptr::null_mut()) };
        assert!(answer == 0, "signal {number} cannot be watched");
    }
}

/// Has this thread's faults told on this memory: it is to last as long as the thread. The
/// standard library does so for threads of its own.
pub fn tell_on(memory: *mut [u8]) {
    let stack = SignalStack { at: memory.cast(), flags: 0, length: memory.len() };
    let answer = unsafe { sigaltstack(&stack, std::ptr::null_mut()) };
    assert!(answer == 0, "no stack for signals");
}

extern "C" fn fault(_: c_int) {
    let mut line = [b' '; 300];
    let head = b"a call touched memory that it was not lent: ";
    line[..head.len()].copy_from_slice(head);
    let length = LENGTH.load(Ordering::Relaxed);
    for (to, from) in line[head.len()..].iter_mut().zip(&TOLD[..length]) {
        *to = from.load(Ordering::Relaxed);
    }
    let end = head.len() + length;
    line[end] = b'\n';
    unsafe {
        write(2, line.as_ptr().cast(), end + 1);
        _exit(1)
    }
}
