//! What the standard library leaves out of the system: signals, and the descriptors as they were before `main`.

use std::{
    ffi::{c_char, c_int, c_uint, CString},
    fs::{self, File},
    io,
    os::{
        fd::{FromRawFd, IntoRawFd, OwnedFd},
        unix::{ffi::OsStrExt, process::CommandExt},
    },
    path::{Path, PathBuf},
    process::{self, Command},
    sync::atomic::{AtomicBool, AtomicU8, Ordering},
};

const SIGHUP: c_int = 1;
const SIGINT: c_int = 2;
const SIGQUIT: c_int = 3;
const SIGABRT: c_int = 6;
pub const SIGKILL: c_int = 9;
const SIGUSR1: c_int = 10;
const SIGUSR2: c_int = 12;
pub const SIGPIPE: c_int = 13;
const SIGALRM: c_int = 14;
pub const SIGTERM: c_int = 15;
const SIGSTKFLT: c_int = 16;
const SIGXCPU: c_int = 24;
const SIGXFSZ: c_int = 25;
const SIGVTALRM: c_int = 26;
const SIGPROF: c_int = 27;
const SIGIO: c_int = 29;
const SIGPWR: c_int = 30;
const SIGRTMAX: c_int = 64;

const SIG_DFL: usize = 0;
const SIG_IGN: usize = 1;
const SIG_BLOCK: c_int = 0;
const SIG_UNBLOCK: c_int = 1;
const SIG_SETMASK: c_int = 2;
const PR_SET_PDEATHSIG: c_int = 1;
const P_PID: c_int = 1;
const WNOHANG: c_int = 1;
const WEXITED: c_int = 4;
const WNOWAIT: c_int = 0x0100_0000;
const F_GETFD: c_int = 1;
const AT_FDCWD: c_int = -100;
const RENAME_EXCHANGE: c_uint = 2;

pub const ENOENT: i32 = 2;
const ESRCH: i32 = 3;
const EINTR: i32 = 4;
const EBADF: i32 = 9;
pub const EEXIST: i32 = 17;
pub const EISDIR: i32 = 21;
const ELOOP: i32 = 40;

/// `sigset_t`: 1,024 bits with glibc and with musl.
#[repr(C)]
struct Signals([u64; 16]);

/// `siginfo_t`: 128 bytes, the signal's number first.
#[repr(C, align(8))]
struct SignalInfo([c_int; 32]);

extern "C" {
    fn fcntl(fd: c_int, command: c_int, ...) -> c_int;
    fn dup(fd: c_int) -> c_int;
    fn close(fd: c_int) -> c_int;
    fn write(fd: c_int, bytes: *const u8, count: usize) -> isize;
    fn _exit(status: c_int) -> !;
    fn renameat2(from: c_int, old: *const c_char, to: c_int, new: *const c_char, flags: c_uint) -> c_int;
    fn signal(number: c_int, handler: usize) -> usize;
    fn raise(number: c_int) -> c_int;
    fn sigemptyset(set: *mut Signals) -> c_int;
    fn sigaddset(set: *mut Signals, number: c_int) -> c_int;
    fn pthread_sigmask(how: c_int, set: *const Signals, old: *mut Signals) -> c_int;
    fn sigwait(set: *const Signals, number: *mut c_int) -> c_int;
    fn kill(process: c_int, number: c_int) -> c_int;
    fn waitid(kind: c_int, id: c_uint, info: *mut SignalInfo, options: c_int) -> c_int;
    fn prctl(option: c_int, ...) -> c_int;
    fn getppid() -> c_int;
    fn __libc_current_sigrtmin() -> c_int;
}

/// The standard descriptors that were closed when the program began, a bit each. The standard library opens /dev/null in their place before `main`, and
/// what is written there is lost without a word: so they are looked at before that.
static CLOSED: AtomicU8 = AtomicU8::new(0);

extern "C" fn note_closed() {
    for fd in 0..3 {
        // SAFETY: F_GETFD reads a flag of a descriptor and answers -1 where it is closed.
        if unsafe { fcntl(fd, F_GETFD) } < 0 {
            CLOSED.fetch_or(1 << fd, Ordering::Relaxed);
        }
    }
}

#[used]
#[link_section = ".init_array"]
static BEFORE_MAIN: extern "C" fn() = note_closed;

fn was_closed(fd: c_int) -> bool {
    // The reading of BEFORE_MAIN keeps it in the program whichever way it is linked.
    let noted = std::hint::black_box(BEFORE_MAIN) as usize != 0;
    noted && (0..3).contains(&fd) && CLOSED.load(Ordering::Relaxed) >> fd & 1 == 1
}

/// Words to standard error, without asking for memory.
pub fn write_error(words: &str) {
    // SAFETY: the bytes are there for as long as the call takes.
    unsafe { write(2, words.as_ptr(), words.len()) };
}

/// Ends the program as it stands.
pub fn end_at_once(status: c_int) -> ! {
    // SAFETY: nothing of the program runs from here on.
    unsafe { _exit(status) }
}

/// The descriptor itself, as a file of its own: what is written goes where the descriptor stands, behind what is there.
pub fn descriptor(fd: c_int) -> io::Result<File> {
    if was_closed(fd) {
        return Err(io::Error::from_raw_os_error(EBADF));
    }
    // SAFETY: `dup` answers a descriptor that nobody else has, or -1.
    match unsafe { dup(fd) } {
        -1 => Err(io::Error::last_os_error()),
        fd => Ok(File::from(unsafe { OwnedFd::from_raw_fd(fd) })),
    }
}

/// Closes a file, and says what only closing finds out.
pub fn closed(file: File) -> io::Result<()> {
    // SAFETY: the descriptor is the file's own, which is given up.
    match unsafe { close(file.into_raw_fd()) } {
        0 => Ok(()),
        _ => Err(io::Error::last_os_error()),
    }
}

/// Exchanges two files' names at once.
pub fn exchange(one: &Path, other: &Path) -> io::Result<()> {
    let one = CString::new(one.as_os_str().as_bytes())?;
    let other = CString::new(other.as_os_str().as_bytes())?;
    // SAFETY: both are ended by a byte 0.
    match unsafe { renameat2(AT_FDCWD, one.as_ptr(), AT_FDCWD, other.as_ptr(), RENAME_EXCHANGE) } {
        0 => Ok(()),
        _ => Err(io::Error::last_os_error()),
    }
}

/// Which descriptor a name of /proc stands for, and whether it is one of this process: `/proc/self/fd/1`, and with it `/dev/fd/1`.
pub fn named_descriptor(path: &Path) -> Option<(c_int, bool)> {
    let number = path.file_name()?.to_str()?.parse().ok()?;
    let folder = folder_of(path).canonicalize().ok()?;
    let in_process = folder.strip_prefix("/proc").ok()?;
    let process = Path::new("/proc").join(in_process.components().next()?);
    let is_folder = folder.ends_with("fd") && folder != process;
    is_folder.then(|| (number, fs::canonicalize("/proc/self").is_ok_and(|own| own == process)))
}

/// The folder that a name stands in.
pub fn folder_of(path: &Path) -> &Path {
    match path.parent() {
        Some(folder) if !folder.as_os_str().is_empty() => folder,
        _ => Path::new("."),
    }
}

/// Where a name leads: link by link, up to a name that is no link or stands for a descriptor. The last may be absent.
pub fn followed(path: &Path) -> io::Result<PathBuf> {
    let mut path = path.to_path_buf();
    for _ in 0..40 {
        let is_link = fs::symlink_metadata(&path).is_ok_and(|data| data.is_symlink());
        if !is_link || named_descriptor(&path).is_some() {
            return Ok(path);
        }
        path = folder_of(&path).join(fs::read_link(&path)?);
    }
    Err(io::Error::from_raw_os_error(ELOOP))
}

fn set_of(numbers: &[c_int]) -> Signals {
    let mut set = Signals([0; 16]);
    // SAFETY: the set is as large as the system's.
    unsafe {
        sigemptyset(&mut set);
        for &number in numbers {
            sigaddset(&mut set, number);
        }
    }
    set
}

/// Every signal that ends a program that does nothing about it, but for SIGKILL, SIGPIPE and SIGXFSZ, which are failed writes here, and those of a fault in
/// the program itself.
pub fn ending() -> Vec<c_int> {
    let named = [
        SIGHUP, SIGINT, SIGQUIT, SIGABRT, SIGUSR1, SIGUSR2, SIGALRM, SIGTERM, SIGSTKFLT, SIGXCPU, SIGVTALRM, SIGPROF,
        SIGIO, SIGPWR,
    ];
    // SAFETY: it answers a number. The C library keeps those below it for itself.
    let first = unsafe { __libc_current_sigrtmin() };
    named.into_iter().chain(first..=SIGRTMAX).collect()
}

/// Signals that wait for `Waiting::next` from here on, in this thread and those that it starts. One that is ignored stays ignored, as under nohup.
pub struct Waiting(Signals);

impl Waiting {
    pub fn block(numbers: &[c_int]) -> Waiting {
        // SAFETY: no handler is set; a disposition is read by setting it, and set back.
        let ends = |number: c_int| unsafe {
            let old = signal(number, SIG_DFL);
            signal(number, old);
            old == SIG_DFL
        };
        let asked: Vec<c_int> = numbers.iter().copied().filter(|&number| ends(number)).collect();
        let set = set_of(&asked);
        unsafe { pthread_sigmask(SIG_BLOCK, &set, std::ptr::null_mut()) };
        Waiting(set)
    }

    /// Waits for one of them.
    pub fn next(&self) -> c_int {
        let mut number = 0;
        // SAFETY: both are owned here.
        while unsafe { sigwait(&self.0, &mut number) } != 0 {}
        number
    }
}

/// Ends the process by the signal, as if it had never been waited for.
pub fn end_by(number: c_int) -> ! {
    let set = set_of(&[number]);
    // SAFETY: the signal's own action is set, and it ends the process.
    unsafe {
        signal(number, SIG_DFL);
        pthread_sigmask(SIG_UNBLOCK, &set, std::ptr::null_mut());
        raise(number);
    }
    process::exit(128 + number)
}

/// Whether SIGXFSZ had its own action when the program began: a program that is started from here then has it too.
static LIMITED: AtomicBool = AtomicBool::new(false);

/// A file that grows beyond `ulimit -f` is then a failed write, and what was written of it is removed.
pub fn fail_beyond_file_limit() {
    // SAFETY: no handler is set.
    let old = unsafe { signal(SIGXFSZ, SIG_IGN) };
    LIMITED.store(old == SIG_DFL, Ordering::Relaxed);
}

/// Has a program lead a process group of its own with no signal blocked, so that it can be ended with all that it starts; and has the system end it by
/// SIGKILL when the thread that starts it is no more, however this program ends.
pub fn lead_own_group(command: &mut Command) {
    let parent = process::id() as c_int;
    let limited = LIMITED.load(Ordering::Relaxed);
    let prepare = move || {
        let none = Signals([0; 16]);
        // SAFETY: each of these may be called between fork and exec.
        unsafe {
            if limited {
                signal(SIGXFSZ, SIG_DFL);
            }
            pthread_sigmask(SIG_SETMASK, &none, std::ptr::null_mut());
            prctl(PR_SET_PDEATHSIG, SIGKILL);
            // This program may have ended before the child asked to be told.
            if getppid() != parent {
                return Err(io::Error::from_raw_os_error(ESRCH));
            }
        }
        Ok(())
    };
    command.process_group(0);
    // SAFETY: `prepare` allocates nothing and takes no lock.
    unsafe { command.pre_exec(prepare) };
}

/// Has the system send SIGTERM to this program when the one that started it has ended: yosys starts ABC by a shell, and nobody ends that with yosys.
pub fn end_with_parent() {
    // SAFETY: it sets a number of this process.
    unsafe { prctl(PR_SET_PDEATHSIG, SIGTERM) };
}

/// Whether a child has ended. It is not reaped: its number stays its own.
pub fn has_ended(child: c_int) -> bool {
    let mut info = SignalInfo([0; 32]);
    loop {
        // SAFETY: `info` is as large as the system's. It stays 0 where the child runs.
        match unsafe { waitid(P_PID, child as c_uint, &mut info, WEXITED | WNOHANG | WNOWAIT) } {
            0 => return info.0[0] != 0,
            _ if io::Error::last_os_error().raw_os_error() == Some(EINTR) => {}
            _ => return true,
        }
    }
}

/// Sends a signal to every process of a group.
pub fn signal_group(group: c_int, number: c_int) {
    // SAFETY: it changes nothing in this process, which leads no such group.
    unsafe { kill(-group, number) };
}
