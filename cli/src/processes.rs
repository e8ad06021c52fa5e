//! Programs that this one starts. Each leads a process group of its own, with a clean signal mask, and the group ends with this program.

use crate::sys;
use std::{
    io,
    process::{Child, Command, ExitStatus},
    sync::{Mutex, MutexGuard, PoisonError},
    thread,
    time::{Duration, Instant},
};

/// The groups that run, by their leaders' numbers. A leader that has ended is reaped only after its group has left this list, so that no number in it can
/// be another process's.
static GROUPS: Mutex<Vec<i32>> = Mutex::new(Vec::new());

fn groups() -> MutexGuard<'static, Vec<i32>> {
    GROUPS.lock().unwrap_or_else(PoisonError::into_inner)
}

/// How long a group has to end by SIGTERM.
const GRACE: Duration = Duration::from_millis(500);

const POLL: Duration = Duration::from_millis(5);

/// A running program, and what it has started itself.
pub struct Group {
    leader: Child,
}

impl Group {
    /// Starts the program. To be waited for in the same thread: the system ends a program when the thread that started it has ended.
    pub fn start(command: &mut Command) -> io::Result<Group> {
        sys::lead_own_group(command);
        // Held while it starts: a signal ends every program that has begun.
        let mut groups = groups();
        let leader = command.spawn()?;
        groups.push(leader.id() as i32);
        Ok(Group { leader })
    }

    fn id(&self) -> i32 {
        self.leader.id() as i32
    }

    pub fn leader(&mut self) -> &mut Child {
        &mut self.leader
    }

    /// Waits until the program has ended, until then at most. Whether it has.
    pub fn wait_until(&self, end: Instant) -> bool {
        while !sys::has_ended(self.id()) {
            if Instant::now() >= end {
                return false;
            }
            thread::sleep(POLL);
        }
        true
    }

    /// Ends the program, and what it has started and left running. The program's own status.
    pub fn end(mut self) -> io::Result<ExitStatus> {
        end(&[self.id()]);
        groups().retain(|group| *group != self.id());
        self.leader.wait()
    }
}

/// Ends groups whose leaders are not reaped: by SIGTERM, and what is left of them by SIGKILL.
fn end(groups: &[i32]) {
    let open = |groups: &[i32]| groups.iter().any(|group| !sys::has_ended(*group));
    if open(groups) {
        groups.iter().for_each(|group| sys::signal_group(*group, sys::SIGTERM));
        let end = Instant::now() + GRACE;
        while open(groups) && Instant::now() < end {
            thread::sleep(POLL);
        }
    }
    groups.iter().for_each(|group| sys::signal_group(*group, sys::SIGKILL));
}

/// Ends every group, and lets no other begin: for the end of this program.
pub fn end_all() {
    let groups = groups();
    end(&groups);
    std::mem::forget(groups);
}
