//! Other programs: found on the path, started with words of their own and never by a shell, and ended when their time is over.

use crate::{drafts, processes::Group};
use std::{
    env, fs,
    io::{self, Read},
    os::unix::fs::{DirBuilderExt, PermissionsExt},
    path::{Path, PathBuf},
    process::{self, Command, Stdio},
    sync::atomic::{AtomicU32, Ordering},
    thread,
    time::{Duration, Instant},
};

/// The first of these programs that is on the path.
pub fn find(names: &[&str]) -> Option<PathBuf> {
    let path = env::var_os("PATH")?;
    let folders: Vec<PathBuf> = env::split_paths(&path).filter(|folder| folder.is_absolute()).collect();
    let runs =
        |file: &PathBuf| fs::metadata(file).is_ok_and(|data| data.is_file() && data.permissions().mode() & 0o111 != 0);
    names.iter().find_map(|name| folders.iter().map(|folder| folder.join(name)).find(runs))
}

/// ABC, by what Debian and yosys call it. ARRAYMAP_ABC names another; empty, it says that there is none.
pub fn abc() -> Option<PathBuf> {
    match env::var_os("ARRAYMAP_ABC") {
        Some(named) if named.is_empty() => None,
        Some(named) => Some(PathBuf::from(named)),
        None => find(&["berkeley-abc", "yosys-abc"]),
    }
}

/// Where such folders stand. Their names go into scripts of other programs: a base with signs that mean something there is not taken.
fn base() -> PathBuf {
    let plain = |sign: char| sign.is_ascii_alphanumeric() || matches!(sign, '/' | '_' | '.' | '-');
    let base = env::temp_dir();
    match base.to_str() {
        Some(name) if base.is_absolute() && name.chars().all(plain) => base,
        _ => PathBuf::from("/tmp"),
    }
}

/// A folder that nobody else can read or write, removed with what is in it.
pub struct Folder(PathBuf);

impl Folder {
    pub fn new() -> io::Result<Folder> {
        static NEXT: AtomicU32 = AtomicU32::new(0);
        loop {
            let name = format!("arraymap-{}-{}", process::id(), NEXT.fetch_add(1, Ordering::Relaxed));
            let path = base().join(name);
            match drafts::stand(&path, |path| fs::DirBuilder::new().mode(0o700).create(path)) {
                Ok(()) => return Ok(Folder(path)),
                Err(error) if error.kind() == io::ErrorKind::AlreadyExists => {}
                Err(error) => return Err(error),
            }
        }
    }

    pub fn path(&self) -> &Path {
        &self.0
    }

    pub fn write(&self, name: &str, text: impl AsRef<[u8]>) -> io::Result<()> {
        fs::write(self.0.join(name), text)
    }
}

impl Drop for Folder {
    fn drop(&mut self) {
        drafts::fall(&self.0);
    }
}

/// What a program came to.
pub enum Ended {
    /// Its status, and what it wrote to both outputs.
    Told { good: bool, text: String },
    /// Its time was over.
    Stopped,
    /// It could not be started.
    Absent(String),
}

/// Runs a program to its end, or for so long. What it has started ends with it.
pub fn run(command: &mut Command, limit: Duration) -> Ended {
    let end = Instant::now() + limit;
    command.stdin(Stdio::null()).stdout(Stdio::piped()).stderr(Stdio::piped());
    let mut group = match Group::start(command) {
        Ok(group) => group,
        Err(error) => return Ended::Absent(crate::files::why(&error)),
    };
    fn reader(from: Option<impl Read + Send + 'static>) -> thread::JoinHandle<String> {
        thread::spawn(move || {
            let mut bytes = Vec::new();
            let _ = from.map(|mut from| from.read_to_end(&mut bytes));
            String::from_utf8_lossy(&bytes).into_owned()
        })
    }
    let (out, err) = (reader(group.leader().stdout.take()), reader(group.leader().stderr.take()));
    let is_done = group.wait_until(end);
    match group.end() {
        Ok(status) if is_done => {
            let text = out.join().unwrap_or_default() + &err.join().unwrap_or_default();
            Ended::Told { good: status.success(), text }
        }
        _ => Ended::Stopped,
    }
}
