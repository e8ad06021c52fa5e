//! Files under names of their own beside the places that they are to take. Whatever ends the program while they stand there removes them first.

use crate::{
    processes,
    sys::{self, folder_of, Waiting},
};
use std::{
    ffi::OsString,
    fs::{self, File, OpenOptions},
    hash::{BuildHasher, RandomState},
    io::{self, ErrorKind, Write},
    os::unix::fs::{fchown, MetadataExt, OpenOptionsExt, PermissionsExt},
    path::{Path, PathBuf},
    sync::{Mutex, MutexGuard, PoisonError},
    thread,
    time::Duration,
};

/// The drafts that stand. Whoever makes, places or removes one holds it, and so does the thread that ends the program by a signal.
static STANDING: Mutex<Vec<PathBuf>> = Mutex::new(Vec::new());

fn standing() -> MutexGuard<'static, Vec<PathBuf>> {
    STANDING.lock().unwrap_or_else(PoisonError::into_inner)
}

/// Ends every program that was started and removes every draft before a signal ends this program. To be called before any other thread is there.
pub fn watch() -> io::Result<()> {
    sys::fail_beyond_file_limit();
    let waiting = Waiting::block(&sys::ending());
    thread::Builder::new().stack_size(64 << 10).spawn(move || {
        let number = waiting.next();
        // Held until the end: nothing is made or placed from here on.
        let standing = standing();
        processes::end_all();
        standing.iter().for_each(|draft| remove(draft));
        sys::end_by(number)
    })?;
    Ok(())
}

/// Removes every draft where the program ends at once. Where somebody holds the list, that is left to nobody: it may be this very thread.
pub fn remove_all() {
    if let Ok(standing) = STANDING.try_lock() {
        standing.iter().for_each(|draft| remove(draft));
    }
}

/// A draft, or a folder of them. A program that has just been ended may have made a file in the folder while it was emptied: then once more.
fn remove(path: &Path) {
    for _ in 0..20 {
        match fs::remove_file(path).or_else(|_| fs::remove_dir_all(path)) {
            Err(error) if error.kind() == ErrorKind::DirectoryNotEmpty => thread::sleep(Duration::from_millis(10)),
            _ => break,
        }
    }
}

/// Makes a folder that is removed with what is in it, whatever ends the program.
pub fn stand(path: &Path, make: impl FnOnce(&Path) -> io::Result<()>) -> io::Result<()> {
    let mut standing = standing();
    make(path)?;
    standing.push(path.into());
    Ok(())
}

/// Removes such a folder.
pub fn fall(path: &Path) {
    let mut standing = standing();
    remove(path);
    standing.retain(|other| other != path);
}

/// A name that no other process chooses, whatever its number: the hasher's keys are the system's random bytes. It is short, however long the file's own is.
fn name() -> OsString {
    format!(".arraymap-{:016x}", RandomState::new().hash_one(0)).into()
}

/// Makes something under a new name in the folder, and tries another name where one is taken.
fn under_new_name<T>(folder: &Path, make: impl Fn(&Path) -> io::Result<T>) -> io::Result<(PathBuf, T)> {
    for _ in 0..100 {
        let path = folder.join(name());
        match make(&path) {
            Err(error) if error.kind() == ErrorKind::AlreadyExists => {}
            made => return made.map(|made| (path, made)),
        }
    }
    Err(io::Error::from_raw_os_error(sys::EEXIST))
}

/// A draft, and the place that it is to take.
struct Draft {
    path: PathBuf,
    place: PathBuf,
}

/// Drafts that take their places together. Those that have not taken them are removed.
#[derive(Default)]
pub struct Drafts(Vec<Draft>);

impl Drafts {
    /// Writes what is to stand at a place. A file that stands there already must be one that may be written, and the draft has its mode, owner and group
    /// before the first byte is in it.
    pub fn write(&mut self, place: PathBuf, bytes: &[u8]) -> io::Result<()> {
        let old = match OpenOptions::new().write(true).open(&place) {
            Ok(file) => Some(file.metadata()?),
            Err(error) if error.kind() == ErrorKind::NotFound => None,
            Err(error) => return Err(error),
        };
        let mode = old.as_ref().map_or(0o666, |old| old.mode() & 0o700);
        let mut file = self.create(place, mode)?;
        if let Some(old) = old {
            keep_owner(&file, &old)?;
        }
        file.write_all(bytes)?;
        file.sync_all()?;
        sys::closed(file)
    }

    fn create(&mut self, place: PathBuf, mode: u32) -> io::Result<File> {
        let mut standing = standing();
        let create = |path: &Path| OpenOptions::new().write(true).create_new(true).mode(mode).open(path);
        let (path, file) = under_new_name(folder_of(&place), create)?;
        standing.push(path.clone());
        self.0.push(Draft { path, place });
        Ok(file)
    }

    /// Puts each at its place, or none: what stood there comes back where a later one fails.
    pub fn place(mut self) -> Result<(), Unplaced> {
        let mut standing = standing();
        let drafts = std::mem::take(&mut self.0);
        let mut were_there = Vec::new();
        let mut failed = None;
        for Draft { path, place } in &drafts {
            match put(path, place) {
                Ok(was_there) => were_there.push(was_there),
                Err((error, left)) => {
                    let left = left.map(|left| Left { place: place.clone(), path: left });
                    failed = Some(Unplaced { place: place.clone(), error, left: left.into_iter().collect() });
                    break;
                }
            }
        }
        if let Some(failed) = &mut failed {
            for (Draft { path, place }, was_there) in drafts.iter().zip(were_there).rev() {
                if take_back(path, place, was_there).is_err() && was_there {
                    failed.left.push(Left { place: place.clone(), path: path.clone() });
                    // It is the only copy.
                    standing.retain(|other| other != path);
                }
            }
        }
        let kept = failed.as_ref().map_or(&[][..], |failed| &failed.left);
        let is_kept = |draft: &Draft| kept.iter().any(|left| left.path == draft.path);
        forget(&mut standing, drafts.iter().filter(|draft| !is_kept(draft)));
        failed.map_or(Ok(()), Err)
    }
}

/// Drafts that did not take their places: the first place that one could not take, and why.
pub struct Unplaced {
    pub place: PathBuf,
    pub error: io::Error,
    /// The files that could not be put back where they stood.
    pub left: Vec<Left>,
}

/// A file that stood at a place and now has another name.
pub struct Left {
    pub place: PathBuf,
    pub path: PathBuf,
}

impl Drop for Drafts {
    fn drop(&mut self) {
        forget(&mut standing(), self.0.iter());
    }
}

/// Removes what stands under the drafts' names: drafts without a place, or what they replaced.
fn forget<'d>(standing: &mut Vec<PathBuf>, drafts: impl Iterator<Item = &'d Draft>) {
    for Draft { path, .. } in drafts {
        let _ = fs::remove_file(path);
        standing.retain(|other| other != path);
    }
}

/// Where the system does not let the file have the old one's group, the new group may do no more than everybody.
fn keep_owner(file: &File, old: &fs::Metadata) -> io::Result<()> {
    let mut mode = old.mode() & 0o7777;
    if fchown(file, Some(old.uid()), Some(old.gid())).is_err() && fchown(file, None, Some(old.gid())).is_err() {
        mode &= 0o707 | (mode & 0o007) << 3;
    }
    file.set_permissions(fs::Permissions::from_mode(mode))
}

/// Puts a draft at its place, and what stood there, if anything, under the draft's name: atomically where the file system can. With the error, the name of
/// what stood there, where it could not be put back.
fn put(draft: &Path, place: &Path) -> Result<bool, (io::Error, Option<PathBuf>)> {
    let alone = |error: io::Error| (error, None);
    if !fs::exists(place).map_err(alone)? {
        return fs::rename(draft, place).map(|()| false).map_err(alone);
    }
    match sys::exchange(draft, place) {
        Err(error) if error.kind() != ErrorKind::PermissionDenied => by_three_names(draft, place)?,
        exchanged => exchanged.map_err(alone)?,
    }
    Ok(true)
}

/// The same by a third name, for file systems that cannot exchange two.
fn by_three_names(draft: &Path, place: &Path) -> Result<(), (io::Error, Option<PathBuf>)> {
    let (old, ()) = under_new_name(folder_of(place), |path| fs::rename(place, path)).map_err(|error| (error, None))?;
    let placed = fs::rename(draft, place).and_then(|()| fs::rename(&old, draft));
    placed.map_err(|error| (error, fs::rename(&old, place).is_err().then_some(old)))
}

/// Takes a draft back from its place.
fn take_back(draft: &Path, place: &Path, was_there: bool) -> io::Result<()> {
    if was_there {
        fs::rename(draft, place)
    } else {
        fs::remove_file(place)
    }
}
