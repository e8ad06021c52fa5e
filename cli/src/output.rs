//! What a program writes: all of it, or nothing.

use crate::{
    drafts::Drafts,
    files::why,
    lines::printable,
    sys::{self, folder_of, followed, named_descriptor},
};
use std::{
    ffi::OsStr,
    fs::{self, File, OpenOptions},
    io::{self, ErrorKind, Write},
    os::unix::{ffi::OsStrExt, fs::MetadataExt},
    path::{Path, PathBuf},
};

/// Something to write: to a file, or to standard output.
pub struct Output<'a> {
    pub path: Option<&'a OsStr>,
    pub text: &'a str,
}

/// How a name is written to.
enum Target {
    /// A descriptor of this process.
    Descriptor(i32),
    /// Something that is there and no file, or another process's descriptor.
    Stream(PathBuf),
    /// A file, or a name that is free.
    File(PathBuf),
}

/// Writes all of them or leaves none. A file is written beside its place under another name, and takes its place once everything else has been
/// written; a descriptor, a device or a pipe is written to as it is. Where the reader of a pipe has gone, the program ends by SIGPIPE, as other filters do.
pub fn write_all(outputs: &[Output]) -> Result<(), String> {
    let mut drafts = Drafts::default();
    let mut streams = Vec::new();
    for output in outputs {
        let target = target(output.path).map_err(|error| cannot(output.path, &error))?;
        match target {
            Target::File(place) => {
                drafts.write(place, output.text.as_bytes()).map_err(|error| cannot(output.path, &error))?
            }
            stream => streams.push((output, stream)),
        }
    }
    for (output, target) in streams {
        let written = opened(target).and_then(|mut file| {
            file.write_all(output.text.as_bytes())?;
            sys::closed(file)
        });
        match written {
            Err(error) if error.kind() == ErrorKind::BrokenPipe => {
                drop(drafts);
                sys::end_by(sys::SIGPIPE)
            }
            written => written.map_err(|error| cannot(output.path, &error))?,
        }
    }
    drafts.place().map_err(|failed| {
        let left = failed.left.iter().map(|left| {
            format!("; what stood at {} is now {}", printable(left.place.as_os_str()), printable(left.path.as_os_str()))
        });
        left.fold(cannot(Some(failed.place.as_os_str()), &failed.error), |told, line| told + &line)
    })
}

/// That files of these names can be written, before the work begins: drafts of them are made and removed. Devices and pipes are not tried.
pub fn try_all(paths: &[&OsStr]) -> Result<(), String> {
    let mut drafts = Drafts::default();
    for path in paths {
        let tried = match target(Some(path)) {
            Ok(Target::File(place)) => drafts.write(place, b""),
            Ok(Target::Stream(place)) if place.is_dir() => Err(io::Error::from_raw_os_error(sys::EISDIR)),
            Ok(_) => Ok(()),
            Err(error) => Err(error),
        };
        tried.map_err(|error| cannot(Some(path), &error))?;
    }
    Ok(())
}

fn cannot(path: Option<&OsStr>, error: &io::Error) -> String {
    let name = path.map_or("to standard output".into(), printable);
    format!("cannot write {name}: {}", why(error))
}

fn target(path: Option<&OsStr>) -> io::Result<Target> {
    let Some(path) = path else { return Ok(Target::Descriptor(1)) };
    let place = followed(Path::new(path))?;
    if let Some((fd, is_own)) = named_descriptor(&place) {
        return Ok(if is_own { Target::Descriptor(fd) } else { Target::Stream(place) });
    }
    match fs::metadata(&place) {
        Ok(data) if !data.is_file() => Ok(Target::Stream(place)),
        Err(error) if error.kind() != ErrorKind::NotFound => Err(error),
        _ if path.as_bytes().ends_with(b"/") => Err(io::Error::from_raw_os_error(sys::EISDIR)),
        _ if place.file_name().is_none() => Err(io::Error::from_raw_os_error(sys::ENOENT)),
        _ => Ok(Target::File(place)),
    }
}

fn opened(target: Target) -> io::Result<File> {
    match target {
        Target::Descriptor(fd) => sys::descriptor(fd),
        Target::Stream(path) | Target::File(path) => {
            // A file behind another process's descriptor keeps what it has.
            let is_file = fs::metadata(&path).is_ok_and(|data| data.is_file());
            OpenOptions::new().write(true).append(is_file).open(path)
        }
    }
}

/// What two names of one file have in common.
#[derive(PartialEq, Eq, Hash)]
pub enum Identity {
    Node(u64, u64),
    Free(PathBuf),
}

/// The file that a name leads to; `-` is standard input. What is no file has none: it may be read and written at once.
pub fn identity(path: &OsStr) -> Option<Identity> {
    let node = |data: fs::Metadata| data.is_file().then(|| Identity::Node(data.dev(), data.ino()));
    if path == "-" {
        return sys::descriptor(0).and_then(|file| file.metadata()).ok().and_then(node);
    }
    match fs::metadata(path) {
        Ok(data) => node(data),
        Err(_) => {
            let place = followed(Path::new(path)).ok()?;
            let folder = folder_of(&place).canonicalize().ok()?;
            Some(Identity::Free(folder.join(place.file_name()?)))
        }
    }
}

/// Both names lead to one file.
pub fn same(one: &OsStr, other: &OsStr) -> bool {
    let one = identity(one);
    one.is_some() && one == identity(other)
}
