//! Files read up to the length that can be accepted. `output` writes them.

pub use crate::output::{identity, same, write_all, Identity, Output};
use crate::{
    foundry::may_be_genlib,
    lines::printable,
    sys::{self, followed, named_descriptor},
};
use arraymap::TEXT_LIMIT;
use std::{
    ffi::OsStr,
    fs::File,
    io::{self, Read},
    path::Path,
};

/// A text, and what messages call it.
pub struct Source {
    pub name: String,
    pub text: Vec<u8>,
}

impl Source {
    /// A text that is not given.
    pub fn none() -> Source {
        Source { name: String::new(), text: Vec::new() }
    }

    /// The file's first bytes, at most one more than a text may have: a longer file is refused as the longer text that it is, and a device that
    /// never ends is not read for ever. A graph, arrivals and a genlib library are read whole, up to a gigabyte.
    pub fn read(path: &OsStr) -> Result<Source, String> {
        let name = printable(path);
        Source::take(opened(Path::new(path)), &name).map_err(|error| format!("cannot read {name}: {}", why(&error)))
    }

    pub fn standard_input() -> Result<Source, String> {
        Source::take(sys::descriptor(0), "<stdin>")
            .map_err(|error| format!("cannot read standard input: {}", why(&error)))
    }

    fn take(from: io::Result<File>, name: &str) -> io::Result<Source> {
        /// A gigabyte.
        const LONGEST: u64 = 1 << 30;
        let (mut from, mut text) = (from?, Vec::new());
        (&mut from).take(TEXT_LIMIT as u64 + 1).read_to_end(&mut text)?;
        // A graph of any size is mapped by several calls, and so are its arrivals read.
        let [by_index, by_symbol] = [crate::arrivals::NAMES_LINE, crate::named::NAMES_LINE].map(str::as_bytes);
        let begins: [&[u8]; 4] = [b"aag ", b"aig ", by_index, by_symbol];
        // A foundry's library has remarks, registers and gates that are left out.
        let foundry = may_be_genlib(&text) || crate::liberty::is_liberty(&text);
        if foundry || begins.iter().any(|begin| text.starts_with(begin)) {
            from.take(LONGEST).read_to_end(&mut text)?;
        }
        Ok(Source { name: name.into(), text })
    }
}

/// A descriptor of this process that was closed when the program began is not there, whatever stands in its place.
fn opened(path: &Path) -> io::Result<File> {
    match followed(path).ok().as_deref().and_then(named_descriptor) {
        Some((fd, true)) => sys::descriptor(fd),
        _ => File::open(path),
    }
}

/// The system's words without the number that Rust adds.
pub fn why(error: &io::Error) -> String {
    let words = error.to_string();
    match error.raw_os_error() {
        Some(number) => words.replace(&format!(" (os error {number})"), ""),
        None => words,
    }
}
