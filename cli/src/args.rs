//! The words of a command line: options, joined or not, and files.

use crate::lines::printable;
use std::{
    ffi::{OsStr, OsString},
    os::unix::ffi::OsStrExt,
};

/// An option that a verb knows.
#[derive(Clone, Copy)]
pub struct Known {
    /// With its hyphens: one before a letter, two before a word.
    name: &'static str,
    /// What is due behind it, where something is.
    due: Option<&'static str>,
    many: bool,
}

/// An option alone.
pub const fn flag(name: &'static str) -> Known {
    Known { name, due: None, many: true }
}

/// An option with a value behind it, given once.
pub const fn with(name: &'static str, due: &'static str) -> Known {
    Known { name, due: Some(due), many: false }
}

/// An option with a value behind it, given any number of times.
pub const fn with_each(name: &'static str, due: &'static str) -> Known {
    Known { name, due: Some(due), many: true }
}

/// What a command line gives.
#[derive(Default)]
pub struct Given {
    options: Vec<(&'static str, OsString)>,
    pub files: Vec<OsString>,
}

impl Given {
    pub fn has(&self, name: &str) -> bool {
        self.options.iter().any(|(given, _)| *given == name)
    }

    pub fn value(&self, name: &str) -> Option<&OsStr> {
        self.options.iter().find(|(given, _)| *given == name).map(|(_, value)| value.as_os_str())
    }

    pub fn values<'a>(&'a self, name: &'a str) -> impl Iterator<Item = &'a OsStr> {
        self.options.iter().filter(move |(given, _)| *given == name).map(|(_, value)| value.as_os_str())
    }

    /// A file to write: nothing where it is not given, or where it is `-`, standard output.
    pub fn output(&self, name: &str) -> Option<&OsStr> {
        self.value(name).filter(|path| *path != "-")
    }

    fn give(&mut self, known: &Known, value: Option<OsString>) -> Result<(), String> {
        if !known.many && self.has(known.name) {
            return Err(format!("{} is given twice", known.name));
        }
        let missing = || format!("no {} behind {}", known.due.unwrap_or_default(), known.name);
        let value = if known.due.is_some() { value.ok_or_else(missing)? } else { OsString::new() };
        self.options.push((known.name, value));
        Ok(())
    }
}

/// Reads the words. Behind `--` all are files; `-` is a file wherever it stands. `-so FILE` is `-s -o FILE`, `--path=OUTPUT` is `--path OUTPUT`.
pub fn read(mut words: impl Iterator<Item = OsString>, known: &[Known]) -> Result<Given, String> {
    let mut given = Given::default();
    while let Some(word) = words.next() {
        let bytes = word.as_bytes();
        if bytes == b"--" {
            given.files.extend(words);
            break;
        } else if bytes.starts_with(b"--") {
            read_word(bytes, &mut words, known, &mut given)?;
        } else if bytes.len() > 1 && bytes.starts_with(b"-") {
            read_letters(&bytes[1..], &mut words, known, &mut given)?;
        } else {
            given.files.push(word);
        }
    }
    Ok(given)
}

fn find<'k>(known: &'k [Known], name: &[u8]) -> Result<&'k Known, String> {
    let found = known.iter().find(|known| known.name.as_bytes() == name);
    found.ok_or_else(|| format!("no option {}", printable(OsStr::from_bytes(name))))
}

fn read_word(
    word: &[u8],
    words: &mut impl Iterator<Item = OsString>,
    known: &[Known],
    given: &mut Given,
) -> Result<(), String> {
    let mut parts = word.splitn(2, |&byte| byte == b'=');
    let option = find(known, parts.next().unwrap_or_default())?;
    match (option.due, parts.next()) {
        (Some(_), Some(value)) => given.give(option, Some(OsStr::from_bytes(value).into())),
        (Some(_), None) => given.give(option, words.next()),
        (None, None) => given.give(option, None),
        (None, Some(_)) => Err(format!("{} has no value", option.name)),
    }
}

fn read_letters(
    mut letters: &[u8],
    words: &mut impl Iterator<Item = OsString>,
    known: &[Known],
    given: &mut Given,
) -> Result<(), String> {
    while let Some((letter, behind)) = letters.split_first() {
        let Ok(option) = find(known, &[b'-', *letter]) else {
            return find(known, &[b"-", letters].concat()).map(drop);
        };
        letters = behind;
        if option.due.is_some() && !behind.is_empty() {
            return given.give(option, Some(OsStr::from_bytes(behind).into()));
        }
        given.give(option, option.due.and_then(|_| words.next()))?;
    }
    Ok(())
}

#[cfg(test)]
mod tests {
    use super::*;

    /// What is given, in the order of the words: options with their values, a bar, files.
    fn words(line: &str) -> Result<String, String> {
        let known = [flag("-s"), with("-o", "file"), with_each("--path", "output"), flag("--json")];
        let given = read(line.split(' ').map(OsString::from), &known)?;
        let options = given.options.iter().map(|(name, value)| format!("{name}{}", printable(value)));
        let files = given.files.iter().map(|file| printable(file));
        Ok(options.chain(["|".into()]).chain(files).collect::<Vec<_>>().join(" "))
    }

    #[test]
    fn options_stand_anywhere_and_joined() {
        for line in ["-s -o x c g", "-so x c g", "-sox c g", "c -s g -ox", "-s -o x -- c g"] {
            assert_eq!(words(line), Ok("-s -ox | c g".into()), "{line}");
        }
        assert_eq!(words("--path a - --path=b=c"), Ok("--patha --pathb=c | -".into()));
        assert_eq!(words("-s -- -o --json"), Ok("-s | -o --json".into()));
    }

    #[test]
    fn what_is_wrong_is_said() {
        for (line, what) in [
            ("-x", "no option -x"),
            ("-sx", "no option -x"),
            ("--pat", "no option --pat"),
            ("--json=1", "--json has no value"),
            ("-o", "no file behind -o"),
            ("-so", "no file behind -o"),
            ("--path", "no output behind --path"),
            ("-o x -o y", "-o is given twice"),
        ] {
            assert_eq!(words(line), Err(what.into()), "{line}");
        }
    }
}
