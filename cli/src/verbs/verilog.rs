//! `arraymap verilog`: Verilog mapped with yosys.

use super::{named, reading, spare, Verb};
use crate::{
    args::{flag, with, Given},
    lines::{printable, shown},
    program::Failure,
    yosys::verilog::{models_of, verilog, Asked},
};
use std::ffi::OsStr;

pub const VERB: Verb = Verb {
    name: "verilog",
    usage: "usage: arraymap verilog [-o MAPPED.v] [--top TOP] [-D TIME] [--keep-hierarchy] [--seconds N] [--require-proof] CELLS FILE.v ..\n       \
            arraymap --help says more\n",
    known: &[
        with("-o", "file"),
        with("--top", "module"),
        with("-D", "time"),
        with("--seconds", "number"),
        flag("--keep-hierarchy"),
        flag("--require-proof"),
    ],
    run,
};

/// How long the comparison of source and result may take.
const SECONDS: u64 = 60;

fn run(given: &Given) -> Result<u8, Failure> {
    let files = named(&VERB, &given.files, &["CELLS", "FILE.v"])?;
    let [(_, cells), sources @ ..] = &files[..] else {
        return Err(VERB.usage("two files or more are due: CELLS FILE.v .."));
    };
    if sources.is_empty() || files.iter().any(|(_, path)| *path == "-") {
        return Err(VERB.usage("two files or more are due, none of them standard input: CELLS FILE.v .."));
    }
    let mapped = given.output("-o");
    let models = mapped.map(models_of);
    let written: Vec<&OsStr> = mapped.into_iter().chain(models.as_deref().map(AsRef::as_ref)).collect();
    spare(&VERB, &written, &files)?;
    let asked = Asked {
        mapped,
        top: word(given, "--top", "no plain name of a module: letters, digits and underscores", is_word)?,
        due: word(given, "-D", "no time", is_time)?,
        seconds: match word(given, "--seconds", "no number of seconds", |word| word.parse::<u32>().is_ok())? {
            Some(said) => said.parse().unwrap_or(SECONDS),
            None => SECONDS,
        },
        require_proof: given.has("--require-proof"),
        keep_hierarchy: given.has("--keep-hierarchy"),
        cells,
        point: reading(&VERB, given)?.point,
        sources: sources.iter().map(|(_, path)| *path).collect(),
    };
    if asked.require_proof && asked.seconds == 0 {
        return Err(VERB.usage("--require-proof asks for a comparison, and --seconds 0 for none"));
    }
    verilog(&asked).map(|()| 0)
}

/// The value of an option that goes into a script of yosys, where it is what it should be.
fn word(given: &Given, option: &str, else_: &str, good: fn(&str) -> bool) -> Result<Option<String>, Failure> {
    let Some(value) = given.value(option) else { return Ok(None) };
    match value.to_str().filter(|word| good(word)) {
        Some(word) => Ok(Some(word.into())),
        None => Err(VERB.usage(format!("{option} {}: {else_}", shown(printable(value).as_bytes())))),
    }
}

fn is_word(word: &str) -> bool {
    let good = |byte: u8| byte.is_ascii_alphanumeric() || byte == b'_';
    word.bytes().all(good) && word.bytes().next().is_some_and(|first| !first.is_ascii_digit())
}

fn is_time(word: &str) -> bool {
    word.bytes().all(|byte| byte.is_ascii_digit() || byte == b'.') && word.parse::<f64>().is_ok()
}
