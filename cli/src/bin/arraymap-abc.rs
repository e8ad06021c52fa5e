//! Stands in for ABC in yosys: `abc -exe arraymap-abc -genlib CELLS.genlib`. yosys starts it as ABC, with `-s -f SCRIPT`.

use arraymap_cli::{
    program::{self, Failure},
    yosys::standin,
};
use std::{env, process::ExitCode};

const USAGE: &str = "\
arraymap-abc is started by yosys: abc -exe arraymap-abc -genlib CELLS.genlib [-D TIME] [-dff]
ARRAYMAP_ABC names the ABC that gives other forms of a block, and is empty for none; ARRAYMAP_PAIRS, not empty, maps with pairs of cells
";

/// The script behind `-f`.
fn script() -> Option<String> {
    let mut words = env::args_os().skip_while(|word| word != "-f");
    words.nth(1).map(|word| word.to_string_lossy().into_owned())
}

/// yosys shows standard output alone: what fails is said there.
fn run() -> Result<u8, Failure> {
    let Some(path) = script() else { return program::print(USAGE).map(|()| 2) };
    match standin::serve(&path) {
        Ok(()) => Ok(0),
        Err(why) => {
            let status = if why.starts_with(standin::FAULT) { 2 } else { 1 };
            program::print(&format!("arraymap-abc: {why}\n")).map(|()| status)
        }
    }
}

fn main() -> ExitCode {
    program::end_with_parent();
    program::run("arraymap-abc", run)
}
