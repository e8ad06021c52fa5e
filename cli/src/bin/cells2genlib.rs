//! Writes a cell library as genlib, for ABC, or as Verilog, for yosys and simulators.

use arraymap_cli::{
    cells,
    files::{same, write_all, Output, Source},
    genlib::{genlib, verilog},
    library::Library,
    lines::printable,
    message::{message, Texts},
    program::{self, Failure},
    say,
};
use std::{env, ffi::OsString, process::ExitCode};

const USAGE: &str = "\
usage: cells2genlib [-o FILE] [-t] [-w] CELLS
       cells2genlib [-o FILE] -v CELLS
  -o FILE  write there and not to standard output
  -t       areas and delays as thousandths: 20 is written 0.020
  -w       also a gate netlist_wire without area and delay, for a netlist's .names lines in ABC
  -v       Verilog modules of the cells, and no genlib
CELLS is a cell text or a genlib text: of the latter the pins become A to D, in the order of the netlist.
Of delays that are ranges genlib has the highest, `d0` to `d3`.
status: 0 written; 1 CELLS is refused; 2 a file or the command line is at fault
";

/// A graph that is never refused: with it the call judges the cells alone.
const EMPTY: &[u8] = b"aag 0 0 0 0 0\n";

fn run() -> Result<u8, Failure> {
    let usage = |what: String| Failure::Usage(what, USAGE);
    let (mut to, mut path, mut wire, mut thousandths, mut modules) = (None, None, false, false, false);
    let mut words = env::args_os().skip(1);
    while let Some(word) = words.next() {
        match word.to_str() {
            Some("-o") => to = Some(words.next().ok_or_else(|| usage("no file behind -o".into()))?),
            Some("-w") => wire = true,
            Some("-t") => thousandths = true,
            Some("-v") => modules = true,
            Some("-h" | "--help") => {
                program::print(USAGE)?;
                return Ok(0);
            }
            _ if word.len() > 1 && word.as_encoded_bytes().starts_with(b"-") => {
                return Err(usage(format!("no option {}", printable(&word))))
            }
            _ if path.is_some() => return Err(usage("one file is due: CELLS".into())),
            _ => path = Some(word),
        }
    }
    let path: OsString = path.ok_or_else(|| usage("one file is due: CELLS".into()))?;
    if modules && (wire || thousandths) {
        return Err(usage("-v goes without -t and -w".into()));
    }
    if to.as_ref().is_some_and(|to| same(to, &path)) {
        return Err(usage(format!("{} would be written over: it is CELLS", printable(&path))));
    }
    let (library, read) = Library::read(Source::read(&path).map_err(Failure::File)?);
    let graph = Source { name: String::new(), text: EMPTY.into() };
    let none = Source::none();
    let judged = read.and_then(|()| arraymap::map(library.text(), &graph.text, &none.text));
    let texts = Texts { cells: &library, graph: &graph, arrivals: &none, netlist: &none };
    judged.map_err(|refusal| Failure::Refused(message(refusal, &texts)))?;
    say(&library.notes());
    let cells = cells::read(library.text());
    let text = if modules { verilog(&cells) } else { genlib(&cells, thousandths, wire) };
    write_all(&[Output { path: to.as_deref(), text: &text }]).map_err(Failure::File)?;
    Ok(0)
}

fn main() -> ExitCode {
    program::run("cells2genlib", run)
}
