//! The jobs of `arraymap`, a module each. A further one is a module, a name in `VERBS` and lines in `HELP`.

pub mod batch;
pub mod cells;
pub mod check;
pub mod map;
mod mapping;
pub mod tally;
pub mod two;
pub mod verilog;

use crate::{
    args::{self, flag, with, Given, Known},
    files::{identity, Identity, Source},
    json::Object,
    liberty::Point,
    library::{Library, Reading},
    lines::printable,
    message::{told, Texts},
    program::{print, Failure},
    say,
    version::version,
};
use arraymap::Refusal;
use std::{
    collections::HashMap,
    ffi::{OsStr, OsString},
};

/// A job, its options and what it does.
pub struct Verb {
    name: &'static str,
    usage: &'static str,
    known: &'static [Known],
    run: fn(&Given) -> Result<u8, Failure>,
}

impl Verb {
    /// What is wrong with a command line of this verb.
    fn usage(&self, what: impl Into<String>) -> Failure {
        Failure::Usage(what.into(), self.usage)
    }
}

/// The verbs behind `arraymap`. Without one, `arraymap` maps.
const VERBS: &[&Verb] = &[&check::VERB, &tally::VERB, &cells::VERB, &two::VERB, &batch::VERB, &verilog::VERB];

/// Options of every verb.
const COMMON: &[Known] = &[
    flag("-h"),
    flag("--help"),
    flag("--version"),
    flag("--rename"),
    flag("--fit"),
    with("--load", "load"),
    with("--slew", "slew"),
];

pub const HELP: &str = "\
usage: arraymap [-ps] [-o NETLIST] [-g PICTURE.dot] [-r SHEET.html] [--path OUTPUT].. [--json] [--whole] CELLS GRAPH [ARRIVALS]
       arraymap check [--json] NETLIST CELLS GRAPH
       arraymap tally [-o REPORT] [--json] CELLS NETLIST..
       arraymap cells [-o CELLS] LIBRARY
       arraymap two [-p] [-o NETLIST -o NETLIST] [--json] [--whole] CELLS GRAPH GRAPH [ARRIVALS ARRIVALS]
       arraymap batch [-p] [--json] [--whole] -d FOLDER CELLS GRAPH..
       arraymap verilog [-o MAPPED.v] [--top TOP] [-D TIME] [--keep-hierarchy] [--seconds N] [--require-proof] CELLS FILE.v..
  -p              map with pairs of cells too
  -o FILE         write the netlist, the report or the cell text there and not to standard output; nothing is
                  written after a refusal
  -g PICTURE.dot  draw the netlist for Graphviz, the latest path marked; of a large netlist the cone of that path
  -r SHEET.html   write a page for review: figures, the latest path, outputs, cells, the netlist drawn, what is
                  proved of it, and the texts
  -s              figures to standard error: gates, area, arrival, gates of each cell, the arrival of each output
                  (low and high where delays are ranges), the latest path
  --path OUTPUT   the latest path to this output, by its symbol or as o3, to standard error
  --json          figures and verdicts as JSON on standard output, an object a line; the netlist goes where -o says
  --whole         refuse a graph that one call does not take (9, 16), and do not cut it; --strict is the same: only
                  answers that are proved whole
  -d FOLDER       write the netlist of x.aig as FOLDER/x.blif
  --rename        rename gates of a genlib or Liberty library whose names are not valid cell names: a table of the
                  names stands behind the netlist
  --fit           make a genlib or Liberty library fit: leave out gates that cannot be cells, keep the 32 that matter
                  most, and rename as --rename does
  --load C        read the delay tables of a Liberty library at this output load, in the library's unit
  --slew T        and at this input slew; without these, at the middle of a table
  --version       the version of arraymap, and of the kit that proved its calls
check  compares a netlist, as printed or edited since, with the graph in every setting of its inputs;
       arraymap --check NETLIST CELLS GRAPH is the same
tally  counts the gates of each cell over netlists that were mapped by CELLS
cells  writes the cell text of a genlib or Liberty library
two    maps two graphs in one call, the first netlist before the second; each by itself where one call does not take them
batch  maps many graphs, over all processors, a line each
verilog  maps Verilog with yosys: MAPPED.v, and the cells' models as MAPPED.cells.v, or both to standard output. --top TOP is the
       module, where yosys is not to find it; -D TIME is early enough, and the rest goes for area; modules are flattened, or stay
       with --keep-hierarchy; --seconds N is how long the comparison of source and result may take, 60 where it is not said:
       a result that differs is not written, and with --require-proof none that is not proved equal
CELLS is a cell text, a genlib or a Liberty library, GRAPH an AND graph in either AIGER form, ARRIVALS when late inputs arrive:
docs/GUIDE.md has them. - is standard input, of one text, or standard output. -so FILE is -s -o FILE. -- ends the options.
status: 0 mapped, written, counted or accepted; 1 refused, or differs, with the place on standard error; 2 a file or the command
line is at fault, or arraymap itself: a joined netlist that is found wrong is not written
";

/// Runs what the words ask for. A verb is the first of them: a file of its name is `./check`.
pub fn run(words: impl Iterator<Item = OsString>) -> Result<u8, Failure> {
    let mut words = words.peekable();
    let named = words.peek().and_then(|word| VERBS.iter().find(|verb| *word == verb.name));
    let verb = named.map_or(&map::VERB, |verb| verb);
    if named.is_some() {
        words.next();
    }
    let given = args::read(words, &[COMMON, verb.known].concat()).map_err(|what| verb.usage(what))?;
    if given.has("-h") || given.has("--help") {
        print(HELP).map(|()| 0)
    } else if given.has("--version") {
        print(&version("arraymap")).map(|()| 0)
    } else {
        (verb.run)(&given)
    }
}

/// A text by its name; `-` is standard input.
fn source(path: &OsStr) -> Result<Source, Failure> {
    if path == "-" { Source::standard_input() } else { Source::read(path) }.map_err(Failure::File)
}

/// The files that a verb is given, by what it calls them. Standard input is one text at most.
fn named<'a>(
    verb: &Verb,
    files: &'a [OsString],
    names: &[&'static str],
) -> Result<Vec<(&'static str, &'a OsStr)>, Failure> {
    let last = names.last().copied().unwrap_or_default();
    let names = names.iter().copied().chain(std::iter::repeat(last));
    let files: Vec<(&str, &OsStr)> = names.zip(files).map(|(name, file)| (name, file.as_os_str())).collect();
    if files.iter().filter(|(_, path)| *path == "-").count() > 1 {
        return Err(verb.usage("- is one text: standard input is read once"));
    }
    Ok(files)
}

/// That no file that is read would be written over, and that no file is written twice.
fn spare(verb: &Verb, written: &[&OsStr], read: &[(&'static str, &OsStr)]) -> Result<(), Failure> {
    // The system is asked once for each name, however many there are.
    let mut by_file: HashMap<Identity, &OsStr> = HashMap::new();
    for &path in written {
        if let Some(other) = identity(path).and_then(|file| by_file.insert(file, path)) {
            return Err(verb.usage(format!("{} and {} are the same file", printable(other), printable(path))));
        }
    }
    for (what, path) in read {
        if let Some(path) = identity(path).and_then(|file| by_file.get(&file)) {
            return Err(verb.usage(format!("{} would be written over: it is {what}", printable(path))));
        }
    }
    Ok(())
}

/// The texts of a call, read.
struct Input {
    cells: Library,
    /// What a genlib library was refused for.
    read: Result<(), Refusal>,
    graph: Source,
    arrivals: Source,
    netlist: Source,
}

/// How the library is to be read.
fn reading(verb: &Verb, given: &Given) -> Result<Reading, Failure> {
    let number = |name: &str| match given.value(name) {
        None => Ok(None),
        Some(word) => {
            let value = word.to_str().and_then(|word| word.parse::<f64>().ok());
            let value = value.filter(|value| value.is_finite() && *value >= 0.0);
            value.map(Some).ok_or_else(|| verb.usage(format!("{name} takes a number from 0, in the library's unit")))
        }
    };
    let point = Point { load: number("--load")?, slew: number("--slew")? };
    Ok(Reading { rename: given.has("--rename"), fit: given.has("--fit"), point })
}

impl Input {
    /// The library as it is asked for. What is left out of it is said.
    fn new(cells: Source, reading: &Reading) -> Input {
        let (cells, read) = Library::read_by(cells, reading);
        say(&cells.notes());
        Input { cells, read, graph: Source::none(), arrivals: Source::none(), netlist: Source::none() }
    }

    fn texts(&self) -> Texts<'_> {
        Texts { cells: &self.cells, graph: &self.graph, arrivals: &self.arrivals, netlist: &self.netlist }
    }

    /// The object of a refusal, and its message.
    fn refused(&self, refusal: Refusal) -> (Object, String) {
        refused(refusal, &self.texts())
    }

    /// A refusal that ends the program; its object goes to standard output where it is asked for.
    fn fail(&self, refusal: Refusal, json: bool) -> Failure {
        let (object, message) = self.refused(refusal);
        match if json { print(&object.line()) } else { Ok(()) } {
            Ok(()) => Failure::Refused(message),
            Err(failure) => failure,
        }
    }
}

fn refused(refusal: Refusal, texts: &Texts) -> (Object, String) {
    let told = told(refusal, texts);
    let object =
        Object::of("refused").number("number", u64::from(refusal.number)).number("place", refusal.place as u64);
    (told.fields(object, texts), told.message(&format!("refused {}", refusal.number)))
}
