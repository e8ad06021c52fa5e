//! `arraymap` without a verb: a graph mapped, with its figures and its picture.

use super::{
    check,
    mapping::{Mapping, Request, Unmapped},
    named, reading, source, spare, Input, Verb,
};
use crate::{
    args::{flag, with, with_each, Given},
    cells::{self, Cell},
    dot,
    files::{same, write_all, Output},
    graph::Graph,
    json::Object,
    lines::printable,
    message::Texts,
    named::turned,
    netlist::{Driver, Netlist, Totals},
    program::{print, Failure},
    say,
    sheet::Sheet,
    summary::{path, summary, used},
    version::version,
};
use std::ffi::OsStr;

pub const VERB: Verb = Verb {
    name: "map",
    usage: "usage: arraymap [-ps] [-o NETLIST] [-g PICTURE.dot] [-r SHEET.html] [--path OUTPUT].. [--json] [--whole] CELLS GRAPH [ARRIVALS]\n       \
            arraymap check|tally|cells|two|batch|verilog ..\n       arraymap --help says more\n",
    known: &[
        flag("-p"),
        flag("-s"),
        flag("--json"),
        flag("--whole"),
        flag("--strict"),
        with("-o", "file"),
        with("-g", "file"),
        with("-r", "file"),
        with("--check", "file"),
        with_each("--path", "output"),
    ],
    run,
};

fn run(given: &Given) -> Result<u8, Failure> {
    let files = named(&VERB, &given.files, &["CELLS", "GRAPH", "ARRIVALS"])?;
    let ((_, cells), (_, graph), late) = match files[..] {
        [cells, graph] => (cells, graph, None),
        [cells, graph, late] => (cells, graph, Some(late)),
        _ => return Err(VERB.usage("two or three files are due: CELLS GRAPH [ARRIVALS]")),
    };
    if let Some(netlist) = given.value("--check") {
        let maps =
            ["-p", "-s", "-o", "-g", "-r", "--path", "--whole", "--strict"].iter().any(|option| given.has(option));
        if maps || late.is_some() {
            return Err(VERB.usage("--check goes with two files alone: CELLS GRAPH"));
        }
        return check::compare(netlist, cells, graph, given);
    }
    let asked = outputs(given)?;
    spare(&VERB, &asked.written, &files)?;
    let mut input = Input::new(source(cells)?, &reading(&VERB, given)?);
    input.graph = source(graph)?;
    if let Some((_, late)) = late {
        input.arrivals = source(late)?;
    }
    map(given, &asked, &input)?;
    Ok(0)
}

/// What goes where.
struct Asked<'a> {
    /// Each file that is written.
    written: Vec<&'a OsStr>,
    /// The netlist's, or standard output; nothing where objects are printed in its place.
    netlist: Option<Option<&'a OsStr>>,
    picture: Option<Option<&'a OsStr>>,
    sheet: Option<Option<&'a OsStr>>,
}

fn outputs(given: &Given) -> Result<Asked<'_>, Failure> {
    let named = ["-o", "-g", "-r"].map(|option| (option, given.output(option)));
    let written: Vec<(&str, &OsStr)> = named.iter().filter_map(|&(option, path)| Some((option, path?))).collect();
    for (k, (option, path)) in written.iter().enumerate() {
        if let Some((other, _)) = written[..k].iter().find(|(_, other)| same(other, path)) {
            return Err(VERB.usage(format!("{other} and {option} name the same file")));
        }
    }
    let [(_, netlist), (_, picture), (_, sheet)] = named;
    let json = given.has("--json");
    let prints_netlist = netlist.is_none() && (!json || given.has("-o"));
    let prints = [("-g", picture), ("-r", sheet)].map(|(option, path)| given.has(option) && path.is_none());
    if [json, prints_netlist].iter().chain(&prints).filter(|prints| **prints).count() > 1 {
        return Err(VERB.usage("standard output has room for one: the netlist, the picture, the sheet or --json"));
    }
    let netlist = if json && netlist.is_none() { None } else { Some(netlist) };
    let [picture, sheet] = [("-g", picture), ("-r", sheet)].map(|(option, path)| given.has(option).then_some(path));
    Ok(Asked { written: written.into_iter().map(|(_, path)| path).collect(), netlist, picture, sheet })
}

/// A mapped graph, read again.
struct Mapped<'a> {
    totals: Totals,
    netlist: Netlist<'a>,
    cells: Vec<Cell>,
    graph: Option<Graph>,
}

/// Whether only one call's answer is wanted.
pub fn wants_whole(given: &Given) -> bool {
    given.has("--whole") || given.has("--strict")
}

fn map(given: &Given, asked: &Asked, input: &Input) -> Result<(), Failure> {
    let json = given.has("--json");
    input.read.map_err(|refusal| input.fail(refusal, json))?;
    let request = Request { texts: &input.texts(), pairs: given.has("-p"), whole: wants_whole(given) };
    let mapped = request.map().map_err(|unmapped| match unmapped {
        Unmapped::Refused { object, message, .. } => match if json { print(&object.line()) } else { Ok(()) } {
            Ok(()) => Failure::Refused(message),
            Err(failure) => failure,
        },
        Unmapped::Fault(what) => Failure::File(what),
    })?;
    let mut words = mapped.said(None);
    let text = mapped.text.clone() + &input.cells.names(&mapped.text);
    let (mut objects, mut picture, mut sheet) = (String::new(), None, None);
    if asked.picture.is_some() || asked.sheet.is_some() || json || given.has("-s") || given.has("--path") {
        let cells = cells::read(input.cells.text());
        let late = turned(&input.arrivals.text, &input.graph.text);
        let netlist = Netlist::read(&mapped.text, &cells, &late);
        let netlist = netlist.ok_or_else(|| Failure::File("cannot read the netlist again, for its figures".into()))?;
        let whole = Mapped { totals: mapped.totals, netlist, cells, graph: Graph::read(&input.graph.text) };
        let paths = paths(given, &whole)?;
        if given.has("-s") {
            words += &summary(whole.totals, &whole.netlist, &whole.cells, whole.graph.as_ref());
        }
        for &output in &paths {
            words += &path(output, &whole.netlist, &whole.cells, whole.graph.as_ref());
        }
        if json {
            objects = told(given, input, &mapped, &whole, &paths);
        }
        if let Some(to) = asked.picture {
            picture = Some((to, dot::picture(whole.totals, &whole.netlist, &whole.cells, whole.graph.as_ref())));
            words += &dot::note(&whole.netlist, &whole.cells);
        }
        sheet = asked.sheet.map(|to| (to, review(given, input, &whole, &text)));
    }
    let mut outputs: Vec<Output> = asked.netlist.iter().map(|&path| Output { path, text: &text }).collect();
    outputs.extend(picture.iter().chain(&sheet).map(|(path, text)| Output { path: *path, text }));
    if json {
        outputs.push(Output { path: None, text: &objects });
    }
    write_all(&outputs).map_err(Failure::File)?;
    say(words.strip_prefix('\n').unwrap_or(&words));
    Ok(())
}

/// The sheet for review.
fn review(given: &Given, input: &Input, mapped: &Mapped, text: &str) -> String {
    let Mapped { totals, netlist, cells, graph } = mapped;
    let sheet = Sheet {
        version: &version("arraymap"),
        pairs: given.has("-p"),
        totals: *totals,
        text,
        netlist,
        cells,
        graph: graph.as_ref(),
        texts: &input.texts(),
    };
    sheet.html()
}

/// The outputs whose paths are asked for.
fn paths(given: &Given, mapped: &Mapped) -> Result<Vec<usize>, Failure> {
    let output = |word: &OsStr| {
        let named = mapped.graph.as_ref().zip(word.to_str()).map(|(graph, word)| graph.outputs_named(word));
        match named.unwrap_or_default()[..] {
            [output] => Ok(output),
            [] => Err(VERB.usage(format!("the graph has no output {}", printable(word)))),
            [first, second, ..] => {
                let which = format!("o{first} and o{second} have the symbol {}", printable(word));
                Err(VERB.usage(format!("{which}: take one of these for --path")))
            }
        }
    };
    given.values("--path").map(output).collect()
}

/// The figures as objects: of the netlist, of each cell that is used, of each output, of the latest path and of those that are asked for.
fn told(given: &Given, input: &Input, mapping: &Mapping, mapped: &Mapped, paths: &[usize]) -> String {
    let Mapped { netlist, cells, graph, .. } = mapped;
    let mut lines = object(&input.texts(), given.output("-o"), given.has("-p"), mapping).line();
    for (n, cell) in used(netlist, cells) {
        let object = Object::of("cell").text("cell", Some(&cell.name)).number("gates", n);
        lines += &object.number("area", n * u64::from(cell.area)).line();
    }
    for (k, (name, net)) in netlist.outputs.iter().enumerate() {
        let object = Object::of("output").text("output", Some(name));
        let object = object.text("symbol", graph.as_ref().and_then(|graph| graph.output_name(k)));
        let low = netlist.ranges.get(k).map(|(low, _)| *low);
        lines += &object.number("arrival", netlist.arrival(net)).number("low", low).line();
    }
    let latest = netlist.latest(cells).map(|(last, _)| last);
    for &output in latest.iter().chain(paths) {
        let steps = way(output, mapped).into_iter();
        lines += &Object::of("path").text("output", Some(netlist.outputs[output].0)).objects("steps", steps).line();
    }
    lines
}

/// A mapped graph: its texts, where its netlist goes, the figures of the `# gates` line, and what is known of the netlist.
pub fn object(texts: &Texts, netlist: Option<&OsStr>, pairs: bool, mapping: &Mapping) -> Object {
    let Totals { gates, area, arrival } = mapping.totals;
    let object = Object::of("mapped")
        .text("cells", Some(&texts.cells.file.name))
        .text("graph", Some(&texts.graph.name))
        .text("netlist", netlist.map(printable).as_deref())
        .truth("pairs", pairs)
        .number("gates", gates)
        .number("area", area)
        .number("arrival", arrival);
    mapping.known(object)
}

/// The steps of the latest path to an output, from its input on.
fn way(output: usize, mapped: &Mapped) -> Vec<Object> {
    let Mapped { netlist, cells, graph, .. } = mapped;
    let mut into = None;
    let step = |step: &crate::netlist::Step| {
        let pin = std::mem::replace(&mut into, step.into);
        let object = Object::default().text("net", Some(step.net)).number("arrival", netlist.arrival(step.net));
        match netlist.driver(step.net) {
            Some(Driver::Gate(k)) => {
                let object = object.text("cell", Some(&cells[netlist.gates[k].cell].name));
                object.text("pin", pin.map(String::from).as_deref())
            }
            Some(Driver::Input(k)) => {
                let symbol = graph.as_ref().and_then(|graph| graph.input_name(k));
                object.number("input", k as u64).text("symbol", symbol)
            }
            None => object,
        }
    };
    netlist.path(output, cells).iter().rev().map(step).collect()
}
