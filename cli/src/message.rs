//! A refusal in the way of compilers: file and line, what is wrong, the line itself, and what to do.

use crate::{
    arrivals, cells, edited,
    files::Source,
    foundry::normalise,
    graph::{Difference, Due, Graph},
    json::Object,
    library::Library,
    lines::{counted, ending, line_at, number, offset_of, shown, spacing, Line, NUMBER},
    named,
};
use arraymap::{Place, Refusal, TEXT_LIMIT};

/// What is told of a refusal behind its number.
pub struct Told {
    /// Where: a file, or a file and a line.
    at: String,
    what: String,
    /// The line at fault, or what stands in for it.
    line: Option<String>,
    help: String,
}

impl Told {
    pub fn message(&self, verdict: &str) -> String {
        let Told { at, what, line, help } = self;
        let line = line.as_ref().map(|line| format!("    {line}\n")).unwrap_or_default();
        let help = if help.is_empty() { String::new() } else { format!("help: {}\n", help.replace('\n', "\n      ")) };
        format!("{at}: {verdict}: {what}\n{line}{help}")
    }

    /// The same as fields: the file, the line's number where there is one, what is wrong, the line, and what to do.
    pub fn fields(&self, object: Object, texts: &Texts) -> Object {
        let names = [&texts.cells.file.name, &texts.graph.name, &texts.arrivals.name, &texts.netlist.name];
        // Behind the line's number there may be a byte of it, and below the line a mark.
        let line = |name: &String| {
            let behind = self.at.strip_prefix(name.as_str())?.strip_prefix(':')?;
            behind.split(':').next()?.parse::<u64>().ok()
        };
        let text = self.line.as_ref().and_then(|line| line.split('\n').next());
        let named = names.iter().find(|name| line(name).is_some()).filter(|_| !names.contains(&&self.at));
        let help = self.help.replace('\n', " ");
        object
            .text("file", Some(named.map_or(&self.at, |name| name)))
            .number("line", named.and_then(|name| line(name)))
            .text("what", Some(&self.what))
            .text("text", text)
            .text("help", Some(&help).filter(|help| !help.is_empty()).map(String::as_str))
    }
}

/// The texts of a call; those that it is not given are empty.
pub struct Texts<'a> {
    pub cells: &'a Library,
    pub graph: &'a Source,
    pub arrivals: &'a Source,
    pub netlist: &'a Source,
}

/// The message for a refusal of these texts.
pub fn message(refusal: Refusal, texts: &Texts) -> String {
    told(refusal, texts).message(&format!("refused {}", refusal.number))
}

/// What is told of a refusal of these texts.
pub fn told(refusal: Refusal, texts: &Texts) -> Told {
    let &Texts { cells, graph, arrivals, .. } = texts;
    match refusal.place() {
        Place::Cells(byte) if cells.is_written() => in_written(refusal, cells, byte),
        Place::Cells(byte) => in_cells(refusal, &cells.file.name, cells.text(), byte),
        Place::Genlib(byte) => in_genlib(refusal, cells, byte),
        Place::Graph(byte) => in_graph(refusal, graph, byte),
        Place::Arrivals(byte) => in_arrivals(refusal, graph, arrivals, byte),
        Place::Variable(variable) => at_variable(refusal, graph, variable),
        Place::Output(output) => at_output(refusal, graph, output),
        Place::Netlist(byte) if refusal.number == 29 => in_counted(texts, byte),
        Place::Netlist(byte) => in_netlist(refusal, texts, byte),
        Place::Whole | Place::Length(_) => match refusal.number {
            1 => too_long(texts),
            28 => tally_full(texts),
            30 => too_many_pairs(cells),
            _ => Told { at: graph.name.clone(), what: refusal.what().into(), line: None, help: String::new() },
        },
    }
}

/// The message for a netlist that differs from its graph in that setting, at that output.
pub fn difference(setting: usize, output: usize, graph: &Source, netlist: &Source) -> String {
    differing(setting, output, graph, netlist).message("differs")
}

/// What is told of such a netlist.
pub fn differing(setting: usize, output: usize, graph: &Source, netlist: &Source) -> Told {
    let (line, net) = edited::joined(&netlist.text, output).unwrap_or_default();
    let read = Graph::read(&graph.text);
    let name = read.as_ref().and_then(|read| read.output_name(output));
    let name = name.map(|name| format!(" (`{}`)", shown(name.as_bytes()))).unwrap_or_default();
    let literal = read.as_ref().and_then(|read| read.outputs.get(output).copied());
    let value = read.as_ref().zip(literal).and_then(|(read, literal)| read.value(literal, setting));
    let values = value.map(|value| format!(": the netlist gives {}, the graph {}", u8::from(!value), u8::from(value)));
    Told {
        at: format!("{}:{line}", netlist.name),
        what: format!("output o{output}{name}{}", values.unwrap_or_default()),
        line: read.map(|read| edited::inputs_in(setting, &read)),
        help: format!(
            "that is setting {setting}, the lowest in which an output is wrong, and o{output} is its first wrong output:\n\
             look at the gates behind net `{}`",
            shown(net)
        ),
    }
}

fn too_long(texts: &Texts) -> Told {
    let &Texts { cells, graph, arrivals, netlist } = texts;
    if cells.is_written() && cells.text().len() > TEXT_LIMIT {
        let (length, gates) = (cells.text().len(), cells::read(cells.text()).len());
        return Told {
            at: cells.file.name.clone(),
            what: format!("its {gates} gates give a cell text of {length} bytes: longer than 65,536"),
            line: None,
            help: "leave out gates: a cell library has up to 32 cells".into(),
        };
    }
    let files = [&cells.file, graph, arrivals, netlist];
    // A longer genlib library was read, and its cell text is short enough.
    let is_long = |k: usize| files[k].text.len() > TEXT_LIMIT && !(k == 0 && cells.is_written());
    let long = (0..files.len()).find(|k| is_long(*k)).unwrap_or_default();
    let help = match long {
        0 => "a cell library has up to 32 cells",
        1 if graph.text.starts_with(b"aag ") => {
            "write the graph in the binary form, a third as long or less (yosys `write_aiger` without `-ascii`,\n\
             `aigtoaig graph.aag graph.aig`), or split it"
        }
        1 => "split the graph: M is at most 4,095",
        2 => "the arrivals have a line for each late input: a graph has 4,095 inputs at most",
        _ => return long_netlist(netlist, !graph.text.is_empty()),
    };
    Told { at: files[long].name.clone(), what: "longer than 65,536 bytes".into(), line: None, help: help.into() }
}

/// A netlist may be longer than a text that is read. A check reads nothing behind `.end`, a count does.
fn long_netlist(netlist: &Source, is_checked: bool) -> Told {
    let is_read = netlist.text.windows(6).position(|bytes| bytes == b"\n.end\n").is_none_or(|at| at + 6 > TEXT_LIMIT);
    let help = match (is_checked, is_read) {
        (true, false) => "cut off what follows `.end`: it is not read",
        (true, true) => {
            "a graph whose netlist is longer is mapped, but its netlist is not checked: have ABC compare it with the graph\n\
             (docs/GUIDE.md, \"From Verilog to a BLIF netlist\"), or split the graph by its outputs and check each part's netlist"
        }
        _ => {
            "a graph whose netlist is longer is mapped, but its netlist is not counted: `arraymap -s` shows the gates of each cell\n\
             of one netlist; or split the graph by its outputs and count the parts' netlists"
        }
    };
    let what = "longer than 65,536 bytes, the documents' limit for every text that is read".into();
    Told { at: netlist.name.clone(), what, line: None, help: help.into() }
}

/// A netlist that comes behind 64 others.
fn tally_full(texts: &Texts) -> Told {
    Told {
        at: texts.netlist.name.clone(),
        what: "64 netlists are counted already".into(),
        line: None,
        help: "a tally has 64 netlists at most: count the others in another".into(),
    }
}

/// A line of a netlist that is counted (29).
fn in_counted(texts: &Texts, byte: usize) -> Told {
    let text = &texts.netlist.text;
    let line = line_at(text, byte);
    let words: Vec<&[u8]> = line.bytes.split(|&byte| byte == b' ').collect();
    let listed = cells::read(texts.cells.text());
    let has = |name: &[u8]| listed.iter().any(|cell| cell.name.as_bytes() == name);
    let what = match words[..] {
        _ if byte >= text.len() => "the file ends where a line is due".into(),
        [b".gate", name, ..] if !has(name) => format!("the library has no cell `{}`", shown(name)),
        [b"#", b"gates", ..] => "not the number and the area of the gates above it".into(),
        _ => format!("not a line that mapping prints there{}", behind(ending(&line))),
    };
    Told {
        at: format!("{}:{}", texts.netlist.name, line.number),
        what,
        line: (byte < text.len() && !line.bytes.is_empty()).then(|| shown(line.bytes)),
        help: "hand over the netlist as it was printed, with the library that it was mapped by".into(),
    }
}

fn too_many_pairs(cells: &Library) -> Told {
    let listed = cells::read(cells.text());
    let pairs = cells::pairs(&listed);
    let (cell, pair) = (counted(listed.len(), "cell", "cells"), counted(pairs, "pair", "pairs"));
    Told {
        at: cells.file.name.clone(),
        what: format!("{cell} form {pair}, together {}: more than 256", listed.len() + pairs),
        line: None,
        help: "leave out cells, first those that a pair makes, as a NAND and an inverter behind it make an AND;\n\
               or map without -p"
            .into(),
    }
}

/// A line of an edited netlist (32, 33).
fn in_netlist(refusal: Refusal, texts: &Texts, byte: usize) -> Told {
    let text = &texts.netlist.text;
    let line = line_at(text, byte);
    let mut told = Told {
        at: format!("{}:{}", texts.netlist.name, line.number),
        what: refusal.what().into(),
        line: (byte < text.len() && !line.bytes.is_empty()).then(|| shown(line.bytes)),
        help: String::new(),
    };
    let Some(graph) = Graph::read(&texts.graph.text) else { return told };
    if refusal.number == 32 {
        let (what, help) = edited::fault(text, byte, &cells::read(texts.cells.text()), &graph);
        (told.what, told.help) = (what, help.into());
    } else if let Some(found) = edited::conflict(text, byte, &graph) {
        (told.what, told.help) = found;
    }
    told
}

/// A byte order mark, which editors do not show.
fn marked(line: &Line) -> Option<String> {
    line.bytes
        .starts_with(b"\xef\xbb\xbf")
        .then(|| "the file begins with a byte order mark (bytes ef bb bf): save it without".into())
}

fn in_cells(refusal: Refusal, file: &str, text: &[u8], byte: usize) -> Told {
    let line = line_at(text, byte);
    let name = line.bytes.split(|&byte| byte == b' ').next().unwrap_or_default();
    let names_line = format!(
        "the first line is `{}`, ended by byte 10, with `l0 l1 l2 l3` behind `d3` where delays are ranges",
        cells::NAMES_LINE
    );
    let (what, help): (String, String) = match refusal.number {
        2 if text.is_empty() => ("the file is empty".into(), names_line),
        2 => {
            let why = marked(&line).or_else(|| {
                let names = [cells::NAMES_LINE, cells::RANGED_LINE].iter().any(|names| line.bytes == names.as_bytes());
                ending(&line).filter(|_| names)
            });
            let genlib = text.windows(6).any(|word| word == b"\nGATE ");
            let remove =
                "the first word of a genlib library is GATE or LATCH, behind remarks: remove what stands before it"
                    .into();
            (format!("not the names line{}", behind(why)), if genlib { remove } else { names_line })
        }
        3 if line.bytes.is_empty() => {
            ("an empty line behind 32 cells".into(), "remove it: nothing follows the last cell line".into())
        }
        3 => ("a thirty-third cell".into(), "leave out cells: a library has 32 at most".into()),
        4 => {
            let why = cells::fault(text, &line);
            let fields = line.bytes.split(|&byte| byte == b' ').count();
            let help = if line.bytes.is_empty() || line.bytes.starts_with(b"#") {
                "remove it".into()
            } else if cells::is_ranged(text) {
                "with this names line a cell line is NAME PINS TABLE AREA D0 D1 D2 D3 L0 L1 L2 L3, as\n\
                 `nand2 2 0007 2 20 18 0 0 14 12 0 0`"
                    .into()
            } else if fields == 12 {
                format!("a library with lowest delays has the first line `{}`", cells::RANGED_LINE)
            } else {
                "a cell line is NAME PINS TABLE AREA D0 D1 D2 D3, as `nand2 2 0007 2 20 18 0 0`".into()
            };
            (format!("not a cell line{}", behind(why)), help)
        }
        5 => {
            let first = cells::line_of(text, name, line.number);
            let on = first.map(|number| format!(": line {number} has it")).unwrap_or_default();
            (format!("the cell name `{}` is repeated{on}", shown(name)), "rename one of the two".into())
        }
        6 => {
            let what = cells::beyond(text, &line).unwrap_or_else(|| refusal.what().into());
            (what, "clear it, or correct `pins`: rows at or above 2^pins and the delays of absent pins are 0".into())
        }
        27 => {
            let what = cells::above(&line).unwrap_or_else(|| refusal.what().into());
            (what, "a pin's lowest delay, `l`, is at most its delay, `d`: correct one of the two".into())
        }
        _ => (refusal.what().into(), String::new()),
    };
    let shows = (byte < text.len() && !line.bytes.is_empty()).then(|| shown(line.bytes));
    Told { at: format!("{file}:{}", line.number), what, line: shows, help }
}

/// A cell that was written from a gate: the gate's line is the one to change.
fn in_written(refusal: Refusal, cells: &Library, byte: usize) -> Told {
    let mut told = in_cells(refusal, &cells.file.name, cells.text(), byte);
    let line = line_at(cells.text(), byte);
    let at = |number: usize| cells.gate_line(number.saturating_sub(2));
    if let Some(number) = at(line.number) {
        told.at = format!("{}:{number}", cells.file.name);
        told.line = offset_of(&cells.file.text, number).map(|offset| shown(line_at(&cells.file.text, offset).bytes));
    }
    match refusal.number {
        3 => {
            told.what = "a thirty-third gate".into();
            told.help = "have `--fit` keep the 32 that matter most, or leave gates out".into();
        }
        4 => {
            let why = cells::fault(cells.text(), &line);
            told.what = format!("the gate gives no cell line{}", behind(why));
            told.help =
                "rename the gate, or have `--rename` or `--fit` do it: then the names stand behind the netlist".into();
        }
        5 => {
            let name = line.bytes.split(|&byte| byte == b' ').next().unwrap_or_default();
            let first = cells::line_of(cells.text(), name, line.number).and_then(at);
            let on = first.map(|number| format!(": line {number} has it")).unwrap_or_default();
            told.what = format!("the gate name `{}` is repeated{on}", shown(name));
        }
        _ => {}
    }
    told
}

/// A word of a genlib library, by line and byte.
fn in_genlib(refusal: Refusal, cells: &Library, byte: usize) -> Told {
    let file = &cells.file;
    let (at, line) = pointed(&file.name, &file.text, byte);
    let fault = cells.fault.clone().or_else(|| normalise(&file.text).err());
    let (what, help) = fault.map_or((refusal.what().into(), String::new()), |fault| (fault.what, fault.help));
    Told { at, what, line: Some(line), help }
}

/// File, line and byte of the line from 1, as compilers count; and the line with a mark under that byte.
fn pointed(file: &str, text: &[u8], byte: usize) -> (String, String) {
    const BEFORE: usize = 60;
    let byte = byte.min(text.len());
    let start = text[..byte].iter().rposition(|&byte| byte == b'\n').map_or(0, |k| k + 1);
    let line = line_at(text, start);
    let cut = (byte - start).saturating_sub(BEFORE);
    let dots = if cut > 0 { ".. " } else { "" };
    let before = format!("{dots}{}", shown(&text[start + cut..byte]));
    let shows =
        format!("{dots}{}\n    {}^", shown(line.bytes.get(cut..).unwrap_or_default()), " ".repeat(before.len()));
    (format!("{file}:{}:{}", line.number, byte - start + 1), shows)
}

fn behind(why: Option<String>) -> String {
    why.map(|why| format!(": {why}")).unwrap_or_default()
}

fn in_graph(refusal: Refusal, source: &Source, byte: usize) -> Told {
    let text = &source.text;
    let line = line_at(text, byte);
    let graph = Graph::read(text);
    let shows = (byte < text.len() && !line.bytes.is_empty()).then(|| shown(line.bytes));
    let mut told = Told {
        at: format!("{}:{}", source.name, line.number),
        what: refusal.what().into(),
        line: shows,
        help: String::new(),
    };
    match (refusal.number, graph) {
        (7, _) => header_form(&mut told, text, &line),
        (_, None) => {}
        (8, Some(graph)) => {
            let [_, _, latches, _, _] = graph.header;
            told.what = format!("the graph has {}", counted(latches, "latch", "latches"));
            told.help = "map the logic between the latches: ABC's `comb` makes each latch an input and an output\n\
                         (`berkeley-abc -c \"read graph.aig; comb; write_aiger logic.aig\"`)"
                .into();
        }
        (9, Some(graph)) => {
            let [m, inputs, _, outputs, ands] = graph.header;
            let used = inputs + ands;
            (told.what, told.help) = if used > m {
                (
                    format!("I + A is {used}, more than M, {m}"),
                    "the header is `aag M I L O A`: M is the highest variable".into(),
                )
            } else if m > 4_095 {
                let help = if used <= 4_095 {
                    format!("only {used} variables are defined: number them from 1 without gaps")
                } else {
                    "split the graph: a net between two parts is an output of one and an input of the other".into()
                };
                (format!("M is {m}, more than 4095"), help)
            } else {
                (format!("O is {outputs}, more than 4096"), "split the graph by its outputs".into())
            }
        }
        (19, Some(graph)) => {
            let [m, inputs, _, _, ands] = graph.header;
            told.what = format!("M is {m}, and I + A is {}: in the binary form they are equal", inputs + ands);
            told.help = "have the tool that wrote it number the variables in turn, or write the ASCII form".into();
        }
        (31, Some(graph)) => {
            told.what = format!("the graph has {} inputs, and a netlist is checked over 12 at most", graph.header[1]);
            told.help = "split the graph and check its parts; or have ABC compare the netlist with the graph\n\
                         (docs/GUIDE.md, \"From Verilog to a BLIF netlist\")"
                .into();
        }
        (20 | 21, Some(graph)) => differences(&mut told, refusal, source, &graph, byte),
        (_, Some(graph)) => due_line(&mut told, refusal, text, &graph, &line, byte),
    }
    told
}

fn header_form(told: &mut Told, text: &[u8], line: &Line) {
    let words = ["aag", "M", "I", "L", "O", "A"];
    let first = line.bytes.split(|&byte| byte == b' ').next().unwrap_or_default();
    told.help =
        "the first line is `aag M I L O A` or `aig M I L O A`: highest variable, inputs, latches, outputs, ANDs".into();
    if text.is_empty() {
        told.what = "the file is empty".into();
        return;
    }
    let why = marked(line)
        .or_else(|| (first != b"aag" && first != b"aig").then(|| format!("the first word is `{}`", shown(first))))
        .or_else(|| spacing(line.bytes, &words))
        .or_else(|| {
            let fields = line.bytes.split(|&byte| byte == b' ').skip(1).zip(&words[1..]);
            let bad = |(field, what): (&[u8], &&str)| {
                number(field).is_none().then(|| format!("{what} is {NUMBER}, not `{}`", shown(field)))
            };
            fields.into_iter().find_map(bad)
        })
        .or_else(|| ending(line));
    told.what = format!("not an AIGER header{}", behind(why));
}

fn differences(told: &mut Told, refusal: Refusal, source: &Source, graph: &Graph, byte: usize) {
    told.at.clone_from(&source.name);
    told.line = None;
    let Some(difference) = graph.difference_at(&source.text, byte) else { return };
    let Difference { variable, which, from, value } = difference;
    let whose = format!("the {which} difference of variable {variable}");
    let long = source.text.get(byte..byte + 2).is_some_and(|bytes| bytes.iter().all(|&byte| byte >= 128));
    let value = value.unwrap_or_default();
    let again = "the file is damaged, by a copy as text for instance: write it again";
    (told.what, told.help) = match refusal.number {
        20 if long => (format!("{whose}, at byte {byte}, takes more than two bytes"), again.into()),
        20 => {
            let ands = counted(graph.header[4], "AND", "ANDs");
            (
                format!("the file ends in {whose}, at byte {byte}"),
                format!("the header has {ands}: the file is cut off, or A is wrong"),
            )
        }
        _ if value == 0 => (format!("{whose}, at byte {byte}, is 0: an operand is below its AND"), again.into()),
        _ => (
            format!("{whose}, at byte {byte}, is {value}, more than the literal {from} that it is taken from"),
            again.into(),
        ),
    };
}

/// An input, output or AND line (11 to 14).
fn due_line(told: &mut Told, refusal: Refusal, text: &[u8], graph: &Graph, line: &Line, byte: usize) {
    let [m, inputs, _, outputs, ands] = graph.header;
    let (kind, k, of, due): (&str, usize, usize, &[&str]) = match graph.due(line.number) {
        Due::Input(k) => ("input", k, inputs, &["literal"]),
        Due::Output(k) => ("output", k, outputs, &["literal"]),
        Due::And(k) => ("AND", k, ands, &["left", "first", "second"]),
    };
    let which = format!("{kind} line {} of {of}", k + 1);
    let fields: Vec<&[u8]> = line.bytes.split(|&byte| byte == b' ').collect();
    let literals: Vec<Option<usize>> = fields.iter().map(|field| number(field)).collect();
    let asked = format!(
        "the header asks for {}, {} and {}",
        counted(inputs, "input", "inputs"),
        counted(outputs, "output", "outputs"),
        counted(ands, "AND", "ANDs")
    );
    match refusal.number {
        11 if byte >= text.len() => {
            told.what = format!("the file ends where {which} is due");
            told.help = format!("{asked}: the file is cut off, or the header is wrong");
        }
        11 => {
            let why = spacing(line.bytes, due)
                .or_else(|| {
                    let bad = fields.iter().zip(&literals).find(|(_, literal)| literal.is_none())?;
                    Some(format!("a literal is {NUMBER}, not `{}`", shown(bad.0)))
                })
                .or_else(|| ending(line));
            told.what = format!("{which} breaks its form{}", behind(why));
            told.help = format!("{asked}, a line each: correct the line, or the header");
        }
        12 => {
            let high = literals.iter().flatten().find(|&&literal| literal > 2 * m + 1);
            let first = literals.first().copied().flatten();
            told.what = match (high, first) {
                (Some(high), _) => format!("literal {high} exceeds 2M+1, {}", 2 * m + 1),
                (None, Some(first)) if kind != "output" => {
                    let side = if kind == "AND" { "the left literal of an AND" } else { "an input's literal" };
                    format!("{side} is even and not 0, and this one is {first}")
                }
                _ => refusal.what().into(),
            };
            told.help = "literal 2v is variable v, 2v+1 its complement; correct the line, or M in the header".into();
        }
        13 => {
            let variable = literals.first().copied().flatten().unwrap_or_default() / 2;
            let on = graph.defined_on(variable, line.number).map(|on| format!(" on line {on}")).unwrap_or_default();
            told.what = format!("variable {variable} is already defined{on}");
            told.help = "an input or AND defines its variable once: remove one of the two lines, or renumber it".into();
        }
        14 => {
            let used = if kind == "AND" { literals.get(1..).unwrap_or_default() } else { &literals[..] };
            let open = used.iter().flatten().find(|&&literal| !graph.is_defined(literal / 2));
            if let Some(open) = open {
                told.what = format!("literal {open} is of variable {}, which no input or AND defines", open / 2);
            }
            told.help = "add the input or the AND that defines it, or correct the literal".into();
        }
        _ => {}
    }
}

/// A line of arrivals by symbols (25, 26).
fn in_named(refusal: Refusal, graph: &Source, file: &Source, byte: usize) -> Told {
    let line = line_at(&file.text, byte);
    let fields = named::fields(line.bytes);
    let symbol = fields.map_or(&b""[..], |(symbol, _)| symbol);
    let read = Graph::read(&graph.text);
    let by_name = read.as_ref().map(Graph::inputs_by_name).unwrap_or_default();
    let inputs = by_name.get(&*String::from_utf8_lossy(symbol)).map_or(&[][..], Vec::as_slice);
    let (what, help) = match (refusal.number, inputs) {
        (25, _) => {
            let why = match fields {
                _ if line.bytes.is_empty() => Some("the line is empty".into()),
                None if line.number > 1 => Some("a symbol, a space and an arrival are due".into()),
                Some((_, at)) if line.number > 1 && number(at).is_none() => {
                    Some(format!("the arrival is {NUMBER}, not `{}`", shown(at)))
                }
                _ => ending(&line),
            };
            let form = format!(
                "the first line is `{}`; each line after it has an input's symbol and its arrival: `sample[1] 40`",
                named::NAMES_LINE
            );
            (format!("not a line of arrivals{}", behind(why)), form)
        }
        (_, []) => {
            let what = format!("no input of the graph has the symbol `{}`", shown(symbol));
            (what, "the symbols are the lines `i0 NAME` behind the graph's ANDs: correct the line, or remove it".into())
        }
        (_, [k]) => {
            let first = (2..line.number).find(|&other| {
                let offset = offset_of(&file.text, other).unwrap_or_default();
                named::fields(line_at(&file.text, offset).bytes).is_some_and(|(other, _)| other == symbol)
            });
            let on = first.map(|first| format!(": line {first} has it")).unwrap_or_default();
            (format!("input {k}, `{}`, is repeated{on}", shown(symbol)), "remove one of the two lines".into())
        }
        (_, several) => {
            let several: Vec<String> = several.iter().map(usize::to_string).collect();
            let what = format!("inputs {} have the symbol `{}`", several.join(" and "), shown(symbol));
            (what, "give arrivals by the inputs' numbers: the first line is then `input arrival`".into())
        }
    };
    let shows = (!line.bytes.is_empty()).then(|| shown(line.bytes));
    Told { at: format!("{}:{}", file.name, line.number), what, line: shows, help }
}

fn in_arrivals(refusal: Refusal, graph: &Source, file: &Source, byte: usize) -> Told {
    if named::is_named(&file.text) {
        return in_named(refusal, graph, file, byte);
    }
    let line = line_at(&file.text, byte);
    let shows = (!line.bytes.is_empty()).then(|| shown(line.bytes));
    let form = format!(
        "the first line is `{}`; each line after it has an input, from 0, and its arrival: `3 25`",
        arrivals::NAMES_LINE
    );
    let input = arrivals::input(line.bytes).unwrap_or_default();
    let (what, help) = match refusal.number {
        25 => (format!("not a line of arrivals{}", behind(arrivals::fault(&line))), form),
        _ => match arrivals::line_of(&file.text, input, line.number) {
            Some(number) => {
                (format!("input {input} is repeated: line {number} has it"), "remove one of the two lines".into())
            }
            None => {
                let inputs = Graph::read(&graph.text).map_or(0, |graph| graph.header[1]);
                let has = counted(inputs, "input", "inputs");
                (
                    format!("there is no input {input}: the graph has {has}, counted from 0"),
                    "remove the line, or correct the input".into(),
                )
            }
        },
    };
    Told { at: format!("{}:{}", file.name, line.number), what, line: shows, help }
}

fn at_variable(refusal: Refusal, source: &Source, variable: usize) -> Told {
    let mut told = Told { at: source.name.clone(), what: refusal.what().into(), line: None, help: String::new() };
    let Some(graph) = Graph::read(&source.text) else { return told };
    if let Some(and) = graph.and(variable) {
        match and.line {
            Some(number) => {
                told.at = format!("{}:{number}", source.name);
                let offset = offset_of(&source.text, number).unwrap_or_default();
                told.line = Some(shown(line_at(&source.text, offset).bytes));
            }
            None => told.line = Some(format!("{} (as a line of the ASCII form)", and.text())),
        }
    }
    if refusal.number == 15 {
        let circle = graph.circle(variable);
        told.what = format!("the AND of variable {variable} waits, directly or not, for itself");
        if let (Some(first), false) = (circle.first(), circle.contains(&variable)) {
            told.what = format!("the AND of variable {variable} waits behind a circle, at variable {first}");
        }
        let shown: Vec<String> = circle.iter().chain(circle.first()).take(20).map(usize::to_string).collect();
        let dots = if circle.len() > 20 { " .." } else { "" };
        told.help = format!("break the circle: {}{dots} (each uses the next)", shown.join(" "));
    } else {
        told.what = format!("the AND of variable {variable} has more than 18 cuts");
        told.help = "`arraymap CELLS GRAPH` without --whole cuts the graph and joins the netlists of several calls (docs/GUIDE.md, \"Graphs of\n\
                     any size\"); or try another form of the same logic: `aigmap` after `abc -g AND,XOR`, after `abc -fast -g AND`, or\n\
                     after plain `synth`"
            .into();
    }
    told
}

fn at_output(refusal: Refusal, source: &Source, output: usize) -> Told {
    let mut told = Told { at: source.name.clone(), what: refusal.what().into(), line: None, help: String::new() };
    let Some(graph) = Graph::read(&source.text) else { return told };
    let name = graph.output_name(output).map(|name| format!(" (`{}`)", shown(name.as_bytes()))).unwrap_or_default();
    let literal = graph.outputs.get(output).copied();
    let number = graph.output_line(output);
    told.at = format!("{}:{number}", source.name);
    told.line = offset_of(&source.text, number).map(|offset| shown(line_at(&source.text, offset).bytes));
    told.what = format!("no cells drive output {output}{name}");
    told.help = match literal {
        Some(literal @ (0 | 1)) => format!(
            "it is the constant {literal}: add a cell without pins, as `tie{literal} 0 000{literal} 1 0 0 0 0`, or the other constant and an inverter"
        ),
        _ => "add cells: an inverter, as `inv 1 0001 1 10 0 0 0`, and a NAND or NOR of two pins drive every AND".into(),
    };
    told
}
