//! Netlists as the layout group might edit them, with their library and graph: gates
//! shuffled, nets renamed, gates swapped for wiring or for other cells, rewired, in
//! circles, taken out, twice; lines out of form; damage.

use crate::gen::{self, Lent, Rng};
use crate::{check, checks, reference, CUT_LIMIT};
use std::collections::BTreeMap;

#[derive(Clone, Debug)]
pub struct Case {
    pub what: String,
    pub cells: Vec<u8>,
    pub graph: Vec<u8>,
    pub netlist: Vec<u8>,
    pub words: Lent,
    pub knows: Known,
}

/// What the making knows of a case, with words enough.
#[derive(Clone, Copy, Debug, PartialEq, Eq)]
pub enum Known {
    Accepted,
    Refused(u32, usize),
    Nothing,
}

impl Case {
    pub fn words(&self) -> usize {
        self.words.of(check::words_needed(&self.graph, &self.netlist).unwrap_or(64)).min(700_000)
    }

    /// Accepted, refused or nothing known, with the words that are lent.
    pub fn knows(&self) -> Known {
        match self.words {
            Lent::OneShort if self.knows == Known::Accepted => Known::Refused(10, 0),
            Lent::Exact | Lent::Over(_) => self.knows,
            _ => Known::Nothing,
        }
    }
}

/// A gate line or, without a cell, a `.names` line in parts.
#[derive(Clone, Debug)]
pub struct Part {
    pub cell: Option<String>,
    pub feeds: Vec<String>,
    pub net: String,
}

/// A good netlist in parts: its first three lines, its gates, its `.names` lines.
#[derive(Clone, Debug)]
pub struct Parts {
    pub head: Vec<String>,
    pub gates: Vec<Part>,
    pub names: Vec<Part>,
    pub rest: String,
}

impl Parts {
    pub fn of(netlist: &[u8]) -> Parts {
        let text = String::from_utf8_lossy(netlist);
        let mut parts = Parts { head: Vec::new(), gates: Vec::new(), names: Vec::new(), rest: String::new() };
        let mut lines = text.split_inclusive('\n');
        parts.head.extend(lines.by_ref().take(3).map(String::from));
        while let Some(line) = lines.next() {
            let words: Vec<&str> = line.split_whitespace().collect();
            match words[0] {
                ".gate" => {
                    let mut nets: Vec<String> = words[2..].iter().map(|word| word[2..].to_string()).collect();
                    let net = nets.pop().expect("an output");
                    parts.gates.push(Part { cell: Some(words[1].into()), feeds: nets, net });
                }
                ".names" => {
                    parts.names.push(Part { cell: None, feeds: vec![words[1].into()], net: words[2].into() });
                    lines.next();
                }
                _ => {
                    parts.rest = lines.collect();
                    break;
                }
            }
        }
        parts
    }

    /// The lines up to `.end`.
    pub fn lines(&self) -> Vec<String> {
        let mut lines = self.head.clone();
        for Part { cell, feeds, net } in self.gates.iter().chain(&self.names) {
            match cell {
                Some(cell) => {
                    let pins: String = "ABCD".chars().zip(feeds).map(|(pin, feed)| format!(" {pin}={feed}")).collect();
                    lines.push(format!(".gate {cell}{pins} O={net}\n"));
                }
                None => lines.extend([format!(".names {} {net}\n", feeds[0]), "1 1\n".into()]),
            }
        }
        lines.push(".end\n".into());
        lines
    }

    pub fn text(&self) -> Vec<u8> {
        (self.lines().concat() + &self.rest).into_bytes()
    }

    /// The offset of a gate's line.
    fn gate_at(&self, gate: usize) -> usize {
        self.lines()[..3 + gate].iter().map(String::len).sum()
    }

    fn inputs(&self) -> Vec<String> {
        self.head[1].split_whitespace().skip(1).map(String::from).collect()
    }

    /// Every net that a line drives.
    fn nets(&self) -> Vec<String> {
        let driven = self.gates.iter().chain(&self.names).map(|part| part.net.clone());
        self.inputs().into_iter().chain(driven).collect()
    }
}

fn fresh(rng: &mut Rng, taken: &[String]) -> String {
    const LETTERS: &[u8] = b"abcpmosxyzABCPMOSXYZ0123456789";
    loop {
        let length = if rng.one_in(3) { 8 } else { rng.between(1, 8) };
        let name: String = (0..length).map(|_| rng.pick(LETTERS) as char).collect();
        // No name of an input or an output.
        if !taken.contains(&name) {
            return name;
        }
    }
}

/// The inner nets get other names.
fn renamed(rng: &mut Rng, parts: &Parts) -> Parts {
    let mut taken: Vec<String> = parts.nets();
    let mut names: BTreeMap<String, String> = BTreeMap::new();
    for gate in &parts.gates {
        let name = fresh(rng, &taken);
        taken.push(name.clone());
        names.insert(gate.net.clone(), name);
    }
    let name = |net: &String| names.get(net).unwrap_or(net).clone();
    let part = |part: &Part| Part {
        cell: part.cell.clone(),
        feeds: part.feeds.iter().map(name).collect(),
        net: if part.cell.is_some() { name(&part.net) } else { part.net.clone() },
    };
    Parts {
        gates: parts.gates.iter().map(part).collect(),
        names: parts.names.iter().map(part).collect(),
        ..parts.clone()
    }
}

/// A library and a graph that it maps, with the netlist printed; inputs up to 6, rarely
/// 12, and sometimes with pairs of cells.
fn base(rng: &mut Rng) -> (Vec<gen::Cell>, Vec<u8>, Vec<u8>, Vec<u8>) {
    loop {
        let cells = match rng.below(4) {
            0 => gen::full_library(),
            1 => gen::library_of_pairs(rng),
            _ => {
                let count = rng.between(3, 12);
                gen::library(rng, count)
            }
        };
        let text = gen::either_text(rng, &cells);
        let text = if rng.one_in(4) { gen::mixed(rng, &text).text } else { text };
        let most = rng.pick(&[1, 4, 10, 20]);
        let inputs = if rng.one_in(10) { 12 } else { 6 };
        let graph = gen::graph(rng, inputs, most, CUT_LIMIT);
        let graph_text = match rng.below(3) {
            0 => graph.in_sequence().and_then(|sequence| sequence.binary()).expect("no circle"),
            1 => gen::mixed(rng, &graph.text()).text,
            _ => graph.text(),
        };
        let map = if rng.one_in(3) { reference::map_pairs } else { reference::map };
        let (answer, netlist) = map(&text, &graph_text, b"", usize::MAX, 65_536);
        if answer.number == 0 {
            return (cells, text, graph_text, netlist);
        }
    }
}

/// A case by chance.
pub fn case(rng: &mut Rng) -> Case {
    let (cells, text, graph, printed) = base(rng);
    let words = match rng.below(12) {
        0..=3 => Lent::Exact,
        4 => Lent::OneShort,
        5 => Lent::This(rng.below(900)),
        _ => Lent::Over(rng.below(200)),
    };
    let mut parts = Parts::of(&printed);
    if rng.one_in(2) {
        rng.shuffle(&mut parts.gates);
    }
    if rng.one_in(2) {
        parts = renamed(rng, &parts);
    }
    if rng.one_in(3) {
        parts.rest = rng.pick(&["", "x", "\n", "\n\n\n", ".gate\n", "# gates 0 area 0 arrival 0\n", ".end\n"]).into();
    }
    let mut case =
        Case { what: "as printed".into(), cells: text, graph, netlist: Vec::new(), words, knows: Known::Accepted };
    match rng.below(40) {
        0..=9 => {}
        10..=30 => (case.what, case.knows) = edited(rng, &mut parts, &cells),
        31..=33 => {
            let lines = parts.lines();
            let line = rng.below(lines.len());
            let (at, broken) = out_of_form(rng, &lines, line);
            case.netlist = broken;
            (case.what, case.knows) = ("out of form".into(), Known::Refused(32, at));
            return case;
        }
        34 | 35 => {
            case.netlist = gen::damaged(rng, &parts.text());
            (case.what, case.knows) = ("damaged".into(), Known::Nothing);
            return case;
        }
        36 => {
            case.cells = gen::damaged(rng, &case.cells);
            (case.what, case.knows) = ("library damaged".into(), Known::Nothing);
        }
        37 => {
            case.graph = gen::damaged(rng, &case.graph);
            (case.what, case.knows) = ("graph damaged".into(), Known::Nothing);
        }
        38 => {
            let faults = gen::faults(rng);
            (case.cells, case.graph) = (faults.cells, faults.graph);
            (case.what, case.knows) = ("faults".into(), Known::Nothing);
        }
        _ if rng.one_in(4) => {
            // Of another graph: other inputs, outputs or values.
            case.graph = gen::graph(rng, 5, 4, CUT_LIMIT + 4).text();
            (case.what, case.knows) = ("another graph".into(), Known::Nothing);
        }
        _ => {
            // The graph with one operand or output complemented.
            let mut graph = gen::Graph::from_text(&checks::good_part(&case.graph));
            match rng.below(graph.ands.len() + 1) {
                0 if graph.outputs.is_empty() => {}
                0 => {
                    let output = rng.below(graph.outputs.len());
                    graph.outputs[output] ^= 1;
                }
                and => graph.ands[and - 1].1 ^= 1,
            }
            case.graph = graph.text();
            (case.what, case.knows) = ("graph complemented".into(), Known::Nothing);
        }
    }
    case.netlist = parts.text();
    case
}

/// One edit of the gates and `.names` lines.
fn edited(rng: &mut Rng, parts: &mut Parts, cells: &[gen::Cell]) -> (String, Known) {
    let nets = parts.nets();
    let gates = parts.gates.len();
    let kind = rng.below(14);
    let told = |what: &str, knows| (what.to_string(), knows);
    if gates == 0 || (kind >= 12 && parts.names.is_empty()) {
        return more_gates(rng, parts, cells, &nets);
    }
    let at = rng.below(gates);
    let pins = parts.gates[at].feeds.len();
    match kind {
        // One gate's cell replaced by another of as many pins.
        0..=2 => {
            let own = parts.gates[at].cell.clone();
            let like: Vec<&gen::Cell> =
                cells.iter().filter(|cell| cell.pins == pins && Some(&cell.name) != own.as_ref()).collect();
            if !like.is_empty() {
                parts.gates[at].cell = Some(like[rng.below(like.len())].name.clone());
            }
            let same = own == parts.gates[at].cell;
            told("another cell", if same { Known::Accepted } else { Known::Nothing })
        }
        // One pin rewired, to any net: a circle too.
        3..=5 if pins > 0 => {
            let pin = rng.below(pins);
            parts.gates[at].feeds[pin] = nets[rng.below(nets.len())].clone();
            told("rewired", Known::Nothing)
        }
        6 if pins > 1 => {
            parts.gates[at].feeds.rotate_left(1);
            told("pins exchanged", Known::Nothing)
        }
        // A gate taken out: what it drove isn't driven.
        7 => {
            parts.gates.remove(at);
            told("a gate less", Known::Nothing)
        }
        // A gate swapped for wiring: its net is one of its feeds.
        8 if pins > 0 => {
            let gate = parts.gates.remove(at);
            let wire = gate.feeds[rng.below(pins)].clone();
            for part in parts.gates.iter_mut().chain(&mut parts.names) {
                for feed in part.feeds.iter_mut().filter(|feed| **feed == gate.net) {
                    *feed = wire.clone();
                }
            }
            told("wiring", Known::Nothing)
        }
        // A net driven twice: by a gate once more, or by one that drives another's net.
        9 => {
            let mut twin = parts.gates[at].clone();
            if rng.one_in(2) {
                twin.net = nets[rng.below(nets.len())].clone();
            }
            let to = rng.below(gates + 1);
            parts.gates.insert(to, twin);
            told("driven twice", Known::Nothing)
        }
        10 if pins > 0 => {
            let pin = rng.below(pins);
            parts.gates[at].feeds[pin] = fresh(rng, &nets);
            // Nothing else is at fault.
            let place = parts.gate_at(at);
            told("not driven", Known::Refused(33, place))
        }
        // A gate that feeds itself.
        11 if pins > 0 => {
            let pin = rng.below(pins);
            parts.gates[at].feeds[pin] = parts.gates[at].net.clone();
            let place = parts.gate_at(at);
            told("a circle of one", Known::Refused(33, place))
        }
        12 => {
            let output = rng.below(parts.names.len());
            parts.names[output].feeds[0] = nets[rng.below(nets.len())].clone();
            told("an output rewired", Known::Nothing)
        }
        13 => {
            // An output taken from another's name, or a gate's feed from an output.
            let (output, other) = (rng.below(parts.names.len()), rng.below(parts.names.len()));
            let name = parts.names[other].net.clone();
            if rng.one_in(2) || pins == 0 {
                parts.names[output].feeds[0] = name;
            } else {
                let pin = rng.below(pins);
                parts.gates[at].feeds[pin] = name;
            }
            told("an output used", Known::Nothing)
        }
        _ => more_gates(rng, parts, cells, &nets),
    }
}

/// Gates that nothing uses: some in a circle of their own, some behind one.
fn more_gates(rng: &mut Rng, parts: &mut Parts, cells: &[gen::Cell], nets: &[String]) -> (String, Known) {
    if cells.is_empty() {
        return ("as printed".into(), Known::Accepted);
    }
    let mut all = nets.to_vec();
    let count = rng.between(1, 3);
    let own: Vec<String> = (0..count)
        .map(|_| {
            let name = fresh(rng, &all);
            all.push(name.clone());
            name
        })
        .collect();
    let circles = rng.one_in(2);
    let usable = if circles { all.clone() } else { nets.to_vec() };
    for name in &own {
        let cell = &cells[rng.below(cells.len())];
        let wired = |rng: &mut Rng| match rng.below(3) {
            0 if circles => own[rng.below(count)].clone(),
            _ => usable[rng.below(usable.len().max(1)).min(usable.len() - 1)].clone(),
        };
        if cell.pins > 0 && usable.is_empty() {
            continue;
        }
        let feeds = (0..cell.pins).map(|_| wired(rng)).collect();
        let at = rng.below(parts.gates.len() + 1);
        parts.gates.insert(at, Part { cell: Some(cell.name.clone()), feeds, net: name.clone() });
    }
    if circles {
        return ("unused gates, circles".into(), Known::Nothing);
    }
    let added = |part: &Part| own.contains(&part.net) && !part.feeds.is_empty();
    match parts.gates.iter().position(added) {
        // "33's three parts each go over the whole text, unused gates too."
        Some(gate) if rng.one_in(3) => {
            parts.gates[gate].feeds[0] = fresh(rng, &all);
            ("unused, not driven".into(), Known::Refused(33, parts.gate_at(gate)))
        }
        _ => ("unused gates".into(), Known::Accepted),
    }
}

/// A text with one line out of form, and its place.
fn out_of_form(rng: &mut Rng, lines: &[String], line: usize) -> (usize, Vec<u8>) {
    let at = lines[..line].iter().map(String::len).sum();
    let text = lines[line].trim_end().to_string();
    let words: Vec<&str> = text.split(' ').collect();
    let net = |name: &str| words[..words.len() - 1].join(" ") + " " + name + "\n";
    let broken = match rng.below(10) {
        0 => format!(" {text}\n"),
        1 => format!("{text} \n"),
        2 => format!("{text}\r\n"),
        3 => format!("{text} x\n"),
        4 => String::from("\n"),
        5 => text.to_uppercase() + "X\n",
        // Cut off at this line, or in it.
        6 => {
            let whole = lines[..line].concat().into_bytes();
            return (at, [&whole[..], &text.as_bytes()[..rng.below(text.len() + 1)]].concat());
        }
        _ => match words[0] {
            ".inputs" => net("p99999"),
            ".outputs" => net("o99999"),
            ".gate" => {
                let last = words[words.len() - 1];
                let gate = |words: &[&str], last: &str| [words, &[last]].concat().join(" ") + "\n";
                let front = &words[..words.len() - 1];
                match rng.below(10) {
                    0 => gate(front, "O="),
                    1 => gate(front, "O=ninechars"),
                    2 => gate(front, "O=a_b"),
                    3 => gate(front, "O=a-b"),
                    4 => gate(front, &last.replacen("O=", "Z=", 1)),
                    5 => gate(front, &format!("E=p1 {last}")),
                    6 => text.replacen(words[1], "unlisted", 1) + "\n",
                    7 if words.len() > 3 => {
                        // The last pin and the output exchanged.
                        let mut words = words.clone();
                        let count = words.len();
                        words.swap(count - 1, count - 2);
                        words.join(" ") + "\n"
                    }
                    8 if words.len() > 4 => {
                        // The first two pins exchanged, letters and all.
                        let mut words = words.clone();
                        words.swap(2, 3);
                        words.join(" ") + "\n"
                    }
                    _ => words[..words.len() - 1].join(" ") + "\n",
                }
            }
            ".names" => {
                let (from, name) = (words[1], words[2]);
                match rng.below(6) {
                    0 => format!(".names {from} {name}0\n"),
                    1 => format!(".names {name}\n"),
                    2 => format!(".names {from} {from} {name}\n"),
                    3 => format!(".names a_b {name}\n"),
                    4 => format!(".names ninechars {name}\n"),
                    _ => format!(".names {from} {from}\n"),
                }
            }
            "1" => rng.pick(&["1 0\n", "0 1\n", "11 1\n", ".end\n", "1\n"]).into(),
            ".end" => rng.pick(&[".End\n", "end\n", ".names p1 o0\n", "1 1\n", ".model top\n"]).into(),
            _ => rng.pick(&[".model\n", ".model Top\n", ".inputs\n", "\n"]).into(),
        },
    };
    // `.names p1 p1` where an output has that name isn't broken.
    let broken = if broken == lines[line] { format!("x{broken}") } else { broken };
    let mut all = lines.to_vec();
    all[line] = broken;
    (at, all.concat().into_bytes())
}

/// Limits from both sides: 12 and 13 inputs, words exact and one short, names of 8 and 9,
/// and each number beside those before and after it.
pub fn limits() -> Vec<Case> {
    let cells = gen::library_text(&gen::small_library());
    let b = "aag 3 2 0 1 1\n2\n4\n6\n6 2 4\n";
    let listing = gen::LISTING;
    let mut cases = Vec::new();
    let mut add = |what: &str, cells: &[u8], graph: &[u8], netlist: &[u8], words: Lent, knows: Known| {
        let case =
            Case { what: what.into(), cells: cells.into(), graph: graph.into(), netlist: netlist.into(), words, knows };
        cases.push(case);
    };
    let good = listing.as_bytes();
    add("B", &cells, b.as_bytes(), good, Lent::Exact, Known::Accepted);
    // Case B has 9 bytes 10, the last behind `.end`: 124 * 4 + 1 + 72 words.
    add("B, 569 words", &cells, b.as_bytes(), good, Lent::This(569), Known::Accepted);
    add("B, 568 words", &cells, b.as_bytes(), good, Lent::This(568), Known::Refused(10, 0));
    let longer = [good, b"\n\n"].concat();
    add("two lines behind", &cells, b.as_bytes(), &longer, Lent::This(585), Known::Accepted);
    add("two lines behind, one word short", &cells, b.as_bytes(), &longer, Lent::This(584), Known::Refused(10, 0));
    let up_to_end = &good[..good.len() - 28];
    add("nothing behind .end", &cells, b.as_bytes(), up_to_end, Lent::This(561), Known::Accepted);
    add(
        "no byte 10 behind .end",
        &cells,
        b.as_bytes(),
        &up_to_end[..up_to_end.len() - 1],
        Lent::Exact,
        Known::Refused(32, 101),
    );
    for inputs in [11, 12, 13] {
        let graph = gen::Graph {
            top: 2 * inputs - 1,
            inputs: (1..=inputs).collect(),
            outputs: vec![2 * (2 * inputs - 1)],
            ands: (1..inputs)
                .map(|and| (inputs + and, 2 * (and + 1), 2 * if and == 1 { 1 } else { inputs + and - 1 }))
                .collect(),
        };
        let (_, netlist) = reference::map_without_arrivals(&cells, &graph.text(), usize::MAX, 65_536);
        for (words, short) in [(Lent::Exact, false), (Lent::OneShort, true)] {
            let knows = match inputs {
                _ if short => Known::Refused(10, 0),
                13 => Known::Refused(31, 0),
                _ => Known::Accepted,
            };
            add(&format!("{inputs} inputs, words {words:?}"), &cells, &graph.text(), &netlist, words, knows);
        }
        // The last setting alone differs: the chain is 1 there and the tied output 0.
        let tie = [&cells[..], b"tie0 0 0000 1 0 0 0 0\n"].concat();
        let names = (1..=inputs).map(|input| format!(" p{input}")).collect::<String>();
        let tied = format!(".model top\n.inputs{names}\n.outputs o0\n.gate tie0 O=x\n.names x o0\n1 1\n.end\n");
        let knows = if inputs == 13 { Known::Refused(31, 0) } else { Known::Nothing };
        add("the last setting differs", &tie, &graph.text(), tied.as_bytes(), Lent::Exact, knows);
        // 31 before 32.
        let knows = Known::Refused(if inputs == 13 { 31 } else { 32 }, 0);
        add("31 before 32", &cells, &graph.text(), b"", Lent::Exact, knows);
    }
    for (net, knows) in [
        ("x", Known::Accepted),
        ("abcdefgh", Known::Accepted),
        ("00000000", Known::Accepted),
        ("abcdefghi", Known::Refused(32, 37)),
        ("", Known::Refused(32, 37)),
        ("a_b", Known::Refused(32, 37)),
        ("p3", Known::Refused(33, 57)),
        ("p1", Known::Refused(33, 57)),
        ("p2", Known::Refused(33, 57)),
        ("O", Known::Accepted),
        // Driven twice at the `.names` line.
        ("o0", Known::Refused(33, 84)),
        ("o1", Known::Accepted),
    ] {
        let netlist = listing.replace("m3", net);
        add(&format!("net {net:?}"), &cells, b.as_bytes(), netlist.as_bytes(), Lent::Exact, knows);
    }
    // Pins out of order, each with its own net or with the other's; the output first.
    for pins in ["B=p2 A=p1 O=m3", "B=p1 A=p2 O=m3", "O=m3 A=p1 B=p2", "A=p1 A=p2 O=m3"] {
        let netlist = listing.replace("A=p1 B=p2 O=m3", pins);
        add(&format!("pins {pins}"), &cells, b.as_bytes(), netlist.as_bytes(), Lent::Exact, Known::Refused(32, 57));
    }
    // 33 by its parts, each over the whole text: the second line is driven twice, the
    // first uses what no line drives, and both are in a circle.
    let head = ".model top\n.inputs p1 p2\n.outputs o0\n";
    let tail = ".names c o0\n1 1\n.end\n";
    let inv = |feed: &str, net: &str| format!(".gate inv A={feed} O={net}\n");
    let at = head.len();
    let line = inv("a", "b").len();
    for (gates, knows) in [
        ([inv("x", "a"), inv("a", "a"), inv("a", "c")], Known::Refused(33, at + line)),
        ([inv("x", "a"), inv("b", "b"), inv("a", "c")], Known::Refused(33, at)),
        // `.inputs` drives its nets.
        ([inv("a", "b"), inv("b", "c"), inv("2", "1")], Known::Refused(33, at + 2 * line)),
        // A gate that nothing uses, fed by nothing.
        ([inv("2", "c"), inv("c", "a"), inv("x", "b")], Known::Refused(33, at + 2 * line + 1)),
        ([inv("b", "b"), inv("x", "a"), inv("a", "c")], Known::Refused(33, at + line)),
        // A net behind a circle stands before those on it.
        ([inv("a", "c"), inv("b", "a"), inv("a", "b")], Known::Refused(33, at + line)),
        ([inv("b", "a"), inv("a", "c"), inv("a", "b")], Known::Refused(33, at)),
        ([inv("c", "a"), inv("a", "b"), inv("b", "c")], Known::Refused(33, at)),
        // A circle through an output's name, and one that nothing uses.
        ([inv("k", "a"), inv("a", "b"), inv("b", "c")], Known::Refused(33, at)),
        ([inv("1", "c"), inv("b", "a"), inv("a", "b")], Known::Refused(33, at)),
    ] {
        let gates =
            gates.concat().replace("A=k", "A=o0").replace("A=1", "A=p1").replace("A=2", "A=p2").replace("O=1", "O=p1");
        let (what, knows) = match (gates.contains("o0"), gates.contains("A=p1")) {
            (true, _) => ("a circle through o0", knows),
            (_, true) => ("an unused circle", Known::Refused(33, at + line + 1)),
            _ => ("33", knows),
        };
        let netlist = format!("{head}{gates}{tail}");
        add(what, &cells, b.as_bytes(), netlist.as_bytes(), Lent::Exact, knows);
        // 32 before 33, wherever it stands.
        let broken = netlist.replace(".end", ".End");
        let place = broken.len() - 5;
        add("32 before 33", &cells, b.as_bytes(), broken.as_bytes(), Lent::Exact, Known::Refused(32, place));
    }
    // The numbers before 31, beside a netlist that is out of form.
    for (what, cells, graph, number, place) in [
        ("2", &b"x"[..], b.as_bytes(), 2, 0),
        ("27", b"cell pins table area d0 d1 d2 d3 l0 l1 l2 l3\ninv 1 0001 1 1 0 0 0 2 0 0 0\n", b.as_bytes(), 27, 45),
        ("7", &cells, b"aag\n", 7, 0),
        ("8", &cells, b"aag 3 2 1 1 1\n", 8, 0),
        ("9", &cells, b"aag 3 3 0 1 1\n", 9, 0),
        ("19", &cells, b"aig 4 2 0 1 1\n", 19, 0),
        ("11", &cells, b"aag 3 2 0 1 1\n2\n4\n6\n6 2\n", 11, 20),
        ("14", &cells, b"aag 4 2 0 1 1\n2\n4\n8\n6 2 4\n", 14, 18),
        ("15", &cells, b"aag 2 0 0 0 2\n2 4 4\n4 2 2\n", 15, 1),
        ("20", &cells, b"aig 3 2 0 1 1\n6\n\x02", 20, 17),
    ] {
        add(what, cells, graph, b"x\n", Lent::Exact, Known::Refused(number, place));
    }
    // No 16 and 17: more than 18 cuts, and a constant without a tie cell.
    let wide = gen::as_it_comes(gen::shape_with_cuts(CUT_LIMIT + 1), &[]);
    let names: String = wide.inputs.iter().map(|input| format!(" p{input}")).collect();
    let netlist = format!(".model top\n.inputs{names}\n.outputs\n.end\n");
    add("19 cuts", &cells, &wide.text(), netlist.as_bytes(), Lent::Exact, Known::Accepted);
    add(
        "a constant output",
        &cells,
        b"aag 1 1 0 1 0\n2\n0\n",
        b".model top\n.inputs p1\n.outputs o0\n.names p1 o0\n1 1\n.end\n",
        Lent::Exact,
        Known::Nothing,
    );
    // No more than 256 cells and pairs isn't asked here.
    let many = gen::library_text(&gen::library_of(257));
    add(
        "257 cells and pairs",
        &many,
        b"aag 0 0 0 0 0\n",
        b".model top\n.inputs\n.outputs\n.end\n",
        Lent::Exact,
        Known::Accepted,
    );
    for length in [65_535, 65_536, 65_537] {
        let mut netlist = good.to_vec();
        netlist.resize(length, b'x');
        let knows = if length > 65_536 { Known::Refused(1, 0) } else { Known::Accepted };
        add(&format!("{length} bytes"), &cells, b.as_bytes(), &netlist, Lent::Exact, knows);
    }
    cases
}
