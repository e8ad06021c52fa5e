//! A netlist checked against its graph, request N14 of document 02, by recursion over
//! nets. Quoted sentences are its own.

use crate::reference::{self, Cell, Graph, Refusal};
use std::collections::{BTreeMap, BTreeSet};

#[derive(Clone, Copy, Debug, PartialEq, Eq)]
pub enum Verdict {
    Accepted,
    /// "the lowest setting that differs [...], input k as bit k, and that setting's first
    /// wrong output"
    Differs {
        setting: u64,
        output: u64,
    },
    Refused(Refusal),
}

impl Verdict {
    /// The verdict in three numbers: 0 accepted, 1 with setting and output, 2 with number
    /// and place.
    pub fn numbers(self) -> [u64; 3] {
        match self {
            Verdict::Accepted => [0, 0, 0],
            Verdict::Differs { setting, output } => [1, setting, output],
            Verdict::Refused(Refusal { number, place }) => [2, number.into(), place.into()],
        }
    }

    /// "Work memory is unchanged by every refusal tried up to 10, and all zero after a
    /// later one and after success."
    pub fn leaves_work_memory(self) -> bool {
        matches!(self, Verdict::Refused(refusal) if reference::leaves_work_memory(refusal.number))
    }
}

fn refuse<T>(number: u32, place: usize) -> Result<T, Refusal> {
    Err(Refusal { number, place: place as u32 })
}

/// The whole call with so many words of work memory.
pub fn check(cells: &[u8], graph: &[u8], netlist: &[u8], words: usize) -> Verdict {
    match checked(cells, graph, netlist, words) {
        Ok(None) => Verdict::Accepted,
        Ok(Some((setting, output))) => Verdict::Differs { setting, output },
        Err(refusal) => Verdict::Refused(refusal),
    }
}

/// "10 wants 8 more words for each byte 10 in it": those of a graph whose header reads.
pub fn words_needed(graph: &[u8], netlist: &[u8]) -> Option<usize> {
    reference::words_needed(graph).map(|words| words + plain_or!(123, 8 * tens(netlist), 8 * lines_read(netlist)))
}

fn tens(text: &[u8]) -> usize {
    text.iter().filter(|&&byte| byte == b'\n').count()
}

/// Those up to `.end`.
#[cfg(feature = "mutants")]
fn lines_read(text: &[u8]) -> usize {
    let lines = text.split_inclusive(|&byte| byte == b'\n');
    let end = lines.clone().position(|line| line == b".end\n");
    end.map_or(tens(text), |end| end + 1)
}

/// The first difference, if there is one: refusals 1 to 15, 19 to 21, 27, and 31 to 33.
fn checked(cells: &[u8], graph: &[u8], netlist: &[u8], words: usize) -> Result<Option<(u64, u64)>, Refusal> {
    // "1 covers the netlist"
    if cells.len() > 65_536 || graph.len() > 65_536 || netlist.len() > 65_536 {
        return refuse(1, 0);
    }
    let library = reference::read_library(cells)?;
    // What is wanted beyond the graph's own words is taken off first.
    let more = words_needed(graph, netlist).unwrap_or(0) - reference::words_needed(graph).unwrap_or(0);
    let enough = words >= more + reference::words_needed(graph).unwrap_or(0);
    let graph = reference::read_graph(graph, if enough { usize::MAX } else { 0 })?;
    let order = reference::placing_order(&graph)?;
    // "31 when I exceeds 12, place 0 [...] tried after 15 in place of 16 to 18"
    if graph.inputs.len() > plain_or!(124, 12, 13) {
        return refuse(31, 0);
    }
    let netlist = read(&library.cells, &graph, netlist)?;
    netlist.is_driven()?;
    Ok(first_difference(&library.cells, &graph, &order, &netlist))
}

// ---------------------------------------------------------------- form

/// A gate line, or a `.names` line without a cell.
#[derive(Clone, Debug)]
struct Driver {
    offset: usize,
    /// The line of its cell in the library.
    cell: Option<usize>,
    feeds: Vec<String>,
    net: String,
}

#[derive(Clone, Debug)]
struct Netlist {
    inputs: Vec<String>,
    drivers: Vec<Driver>,
}

/// "inner net names of 1 to 8 letters or digits"
fn is_net(word: &str) -> bool {
    (1..=plain_or!(125, 8, 9)).contains(&word.len()) && word.bytes().all(|byte| byte.is_ascii_alphanumeric())
}

/// "BLIF as we print it up to `.end`, listed cells, gates in any order": refusal 32, "when
/// a line breaks its form, names no listed cell or has other inputs or outputs than the
/// graph".
fn read(cells: &[Cell], graph: &Graph, text: &[u8]) -> Result<Netlist, Refusal> {
    let inputs: Vec<String> = graph.inputs.iter().map(|variable| format!("p{variable}")).collect();
    let names = |keyword: &str, names: &[String]| [&[keyword.to_string()], names].concat().join(" ");
    let outputs: Vec<String> = (0..graph.outputs.len()).map(|index| format!("o{index}")).collect();
    let head = [".model top".to_string(), names(".inputs", &inputs), names(".outputs", &outputs)];
    let mut netlist = Netlist { inputs, drivers: Vec::new() };
    let mut offset = 0;
    let mut head = head.iter();
    let mut outputs = outputs.iter();
    let mut ones = false;
    loop {
        let rest = &text[offset..];
        let Some(stop) = rest.iter().position(|&byte| byte == b'\n') else { return refuse(32, offset) };
        let Ok(line) = std::str::from_utf8(&rest[..stop]) else { return refuse(32, offset) };
        let named = outputs.len() < graph.outputs.len() || ones;
        if let Some(wanted) = head.next() {
            if line != wanted {
                return refuse(32, offset);
            }
        } else if ones {
            if line != "1 1" {
                return refuse(32, offset);
            }
            ones = false;
        } else if let Some(driver) = (!named).then(|| gate(cells, line, offset)).flatten() {
            netlist.drivers.push(driver);
        } else if let Some(name) = outputs.next() {
            let Some(net) = line.strip_prefix(".names ").and_then(|line| line.strip_suffix(&format!(" {name}"))) else {
                return refuse(32, offset);
            };
            if !is_net(net) {
                return refuse(32, offset);
            }
            netlist.drivers.push(Driver { offset, cell: None, feeds: vec![net.into()], net: name.clone() });
            ones = true;
        } else if line == ".end" {
            // "what follows `.end` isn't read"
            return Ok(netlist);
        } else {
            return refuse(32, offset);
        }
        offset += stop + 1;
    }
}

/// "each pin in order with `=` and its net, then the output likewise": another order
/// breaks the form.
fn gate(cells: &[Cell], line: &str, offset: usize) -> Option<Driver> {
    let words: Vec<&str> =
        line.strip_prefix(".gate ")?.split(|byte| byte == ' ' || plain_or!(140, false, byte == '\x0c')).collect();
    let (name, words) = words.split_first()?;
    let cell = cells.iter().position(|cell| cell.name == *name)?;
    let words = plain_or!(136, words.to_vec(), by_letter(words));
    let mut words = words.into_iter();
    let mut nets = Vec::new();
    for pin in ["A=", "B=", "C=", "D="][..cells[cell].pins].iter().chain(&["O="]) {
        let word = words.next()?;
        let net = plain_or!(134, word.strip_prefix(pin), word.get(2..).filter(|_| word[1..].starts_with('=')))?;
        nets.push(is_net(net).then(|| net.to_string())?);
    }
    let net = nets.pop()?;
    words.next().is_none().then_some(Driver { offset, cell: Some(cell), feeds: nets, net })
}

#[cfg(feature = "mutants")]
fn by_letter<'a>(words: &[&'a str]) -> Vec<&'a str> {
    let mut words = words.to_vec();
    words.sort();
    words
}

// ---------------------------------------------------------------- drivers

impl Netlist {
    /// "33 when a line drives a net already driven, then when one uses a net that no line
    /// drives, then when one drives a net on a circle; `.inputs` drives its nets."
    fn is_driven(&self) -> Result<(), Refusal> {
        let mut driven: BTreeSet<&String> = plain_or!(126, self.inputs.iter().collect(), BTreeSet::new());
        for driver in &self.drivers {
            if !driven.insert(&driver.net) {
                return refuse(33, driver.offset);
            }
        }
        let driven: BTreeSet<&String> = driven.into_iter().chain(&self.inputs).collect();
        let unused: BTreeSet<&str> = plain_or!(127, BTreeSet::new(), self.unused());
        let looked_at =
            |driver: &&Driver| !unused.contains(driver.net.as_str()) && plain_or!(135, true, driver.cell.is_some());
        let by_net = self.by_net();
        let on_circle = |driver: &&Driver| {
            plain_or!(128, feeds_itself(&by_net, &driver.net), is_behind_a_circle(&by_net, &driver.net))
        };
        for driver in self.drivers.iter().filter(looked_at) {
            if driver.feeds.iter().any(|net| !driven.contains(net)) {
                let earlier: Option<&Driver> = plain_or!(133, None, self.drivers.iter().find(on_circle));
                return refuse(33, earlier.map_or(driver.offset, |earlier| driver.offset.min(earlier.offset)));
            }
        }
        match self.drivers.iter().find(on_circle) {
            Some(driver) => refuse(33, driver.offset),
            None => Ok(()),
        }
    }

    fn by_net(&self) -> Drivers<'_> {
        self.drivers.iter().map(|driver| (driver.net.as_str(), driver)).collect()
    }

    /// Nets that no line uses and no output has.
    #[cfg(feature = "mutants")]
    fn unused(&self) -> BTreeSet<&str> {
        let used: BTreeSet<&str> =
            self.drivers.iter().flat_map(|driver| driver.feeds.iter().map(String::as_str)).collect();
        let gates = self.drivers.iter().filter(|driver| driver.cell.is_some());
        gates.map(|driver| driver.net.as_str()).filter(|net| !used.contains(net)).collect()
    }
}

/// The line that drives each net but the inputs'.
type Drivers<'a> = BTreeMap<&'a str, &'a Driver>;

/// All nets that feed a net, directly or through others.
fn feeding<'a>(drivers: &Drivers<'a>, net: &str) -> BTreeSet<&'a str> {
    let of = |net: &str| drivers.get(net).into_iter().flat_map(|driver| driver.feeds.iter().map(String::as_str));
    let mut all: BTreeSet<&str> = BTreeSet::new();
    let mut asked: Vec<&str> = of(net).collect();
    while let Some(feed) = asked.pop() {
        if all.insert(feed) {
            asked.extend(of(feed));
        }
    }
    all
}

/// "a net on a circle": it feeds itself; one behind a circle doesn't.
fn feeds_itself(drivers: &Drivers, net: &str) -> bool {
    feeding(drivers, net).contains(net)
}

#[cfg(feature = "mutants")]
fn is_behind_a_circle(drivers: &Drivers, net: &str) -> bool {
    feeds_itself(drivers, net) || feeding(drivers, net).into_iter().any(|feed| feeds_itself(drivers, feed))
}

// ---------------------------------------------------------------- values

/// A value in each setting, 64 to a word; the bits above the settings are 0.
type Values = Vec<u64>;

/// The values of input k: "input k as bit k".
fn input_values(inputs: usize, k: usize) -> Values {
    let settings = 1u64 << inputs;
    let bit = |setting: u64| plain_or!(129, setting >> k & 1, setting >> (inputs - 1 - k) & 1);
    let word = |from: u64| (from..settings.min(from + 64)).map(|setting| bit(setting) << (setting % 64)).sum();
    (0..settings).step_by(64).map(word).collect()
}

/// 1 in every setting.
fn ones(inputs: usize) -> Values {
    match inputs {
        0..=5 => vec![(1 << (1 << inputs)) - 1],
        _ => vec![u64::MAX; 1 << (inputs - 6)],
    }
}

/// The values of a cell's output where its pins have these.
fn cell_values(cell: &Cell, pins: &[Values], ones: &Values) -> Values {
    let mut values = vec![0; ones.len()];
    for row in (0..1usize << cell.pins).filter(|row| cell.table >> row & 1 == 1) {
        for (at, value) in values.iter_mut().enumerate() {
            let is = |(pin, values): (usize, &Values)| if row >> pin & 1 == 1 { values[at] } else { !values[at] };
            *value |= pins.iter().enumerate().map(is).fold(ones[at], |all, one| all & one);
        }
    }
    values
}

struct Evaluated<'a> {
    cells: &'a [Cell],
    drivers: Drivers<'a>,
    ones: Values,
    known: BTreeMap<&'a str, Values>,
}

impl<'a> Evaluated<'a> {
    /// The values of a net, from its driver down.
    fn net(&mut self, net: &'a str) -> Values {
        if let Some(values) = self.known.get(net) {
            return values.clone();
        }
        // Every net is driven by now; one that a mistake lets through is 0.
        let Some(&driver) = self.drivers.get(net) else { return vec![0; self.ones.len()] };
        let pins: Vec<Values> = driver.feeds.iter().map(|feed| self.net(feed)).collect();
        let values = match driver.cell {
            Some(cell) => cell_values(&self.cells[cell], &pins, &self.ones),
            None => pins[0].clone(),
        };
        self.known.insert(net, values.clone());
        values
    }
}

/// "accepted exactly when every output equals the graph's for each of the 2^I input
/// settings; otherwise the lowest setting that differs is returned [...] and that
/// setting's first wrong output"
fn first_difference(cells: &[Cell], graph: &Graph, order: &[u16], netlist: &Netlist) -> Option<(u64, u64)> {
    let count = graph.inputs.len();
    let all: Vec<Values> = (0..count).map(|k| input_values(count, k)).collect();
    let ones = ones(count);
    let mut evaluated = Evaluated {
        cells,
        drivers: netlist.by_net(),
        ones: ones.clone(),
        known: netlist.inputs.iter().map(String::as_str).zip(all.iter().cloned()).collect(),
    };
    let mut variables: Vec<Values> = vec![vec![0; ones.len()]; graph.top + 1];
    for (&variable, values) in graph.inputs.iter().zip(&all) {
        variables[usize::from(variable)] = values.clone();
    }
    let literal = |variables: &[Values], literal: u32| -> Values {
        let values = &variables[literal as usize / 2];
        let turned = |(value, ones): (&u64, &u64)| if literal % 2 == 1 { !value & ones } else { *value };
        values.iter().zip(&ones).map(turned).collect()
    };
    for &variable in order {
        if let Some((a, b)) = graph.operands[usize::from(variable)] {
            let (a, b) = (literal(&variables, a), literal(&variables, b));
            variables[usize::from(variable)] = a.iter().zip(&b).map(|(a, b)| a & b).collect();
        }
    }
    let differ: Vec<Values> = (netlist.drivers.iter().filter(|driver| driver.cell.is_none()).zip(&graph.outputs))
        .map(|(driver, &output)| {
            let (ours, meant) = (evaluated.net(&driver.net), literal(&variables, output));
            ours.iter().zip(&meant).map(|(ours, meant)| ours ^ meant).collect()
        })
        .collect();
    let in_setting = |values: &Values, setting: u64| values[setting as usize / 64] >> (setting % 64) & 1 == 1;
    let first = |setting: u64| {
        let mut wrong = (0..differ.len()).filter(|&output| in_setting(&differ[output], setting));
        let output = plain_or!(130, wrong.next(), wrong.next_back())?;
        Some((setting, output as u64))
    };
    let mut settings = plain_or!(131, 0, 1)..1u64 << count;
    plain_or!(132, settings.find_map(first), settings.rev().find_map(first))
}
