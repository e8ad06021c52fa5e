//! Graphs that the call refuses for their size (9) or for an AND's cuts (16), mapped by calls all the same. A plan says which nets an early cover has;
//! the graph is cut at some of them, each part is mapped by the proved call, and the netlists are joined. Each call's netlist is proved earliest among the
//! covers that have the nets at the cuts. The whole is no later than planned; that no cover is earlier is not proved.

pub mod aig;
mod calls;
mod function;
mod gates;
mod join;
pub mod matches;
mod piece;
pub mod plan;
mod points;
mod recover;
pub mod tools;

use crate::{
    arrivals::NAMES_LINE,
    cells::{self, Cell},
    lines::counted,
    netlist::Totals,
    verify::{self, Verdict},
};
use aig::Aig;
use arraymap::{Refusal, TEXT_LIMIT};
use calls::Called;
pub use join::Joined;
use matches::{Matches, NEVER};
use piece::Piece;
use plan::{Net, Plan};
use std::{
    collections::{HashMap, HashSet},
    fmt::Write,
};

/// Why there is no netlist.
#[derive(Debug)]
pub enum Failure {
    /// A refusal of a call.
    Call(Refusal),
    /// The graph's text: where and why.
    Graph(aig::Fault),
    /// A line of the arrivals, and why.
    Arrivals(usize, &'static str),
    /// A net at a cut arrives then, and cannot be told to the next call.
    Late(u64),
    /// No cover of this output was found with up to so many cuts of each AND, and an AND has more.
    NoneFound {
        output: usize,
        kept: usize,
    },
    /// The joined netlist is wrong.
    Wrong(verify::Fault),
    Fault(String),
}

impl Failure {
    /// Whether it is a fault of arraymap itself, status 2.
    pub fn is_fault(&self) -> bool {
        matches!(self, Failure::Wrong(_) | Failure::Fault(_))
    }

    /// What to say of it, for the files with these names.
    pub fn message(&self, graph: &str, arrivals: &str) -> String {
        match self {
            Failure::Call(refusal) => format!("{graph}: {refusal}\n"),
            Failure::Graph(fault) => format!("{graph}: {}: {}\n", fault.place, fault.why),
            Failure::Arrivals(line, why) => format!("{arrivals}:{line}: {why}\n"),
            Failure::Late(at) => format!(
                "{graph}: a net between two calls arrives at {at}, and arrivals up to 65535 can be told\n\
                 help: give the delays in a larger unit, rounded up, as tenths or hundredths of these figures\n"
            ),
            Failure::NoneFound { output, kept } => format!(
                "{graph}: no cover of output o{output} was found with up to {kept} cuts of each AND, and an AND has more\n\
                 help: with an inverter and a NAND or a NOR of two pins in the library every AND has a cover\n"
            ),
            Failure::Wrong(fault) => format!("{graph}: {fault}; nothing is written"),
            Failure::Fault(what) => what.clone(),
        }
    }
}

/// What the calls are given.
pub struct Work {
    /// With delays in the calls' unit.
    pub cells: Vec<Cell>,
    pub cell_text: Vec<u8>,
    pub pairs: bool,
    /// Lines on standard error while it takes long.
    pub progress: bool,
}

impl Work {
    /// The cells with their delays divided by `unit`.
    pub fn new(cells: &[Cell], unit: u32, pairs: bool, progress: bool) -> Work {
        let scaled =
            |cell: &Cell| Cell { delays: cell.delays.iter().map(|delay| delay / unit).collect(), ..cell.clone() };
        let cells: Vec<Cell> = cells.iter().map(scaled).collect();
        let mut text = format!("{}\n", cells::NAMES_LINE);
        for Cell { name, table, area, delays } in &cells {
            let _ = write!(text, "{name} {} {table:04x} {area}", delays.len());
            for j in 0..4 {
                let _ = write!(text, " {}", delays.get(j).unwrap_or(&0));
            }
            text.push('\n');
        }
        Work { cells, cell_text: text.into_bytes(), pairs, progress }
    }
}

/// How a graph is cut.
#[derive(Clone, Copy, Debug, PartialEq, Eq)]
pub enum Way {
    /// At planned nets below ANDs of too many cuts.
    Points,
    /// At every planned gate.
    Gates,
}

/// A joined netlist, and how it came to be.
pub struct Made {
    pub joined: Joined,
    pub way: Way,
    pub calls: usize,
    pub windows: usize,
    pub points: usize,
    /// The arrivals that the calls were told are those of the nets; otherwise no net comes later than told.
    pub exact: bool,
}

/// Variables of a window before its points, and of a window of gates by themselves.
const WINDOWS: [usize; 2] = [3_600, 4_095];

/// Calls of a window by each way.
const ROUNDS: [usize; 2] = [8, 2];

/// The whole by one call, where that takes it; then points; where that is later than planned, each planned gate by itself.
pub fn make(work: &Work, plan: &mut Plan) -> Result<Made, Failure> {
    if let Some(made) = make_whole(work, plan)? {
        return Ok(made);
    }
    if let Some(made) = make_by(Way::Points, WINDOWS[0], work, plan)? {
        return Ok(made);
    }
    let made = make_by(Way::Gates, WINDOWS[1], work, plan)?;
    made.ok_or_else(|| match calls::shift(plan.arrival.iter().flatten().copied().filter(|at| *at < NEVER)) {
        0 => Failure::Fault("the planned gates do not give the planned arrival".into()),
        shift => Failure::Late(shift + calls::LATEST_TOLD),
    })
}

/// One call for the whole graph: nothing is left out but what no output uses. `None` where it is not taken, or is later than planned.
fn make_whole(work: &Work, plan: &Plan) -> Result<Option<Made>, Failure> {
    let graph = plan.graph;
    let mut literals = graph.outputs.clone();
    literals.sort_unstable();
    literals.dedup();
    let outputs = literals.iter().copied().map(Net::of).collect();
    let inputs = (1..=graph.inputs as u32).map(|variable| Net { variable, phase: 0 }).collect();
    let Some(piece) = Piece::new(inputs, outputs, &literals, &graph.ands, 0) else { return Ok(None) };
    match calls::rounds(work, plan, std::slice::from_ref(&piece), 1) {
        Ok(Some(rounds)) => made(Way::Points, graph, &[piece], &rounds, &[]).map(Some),
        Ok(None) | Err(Failure::Call(_)) => Ok(None),
        Err(failure) => Err(failure),
    }
}

/// The planned nets by one way, in windows of so many variables; `None` where it is later than planned, or takes too many points.
pub fn make_by(way: Way, window: usize, work: &Work, plan: &mut Plan) -> Result<Option<Made>, Failure> {
    let graph = plan.graph;
    if let Some(place) = graph.outputs.iter().position(|&literal| plan.arrival(Net::of(literal)) >= NEVER) {
        return Err(Failure::Call(Refusal { number: 17, place }));
    }
    let Some(gates) = plan.gates(way == Way::Points) else { return Ok(None) };
    let wanted: HashSet<Net> = graph.outputs.iter().copied().map(Net::of).collect();
    let (pieces, most) = match way {
        Way::Points => (points::pieces(plan, &gates, &wanted, window), ROUNDS[0]),
        Way::Gates => (gates::pieces(plan, &gates, &wanted, window), ROUNDS[1]),
    };
    let Some(pieces) = pieces else { return Ok(None) };
    let rounds = match calls::rounds(work, plan, &pieces, most) {
        // A planned match on a cut that the part does not have: each gate by itself has it.
        Err(Failure::Call(_)) if way == Way::Points => return Ok(None),
        rounds => rounds.map_err(of_part)?,
    };
    let Some(rounds) = rounds else { return Ok(None) };
    let mut plain_called = Vec::new();
    for piece in plain(graph, &wanted) {
        let called = calls::once(work, plan, &piece).map_err(of_part)?;
        plain_called.push((piece, called));
    }
    made(way, graph, &pieces, &rounds, &plain_called).map(Some)
}

/// A part that is refused is none of the graph's faults.
fn of_part(failure: Failure) -> Failure {
    match failure {
        Failure::Call(refusal) => Failure::Fault(format!("a call refuses a part of the graph: {refusal}")),
        failure => failure,
    }
}

fn made(
    way: Way,
    graph: &Aig,
    pieces: &[Piece],
    rounds: &calls::Rounds,
    plain: &[(Piece, Called)],
) -> Result<Made, Failure> {
    let joined = join::join(graph, pieces, rounds, plain);
    let joined = joined.ok_or_else(|| Failure::Fault("the joined netlist has a circle".into()))?;
    let points = pieces.iter().map(|piece| piece.points).sum();
    let calls = rounds.calls + plain.len();
    Ok(Made { joined, way, calls, windows: pieces.len(), points, exact: rounds.exact })
}

/// Pieces without ANDs for the outputs that are constants or complements of inputs.
fn plain(graph: &Aig, wanted: &HashSet<Net>) -> Vec<Piece> {
    let is_plain = |net: &&Net| !graph.is_and(net.variable) && (net.variable == 0 || net.phase == 1);
    let mut outputs: Vec<Net> = wanted.iter().filter(is_plain).copied().collect();
    outputs.sort_unstable();
    let piece = |outputs: &[Net]| {
        let inputs: Vec<Net> =
            outputs.iter().filter(|net| net.variable > 0).map(|net| Net { phase: 0, ..*net }).collect();
        let first = outputs.len() - inputs.len();
        let literal = |(k, net): (usize, &Net)| match k.checked_sub(first) {
            Some(input) => 2 * (input as u32 + 1) + 1,
            None => u32::from(net.phase),
        };
        let literals: Vec<u32> = outputs.iter().enumerate().map(literal).collect();
        Piece::new(inputs, outputs.to_vec(), &literals, &[], 0)
    };
    outputs.chunks(piece::VARIABLES).filter_map(piece).collect()
}

/// The largest number that divides all of them, 1 where all are 0.
pub fn measure(figures: impl Iterator<Item = u32>) -> u32 {
    let divisor = |mut a: u32, mut b: u32| {
        while b > 0 {
            (a, b) = (b, a % b);
        }
        a
    };
    figures.fold(0, divisor).max(1)
}

/// What a person asks for.
pub struct Asked<'a> {
    /// The cell text, in either form.
    pub cells: &'a [u8],
    pub graph: &'a [u8],
    pub arrivals: &'a [u8],
    pub pairs: bool,
}

pub struct Mapped {
    /// The netlist, and behind its figures how it was joined and checked.
    pub text: String,
    pub totals: Totals,
    /// The same in words.
    pub told: String,
}

/// Whether a refusal of the whole is one that cutting it may turn: for its size, its length, or an AND's cuts. A long text that does not begin as a graph or
/// as arrivals is too long.
pub fn takes(refusal: Refusal, asked: &Asked) -> bool {
    let begins = |text: &[u8], begin: &[&[u8]]| begin.iter().any(|begin| text.starts_with(begin));
    match refusal.number {
        7 | 9 | 16 => true,
        1 => {
            asked.cells.len() <= TEXT_LIMIT
                && begins(asked.graph, &[b"aag ", b"aig "])
                && (asked.arrivals.len() <= TEXT_LIMIT || begins(asked.arrivals, &[NAMES_LINE.as_bytes()]))
        }
        _ => false,
    }
}

/// Maps the graph by several calls.
pub fn map(asked: &Asked) -> Result<Mapped, Failure> {
    // The library is refused before the graph is looked at, but for the length of the texts.
    let call = if asked.pairs { arraymap::map_pairs } else { arraymap::map };
    call(asked.cells, b"aag 0 0 0 0 0\n", b"").map_err(Failure::Call)?;
    let text = aig::Text::read(asked.graph).map_err(Failure::Graph)?;
    let listed = read_arrivals(asked.arrivals, text.inputs())?;
    let (written, merged) = (text.as_written(), text.merged());
    let late: Vec<u32> = written.places.iter().map(|k| listed.get(k).copied().unwrap_or_default()).collect();
    let cells = cells::read(asked.cells);
    let delays = cells.iter().flat_map(|cell| cell.delays.iter().copied());
    let unit = measure(delays.chain(late.iter().copied()));
    let work = Work::new(&cells, unit, asked.pairs, true);
    let scaled: Vec<u32> = late.iter().map(|at| at / unit).collect();
    let matches = Matches::new(&work.cells, asked.pairs);
    let mut plan = planned(&written, &merged, &matches, &scaled)?;
    let made = make(&work, &mut plan)?;
    let graph = plan.graph;
    let latest = plan.latest * u64::from(unit);
    let netlist = made.joined.text(graph, &cells);
    let verdict = verify::netlist(asked.cells, asked.graph, netlist.as_bytes()).map_err(Failure::Wrong)?;
    let totals = totals(&made.joined, &cells, &late);
    let mut text = netlist;
    let Totals { gates, area, arrival } = totals;
    let _ = writeln!(text, "# gates {gates} area {area} arrival {arrival}");
    timing(&mut text, asked.cells, &made.joined, &cells, &late);
    let lines = words(&made, latest, unit, &verdict);
    for line in &lines {
        let _ = writeln!(text, "# {line}");
    }
    let told = lines.iter().fold(String::new(), |told, line| told + "arraymap: " + line + "\n");
    Ok(Mapped { text, totals, told })
}

/// Cuts of an AND that are kept where with fewer no cover was found.
const MOST_KEPT: usize = 1_024;

/// The plan of the graph as it is written or of the merged one: the earlier, then the one with the smaller planned area, then the merged one's. Neither is
/// always the earlier one. An output without a cover is refused where the graph as it is written has none.
pub fn planned<'g>(written: &'g Aig, merged: &'g Aig, matches: &Matches, late: &[u32]) -> Result<Plan<'g>, Failure> {
    let is_same = (&written.ands, &written.outputs) == (&merged.ands, &merged.outputs);
    let mut kept = plan::KEPT;
    loop {
        let plan = Plan::new(written, matches, late, kept);
        let other = (!is_same).then(|| Plan::new(merged, matches, late, kept));
        let rank = |plan: &Plan| (plan.latest, plan.area(matches));
        match other {
            Some(other) if other.latest < NEVER && rank(&other) <= rank(&plan) => return Ok(other),
            _ if plan.latest < NEVER => return Ok(plan),
            _ => {}
        }
        let bare = |&literal: &u32| plan.arrival(Net::of(literal)) >= NEVER;
        let output = written.outputs.iter().position(bare).unwrap_or_default();
        if !plan.is_partial {
            return Err(Failure::Call(Refusal { number: 17, place: output }));
        }
        if kept >= MOST_KEPT {
            return Err(Failure::NoneFound { output, kept });
        }
        kept *= 4;
    }
}

/// What is known of a joined netlist.
fn words(made: &Made, latest: u64, unit: u32, verdict: &Verdict) -> Vec<String> {
    let cut = match made.way {
        Way::Points => counted(made.points, "cut point", "cut points"),
        Way::Gates => format!("cuts at all planned nets, {}", made.points),
    };
    let told = if made.exact { "" } else { ", told arrivals that no net exceeds" };
    let mut lines = vec![
        format!(
            "joined from {}: {}, {cut}",
            counted(made.calls, "call", "calls"),
            counted(made.windows, "window", "windows")
        ),
        format!("proved: each call's netlist is earliest among the covers that have the nets at the cuts{told}"),
        format!("not proved: that no cover of the whole is earlier; it is no later than planned, {latest}"),
        format!("compared with the graph: {verdict}"),
    ];
    if unit > 1 {
        lines.push(format!("delays were divided by {unit} for the calls; the figures here are in the library's own"));
    }
    lines
}

fn totals(joined: &Joined, cells: &[Cell], late: &[u32]) -> Totals {
    let delays: Vec<Vec<u32>> = cells.iter().map(|cell| cell.delays.clone()).collect();
    let at = joined.arrivals(&delays, late);
    Totals {
        gates: joined.gates.len() as u64,
        area: joined.gates.iter().map(|gate| u64::from(cells[gate.cell].area)).sum(),
        arrival: joined.outputs.iter().map(|net| at[*net as usize]).max().unwrap_or_default(),
    }
}

/// The low and high arrival of each output, where the library's delays are ranges.
fn timing(text: &mut String, library: &[u8], joined: &Joined, cells: &[Cell], late: &[u32]) {
    if !cells::is_ranged(library) {
        return;
    }
    let library = String::from_utf8_lossy(library);
    let low = |line: &str| line.trim_end().split(' ').skip(8).map_while(|low| low.parse().ok()).collect::<Vec<u32>>();
    let low: Vec<Vec<u32>> = library.lines().skip(1).map(low).collect();
    let high: Vec<Vec<u32>> = cells.iter().map(|cell| cell.delays.clone()).collect();
    let (low, high) = (joined.arrivals(&low, late), joined.arrivals(&high, late));
    for (k, net) in joined.outputs.iter().enumerate() {
        let _ = writeln!(text, "# timing o{k} {} {}", low[*net as usize], high[*net as usize]);
    }
}

/// The arrivals that are listed, by the input's index. A graph of any size has more of them than the call's reader takes.
fn read_arrivals(text: &[u8], inputs: usize) -> Result<HashMap<u32, u32>, Failure> {
    let mut late = HashMap::new();
    if text.is_empty() {
        return Ok(late);
    }
    let Some(text) = text.strip_suffix(b"\n") else {
        return Err(Failure::Arrivals(1, "the last line is not ended: add a line feed, byte 10"));
    };
    for (k, line) in text.split(|&byte| byte == b'\n').enumerate() {
        let line = line.strip_suffix(b"\r").unwrap_or(line);
        if k == 0 {
            if line != NAMES_LINE.as_bytes() {
                return Err(Failure::Arrivals(1, "the first line is `input arrival`"));
            }
            continue;
        }
        let fields: Option<Vec<u32>> = line.split(|&byte| byte == b' ').map(aig::number).collect();
        let Some([input, at @ 0..=65_535]) = fields.as_deref() else {
            return Err(Failure::Arrivals(k + 1, "an input, from 0, and its arrival up to 65535 are due: `3 25`"));
        };
        if *input as usize >= inputs {
            return Err(Failure::Arrivals(k + 1, "the graph has fewer inputs, counted from 0"));
        }
        if late.insert(*input, *at).is_some() {
            return Err(Failure::Arrivals(k + 1, "the input is repeated"));
        }
    }
    Ok(late)
}
