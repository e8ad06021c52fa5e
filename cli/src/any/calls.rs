//! The calls: each piece mapped by the proved call, told when its nets arrive, side by side on all processors; and again where a net comes at another
//! time than was told.

use super::{
    piece::Piece,
    plan::{Net, Plan},
    Failure, Work,
};
use crate::cells::Cell;
use std::{
    collections::HashMap,
    sync::{
        atomic::{AtomicUsize, Ordering},
        Mutex,
    },
    thread,
    time::{Duration, Instant},
};

/// More than a call takes.
const STACK: usize = 8 << 20;

/// The latest arrival that the arrivals text can say.
pub const LATEST_TOLD: u64 = 65_535;

/// A net of one call: its variable, its phase, and whether it is a pair's inner net.
pub type Local = u32;

/// The net of input k in the positive phase.
pub fn input_net(k: usize) -> Local {
    4 * (k as u32 + 1)
}

fn local(name: &str) -> Option<Local> {
    let (inner, name) = name.strip_prefix('s').map_or((0, name), |rest| (2, rest));
    let (phase, digits) = match name.split_at_checked(1)? {
        ("p", digits) => (0, digits),
        ("m", digits) => (1, digits),
        _ => return None,
    };
    Some(4 * digits.parse::<u32>().ok()? + phase + inner)
}

#[derive(Clone, Debug)]
pub struct Gate {
    pub cell: usize,
    pub pins: Vec<Local>,
    pub output: Local,
}

/// What a call printed.
#[derive(Debug)]
pub struct Called {
    /// Each behind those that feed it.
    pub gates: Vec<Gate>,
    /// The net of each output of the piece.
    pub outputs: Vec<Local>,
    /// When each net arrives, by the gate lines, if the inputs come as told.
    pub arrival: HashMap<Local, u64>,
}

/// Reads a printed netlist; the inputs arrive as told.
pub fn read(text: &str, cells: &[Cell], by_name: &HashMap<&str, usize>, told: &[u64]) -> Option<Called> {
    let (mut gates, mut outputs) = (Vec::new(), Vec::new());
    for line in text.lines() {
        let mut words = line.split(' ');
        match words.next()? {
            ".gate" => {
                let cell = *by_name.get(words.next()?)?;
                let mut nets = words.map(|word| local(word.split_once('=')?.1)).collect::<Option<Vec<Local>>>()?;
                let output = nets.pop()?;
                gates.push(Gate { cell, pins: nets, output });
            }
            ".names" => outputs.push(local(words.next()?)?),
            _ => {}
        }
    }
    let mut arrival: HashMap<Local, u64> = told.iter().enumerate().map(|(k, &at)| (input_net(k), at)).collect();
    let gates = ordered(gates, &mut arrival, cells)?;
    Some(Called { gates, outputs, arrival })
}

/// The gates, each behind those that feed it, and when each net arrives; gate lines stand in no order of that kind.
fn ordered(gates: Vec<Gate>, arrival: &mut HashMap<Local, u64>, cells: &[Cell]) -> Option<Vec<Gate>> {
    let by_net: HashMap<Local, usize> = gates.iter().enumerate().map(|(k, gate)| (gate.output, k)).collect();
    let mut order = Vec::with_capacity(gates.len());
    for start in 0..gates.len() {
        let mut stack = vec![start];
        while let Some(&k) = stack.last() {
            let gate = &gates[k];
            if arrival.contains_key(&gate.output) {
                stack.pop();
                continue;
            }
            let waits: Vec<usize> = gate
                .pins
                .iter()
                .filter(|pin| !arrival.contains_key(pin))
                .map(|pin| by_net.get(pin).copied())
                .collect::<Option<_>>()?;
            if waits.is_empty() {
                let at = |(pin, delay): (&Local, &u32)| arrival[pin] + u64::from(*delay);
                let latest = gate.pins.iter().zip(&cells[gate.cell].delays).map(at).max().unwrap_or_default();
                arrival.insert(gate.output, latest);
                order.push(k);
                stack.pop();
            } else if stack.len() > 4 * gates.len() {
                return None;
            }
            stack.extend(waits);
        }
    }
    let mut gates: Vec<Option<Gate>> = gates.into_iter().map(Some).collect();
    Some(order.into_iter().filter_map(|k| gates[k].take()).collect())
}

/// How much earlier than it is every net is told to a call, so that the latest can be told at all.
pub fn shift(told: impl Iterator<Item = u64>) -> u64 {
    told.max().unwrap_or_default().saturating_sub(LATEST_TOLD)
}

/// The arrivals text of a piece's inputs. One that comes before the shift is told to come with it: no net comes later than told.
fn arrivals(told: &[u64]) -> String {
    let shift = shift(told.iter().copied());
    let late = told.iter().map(|at| at.saturating_sub(shift)).enumerate().filter(|(_, at)| *at > 0);
    late.fold("input arrival\n".to_string(), |text, (k, at)| text + &format!("{k} {at}\n"))
}

fn call(work: &Work, piece: &Piece, told: &[u64]) -> Result<Called, Failure> {
    let map = if work.pairs { arraymap::map_pairs } else { arraymap::map };
    let netlist = map(&work.cell_text, &piece.graph, arrivals(told).as_bytes()).map_err(Failure::Call)?;
    let by_name = work.cells.iter().enumerate().map(|(k, cell)| (cell.name.as_str(), k)).collect();
    read(&netlist.text, &work.cells, &by_name, told)
        .ok_or_else(|| Failure::Fault("cannot read a call's netlist".into()))
}

/// One call, told the planned arrivals.
pub fn once(work: &Work, plan: &Plan, piece: &Piece) -> Result<Called, Failure> {
    call(work, piece, &piece.inputs.iter().map(|net| plan.arrival(*net)).collect::<Vec<u64>>())
}

/// What all pieces' calls came to.
pub struct Rounds {
    pub called: Vec<Called>,
    pub calls: usize,
    /// Every net came when it was told to.
    pub exact: bool,
    /// When each net at a cut arrives, at the latest.
    pub told: Vec<[u64; 2]>,
}

/// Calls for all pieces, told the planned arrivals first. `None` where an output comes later than planned, or a net later than told to the end.
pub fn rounds(work: &Work, plan: &Plan, pieces: &[Piece], most: usize) -> Result<Option<Rounds>, Failure> {
    let mut told = plan.arrival.clone();
    let at = |told: &[[u64; 2]], net: &Net| {
        let (variable, phase) = net.at();
        told[variable][phase]
    };
    let mut called: Vec<Option<Called>> = pieces.iter().map(|_| None).collect();
    let mut due: Vec<usize> = (0..pieces.len()).collect();
    let mut calls = 0;
    for round in 1.. {
        let inputs = |k: &usize| pieces[*k].inputs.iter().map(|net| at(&told, net)).collect::<Vec<u64>>();
        let made = side_by_side(work, pieces, &due, inputs)?;
        calls += due.len();
        for (k, made) in due.iter().zip(made) {
            called[*k] = Some(made);
        }
        let mut now = told.clone();
        for (piece, called) in pieces.iter().zip(called.iter().flatten()) {
            for (net, output) in piece.outputs.iter().zip(&called.outputs) {
                let (variable, phase) = net.at();
                now[variable][phase] = called.arrival[output];
            }
        }
        let latest = plan.graph.outputs.iter().map(|&literal| at(&now, &Net::of(literal))).max();
        if latest > Some(plan.latest) {
            return Ok(None);
        }
        let moved = |net: &&Net| at(&now, net) != at(&told, net);
        due = (0..pieces.len()).filter(|k| pieces[*k].inputs.iter().any(|net| moved(&net))).collect();
        let is_shifted = |piece: &Piece| shift(piece.inputs.iter().map(|net| at(&told, net))) > 0;
        let exact = due.is_empty() && !pieces.iter().any(is_shifted);
        let later = |net: &Net| at(&now, net) > at(&told, net);
        let settled = due.is_empty() || round >= most && !pieces.iter().any(|piece| piece.inputs.iter().any(later));
        if settled {
            // A net that no piece takes in is told to nobody: what it came to counts.
            return Ok(Some(Rounds { called: called.into_iter().flatten().collect(), calls, exact, told: now }));
        }
        if round >= 2 * most {
            return Ok(None);
        }
        told = now;
    }
    Ok(None)
}

/// The due pieces' calls, on all processors.
fn side_by_side(
    work: &Work,
    pieces: &[Piece],
    due: &[usize],
    told: impl Fn(&usize) -> Vec<u64> + Sync,
) -> Result<Vec<Called>, Failure> {
    let next = AtomicUsize::new(0);
    let made: Mutex<Vec<Option<Result<Called, Failure>>>> = Mutex::new(due.iter().map(|_| None).collect());
    let progress = Mutex::new(Progress { last: Instant::now(), done: 0, all: due.len() });
    let threads = thread::available_parallelism().map_or(1, |n| n.get()).min(due.len());
    thread::scope(|scope| -> Result<(), Failure> {
        for _ in 0..threads {
            let worker = || loop {
                let at = next.fetch_add(1, Ordering::Relaxed);
                let Some(k) = due.get(at) else { break };
                let one = call(work, &pieces[*k], &told(k));
                made.lock().unwrap_or_else(|held| held.into_inner())[at] = Some(one);
                progress.lock().unwrap_or_else(|held| held.into_inner()).step(work);
            };
            let started = thread::Builder::new().stack_size(STACK).spawn_scoped(scope, worker);
            started.map_err(|_| Failure::Fault("there is no memory for another thread".into()))?;
        }
        Ok(())
    })?;
    let made = made.into_inner().unwrap_or_else(|held| held.into_inner());
    made.into_iter().map(|one| one.unwrap_or_else(|| Err(Failure::Fault("a call did not end".into())))).collect()
}

/// A line on standard error each second.
struct Progress {
    last: Instant,
    done: usize,
    all: usize,
}

impl Progress {
    fn step(&mut self, work: &Work) {
        self.done += 1;
        if work.progress && self.done < self.all && self.last.elapsed() >= Duration::from_secs(1) {
            self.last = Instant::now();
            crate::say(&format!("arraymap: {} of {} calls\n", self.done, self.all));
        }
    }
}
