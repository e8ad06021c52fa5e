//! The calls' netlists joined to one: a net at a cut has one name, and gates that nothing uses are left out.

use super::{
    aig::Aig,
    calls::{input_net, Called, Local, Rounds},
    piece::Piece,
    plan::Net,
};
use crate::cells::{pin, Cell};
use std::{
    collections::{HashMap, HashSet},
    fmt::Write,
};

/// A net of the whole: 2v and 2v+1 are variable v's phases, further ones stand behind them.
type Global = u32;

fn global(net: Net) -> Global {
    2 * net.variable + u32::from(net.phase)
}

pub struct Gate {
    pub cell: usize,
    pub pins: Vec<Global>,
    pub output: Global,
}

pub struct Joined {
    /// Each behind those that feed it.
    pub gates: Vec<Gate>,
    /// The net of each output.
    pub outputs: Vec<Global>,
    /// How many nets there are, those of variables first.
    pub nets: usize,
}

#[derive(Default)]
struct Draft {
    made: HashMap<Global, (usize, Vec<Global>)>,
    /// Nets that are another net.
    same: HashMap<Global, Global>,
    /// Inverters that stand for the other phase of a net.
    inverted: HashSet<Global>,
    next: Global,
}

impl Draft {
    fn add(&mut self, piece: &Piece, called: &Called, given: &HashSet<Net>, told: &[[u64; 2]]) {
        let mut name: HashMap<Local, Global> =
            piece.inputs.iter().enumerate().map(|(k, net)| (input_net(k), global(*net))).collect();
        for (net, output) in piece.outputs.iter().zip(&called.outputs) {
            match name.get(output) {
                // The net of an input, or of another output.
                Some(&other) if other == global(*net) => {}
                Some(&other) => drop(self.same.insert(global(*net), other)),
                None => drop(name.insert(*output, global(*net))),
            }
        }
        let mut left_out = HashSet::new();
        for (k, net) in piece.inputs.iter().enumerate() {
            let (inverter, other) = (input_net(k) + 1, net.other());
            let Some(&at) = called.arrival.get(&inverter).filter(|_| !name.contains_key(&inverter)) else { continue };
            if !given.contains(&other) {
                // The first inverter of the net stands for all of them.
                if !self.inverted.insert(global(other)) {
                    left_out.insert(inverter);
                }
                name.insert(inverter, global(other));
            } else if told[other.variable as usize][other.phase as usize] <= at {
                left_out.insert(inverter);
                name.insert(inverter, global(other));
            }
        }
        for gate in called.gates.iter().filter(|gate| !left_out.contains(&gate.output)) {
            let mut of = |net: Local| {
                *name.entry(net).or_insert_with(|| {
                    self.next += 1;
                    self.next - 1
                })
            };
            let pins = gate.pins.iter().map(|pin| of(*pin)).collect();
            self.made.insert(of(gate.output), (gate.cell, pins));
        }
    }

    fn real(&self, mut net: Global) -> Global {
        while let Some(&other) = self.same.get(&net) {
            net = other;
        }
        net
    }

    /// The gates behind the outputs, each behind those that feed it; `None` on a circle, which no plan makes.
    fn joined(self, outputs: &[u32]) -> Option<Joined> {
        let outputs: Vec<Global> = outputs.iter().map(|net| self.real(*net)).collect();
        let mut gates: Vec<Gate> = Vec::new();
        let mut done: HashSet<Global> = HashSet::new();
        let mut open: HashSet<Global> = HashSet::new();
        let mut stack = outputs.clone();
        while let Some(&net) = stack.last() {
            let Some((cell, pins)) = self.made.get(&net).filter(|_| !done.contains(&net)) else {
                stack.pop();
                continue;
            };
            let pins: Vec<Global> = pins.iter().map(|pin| self.real(*pin)).collect();
            let waits: Vec<Global> =
                pins.iter().copied().filter(|pin| self.made.contains_key(pin) && !done.contains(pin)).collect();
            if waits.is_empty() {
                done.insert(net);
                gates.push(Gate { cell: *cell, pins, output: net });
                stack.pop();
            } else if !open.insert(net) {
                return None;
            }
            stack.extend(waits);
        }
        Some(Joined { gates, outputs, nets: self.next as usize })
    }
}

/// Joins what the calls printed. Outputs that are constants or inputs have calls of their own, without ANDs: `plain`.
pub fn join(graph: &Aig, pieces: &[Piece], rounds: &Rounds, plain: &[(Piece, Called)]) -> Option<Joined> {
    let mut given: HashSet<Net> = pieces.iter().flat_map(|piece| piece.outputs.iter().copied()).collect();
    given.extend((1..=graph.inputs as u32).map(|variable| Net { variable, phase: 0 }));
    let mut draft = Draft { next: 2 * graph.variables() as u32, ..Draft::default() };
    let all = pieces.iter().zip(&rounds.called).chain(plain.iter().map(|(piece, called)| (piece, called)));
    for (piece, called) in all {
        draft.add(piece, called, &given, &rounds.told);
    }
    draft.joined(&graph.outputs)
}

impl Joined {
    /// When each net arrives, where the inputs arrive so late and the cells have these delays.
    pub fn arrivals(&self, delays: &[Vec<u32>], late: &[u32]) -> Vec<u64> {
        let mut at = vec![0; self.nets];
        for (k, &late) in late.iter().enumerate() {
            at[2 * (k + 1)] = late.into();
        }
        for gate in &self.gates {
            let arrive = |(pin, delay): (&Global, &u32)| at[*pin as usize] + u64::from(*delay);
            at[gate.output as usize] = gate.pins.iter().zip(&delays[gate.cell]).map(arrive).max().unwrap_or_default();
        }
        at
    }

    /// The netlist up to `.end`, as the call prints it; nets within a call have numbers above those of the graph.
    pub fn text(&self, graph: &Aig, cells: &[Cell]) -> String {
        let mut text = String::from(".model top\n.inputs");
        for k in 0..graph.given.count() {
            let _ = write!(text, " p{}", graph.given.number(k));
        }
        text.push_str("\n.outputs");
        for k in 0..self.outputs.len() {
            let _ = write!(text, " o{k}");
        }
        text.push('\n');
        let name = |net: Global| self.name(graph, net);
        for gate in &self.gates {
            let _ = write!(text, ".gate {}", cells[gate.cell].name);
            for (k, net) in gate.pins.iter().enumerate() {
                let _ = write!(text, " {}={}", pin(k), name(*net));
            }
            let _ = writeln!(text, " O={}", name(gate.output));
        }
        for (k, net) in self.outputs.iter().enumerate() {
            let _ = writeln!(text, ".names {} o{k}\n1 1", name(*net));
        }
        text.push_str(".end\n");
        text
    }

    pub fn name(&self, graph: &Aig, net: Global) -> String {
        let (variable, phase) = (net as usize / 2, if net % 2 == 1 { 'm' } else { 'p' });
        match graph.numbers.get(variable) {
            Some(number) => format!("{phase}{number}"),
            None => format!("p{}", u64::from(graph.highest) + 1 + u64::from(net) - 2 * graph.variables() as u64),
        }
    }
}
