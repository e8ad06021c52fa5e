//! A printed netlist, read again for figures and pictures: what drives each net, when it arrives, and the latest path.

use crate::{
    arrivals,
    cells::{pin, Cell},
};
use std::{
    collections::HashMap,
    hash::{BuildHasherDefault, Hasher},
};

pub struct Gate<'t> {
    /// Which cell of the library.
    pub cell: usize,
    /// The net at each pin.
    pub pins: Vec<&'t str>,
    pub output: &'t str,
}

/// The figures of a `# gates` line: those of a netlist joined from several calls may exceed what a call's own (`arraymap::Figures`) hold.
#[derive(Clone, Copy, Debug, PartialEq, Eq)]
pub struct Totals {
    pub gates: u64,
    pub area: u64,
    /// The arrival of the latest output.
    pub arrival: u64,
}

impl From<arraymap::Figures> for Totals {
    fn from(figures: arraymap::Figures) -> Totals {
        let arraymap::Figures { gates, area, arrival } = figures;
        Totals { gates: gates.into(), area: area.into(), arrival: arrival.into() }
    }
}

pub struct Netlist<'t> {
    pub inputs: Vec<&'t str>,
    pub gates: Vec<Gate<'t>>,
    /// The name of each output, and the net that it is joined to.
    pub outputs: Vec<(&'t str, &'t str)>,
    /// The low and the high arrival of each output, where the library's delays are ranges.
    pub ranges: Vec<(u64, u64)>,
    /// The place of each net in `driven`.
    places: HashMap<&'t str, usize, BuildHasherDefault<NetHasher>>,
    /// What drives each net, and when it arrives.
    driven: Vec<Option<Net>>,
}

#[derive(Clone, Copy)]
struct Net {
    driver: Driver,
    arrival: u64,
}

#[derive(Clone, Copy, PartialEq, Eq)]
pub enum Driver {
    Input(usize),
    Gate(usize),
}

/// For names of nets, which mapping has given: short, and chosen by nobody who would have them collide. The standard library's hasher takes several times
/// as long, and so would every figure.
#[derive(Default)]
struct NetHasher(u64);

impl Hasher for NetHasher {
    fn write(&mut self, bytes: &[u8]) {
        for part in bytes.chunks(8) {
            let word = part.iter().fold(0, |word, &byte| word << 8 | u64::from(byte));
            self.0 = (self.0.rotate_left(5) ^ word).wrapping_mul(0x9e37_79b9_7f4a_7c15);
        }
    }

    fn finish(&self) -> u64 {
        self.0 ^ self.0 >> 32
    }
}

impl<'t> Netlist<'t> {
    /// Reads what the mapper prints; `None` where the text is anything else.
    pub fn read(text: &'t str, cells: &[Cell], late: &[u8]) -> Option<Netlist<'t>> {
        let by_name: HashMap<&str, usize> = cells.iter().enumerate().map(|(k, cell)| (cell.name.as_str(), k)).collect();
        let mut netlist = Netlist {
            inputs: Vec::new(),
            gates: Vec::new(),
            outputs: Vec::new(),
            ranges: Vec::new(),
            places: HashMap::default(),
            driven: Vec::new(),
        };
        let mut lines = text.lines();
        for line in lines.by_ref() {
            let (word, rest) = line.split_once(' ').unwrap_or((line, ""));
            match word {
                ".inputs" => netlist.inputs.extend(rest.split(' ').filter(|net| !net.is_empty())),
                ".gate" => netlist.gates.push(gate(rest, &by_name, cells)?),
                ".names" => netlist.outputs.push(rest.split_once(' ').map(|(net, output)| (output, net))?),
                ".end" => break,
                _ => {}
            }
        }
        for line in lines {
            if let Some(range) = line.strip_prefix("# timing ") {
                let (_, ends) = range.split_once(' ')?;
                let (low, high) = ends.split_once(' ')?;
                netlist.ranges.push((low.parse().ok()?, high.parse().ok()?));
            }
        }
        if !netlist.ranges.is_empty() && netlist.ranges.len() != netlist.outputs.len() {
            return None;
        }
        netlist.arrive(cells, &arrivals::read(late, netlist.inputs.len()))?;
        Some(netlist)
    }

    /// Gives every net its driver and its arrival. A gate waits until its pins have arrived; gates stand in no order of that kind.
    fn arrive(&mut self, cells: &[Cell], late: &[u32]) -> Option<()> {
        let (inputs, gates) = (self.inputs.len(), self.gates.len());
        self.places.reserve(inputs + gates);
        for (place, net) in self.inputs.iter().copied().chain(self.gates.iter().map(|gate| gate.output)).enumerate() {
            if self.places.insert(net, place).is_some() {
                return None;
            }
        }
        self.driven = vec![None; inputs + gates];
        // The gates that use a net: the first of them, and behind each the next.
        let mut first: Vec<Option<usize>> = vec![None; inputs + gates];
        let mut uses: Vec<(usize, Option<usize>)> = Vec::new();
        let mut open: Vec<usize> = Vec::with_capacity(gates);
        // The places of all gates' pins, and where each gate's begin.
        let (mut pins, mut begin): (Vec<usize>, Vec<usize>) = (Vec::new(), Vec::with_capacity(gates));
        for (k, gate) in self.gates.iter().enumerate() {
            open.push(gate.pins.len());
            begin.push(pins.len());
            for net in &gate.pins {
                let place = *self.places.get(net)?;
                pins.push(place);
                uses.push((k, first[place].replace(uses.len())));
            }
        }
        let mut ready: Vec<usize> = (0..inputs).collect();
        for (k, &late) in (0..inputs).zip(late) {
            self.driven[k] = Some(Net { driver: Driver::Input(k), arrival: late.into() });
        }
        for (k, _) in open.iter().enumerate().filter(|(_, &pins)| pins == 0) {
            self.driven[inputs + k] = Some(Net { driver: Driver::Gate(k), arrival: 0 });
            ready.push(inputs + k);
        }
        while let Some(net) = ready.pop() {
            let mut next = first[net];
            while let Some((k, other)) = next.map(|at| uses[at]) {
                next = other;
                open[k] -= 1;
                if open[k] == 0 {
                    let at = |(place, delay): (&usize, &u32)| {
                        self.driven[*place].map_or(0, |net| net.arrival) + u64::from(*delay)
                    };
                    let arrival = pins[begin[k]..].iter().zip(&cells[self.gates[k].cell].delays).map(at).max()?;
                    self.driven[inputs + k] = Some(Net { driver: Driver::Gate(k), arrival });
                    ready.push(inputs + k);
                }
            }
        }
        let joined = self.outputs.iter().all(|(_, net)| self.net(net).is_some());
        (joined && open.iter().all(|&pins| pins == 0)).then_some(())
    }

    fn net(&self, net: &str) -> Option<Net> {
        self.driven[*self.places.get(net)?]
    }

    pub fn arrival(&self, net: &str) -> u64 {
        self.net(net).map_or(0, |net| net.arrival)
    }

    pub fn driver(&self, net: &str) -> Option<Driver> {
        self.net(net).map(|net| net.driver)
    }

    /// The output that arrives last, the first of such, and its latest path.
    pub fn latest(&self, cells: &[Cell]) -> Option<(usize, Vec<Step<'t>>)> {
        let last = (0..self.outputs.len()).rev().max_by_key(|&k| self.arrival(self.outputs[k].1))?;
        Some((last, self.path(last, cells)))
    }

    /// The nets on the latest path to an output, from the last to the first; behind each the pin of the gate before it that it goes into.
    pub fn path(&self, output: usize, cells: &[Cell]) -> Vec<Step<'t>> {
        let mut net = self.outputs[output].1;
        let mut steps = vec![Step { net, into: None }];
        while let Some(Driver::Gate(k)) = self.driver(net) {
            let gate = &self.gates[k];
            let due = self.arrival(net);
            let late = |&(_, (source, delay)): &(usize, (&&str, &u32))| self.arrival(source) + u64::from(*delay) == due;
            let Some((at, (&source, _))) = gate.pins.iter().zip(&cells[gate.cell].delays).enumerate().find(late) else {
                break;
            };
            steps.push(Step { net: source, into: Some(pin(at)) });
            net = source;
        }
        steps
    }
}

/// A gate line behind its first word.
fn gate<'t>(words: &'t str, by_name: &HashMap<&str, usize>, cells: &[Cell]) -> Option<Gate<'t>> {
    let mut words = words.split(' ');
    let cell = *by_name.get(words.next()?)?;
    let mut pins = Vec::with_capacity(5);
    for word in words {
        // A pin's letter and `=`.
        pins.push(word.get(2..)?);
    }
    let output = pins.pop()?;
    (pins.len() == cells[cell].pins()).then_some(Gate { cell, pins, output })
}

pub struct Step<'t> {
    pub net: &'t str,
    pub into: Option<char>,
}
