//! Graph and netlist simulated side by side, 512 input vectors at a time, on all processors.

use super::{
    blif::{Gate, Netlist},
    graph::Graph,
    justify::Directed,
    library::Cell,
};
use std::{
    sync::atomic::{AtomicBool, AtomicU64, Ordering},
    thread,
};

/// Words of 64 input vectors in a block.
pub const WORDS: usize = 8;
pub type Block = [u64; WORDS];

/// Input vectors of a block.
pub const VECTORS: u64 = 64 * WORDS as u64;

/// What feeds a multiplexer of a cell: a pin, the multiplexer with that number, or a constant.
#[derive(Clone, Copy)]
enum Source {
    Pin(usize),
    Mux(usize),
    Constant(bool),
}

/// A cell as multiplexers, decided pin by pin from the last: the pin, what it selects at 0 and at 1.
struct Program {
    muxes: Vec<(usize, Source, Source)>,
    value: Source,
}

impl Program {
    fn new(cell: &Cell) -> Program {
        let mut program = Program { muxes: Vec::new(), value: Source::Constant(false) };
        program.value = program.part(u32::from(cell.table), cell.pins.len());
        program
    }

    /// The value of the first 2^pins rows of the table.
    fn part(&mut self, table: u32, pins: usize) -> Source {
        let rows = 1 << pins;
        let ones = ((1u64 << rows) - 1) as u32;
        match table & ones {
            0 => return Source::Constant(false),
            table if table == ones => return Source::Constant(true),
            _ => {}
        }
        let (pin, half) = (pins - 1, rows / 2);
        let (low, high) = (table & ((1 << half) - 1), table >> half & ((1 << half) - 1));
        if low == high {
            return self.part(low, pin);
        }
        let (low, high) = (self.part(low, pin), self.part(high, pin));
        if let (Source::Constant(false), Source::Constant(true)) = (low, high) {
            return Source::Pin(pin);
        }
        self.muxes.push((pin, low, high));
        Source::Mux(self.muxes.len() - 1)
    }
}

/// A multiplexer over slots: `to` gets `low` where `pin` is 0, `high` where it is 1.
struct Mux {
    to: u32,
    pin: u32,
    low: u32,
    high: u32,
}

/// Slots 0 and 1 are the constants; results within a gate follow, then the inputs of the support, then the nets.
const WITHIN: u32 = 2;
const FIRST: usize = 2 + 16;

/// The gates in the fan-in cones of the outputs as multiplexers over slots.
pub struct Compiled {
    /// The inputs in the cones, by their positions, ascending: slot FIRST + k is input `support[k]`.
    pub support: Vec<u32>,
    inputs: usize,
    muxes: Vec<Mux>,
    outputs: Vec<u32>,
    slots: usize,
}

impl Compiled {
    pub fn new(netlist: &Netlist) -> Compiled {
        let mut used = vec![false; netlist.nets];
        netlist.outputs.iter().for_each(|net| used[*net as usize] = true);
        for gate in netlist.gates.iter().rev().filter(|gate| gate.output as usize >= netlist.inputs) {
            if used[gate.output as usize] {
                gate.pins.iter().for_each(|net| used[*net as usize] = true);
            }
        }
        let support: Vec<u32> = (0..netlist.inputs as u32).filter(|net| used[*net as usize]).collect();
        let mut slot = vec![0; netlist.nets];
        let mut slots = FIRST as u32;
        for net in (0..netlist.nets).filter(|net| used[*net]) {
            slot[net] = slots;
            slots += 1;
        }
        let programs: Vec<Program> = netlist.cells.iter().map(Program::new).collect();
        let kept = netlist.gates.iter().filter(|gate| used[gate.output as usize]);
        let muxes = kept.flat_map(|gate| muxes_of(&programs[gate.cell], gate, &slot)).collect();
        let outputs = netlist.outputs.iter().map(|net| slot[*net as usize]).collect();
        Compiled { support, inputs: netlist.inputs, muxes, outputs, slots: slots as usize }
    }

    /// The same as an AND graph, to find input vectors with.
    pub fn graph(&self) -> Graph {
        let mut literal = vec![0; self.slots];
        literal[1] = 1;
        for k in 0..self.support.len() {
            literal[FIRST + k] = 2 * (k as u32 + 1);
        }
        let mut ands: Vec<[u32; 2]> = Vec::new();
        let mut and = |one: u32, other: u32| match (one, other) {
            (0, _) | (_, 0) => 0,
            (1, only) | (only, 1) => only,
            _ => {
                ands.push([one, other]);
                2 * (self.support.len() + ands.len()) as u32
            }
        };
        for mux in &self.muxes {
            let [pin, low, high] = [mux.pin, mux.low, mux.high].map(|slot| literal[slot as usize]);
            literal[mux.to as usize] = match (low, high) {
                _ if low == high => low,
                (0, _) => and(pin, high),
                (_, 0) => and(pin ^ 1, low),
                (1, _) => and(pin, high ^ 1) ^ 1,
                (_, 1) => and(pin ^ 1, low ^ 1) ^ 1,
                _ => {
                    let (one, other) = (and(pin, high), and(pin ^ 1, low));
                    and(one ^ 1, other ^ 1) ^ 1
                }
            };
        }
        let outputs = self.outputs.iter().map(|slot| literal[*slot as usize]).collect();
        Graph { inputs: self.inputs, support: self.support.clone(), ands, outputs }
    }
}

fn muxes_of(program: &Program, gate: &Gate, slot: &[u32]) -> Vec<Mux> {
    let of = |source: Source| match source {
        Source::Constant(value) => u32::from(value),
        Source::Pin(k) => slot[gate.pins[k] as usize],
        Source::Mux(k) => WITHIN + k as u32,
    };
    let to = slot[gate.output as usize];
    if !matches!(program.value, Source::Mux(_)) {
        // A constant, or a pin as it is.
        let value = of(program.value);
        return vec![Mux { to, pin: 0, low: value, high: value }];
    }
    let last = program.muxes.len() - 1;
    let mux = |(k, (pin, low, high)): (usize, &(usize, Source, Source))| Mux {
        to: if k == last { to } else { of(Source::Mux(k)) },
        pin: of(Source::Pin(*pin)),
        low: of(*low),
        high: of(*high),
    };
    program.muxes.iter().enumerate().map(mux).collect()
}

/// The inputs that either of them uses, by their positions, ascending.
pub fn columns(graph: &Graph, netlist: &Compiled) -> Vec<u32> {
    let mut columns = [&graph.support[..], &netlist.support[..]].concat();
    columns.sort_unstable();
    columns.dedup();
    columns
}

/// The columns of a support.
pub fn places(support: &[u32], columns: &[u32]) -> Vec<usize> {
    support.iter().map(|input| columns.partition_point(|column| column < input)).collect()
}

#[derive(Clone, Copy)]
pub enum Vectors<'a> {
    /// All assignments of the columns.
    All,
    /// The directed ones, and so many random ones.
    Random(u64, &'a Directed),
}

/// An assignment of all inputs, in order, and an output that differs under it.
#[derive(Clone, Debug, PartialEq, Eq)]
pub struct Difference {
    pub assignment: Vec<bool>,
    pub output: usize,
}

/// A thread ended before its work was done.
#[derive(Debug, PartialEq, Eq)]
pub struct EndedEarly;

struct Simulation<'a> {
    graph: &'a Graph,
    netlist: &'a Compiled,
    columns: &'a [u32],
    vectors: Vectors<'a>,
    /// The columns of either support.
    places: [Vec<usize>; 2],
}

/// The memory of one thread.
struct Values {
    columns: Vec<Block>,
    variables: Vec<Block>,
    slots: Vec<Block>,
}

/// Compares graph and netlist on all processors: a difference, where one is found.
pub fn compare(
    graph: &Graph,
    netlist: &Compiled,
    columns: &[u32],
    vectors: Vectors,
) -> Result<Option<Difference>, EndedEarly> {
    let places = [places(&graph.support, columns), places(&netlist.support, columns)];
    let simulation = Simulation { graph, netlist, columns, vectors, places };
    let blocks = match vectors {
        Vectors::All => u64::div_ceil(1 << columns.len(), VECTORS),
        Vectors::Random(count, directed) => directed.blocks() + u64::div_ceil(count, VECTORS),
    };
    let (next, stop) = (AtomicU64::new(0), AtomicBool::new(false));
    let worker = || {
        let mut values = Values {
            columns: vec![[0; WORDS]; columns.len()],
            variables: vec![[0; WORDS]; graph.variables()],
            slots: vec![[0; WORDS]; netlist.slots],
        };
        while !stop.load(Ordering::Relaxed) {
            let block = next.fetch_add(1, Ordering::Relaxed);
            if block >= blocks {
                break;
            }
            if let Some(found) = simulation.block(block, &mut values) {
                stop.store(true, Ordering::Relaxed);
                return Some(found);
            }
        }
        None
    };
    let threads = thread::available_parallelism().map_or(1, |n| n.get()).min(blocks as usize);
    thread::scope(|scope| {
        let others: Vec<_> = (1..threads).map(|_| scope.spawn(worker)).collect();
        let mut found = worker();
        for other in others {
            found = other.join().map_err(|_| EndedEarly)?.or(found);
        }
        Ok(found)
    })
}

impl Simulation<'_> {
    /// The first difference of a block.
    fn block(&self, block: u64, values: &mut Values) -> Option<Difference> {
        let Values { columns, variables, slots } = values;
        match self.vectors {
            Vectors::All => columns.iter_mut().enumerate().for_each(|(k, column)| *column = counted(block, k)),
            Vectors::Random(_, directed) if block < directed.blocks() => directed.fill(block, columns),
            Vectors::Random(..) => {
                let mut random = Random::new(block);
                columns.iter_mut().flatten().for_each(|word| *word = random.word());
            }
        }
        for (k, place) in self.places[0].iter().enumerate() {
            variables[1 + k] = columns[*place];
        }
        for (k, place) in self.places[1].iter().enumerate() {
            slots[FIRST + k] = columns[*place];
        }
        let first = 1 + self.graph.support.len();
        for (k, operands) in self.graph.ands.iter().enumerate() {
            let [a, b] = operands.map(|literal| (&variables[literal as usize / 2], mask(literal)));
            let mut value = [0; WORDS];
            for w in 0..WORDS {
                value[w] = (a.0[w] ^ a.1) & (b.0[w] ^ b.1);
            }
            variables[first + k] = value;
        }
        slots[1] = [u64::MAX; WORDS];
        for mux in &self.netlist.muxes {
            let [pin, low, high] = [mux.pin, mux.low, mux.high].map(|slot| &slots[slot as usize]);
            let mut value = [0; WORDS];
            for w in 0..WORDS {
                value[w] = low[w] ^ (low[w] ^ high[w]) & pin[w];
            }
            slots[mux.to as usize] = value;
        }
        for (output, (literal, slot)) in self.graph.outputs.iter().zip(&self.netlist.outputs).enumerate() {
            let (expected, found) = (&variables[*literal as usize / 2], &slots[*slot as usize]);
            let wrong = |w: usize| expected[w] ^ mask(*literal) ^ found[w];
            if let Some(w) = (0..WORDS).find(|w| wrong(*w) != 0) {
                let bit = wrong(w).trailing_zeros();
                let mut assignment = vec![false; self.graph.inputs];
                for (column, input) in columns.iter().zip(self.columns) {
                    assignment[*input as usize] = column[w] >> bit & 1 == 1;
                }
                return Some(Difference { assignment, output });
            }
        }
        None
    }
}

fn mask(literal: u32) -> u64 {
    0u64.wrapping_sub(u64::from(literal % 2))
}

/// Column k in the assignments of a block, counted upwards; where fewer than fill a block are there, they repeat.
fn counted(block: u64, k: usize) -> Block {
    const WITHIN_WORD: [u64; 6] = [
        0xaaaa_aaaa_aaaa_aaaa,
        0xcccc_cccc_cccc_cccc,
        0xf0f0_f0f0_f0f0_f0f0,
        0xff00_ff00_ff00_ff00,
        0xffff_0000_ffff_0000,
        0xffff_ffff_0000_0000,
    ];
    let mut value = [0; WORDS];
    for (w, word) in value.iter_mut().enumerate() {
        let high = block * WORDS as u64 + w as u64;
        *word = match WITHIN_WORD.get(k) {
            Some(within) => *within,
            None => 0u64.wrapping_sub(high >> (k - 6) & 1),
        };
    }
    value
}

/// Random words, the same for the same seed (xorshift64* behind splitmix64).
pub struct Random(u64);

impl Random {
    pub fn new(seed: u64) -> Random {
        let mixed = (seed + 1).wrapping_mul(0x9e37_79b9_7f4a_7c15);
        let mixed = (mixed ^ mixed >> 30).wrapping_mul(0xbf58_476d_1ce4_e5b9);
        Random((mixed ^ mixed >> 27) | 1)
    }

    pub fn word(&mut self) -> u64 {
        self.0 ^= self.0 >> 12;
        self.0 ^= self.0 << 25;
        self.0 ^= self.0 >> 27;
        self.0.wrapping_mul(0x2545_f491_4f6c_dd1d)
    }
}

#[cfg(test)]
mod tests {
    use super::*;

    fn cell(table: u16, pins: usize) -> Cell {
        Cell { pins: vec![Vec::new(); pins], output: Vec::new(), table }
    }

    fn one_gate(table: u16, pins: u32) -> Compiled {
        let gate = Gate { cell: 0, pins: (0..pins).collect(), output: pins };
        let cells = vec![cell(table, pins as usize)];
        Compiled::new(&Netlist {
            cells,
            gates: vec![gate],
            inputs: pins as usize,
            nets: pins as usize + 1,
            outputs: vec![pins],
        })
    }

    /// A gate of every fifth table of three pins against a graph of its rows, and against its own graph; with one row changed it differs in that row alone.
    #[test]
    fn a_changed_row_is_found() {
        let none = Directed::default();
        for table in (0..256u16).step_by(5) {
            let mut ands: Vec<[u32; 2]> = Vec::new();
            let mut and = |one: u32, other: u32| {
                ands.push([one, other]);
                2 * (3 + ands.len()) as u32
            };
            let mut sum = 1;
            for row in (0..8u32).filter(|row| table >> row & 1 == 1) {
                let product = (0..3).fold(1, |product, k| and(product, 2 * (k + 1) + (row >> k & 1 ^ 1)));
                sum = and(sum, product ^ 1);
            }
            let graph = Graph::of_cones(3, &ands, &[sum ^ 1]);
            for row in 0..8 {
                let changed = one_gate(table ^ 1 << row, 3);
                let assignment = (0..3).map(|k| row >> k & 1 == 1).collect::<Vec<_>>();
                for vectors in [Vectors::All, Vectors::Random(1 << 12, &none)] {
                    let by = |netlist: &Compiled| compare(&graph, netlist, &[0, 1, 2], vectors);
                    assert_eq!(by(&one_gate(table, 3)), Ok(None), "{table:02x}");
                    assert_eq!(
                        by(&changed),
                        Ok(Some(Difference { assignment: assignment.clone(), output: 0 })),
                        "{table:02x}"
                    );
                    assert_eq!(compare(&changed.graph(), &changed, &[0, 1, 2], vectors), Ok(None), "{table:02x}");
                }
            }
        }
    }

    /// All assignments of 14 inputs are tried, not some of them twice: the last one alone differs.
    #[test]
    fn the_last_assignment_is_tried() {
        let ands: Vec<[u32; 2]> = (0..13).map(|k| [if k == 0 { 2 } else { 2 * (14 + k) }, 2 * (k + 2)]).collect();
        let graph = Graph::of_cones(14, &ands, &[2 * 27]);
        let netlist = Compiled { support: Vec::new(), inputs: 14, muxes: Vec::new(), outputs: vec![0], slots: FIRST };
        let columns = columns(&graph, &netlist);
        let found = compare(&graph, &netlist, &columns, Vectors::All);
        assert_eq!(found, Ok(Some(Difference { assignment: vec![true; 14], output: 0 })));
    }
}
