//! BLIF as it is written, line by line: a netlist of a library's cells, and the block of `.names` that yosys gives to ABC. It shares no code with what
//! writes netlists or reads blocks for mapping.

use super::{
    graph::{topological_order, Graph},
    library::{Cell, Library},
    Names,
};
use std::collections::{HashMap, HashSet};

/// A row of a `.names`: its bits and its value.
type Row<'t> = (&'t [u8], bool);

enum Driver<'t> {
    /// The cell's name and its connections, pin and net.
    Gate(&'t [u8], Vec<(&'t [u8], &'t [u8])>),
    /// The input nets, and the rows.
    Names(Vec<&'t [u8]>, Vec<Row<'t>>),
}

struct Statement<'t> {
    line: usize,
    driver: Driver<'t>,
    output: &'t [u8],
}

/// One model: what drives each net, in the order of the text.
#[derive(Default)]
pub struct Model<'t> {
    inputs: Vec<&'t [u8]>,
    outputs: Vec<&'t [u8]>,
    /// The words of each `.latch`: its input net, its output net and what follows.
    latches: Vec<Vec<&'t [u8]>>,
    statements: Vec<Statement<'t>>,
}

/// A net or a word for a message.
fn shown(word: &[u8]) -> String {
    String::from_utf8_lossy(word).escape_debug().to_string()
}

fn at<T>(line: usize, why: impl std::fmt::Display) -> Result<T, String> {
    Err(format!("line {line}: {why}"))
}

impl<'t> Model<'t> {
    /// Reads a text that was given: one model, up to `.end` or the text's end.
    pub fn given(text: &'t [u8]) -> Result<Model<'t>, String> {
        Model::read(text, false)
    }

    /// Reads a text that will be written: one model, up to `.end`, with nothing but comments behind it.
    pub fn written(text: &'t [u8]) -> Result<Model<'t>, String> {
        Model::read(text, true)
    }

    fn read(text: &'t [u8], is_written: bool) -> Result<Model<'t>, String> {
        let mut model = Model::default();
        let (mut words, mut first) = (Vec::new(), 1);
        let (mut has_model, mut has_end) = (false, false);
        for (k, line) in text.split(|byte| *byte == b'\n').enumerate() {
            let line = line.split(|byte| *byte == b'#').next().unwrap_or_default();
            let line = line.trim_ascii_end();
            let (line, continues) = line.strip_suffix(b"\\").map_or((line, false), |line| (line, true));
            if words.is_empty() {
                first = k + 1;
            }
            words.extend(line.split(u8::is_ascii_whitespace).filter(|word| !word.is_empty()));
            if continues || words.is_empty() {
                continue;
            }
            match words[0] {
                _ if has_end && !is_written => break,
                _ if has_end => return at(first, "only comments may follow `.end`"),
                b".model" if has_model => return at(first, "a second model"),
                b".model" => has_model = true,
                b".end" => has_end = true,
                _ => model.statement(&words, first)?,
            }
            words.clear();
        }
        if is_written && !has_end {
            return Err("the text ends before `.end`".into());
        }
        Ok(model)
    }

    fn statement(&mut self, words: &[&'t [u8]], line: usize) -> Result<(), String> {
        match words {
            [b".inputs", nets @ ..] => self.inputs.extend_from_slice(nets),
            [b".outputs", nets @ ..] => self.outputs.extend_from_slice(nets),
            [b".latch", rest @ ..] if rest.len() >= 2 => self.latches.push(rest.to_vec()),
            [b".names", pins @ .., output] => {
                self.statements.push(Statement { line, driver: Driver::Names(pins.to_vec(), Vec::new()), output });
            }
            [b".gate", cell, connections @ ..] if !connections.is_empty() => {
                let mut pairs = Vec::new();
                for word in connections {
                    match word.iter().position(|byte| *byte == b'=') {
                        Some(k) if k > 0 && k + 1 < word.len() => pairs.push((&word[..k], &word[k + 1..])),
                        _ => return at(line, format!("`{}` connects no pin to a net", shown(word))),
                    }
                }
                // Which of them is the output is the cell's to say.
                self.statements.push(Statement { line, driver: Driver::Gate(cell, pairs), output: b"" });
            }
            _ => return self.row(words, line),
        }
        Ok(())
    }

    fn row(&mut self, words: &[&'t [u8]], line: usize) -> Result<(), String> {
        let (bits, value): (&[u8], &[u8]) = match words {
            [value] => (b"", value),
            [bits, value] => (bits, value),
            _ => return at(line, format!("`{}` is not expected", shown(words[0]))),
        };
        let Some(Statement { driver: Driver::Names(pins, rows), .. }) = self.statements.last_mut() else {
            return at(line, format!("`{}` is not expected", shown(words[0])));
        };
        let good =
            bits.len() == pins.len() && bits.iter().all(|bit| b"01-".contains(bit)) && matches!(value, b"0" | b"1");
        let value = value == b"1";
        if !good || rows.first().is_some_and(|(_, first)| *first != value) {
            return at(line, "a row that its `.names` cannot have");
        }
        rows.push((bits, value));
        Ok(())
    }

    /// What the logic takes: the inputs, then the latches' outputs.
    pub fn sources(&self) -> Vec<&'t [u8]> {
        self.inputs.iter().copied().chain(self.latches.iter().map(|latch| latch[1])).collect()
    }

    /// What the logic gives: the outputs, then the latches' inputs.
    pub fn sinks(&self) -> Vec<&'t [u8]> {
        self.outputs.iter().copied().chain(self.latches.iter().map(|latch| latch[0])).collect()
    }

    /// That the latches are those of another model.
    pub fn has_latches_of(&self, other: &Model) -> Result<(), String> {
        match self.latches == other.latches {
            true => Ok(()),
            false => Err("the latches are not those of the block".into()),
        }
    }
}

/// An instance of a cell, by the numbers of its cell and its nets.
#[derive(Debug)]
pub struct Gate {
    pub cell: usize,
    pub pins: Vec<u32>,
    pub output: u32,
}

/// A netlist whose every net has one driver, in topological order.
#[derive(Debug)]
pub struct Netlist {
    pub cells: Vec<Cell>,
    pub gates: Vec<Gate>,
    /// Nets 0.. are the inputs.
    pub inputs: usize,
    pub nets: usize,
    pub outputs: Vec<u32>,
}

/// The wires and constants that a `.names` may be in a netlist of cells.
fn wire(pins: &[&[u8]], rows: &[Row]) -> Option<Cell> {
    let table = match (pins.len(), rows) {
        (0, [] | [(_, false)]) => 0,
        (0, [(_, true)]) => 1,
        (1, [(b"1", true)]) => 2,
        _ => return None,
    };
    Some(Cell { pins: vec![b"A".to_vec(); pins.len()], output: b"O".to_vec(), table })
}

/// The nets at the pins of a gate, and the net that it drives.
fn connected<'t>(cell: &Cell, pairs: &[(&'t [u8], &'t [u8])]) -> Result<(Vec<&'t [u8]>, &'t [u8]), String> {
    let net = |pin: &[u8]| {
        let mut found = pairs.iter().filter(|(name, _)| *name == pin);
        match (found.next(), found.next()) {
            (Some((_, net)), None) => Ok(*net),
            (Some(_), Some(_)) => Err(format!("pin {} is connected twice", shown(pin))),
            (None, _) => Err(format!("pin {} is not connected", shown(pin))),
        }
    };
    let pins: Result<Vec<&[u8]>, String> = cell.pins.iter().map(|pin| net(pin)).collect();
    let found = (pins?, net(&cell.output)?);
    match pairs.iter().find(|(pin, _)| *pin != cell.output && cell.pins.iter().all(|known| known != pin)) {
        Some((pin, _)) => Err(format!("the cell has no pin {}", shown(pin))),
        None => Ok(found),
    }
}

/// That the words are these names, in this order.
fn expect(what: &str, words: &[&[u8]], names: &Names) -> Result<(), String> {
    for (k, word) in words.iter().enumerate() {
        if !names.is(k, word) {
            return Err(match names.shown(k) {
                Some(name) => format!("{what} {k} is {}, not {name}", shown(word)),
                None => format!("{what} {k}, {}, is one too many", shown(word)),
            });
        }
    }
    names.shown(words.len()).map_or(Ok(()), |name| Err(format!("{what} {}, {name}, is missing", words.len())))
}

impl<'t> Model<'t> {
    /// The model as a netlist of the library's cells, with these inputs and outputs.
    pub fn netlist(&self, library: &Library, inputs: &Names, outputs: &Names) -> Result<Netlist, String> {
        let (sources, sinks) = (self.sources(), self.sinks());
        expect("input", &sources, inputs)?;
        expect("output", &sinks, outputs)?;
        let mut number: HashMap<&[u8], u32> = HashMap::with_capacity(sources.len() + self.statements.len());
        for net in &sources {
            let next = number.len() as u32;
            if number.insert(net, next).is_some() {
                return Err(format!("net {} is driven twice", shown(net)));
            }
        }
        let (mut cells, mut by_name): (Vec<Cell>, HashMap<&[u8], usize>) = (Vec::new(), HashMap::new());
        let mut read: Vec<(usize, usize, Vec<&[u8]>)> = Vec::with_capacity(self.statements.len());
        for Statement { line, driver, output } in &self.statements {
            let (cell, pins, output) = match driver {
                Driver::Names(pins, rows) => match wire(pins, rows) {
                    Some(cell) => (known(&mut cells, cell), pins.clone(), *output),
                    None => return at(*line, "a `.names` that is neither a wire nor a constant"),
                },
                Driver::Gate(name, pairs) => {
                    let cell = match (by_name.get(name), library.cell(name)) {
                        (Some(cell), _) => *cell,
                        (None, Ok(cell)) => {
                            cells.push(cell.clone());
                            by_name.insert(name, cells.len() - 1);
                            cells.len() - 1
                        }
                        (None, Err(why)) => return at(*line, format!("cell {}: {why}", shown(name))),
                    };
                    let (pins, output) = connected(&cells[cell], pairs).or_else(|why| at(*line, why))?;
                    (cell, pins, output)
                }
            };
            let next = number.len() as u32;
            if number.insert(output, next).is_some() {
                return at(*line, format!("net {} is driven twice", shown(output)));
            }
            read.push((*line, cell, pins));
        }
        let driven = |net: &[u8]| number.get(net).copied().ok_or_else(|| format!("net {} is not driven", shown(net)));
        let mut gates = Vec::with_capacity(read.len());
        for (k, (line, cell, pins)) in read.iter().enumerate() {
            let pins: Result<Vec<u32>, String> = pins.iter().map(|net| driven(net)).collect();
            gates.push(Gate {
                cell: *cell,
                pins: pins.or_else(|why| at(*line, why))?,
                output: (sources.len() + k) as u32,
            });
        }
        let outputs: Result<Vec<u32>, String> = sinks.iter().map(|net| driven(net)).collect();
        let outputs = outputs?;
        let first = sources.len();
        let needs = |k: usize, needed: &mut Vec<usize>| {
            needed.extend(gates[k].pins.iter().filter_map(|net| (*net as usize).checked_sub(first)));
        };
        let order = topological_order(gates.len(), needs).or_else(|k| at(read[k].0, "the gate is on a cycle"))?;
        let mut gates: Vec<Option<Gate>> = gates.into_iter().map(Some).collect();
        let gates = order.into_iter().filter_map(|k| gates[k].take()).collect();
        Ok(Netlist { cells, gates, inputs: sources.len(), nets: number.len(), outputs })
    }

    /// The block as an AND graph, in which every row of a `.names` has ANDs of its own. A net that nothing drives is constant false, as yosys means it.
    pub fn block(&self) -> Result<(Graph, Names, Names), String> {
        let (sources, sinks) = (self.sources(), self.sinks());
        let mut drivers: HashMap<&[u8], usize> = HashMap::new();
        for (k, Statement { line, output, .. }) in self.statements.iter().enumerate() {
            if drivers.insert(output, k).is_some() {
                return at(*line, format!("net {} is driven twice", shown(output)));
            }
        }
        let mut literal: HashMap<&[u8], u32> = HashMap::new();
        for (net, k) in sources.iter().zip(1..) {
            if literal.insert(net, 2 * k).is_some() || drivers.contains_key(net) {
                return Err(format!("net {} is driven twice", shown(net)));
            }
        }
        let mut block = Block { inputs: sources.len(), ands: Vec::new() };
        let mut open: HashSet<&[u8]> = HashSet::new();
        let mut stack = sinks.clone();
        while let Some(&net) = stack.last() {
            if literal.contains_key(net) {
                stack.pop();
                continue;
            }
            let Some(Statement { line, driver, .. }) = drivers.get(net).map(|k| &self.statements[*k]) else {
                literal.insert(net, 0);
                continue;
            };
            let Driver::Names(pins, rows) = driver else { return at(*line, "the block has a gate") };
            let waits: Vec<&[u8]> = pins.iter().copied().filter(|pin| !literal.contains_key(pin)).collect();
            if waits.is_empty() {
                let made = block.names(pins, rows, &literal);
                literal.insert(net, made);
            } else if !open.insert(net) {
                return at(*line, format!("net {} is on a cycle", shown(net)));
            }
            stack.extend(waits);
        }
        let outputs: Vec<u32> = sinks.iter().map(|net| literal[net]).collect();
        let listed = |nets: Vec<&[u8]>| Names::Listed(nets.into_iter().map(<[u8]>::to_vec).collect());
        Ok((Graph::of_cones(sources.len(), &block.ands, &outputs), listed(sources), listed(sinks)))
    }
}

/// The number of a wire's or constant's cell.
fn known(cells: &mut Vec<Cell>, cell: Cell) -> usize {
    cells.iter().position(|known| *known == cell).unwrap_or_else(|| {
        cells.push(cell);
        cells.len() - 1
    })
}

struct Block {
    inputs: usize,
    ands: Vec<[u32; 2]>,
}

impl Block {
    fn and(&mut self, one: u32, other: u32) -> u32 {
        self.ands.push([one, other]);
        2 * (self.inputs + self.ands.len()) as u32
    }

    fn names(&mut self, pins: &[&[u8]], rows: &[Row], literal: &HashMap<&[u8], u32>) -> u32 {
        // None of the rows: each is a product, and the complements of all products are anded.
        let mut none = 1;
        for (bits, _) in rows {
            let mut product = 1;
            for (pin, bit) in pins.iter().zip(*bits) {
                if *bit != b'-' {
                    product = self.and(product, literal[pin] ^ u32::from(*bit == b'0'));
                }
            }
            none = self.and(none, product ^ 1);
        }
        none ^ u32::from(rows.first().is_none_or(|(_, value)| *value))
    }
}

#[cfg(test)]
mod tests {
    use super::{super::library, *};

    const CELLS: &[u8] = b"first\ninv 1 0001 1 1 0 0 0\nnand2 2 0007 1 1 1 0 0\none 0 0001 1 0 0 0 0\n";
    const GOOD: &str = ".model top\n.inputs p1 p3\n.outputs o0 o1\n.gate inv A=m4 O=p4\n.gate nand2 A=p1 B=p3 O=m4\n.names p4 o0\n1 1\n.names p1 o1\n1 1\n.end\n# gates 2\n";

    fn read(text: &str) -> Result<Netlist, String> {
        let library = library::cell_text(CELLS).unwrap();
        let inputs = Names::Numbered { first: "p", numbers: vec![1, 3] };
        Model::written(text.as_bytes())?.netlist(&library, &inputs, &Names::Counted { first: "o", count: 2 })
    }

    #[test]
    fn a_netlist_is_read_in_topological_order() {
        let Netlist { gates, outputs, nets, .. } = read(GOOD).unwrap();
        assert_eq!((gates.len(), nets, outputs.len()), (4, 6, 2));
        assert_eq!((&gates[0].pins, gates[0].output), (&vec![0, 1], 3));
        assert!(read(&GOOD.replace('\n', "\r\n")).is_ok());
        assert!(read(&GOOD.replace("p1 p3\n", "p1 \\\n p3\n")).is_ok());
    }

    /// Each way in which a netlist can be wrong has its sentence.
    #[test]
    fn a_wrong_netlist_is_rejected() {
        for (old, new, why) in [
            (".gate nand2 A=p1 B=p3 O=m4\n", ".gate nand2 A=p1 B=p3 O=p4\n", "line 5: net p4 is driven twice"),
            (".gate nand2 A=p1 B=p3 O=m4\n", ".gate nand2 A=p1 B=p3 O=p3\n", "net p3 is driven twice"),
            (".names p1 o1\n1 1\n", ".names p1 o0\n1 1\n", "net o0 is driven twice"),
            (".gate nand2 A=p1 B=p3 O=m4\n", "", "line 4: net m4 is not driven"),
            (".names p1 o1\n1 1\n", "", "net o1 is not driven"),
            (".gate nand2 A=p1 B=p3 O=m4\n", ".gate nand2 A=p1 B=p4 O=m4\n", "is on a cycle"),
            (".gate inv A=m4", ".gate nor2 A=m4", "line 4: cell nor2: no cell of the library has this name"),
            ("A=p1 B=p3", "A=p1 C=p3", "pin B is not connected"),
            ("A=p1 B=p3", "A=p1 B=p3 C=p1", "the cell has no pin C"),
            ("A=p1 B=p3", "A=p1 A=p1 B=p3", "pin A is connected twice"),
            ("B=p3 O=m4", "B=p3 Y=m4", "pin O is not connected"),
            ("A=p1 B=p3", "A=p1 B", "connects no pin"),
            (".inputs p1 p3", ".inputs p3 p1", "input 0 is p3, not p1"),
            (".inputs p1 p3", ".inputs p1", "input 1, p3, is missing"),
            (".inputs p1 p3", ".inputs p1 p3 p5", "input 2, p5, is one too many"),
            (".outputs o0 o1", ".outputs o0", "output 1, o1, is missing"),
            (".outputs o0 o1", ".outputs o1 o0", "output 0 is o1, not o0"),
            (".outputs o0 o1", ".outputs o0 x", "output 1 is x, not o1"),
            (".names p4 o0\n1 1", ".names p4 o0\n0 1", "neither a wire nor a constant"),
            (".names p4 o0\n1 1", ".names p4 o0", "neither a wire nor a constant"),
            (".names p4 o0\n1 1", ".names p4 o0\n11 1", "a row that"),
            (".end\n", "", "ends before `.end`"),
            (".end\n", ".end\n.gate inv A=p1 O=m1\n", "only comments may follow"),
            (".end\n", ".model x\n.end\n", "a second model"),
            (".end\n", ".subckt x a=b\n.end\n", "`.subckt` is not expected"),
        ] {
            let text = GOOD.replacen(old, new, 1);
            assert_ne!(text, GOOD, "{old}");
            let found = read(&text).expect_err(why);
            assert!(found.contains(why), "{why}: {found}");
        }
    }

    #[test]
    fn a_block_has_ands_for_every_row() {
        let text = b".model m\n.inputs a b\n.outputs x y z one zero w\n.latch x q re c 2\n.names a b x\n11 1\n.names a q y\n1- 0\n-1 0\n.names z\n.names one\n1\n.names zero\n0\n.end\n";
        let (graph, inputs, outputs) = Model::given(text).unwrap().block().unwrap();
        assert!(inputs.is(2, b"q") && outputs.is(6, b"x") && outputs.shown(7).is_none());
        assert_eq!(graph.support, [0, 1, 2]);
        // z, zero and w, which nothing drives, are false.
        let value = |literal: u32| (literal < 2).then_some(literal);
        assert_eq!(graph.outputs[2..6].iter().copied().map(value).collect::<Vec<_>>(), [Some(0), None, None, Some(0)]);
    }
}
