//! Verifies a joined netlist before it is written: the bytes that will be written against the bytes that were given, each read by a reader of its own.
//! Nothing here is shared with what maps, joins or writes. Programs are started, and counts are put into words, by the modules that all of `arraymap` uses.

mod aiger;
mod blif;
mod cec;
mod graph;
mod justify;
mod library;
mod simulate;

use crate::lines::counted;
use aiger::Aiger;
use arraymap::Checked;
use blif::{Model, Netlist};
use cec::{Cec, Given};
use graph::Graph;
use simulate::{compare, Compiled, Difference, Vectors};
use std::{fmt, thread};

/// Up to so many inputs all assignments are compared.
const EXHAUSTIVE: usize = 20;

/// Random input vectors beyond that.
const RANDOM: u64 = 1 << 20;

/// Up to so many inputs a message gives their values.
const SHOWN: usize = 100;

/// The names that inputs or outputs must have, in order.
pub enum Names {
    /// `first` and a number each.
    Numbered {
        first: &'static str,
        numbers: Vec<u32>,
    },
    /// `first` and the position.
    Counted {
        first: &'static str,
        count: usize,
    },
    Listed(Vec<Vec<u8>>),
}

impl Names {
    fn is(&self, k: usize, name: &[u8]) -> bool {
        let numbered = |first: &str, number: usize| {
            name.strip_prefix(first.as_bytes()).is_some_and(|rest| rest == number.to_string().as_bytes())
        };
        match self {
            Names::Numbered { first, numbers } => {
                numbers.get(k).is_some_and(|number| numbered(first, *number as usize))
            }
            Names::Counted { first, count } => k < *count && numbered(first, k),
            Names::Listed(names) => names.get(k).is_some_and(|known| known == name),
        }
    }

    fn shown(&self, k: usize) -> Option<String> {
        match self {
            Names::Numbered { first, numbers } => numbers.get(k).map(|number| format!("{first}{number}")),
            Names::Counted { first, count } => (k < *count).then(|| format!("{first}{k}")),
            Names::Listed(names) => names.get(k).map(|name| String::from_utf8_lossy(name).into_owned()),
        }
    }
}

/// What decided that netlist and graph are equal; or that nothing did.
#[derive(Clone, Debug, PartialEq, Eq)]
pub enum Verdict {
    /// The proved check accepted the netlist.
    ProvedCheck,
    /// No difference under any assignment of the inputs that either of them uses; `inputs` are all.
    AllAssignments { used: usize, inputs: usize },
    /// ABC's `cec` proved them equal, and no input vector showed a difference.
    Cec(Tried),
    /// No input vector showed a difference; why ABC did not decide.
    NotDecided(Tried, String),
}

/// The input vectors that were simulated.
#[derive(Clone, Copy, Debug, PartialEq, Eq)]
pub struct Tried {
    pub random: u64,
    pub directed: u64,
}

impl fmt::Display for Tried {
    fn fmt(&self, f: &mut fmt::Formatter) -> fmt::Result {
        write!(f, "no difference in {} random input vectors and {} directed ones", self.random, self.directed)
    }
}

impl fmt::Display for Verdict {
    fn fmt(&self, f: &mut fmt::Formatter) -> fmt::Result {
        match self {
            Verdict::ProvedCheck => write!(f, "equal, by the proved check"),
            Verdict::AllAssignments { used, inputs } => {
                let count = counted(1 << used, "input assignment", "input assignments");
                write!(f, "equal, under all {count}")?;
                if used < inputs {
                    write!(f, " of the {used} inputs in use")
                } else {
                    Ok(())
                }
            }
            Verdict::Cec(tried) => write!(f, "equal, by ABC's cec; {tried}"),
            Verdict::NotDecided(tried, why) => write!(f, "not proved; {tried} ({why})"),
        }
    }
}

/// Why the netlist must not be written. Each of them is a fault of the mapper, never of what was given.
#[derive(Debug, PartialEq, Eq)]
pub enum Fault {
    /// The text is no netlist of the library's cells with these inputs and outputs, or a comparison failed.
    Text(String),
    /// An output that differs, its name, and the assignment of the inputs in order.
    Differs { assignment: Vec<bool>, output: usize, name: String },
}

impl fmt::Display for Fault {
    fn fmt(&self, f: &mut fmt::Formatter) -> fmt::Result {
        match self {
            Fault::Text(what) => write!(f, "{what}"),
            Fault::Differs { assignment, name, .. } => {
                write!(f, "the netlist differs from what was given at output {name}, where ")?;
                let ones = assignment.iter().filter(|bit| **bit).count();
                if assignment.len() > SHOWN {
                    return write!(f, "{ones} of {} inputs are 1", assignment.len());
                }
                let bits: String = assignment.iter().map(|bit| if *bit { '1' } else { '0' }).collect();
                write!(f, "the inputs, in order, are {bits}")
            }
        }
    }
}

/// Verifies the netlist of an AIGER graph: the cell text and the graph as they were given, and the text up to `.end` that will be written.
pub fn netlist(cells: &[u8], graph: &[u8], written: &[u8]) -> Result<Verdict, Fault> {
    let given = aiger::read(graph).map_err(|why| Fault::Text(format!("the graph cannot be read again: {why}")))?;
    // The proved check has numbers of up to 65,535, and calls a header with larger ones no header (7).
    if given.largest <= u64::from(u16::MAX) {
        match arraymap::check(cells, graph, written) {
            Ok(Checked::Accepted) => return Ok(Verdict::ProvedCheck),
            Ok(Checked::Differs { setting, output }) => {
                let assignment = (0..given.graph.inputs).map(|k| setting >> k & 1 == 1).collect();
                return Err(Fault::Differs { assignment, output, name: format!("o{output}") });
            }
            // A text or a graph beyond its limits.
            Err(refusal) if matches!(refusal.number, 1 | 9 | 10 | 31) => {}
            Err(refusal) => return Err(Fault::Text(format!("the proved check rejects the netlist: {refusal}"))),
        }
    }
    let Aiger { graph: read, inputs, outputs, .. } = given;
    let library = library::cell_text(cells).map_err(Fault::Text)?;
    let model = Model::written(written).map_err(rejected)?;
    let netlist = model.netlist(&library, &inputs, &outputs).map_err(rejected)?;
    equal(&read, &netlist, &outputs, Given::Aiger(graph))
}

/// Verifies a block of yosys that was mapped: the block and the genlib library as they were given, and the BLIF that will be written, in the library's names.
pub fn block(genlib: &[u8], given: &[u8], written: &[u8]) -> Result<Verdict, Fault> {
    let block = Model::given(given).map_err(|why| Fault::Text(format!("the block cannot be read again: {why}")))?;
    let (graph, inputs, outputs) =
        block.block().map_err(|why| Fault::Text(format!("the block cannot be read again: {why}")))?;
    let model = Model::written(written).map_err(rejected)?;
    model.has_latches_of(&block).map_err(rejected)?;
    let netlist = model.netlist(&library::genlib(genlib), &inputs, &outputs).map_err(rejected)?;
    equal(&graph, &netlist, &outputs, Given::Block)
}

fn rejected(why: String) -> Fault {
    Fault::Text(format!("the netlist that was to be written is wrong: {why}"))
}

/// Compares them by all assignments; or by random and directed input vectors and, side by side with these, by ABC.
fn equal(graph: &Graph, netlist: &Netlist, outputs: &Names, given: Given) -> Result<Verdict, Fault> {
    let compiled = Compiled::new(netlist);
    let columns = simulate::columns(graph, &compiled);
    let differs = |Difference { assignment, output }: Difference| {
        let name = outputs.shown(output).unwrap_or_default();
        Fault::Differs { assignment, output, name }
    };
    let ended = || Fault::Text("a thread of the comparison ended early".into());
    let found = |vectors: Vectors| match compare(graph, &compiled, &columns, vectors) {
        Ok(None) => Ok(()),
        Ok(Some(difference)) => Err(differs(difference)),
        Err(_) => Err(ended()),
    };
    if columns.len() <= EXHAUSTIVE {
        found(Vectors::All)?;
        return Ok(Verdict::AllAssignments { used: columns.len(), inputs: graph.inputs });
    }
    let (simulated, by_abc) = thread::scope(|scope| {
        let by_abc = scope.spawn(|| cec::cec(given, graph, netlist));
        let directed = justify::directed(&[graph, &compiled.graph()], &columns);
        let count = directed.count();
        (found(Vectors::Random(RANDOM, &directed)).map(|()| count), by_abc.join())
    });
    let tried = Tried { random: RANDOM, directed: simulated? };
    match by_abc.map_err(|_| ended())? {
        Cec::Differs => Err(Fault::Text("ABC's cec finds that the netlist differs from what was given".into())),
        Cec::Equal => Ok(Verdict::Cec(tried)),
        Cec::NotDecided(why) => Ok(Verdict::NotDecided(tried, why)),
    }
}
