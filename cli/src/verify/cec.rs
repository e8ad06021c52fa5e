//! ABC's `cec`, where ABC is installed. It gets the graph as it was given and the netlist as it will be written, each gate as the table of its cell: ABC 1.01
//! reads no `.names` behind a `.gate`, and no AIGER in the ASCII form.

use super::{blif::Netlist, graph::Graph};
use crate::any::tools::{abc, run, Ended, Folder};
use std::{fmt::Write, process::Command, time::Duration};

/// How long ABC may take.
const LIMIT: Duration = Duration::from_secs(10);

/// What was given, as far as ABC can read it.
pub enum Given<'t> {
    /// An AIGER text; the ASCII form is written as BLIF, an AND a table.
    Aiger(&'t [u8]),
    /// A block with latches, written without them.
    Block,
}

pub enum Cec {
    Equal,
    Differs,
    /// Why.
    NotDecided(String),
}

pub fn cec(given: Given, graph: &Graph, netlist: &Netlist) -> Cec {
    let Some(abc) = abc() else { return Cec::NotDecided("ABC is not installed".into()) };
    let made = Folder::new().and_then(|folder| {
        let name = match given {
            Given::Aiger(text) if is_read(text) => {
                folder.write("graph.aig", text)?;
                "graph.aig"
            }
            _ => {
                folder.write("graph.blif", ands(graph))?;
                "graph.blif"
            }
        };
        folder.write("netlist.blif", tables(netlist))?;
        Ok((folder, name))
    });
    let Ok((folder, name)) = made else { return Cec::NotDecided("there is no folder for ABC's files".into()) };
    let mut command = Command::new(abc);
    command.args(["-q", &format!("cec -n {name} netlist.blif")]).current_dir(folder.path());
    match run(&mut command, LIMIT) {
        Ended::Told { text, .. } if text.contains("NOT EQUIVALENT") => Cec::Differs,
        Ended::Told { text, .. } if text.contains("Networks are equivalent") => Cec::Equal,
        Ended::Told { .. } => Cec::NotDecided("ABC does not decide it".into()),
        Ended::Stopped => Cec::NotDecided(format!("ABC does not decide it in {} s", LIMIT.as_secs())),
        Ended::Absent(_) => Cec::NotDecided("ABC cannot be started".into()),
    }
}

/// Whether ABC reads the text: the binary form, its lines ended as everywhere but under Windows.
fn is_read(text: &[u8]) -> bool {
    let header = text.split(|byte| *byte == b'\n').next().unwrap_or_default();
    header.starts_with(b"aig ") && !header.ends_with(b"\r")
}

fn begin(inputs: usize, outputs: usize) -> String {
    let mut text = String::from(".model top\n.inputs");
    for k in 0..inputs {
        let _ = write!(text, " i{k}");
    }
    text.push_str("\n.outputs");
    for k in 0..outputs {
        let _ = write!(text, " o{k}");
    }
    text.push('\n');
    text
}

/// The ANDs as they were given, a table each.
fn ands(graph: &Graph) -> String {
    let mut text = begin(graph.inputs, graph.outputs.len());
    text.push_str(".names n0\n");
    for (k, input) in graph.support.iter().enumerate() {
        let _ = writeln!(text, ".names i{input} n{}\n1 1", k + 1);
    }
    for (k, [one, other]) in graph.ands.iter().enumerate() {
        let (left, bits) = (1 + graph.support.len() + k, [one, other].map(|literal| 1 - literal % 2));
        let _ = writeln!(text, ".names n{} n{} n{left}\n{}{} 1", one / 2, other / 2, bits[0], bits[1]);
    }
    for (k, literal) in graph.outputs.iter().enumerate() {
        let _ = writeln!(text, ".names n{} o{k}\n{} 1", literal / 2, 1 - literal % 2);
    }
    text + ".end\n"
}

/// The netlist with the table of each gate's cell in place of its name.
fn tables(netlist: &Netlist) -> String {
    let mut text = begin(netlist.inputs, netlist.outputs.len());
    let name = |net: u32| if (net as usize) < netlist.inputs { format!("i{net}") } else { format!("n{net}") };
    for gate in &netlist.gates {
        text.push_str(".names");
        for net in gate.pins.iter().chain([&gate.output]) {
            let _ = write!(text, " {}", name(*net));
        }
        text.push('\n');
        let pins = gate.pins.len();
        for row in (0..1 << pins).filter(|row| netlist.cells[gate.cell].table >> row & 1 == 1) {
            text.extend((0..pins).map(|j| if row >> j & 1 == 1 { '1' } else { '0' }));
            text.push_str(if pins == 0 { "1\n" } else { " 1\n" });
        }
    }
    for (k, net) in netlist.outputs.iter().enumerate() {
        let _ = writeln!(text, ".names {} o{k}\n1 1", name(*net));
    }
    text + ".end\n"
}
