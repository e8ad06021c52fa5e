//! A netlist as a picture for Graphviz: inputs at the left, outputs at the right, the latest path in red. Of a large netlist it is the cone of that path.

use crate::{
    cells::{pin, Cell},
    graph::Graph,
    lines::visible,
    netlist::{Driver, Gate, Netlist, Totals},
};
use std::{
    collections::{BTreeSet, HashSet, VecDeque},
    fmt::Write,
};

const LATEST: &str = "color=\"#c0392b\", fontcolor=\"#c0392b\", penwidth=2.2";

/// A string of the DOT language.
fn quoted(words: &str) -> String {
    format!("\"{}\"", words.replace('\\', "\\\\").replace('"', "\\\"").replace('\n', "\\n"))
}

/// A symbol on a line of its own, without bytes that Graphviz or a viewer of its pictures cannot read.
fn symbol(name: Option<&str>) -> String {
    name.map(|name| name.chars().map(visible).chain(["\n".into()]).collect()).unwrap_or_default()
}

/// Graphviz lays out this many gates in seconds; some thousand take it longer than anyone waits.
const WHOLE: usize = 300;

/// So many gates of a larger netlist are drawn.
const CONE: usize = 120;

/// The gates that are drawn, where the netlist is too large to be drawn whole: those on the latest path, then those that feed it, the nearest first and of
/// those the latest first.
fn cone(netlist: &Netlist, cells: &[Cell]) -> Option<HashSet<usize>> {
    if netlist.gates.len() <= WHOLE {
        return None;
    }
    let gate = |net: &str| match netlist.driver(net) {
        Some(Driver::Gate(k)) => Some(k),
        _ => None,
    };
    let (_, steps) = netlist.latest(cells)?;
    let mut open: VecDeque<usize> = steps.iter().filter_map(|step| gate(step.net)).collect();
    // The path is drawn whole, however long it is.
    let most = CONE.max(open.len());
    let mut drawn: HashSet<usize> = open.iter().copied().collect();
    while let Some(k) = open.pop_front() {
        let mut feeding: Vec<&str> = netlist.gates[k].pins.clone();
        feeding.sort_by_key(|net| std::cmp::Reverse(netlist.arrival(net)));
        for k in feeding.into_iter().filter_map(gate) {
            if drawn.len() < most && drawn.insert(k) {
                open.push_back(k);
            }
        }
    }
    Some(drawn)
}

/// What is said where the picture is not of the whole netlist.
pub fn note(netlist: &Netlist, cells: &[Cell]) -> String {
    let note = |drawn: HashSet<usize>| format!("arraymap: {}\n", of_cone(drawn.len(), netlist.gates.len()));
    cone(netlist, cells).map(note).unwrap_or_default()
}

fn of_cone(drawn: usize, gates: usize) -> String {
    format!("the picture is the cone of the latest path: {drawn} of {gates} gates")
}

pub fn picture(totals: Totals, netlist: &Netlist, cells: &[Cell], graph: Option<&Graph>) -> String {
    let Totals { gates, area, arrival } = totals;
    let steps = netlist.latest(cells);
    // Each net on the latest path, and each pin that it goes into.
    let mut nets = HashSet::new();
    let mut pins = HashSet::new();
    let mut last = None;
    if let Some((output, steps)) = &steps {
        last = Some(*output);
        nets.extend(steps.iter().map(|step| step.net));
        pins.extend(steps.windows(2).map(|pair| (pair[0].net, pair[1].into)));
    }
    let cone = cone(netlist, cells);
    let is_drawn = |k: usize| cone.as_ref().is_none_or(|drawn| drawn.contains(&k));
    let drawn: Vec<&Gate> = (0..).zip(&netlist.gates).filter(|(k, _)| is_drawn(*k)).map(|(_, gate)| gate).collect();
    let used: BTreeSet<&str> = drawn.iter().flat_map(|gate| gate.pins.iter().copied()).collect();
    let title = cone.as_ref().map(|drawn| of_cone(drawn.len(), netlist.gates.len()) + "; ").unwrap_or_default();
    let mark = |on: bool| if on { format!(", {LATEST}") } else { String::new() };
    let mut text = format!(
        "digraph top {{\n    rankdir=LR; nodesep=0.16; ranksep=0.55;\n    label={}; labelloc=b; fontname=\"Helvetica\"; fontsize=12;\n    \
         node [fontname=\"Helvetica\", fontsize=11, height=0.3, margin=\"0.09,0.03\"];\n    edge [fontname=\"Helvetica\", fontsize=9, arrowsize=0.6];\n",
        quoted(&format!("{title}gates {gates}, area {area}, arrival {arrival}; figures in the boxes are arrivals, the latest path is red"))
    );
    // All inputs in one column and all outputs in another.
    text.push_str("    { rank=source;\n");
    for (k, net) in netlist.inputs.iter().enumerate().filter(|(_, net)| cone.is_none() || used.contains(*net)) {
        let name = symbol(graph.and_then(|graph| graph.input_name(k)));
        let label = quoted(&format!("{name}{net}  {}", netlist.arrival(net)));
        let _ = writeln!(
            text,
            "        {} [shape=box, style=rounded, label={label}{}];",
            quoted(net),
            mark(nets.contains(net))
        );
    }
    text.push_str("    }\n");
    for net in used.iter().filter(|net| matches!(netlist.driver(net), Some(Driver::Gate(k)) if !is_drawn(k))) {
        let label = quoted(&format!("{net}  {}", netlist.arrival(net)));
        let _ = writeln!(text, "    {} [shape=plaintext, fontcolor=\"#777777\", label={label}];", quoted(net));
    }
    for gate in drawn {
        let label = quoted(&format!("{}\n{}  {}", cells[gate.cell].name, gate.output, netlist.arrival(gate.output)));
        let _ = writeln!(
            text,
            "    {} [shape=box, label={label}{}];",
            quoted(gate.output),
            mark(nets.contains(gate.output))
        );
        for (k, net) in gate.pins.iter().enumerate() {
            let on = pins.contains(&(gate.output, Some(pin(k))));
            let _ =
                writeln!(text, "    {} -> {} [label=\"{}\"{}];", quoted(net), quoted(gate.output), pin(k), mark(on));
        }
    }
    text.push_str("    { rank=sink;\n");
    let outputs = || netlist.outputs.iter().enumerate().filter(|(k, _)| cone.is_none() || last == Some(*k));
    for (k, (output, net)) in outputs() {
        let name = symbol(graph.and_then(|graph| graph.output_name(k)));
        let label = quoted(&format!("{name}{output}  {}", netlist.arrival(net)));
        let _ = writeln!(
            text,
            "        {} [shape=box, style=rounded, label={label}{}];",
            quoted(output),
            mark(last == Some(k))
        );
    }
    text.push_str("    }\n");
    for (k, (output, net)) in outputs() {
        let on = if last == Some(k) { format!(" [{LATEST}]") } else { String::new() };
        let _ = writeln!(text, "    {} -> {}{on};", quoted(net), quoted(output));
    }
    text.push_str("}\n");
    text
}
