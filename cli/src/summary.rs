//! The figures of a netlist in words.

use crate::{
    cells::Cell,
    graph::Graph,
    lines::shown,
    netlist::{Driver, Netlist, Totals},
};
use std::fmt::Write;

/// Gates, area and arrival; the gates of each cell; when each output arrives; the latest path.
pub fn summary(totals: Totals, netlist: &Netlist, cells: &[Cell], graph: Option<&Graph>) -> String {
    let Totals { gates, area, arrival } = totals;
    let mut text = format!("gates {gates}, area {area}, arrival {arrival}\n");
    table(&mut text, netlist, cells);
    outputs(&mut text, netlist, graph);
    if let Some((last, _)) = netlist.latest(cells) {
        text += &path(last, netlist, cells, graph);
    }
    text
}

/// The cells that are used, in the library's order, and the gates of each.
pub fn used<'c>(netlist: &Netlist, cells: &'c [Cell]) -> Vec<(u64, &'c Cell)> {
    let mut counts = vec![0; cells.len()];
    netlist.gates.iter().for_each(|gate| counts[gate.cell] += 1);
    counts.into_iter().zip(cells).filter(|(n, _)| *n > 0).collect()
}

fn table(text: &mut String, netlist: &Netlist, cells: &[Cell]) {
    let used = used(netlist, cells);
    if !used.is_empty() {
        text.push_str("\n   gates      area  cell\n");
    }
    for (n, cell) in used {
        let _ = writeln!(text, "{n:8} {:9}  {}", n * u64::from(cell.area), cell.name);
    }
}

/// When each output arrives, and both ends of it where delays are ranges: the `# timing` lines with the outputs' names.
fn outputs(text: &mut String, netlist: &Netlist, graph: Option<&Graph>) {
    let head = match (netlist.outputs.is_empty(), netlist.ranges.is_empty()) {
        (true, _) => "",
        (_, true) => "\n arrival  output\n",
        (_, false) => "\n     low      high  output\n",
    };
    text.push_str(head);
    for (k, (name, net)) in netlist.outputs.iter().enumerate() {
        let of = meant(graph.and_then(|graph| graph.output_name(k)));
        let _ = match netlist.ranges.get(k) {
            Some((low, high)) => writeln!(text, "{low:8} {high:9}  {name}{of}"),
            None => writeln!(text, "{:8}  {name}{of}", netlist.arrival(net)),
        };
    }
}

/// A symbol behind what it names.
fn meant(name: Option<&str>) -> String {
    name.map(|name| format!(" ({})", shown(name.as_bytes()))).unwrap_or_default()
}

/// The latest path to an output.
pub fn path(output: usize, netlist: &Netlist, cells: &[Cell], graph: Option<&Graph>) -> String {
    let (name, _) = netlist.outputs[output];
    let of = meant(graph.and_then(|graph| graph.output_name(output)));
    let mut text = format!("\nlatest path, to {name}{of}\n arrival  net     driven by\n");
    let mut into = None;
    for step in netlist.path(output, cells).iter().rev() {
        let by = match netlist.driver(step.net) {
            Some(Driver::Input(k)) => {
                format!("input {k}{}", meant(graph.and_then(|graph| graph.input_name(k))))
            }
            Some(Driver::Gate(k)) => {
                let cell = &cells[netlist.gates[k].cell].name;
                into.map_or(cell.clone(), |pin| format!("{cell}, through pin {pin}"))
            }
            None => String::new(),
        };
        let _ = writeln!(text, "{:8}  {:6}  {by}", netlist.arrival(step.net), step.net);
        into = step.into;
    }
    text
}

#[cfg(test)]
mod tests {
    use super::*;

    /// More gates than sums of 32 bits hold.
    #[test]
    fn sums_do_not_wrap() {
        let cells = [Cell { name: "buf".into(), table: 2, area: 65_535, delays: vec![65_535] }];
        let mut text = String::from(".model top\n.inputs p0\n.outputs o0\n");
        let (mut last, count) = (String::from("p0"), 65_545);
        for k in 1..=count {
            let net = if k < 65_536 { format!("p{k}") } else { format!("m{}", k - 65_535) };
            let _ = writeln!(text, ".gate buf A={last} O={net}");
            last = net;
        }
        let _ = writeln!(text, ".names {last} o0\n1 1\n.end");
        let netlist = Netlist::read(&text, &cells, b"").expect("a netlist");
        let total = 65_545 * 65_535;
        let told = summary(Totals { gates: count, area: total, arrival: total }, &netlist, &cells, None);
        assert_eq!(total, 4_295_491_575);
        assert!(told.starts_with("gates 65545, area 4295491575, arrival 4295491575\n"), "{told}");
        assert!(told.contains("   65545 4295491575  buf\n"), "{told}");
        assert!(told.contains("4295491575  o0\n"), "{told}");
    }
}
