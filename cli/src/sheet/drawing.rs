//! The netlist drawn: inputs at the left, outputs at the right, the latest path in red.

use super::{
    escape::{escape, grouped, short},
    layers::{layout, Layout, Plan},
    meant, Sheet,
};
use crate::{cells::pin, netlist::Netlist};
use std::{
    cmp::Reverse,
    collections::{HashMap, HashSet},
    fmt::Write,
};

/// A netlist of more gates is not drawn: a page of paper does not hold it.
const MOST: usize = 150;

/// A column of so many gates is never full.
const FULL: usize = 12;

const WIDTH: f64 = 104.0;
const HEIGHT: f64 = 34.0;
const CHANNEL: f64 = 64.0;
const EDGE: f64 = 6.0;
/// Between two pins of a box.
const PINS: f64 = 7.0;

pub fn drawing(sheet: &Sheet) -> String {
    let netlist = sheet.netlist;
    let gates = netlist.gates.len();
    let mut text = String::from("<h2>The netlist drawn</h2>\n");
    if gates > MOST {
        let _ = writeln!(
            text,
            "<p>It has {} gates and is not drawn: {MOST} are the most that can be read on a page. Its text stands below, and the latest path above.</p>",
            grouped(gates as u64)
        );
        return text;
    }
    if gates == 0 {
        return text + "<p>It has no gates.</p>\n";
    }
    text += "<p class=\"soft lead\">Boxes have the cell, its net and the net's arrival; letters at a box are its pins. The latest path is red.</p>\n";
    let boxes = boxes(sheet);
    let joins = joins(sheet);
    let plan = Plan { columns: columns(netlist), joins: joins.iter().map(|join| (join.from, join.to)).collect() };
    let layout = layout(&plan);
    let columns = plan.columns.iter().max().map_or(1, |last| last + 1) as f64;
    let (width, height) = (columns * (WIDTH + CHANNEL) - CHANNEL + 2.0 * EDGE, layout.height + 2.0 * EDGE);
    let _ = writeln!(
        text,
        "<figure><svg viewBox=\"0 0 {width:.0} {height:.0}\" width=\"{width:.0}\" height=\"{height:.0}\" role=\"img\" aria-label=\"netlist\">"
    );
    // What is marked lies above the rest.
    let (late, other): (Vec<_>, Vec<_>) = joins.iter().zip(&layout.ways).partition(|(join, _)| join.late);
    for (join, way) in other.into_iter().chain(late) {
        wire(&mut text, &plan, &layout, join, way);
    }
    for (k, drawn) in boxes.iter().enumerate() {
        let (x, y) = (left(plan.columns[k]), layout.boxes[k] + EDGE - HEIGHT / 2.0);
        let late = if drawn.late { " late" } else { "" };
        let round = if drawn.round { 12 } else { 2 };
        let _ = writeln!(
            text,
            "<g><title>{}</title><rect class=\"cell{late}\" x=\"{x:.1}\" y=\"{y:.1}\" width=\"{WIDTH}\" height=\"{HEIGHT}\" rx=\"{round}\"/>\
             {}<text x=\"{:.1}\" y=\"{:.1}\" text-anchor=\"middle\">{}</text><text x=\"{:.1}\" y=\"{:.1}\" text-anchor=\"middle\" class=\"soft\">{}</text></g>",
            escape(&drawn.title),
            letters(x, y + HEIGHT / 2.0, drawn.pins),
            x + WIDTH / 2.0,
            y + 14.0,
            short(&drawn.name, 14),
            x + WIDTH / 2.0,
            y + 27.0,
            short(&drawn.below, 14),
        );
    }
    text + "</svg></figure>\n"
}

/// The letters of a gate's pins, inside its box.
fn letters(x: f64, middle: f64, pins: usize) -> String {
    let letter = |k| {
        format!("<text class=\"pin\" x=\"{:.1}\" y=\"{:.1}\">{}</text>", x + 3.0, middle + shift(k, pins) + 2.5, pin(k))
    };
    (0..pins).map(letter).collect()
}

/// How far from the middle of its box a pin stands.
fn shift(pin: usize, pins: usize) -> f64 {
    PINS * (pin as f64 - (pins as f64 - 1.0) / 2.0)
}

fn left(column: usize) -> f64 {
    EDGE + column as f64 * (WIDTH + CHANNEL)
}

struct Drawn {
    name: String,
    below: String,
    title: String,
    pins: usize,
    round: bool,
    late: bool,
}

/// Inputs, gates and outputs, in this order: a box's number is its place here.
fn boxes(sheet: &Sheet) -> Vec<Drawn> {
    let netlist = sheet.netlist;
    let latest = netlist.latest(sheet.cells);
    let on: HashSet<&str> = latest.iter().flat_map(|(_, steps)| steps.iter().map(|step| step.net)).collect();
    let inputs = netlist.inputs.iter().enumerate().map(|(k, net)| {
        let name = sheet.graph.and_then(|graph| graph.input_name(k));
        let below = format!("{net} {}", netlist.arrival(net));
        Drawn {
            name: name.unwrap_or("input").into(),
            title: meant(net, name),
            below,
            pins: 0,
            round: true,
            late: on.contains(net),
        }
    });
    let gates = netlist.gates.iter().map(|gate| {
        let net = gate.output;
        let name = sheet.cell_name(gate.cell);
        let below = format!("{net} {}", netlist.arrival(net));
        Drawn {
            title: format!("{name}, net {below}"),
            name,
            below,
            pins: gate.pins.len(),
            round: false,
            late: on.contains(net),
        }
    });
    let outputs = netlist.outputs.iter().enumerate().map(|(k, (output, net))| {
        let name = sheet.graph.and_then(|graph| graph.output_name(k));
        let late = latest.as_ref().is_some_and(|(last, _)| *last == k);
        let below = format!("{output} {}", netlist.arrival(net));
        Drawn { name: name.unwrap_or("output").into(), title: meant(output, name), below, pins: 0, round: true, late }
    });
    inputs.chain(gates).chain(outputs).collect()
}

struct Join {
    from: usize,
    to: usize,
    /// Which pin of how many.
    pin: (usize, usize),
    late: bool,
}

/// The box that drives each net.
fn drivers<'t>(netlist: &Netlist<'t>) -> HashMap<&'t str, usize> {
    let gates = netlist.gates.iter().map(|gate| gate.output);
    netlist.inputs.iter().copied().chain(gates).enumerate().map(|(k, net)| (net, k)).collect()
}

fn joins(sheet: &Sheet) -> Vec<Join> {
    let netlist = sheet.netlist;
    let drivers = drivers(netlist);
    let latest = netlist.latest(sheet.cells);
    let steps = latest.as_ref().map_or(&[][..], |(_, steps)| steps);
    let late: HashSet<(&str, Option<char>)> = steps.windows(2).map(|pair| (pair[0].net, pair[1].into)).collect();
    let mut joins = Vec::new();
    for (k, gate) in netlist.gates.iter().enumerate() {
        let to = netlist.inputs.len() + k;
        for (at, net) in gate.pins.iter().enumerate() {
            if let Some(&from) = drivers.get(net) {
                joins.push(Join {
                    from,
                    to,
                    pin: (at, gate.pins.len()),
                    late: late.contains(&(gate.output, Some(pin(at)))),
                });
            }
        }
    }
    for (k, (_, net)) in netlist.outputs.iter().enumerate() {
        let to = netlist.inputs.len() + netlist.gates.len() + k;
        if let Some(&from) = drivers.get(net) {
            joins.push(Join { from, to, pin: (0, 1), late: latest.as_ref().is_some_and(|(last, _)| *last == k) });
        }
    }
    joins
}

/// Inputs stand in the first column, a gate behind the last of its pins, outputs behind all. A column that is full sends gates to later ones, those with the
/// most gates behind them last: so the drawing is about as high as it is wide.
fn columns(netlist: &Netlist) -> Vec<usize> {
    let (inputs, gates) = (netlist.inputs.len(), netlist.gates.len());
    let drivers = drivers(netlist);
    let feeding: Vec<Vec<usize>> = netlist
        .gates
        .iter()
        .map(|gate| gate.pins.iter().filter_map(|net| drivers.get(net).copied()).collect())
        .collect();
    let behind = |columns: &[usize], k: usize| feeding[k].iter().map(|&driver| columns[driver] + 1).max().unwrap_or(1);
    // Gates stand in no order of that kind: as many rounds as the longest way has gates.
    let mut levels = vec![0; inputs + gates];
    let mut ahead = vec![0; inputs + gates];
    let mut changed = true;
    while changed {
        changed = false;
        for k in 0..gates {
            let level = behind(&levels, k);
            changed |= levels[inputs + k] < level;
            levels[inputs + k] = level;
            for &driver in &feeding[k] {
                changed |= ahead[driver] <= ahead[inputs + k];
                ahead[driver] = ahead[driver].max(ahead[inputs + k] + 1);
            }
        }
    }
    let most = FULL.max(2 * gates.isqrt());
    let mut order: Vec<usize> = (0..gates).collect();
    order.sort_by_key(|&k| (levels[inputs + k], Reverse(ahead[inputs + k])));
    let mut columns = vec![0; inputs + gates];
    let mut filled: Vec<usize> = vec![0; 2];
    for k in order {
        let mut column = behind(&columns, k);
        loop {
            filled.resize(filled.len().max(column + 1), 0);
            if filled[column] < most {
                break;
            }
            column += 1;
        }
        filled[column] += 1;
        columns[inputs + k] = column;
    }
    columns.extend(vec![filled.len(); netlist.outputs.len()]);
    columns
}

/// A join as a curve through the places at which it passes the columns between.
fn wire(text: &mut String, plan: &Plan, layout: &Layout, join: &Join, way: &[f64]) {
    let column = plan.columns[join.from];
    let (pin, pins) = join.pin;
    let (mut x, mut y) = (left(column) + WIDTH, layout.boxes[join.from] + EDGE);
    let mut curve = format!("M{x:.1} {y:.1}");
    for (k, height) in
        way.iter().map(|height| height + EDGE).chain([layout.boxes[join.to] + EDGE + shift(pin, pins)]).enumerate()
    {
        let to = left(column + 1 + k);
        let bend = (to - x) / 2.0;
        let _ = write!(curve, "C{:.1} {y:.1} {:.1} {height:.1} {to:.1} {height:.1}", x + bend, to - bend);
        (x, y) = (to, height);
        if k < way.len() {
            x = to + WIDTH;
            let _ = write!(curve, "H{x:.1}");
        }
    }
    let late = if join.late { " late" } else { "" };
    let _ = writeln!(text, "<path class=\"wire{late}\" d=\"{curve}\"/>");
}
