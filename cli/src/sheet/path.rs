//! The latest path: a row for each gate on it, over a scale of time.

use super::{escape::short, meant, Sheet};
use crate::netlist::{Driver, Step};
use std::fmt::Write;

const ROW: usize = 22;
const LABELS: f64 = 330.0;
const WIDTH: f64 = 820.0;
/// Left for the last figure.
const MARGIN: f64 = 60.0;

/// Round steps of a scale, at most ten of them.
fn step(most: u64) -> u64 {
    let mut step = 1;
    for by in [2, 5, 10].into_iter().cycle() {
        if most / step <= 10 {
            break;
        }
        let decade = 10u64.pow(step.ilog10());
        step = if by == 10 { decade * 10 } else { decade * by };
    }
    step
}

pub fn path(sheet: &Sheet) -> String {
    let Some((last, steps)) = sheet.netlist.latest(sheet.cells) else { return String::new() };
    let most = sheet.netlist.arrival(sheet.netlist.outputs[last].1);
    let output = meant(sheet.netlist.outputs[last].0, sheet.graph.and_then(|graph| graph.output_name(last)));
    let gates = steps.len() - 1;
    let of = match gates {
        0 => "no gate is on it".to_string(),
        1 => "one gate is on it".to_string(),
        n => format!("{n} gates are on it"),
    };
    let height = (steps.len() + 1) * ROW + 8;
    let class = if gates > 36 { "fit long" } else { "fit" };
    let mut text = format!(
        "<h2>The latest path</h2>\n<p class=\"lead\">It ends at <code>{}</code>, at {most}; {of}. Time goes to the right: each bar is the delay of one gate, from the arrival of the pin that it \
         waits for to its own.</p>\n<figure class=\"{class}\"><svg viewBox=\"0 0 {WIDTH} {height}\" width=\"{WIDTH}\" height=\"{height}\" role=\"img\" aria-label=\"latest path\">\n",
        super::escape::escape(&output)
    );
    scale(&mut text, most, height);
    for (row, k) in (0..steps.len()).rev().enumerate() {
        step_row(&mut text, sheet, &steps, k, row, most);
    }
    text + "</svg></figure>\n"
}

fn at(time: u64, most: u64) -> f64 {
    LABELS + (WIDTH - MARGIN - LABELS) * time as f64 / most.max(1) as f64
}

fn scale(text: &mut String, most: u64, height: usize) {
    let step = step(most);
    let mut time = 0;
    while time <= most {
        let x = at(time, most);
        let _ = writeln!(
            text,
            "<line class=\"tick\" x1=\"{x:.1}\" y1=\"16\" x2=\"{x:.1}\" y2=\"{}\"/><text class=\"soft\" x=\"{x:.1}\" y=\"11\" text-anchor=\"middle\">{time}</text>",
            height - 4
        );
        match time.checked_add(step) {
            Some(next) => time = next,
            None => break,
        }
    }
}

/// The row of a net on the path: what drives it, through which pin, and the bar of its delay.
fn step_row(text: &mut String, sheet: &Sheet, steps: &[Step], k: usize, row: usize, most: u64) {
    let netlist = sheet.netlist;
    let net = steps[k].net;
    let high = netlist.arrival(net);
    let y = (row + 1) * ROW;
    let middle = y + ROW / 2 + 4;
    let (driver, low) = match netlist.driver(net) {
        Some(Driver::Gate(gate)) => {
            let cell = sheet.cell_name(netlist.gates[gate].cell);
            let behind = steps.get(k + 1);
            let pin = behind.and_then(|step| step.into).map(|pin| format!(" through {pin}")).unwrap_or_default();
            (format!("{cell}{pin}"), behind.map_or(0, |step| netlist.arrival(step.net)))
        }
        Some(Driver::Input(input)) => {
            let name = sheet.graph.and_then(|graph| graph.input_name(input)).unwrap_or_default();
            (format!("input {input} {name}"), high)
        }
        None => (String::new(), high),
    };
    let (x, width) = (at(low, most), (at(high, most) - at(low, most)).max(3.0));
    let delay = if high > low { format!("{high}, +{}", high - low) } else { high.to_string() };
    let _ = writeln!(
        text,
        "<text x=\"0\" y=\"{middle}\">{}</text><text x=\"75\" y=\"{middle}\">{}</text>\
         <rect class=\"solid late\" x=\"{x:.1}\" y=\"{}\" width=\"{width:.1}\" height=\"12\" rx=\"2\"/>{}",
        short(net, 10),
        short(&driver, 36),
        y + 5,
        delay_text(x, x + width, middle, &delay)
    );
}

/// The figure behind its bar, or before it where there is no room.
fn delay_text(left: f64, right: f64, y: usize, words: &str) -> String {
    let room = 7.0 * words.len() as f64 + 6.0;
    let (x, anchor) = if right + room > WIDTH { (left - 5.0, "end") } else { (right + 5.0, "start") };
    format!("<text class=\"soft\" x=\"{x:.1}\" y=\"{y}\" text-anchor=\"{anchor}\">{words}</text>")
}
