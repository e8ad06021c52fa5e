//! When each output arrives: a bar from its low to its high arrival.

use super::{escape::escape, meant, Sheet};
use std::fmt::Write;

/// More outputs than these stand in two columns, or in three.
const ONE_COLUMN: usize = 24;
const TWO_COLUMNS: usize = 96;

/// A bar of a row: thin from 0, full from the low to the high end, in thousandths of its width.
pub fn bar(low: u64, high: u64, most: u64, late: bool) -> String {
    let at = |time: u64| 1_000.0 * time as f64 / most.max(1) as f64;
    let late = if late { " late" } else { "" };
    // A single point in time is still to be seen.
    let width = (at(high) - at(low)).max(6.0);
    let left = at(low).min(1_000.0 - width);
    format!(
        "<svg class=\"bar\" viewBox=\"0 0 1000 10\" preserveAspectRatio=\"none\" role=\"img\" aria-label=\"{low} to {high}\">\
         <rect class=\"thin\" x=\"0\" y=\"4\" width=\"{left:.1}\" height=\"2\"/><rect class=\"solid{late}\" x=\"{left:.1}\" y=\"0\" width=\"{width:.1}\" height=\"10\"/></svg>"
    )
}

pub fn outputs(sheet: &Sheet) -> String {
    let netlist = sheet.netlist;
    let ranged = !netlist.ranges.is_empty();
    let most = netlist.outputs.iter().map(|(_, net)| netlist.arrival(net)).max().unwrap_or(0);
    let mut text = String::from("<h2>When each output arrives</h2>\n");
    if netlist.outputs.is_empty() {
        return text + "<p>The graph has no outputs.</p>\n";
    }
    text += if ranged {
        "<p class=\"soft\">Each bar goes from the low to the high arrival. "
    } else {
        "<p class=\"soft\">The library has one delay for each pin, so the low and the high arrival of an output are one. "
    };
    let _ = writeln!(text, "The scale goes from 0 to {most}; the latest is red.</p>");
    let many = match netlist.outputs.len() {
        n if n > TWO_COLUMNS => " three",
        n if n > ONE_COLUMN => " two",
        _ => "",
    };
    let _ = writeln!(text, "<div class=\"outputs{many}\">");
    for (k, (output, net)) in netlist.outputs.iter().enumerate() {
        let high = netlist.arrival(net);
        let low = netlist.ranges.get(k).map_or(high, |(low, _)| *low);
        let late = high == most && most > 0;
        let name = escape(&meant(output, sheet.graph.and_then(|graph| graph.output_name(k))));
        let figure = if ranged { format!("{low} to {high}") } else { high.to_string() };
        let class = if late { " late" } else { "" };
        let _ = writeln!(
            text,
            "<div class=\"output\"><span class=\"name mono\" title=\"{name}\">{name}</span>{}<span class=\"n{class}\">{figure}</span></div>",
            bar(low, high, most, late)
        );
    }
    text + "</div>\n"
}
