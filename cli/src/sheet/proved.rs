//! What is proved of the netlist and what is not, in plain words.

use super::{escape::escape, Sheet};

/// What stands behind a netlist that was joined from several calls: what is known of it, a line each. Nothing behind a netlist of one call.
pub fn joined(text: &str) -> Vec<&str> {
    let behind = text.split_once("\n.end\n").map_or("", |(_, behind)| behind);
    let lines: Vec<&str> = behind.lines().filter_map(|line| line.strip_prefix("# ")).collect();
    let own = |line: &&str| ["gates ", "timing ", "cell "].iter().any(|word| line.starts_with(word));
    lines.into_iter().filter(|line| !own(line)).collect()
}

/// Of a joined netlist nothing is claimed but what its own lines say.
fn of_joined(lines: &[&str]) -> String {
    let items = |good: &dyn Fn(&str) -> bool| -> String {
        lines.iter().filter(|line| good(line)).map(|line| format!("<li>{}</li>\n", escape(line))).collect()
    };
    format!(
        "<h2>What is proved of it, and what is not</h2>\n\
         <p>This netlist was joined from calls of the proved mapper by a program that is tested. The lines behind it say what is known of it:</p>\n<ul>\n{}</ul>\n\
         <h3>Not proved</h3>\n<ul>\n{}\
         <li>The joining, the figures of the whole, and this page.</li>\n\
         <li>That the graph is the circuit that was meant, that the metal is as fast as the library says, and that the area is the smallest.</li>\n</ul>\n",
        items(&|line| !line.starts_with("not proved")),
        items(&|line| line.starts_with("not proved")),
    )
}

pub fn proved(sheet: &Sheet) -> String {
    let lines = joined(sheet.text);
    if !lines.is_empty() {
        return of_joined(&lines);
    }
    let pairs = if sheet.pairs { " and pairs of cells" } else { "" };
    let ranges = if sheet.netlist.ranges.is_empty() {
        ""
    } else {
        "<li>Whatever delays the pins of these gates have, each within its range and each gate's its own, every output arrives between its low and its high arrival, \
         and either end can happen.</li>\n"
    };
    let reader = if sheet.is_genlib() {
        "<li>Of the genlib text as the proved reader takes it: each cell's table is its gate's expression in every row, and each pin's delay the larger of its two block delays.</li>\n"
    } else {
        ""
    };
    let normal = if sheet.is_genlib() {
        "<li>That the genlib file was put into the reader's form without change: remarks, quotation marks and latches are left out by a program that is tested. \
         The cell text below is what was mapped: compare it with the foundry's sheet.</li>\n"
    } else {
        ""
    };
    format!(
        "<h2>What is proved of it, and what is not</h2>\n\
         <h3>Proved, for every library and every graph</h3>\n<ul>\n\
         <li>In every setting of the inputs, every output of this netlist has the value that the graph gives it.</li>\n\
         <li>No cover of the graph by these cells{pairs}, on cuts of up to four leaves, gives a printed net an earlier arrival than it has here.</li>\n\
         <li>The gates, the area and the arrival at the head of this page are those of the printed text.</li>\n{ranges}{reader}</ul>\n\
         <p class=\"soft\">The proofs are of the call that printed the netlist, not of this run of it: they hold as far as the compiler, the machine and the files kept to their part.</p>\n\
         <h3>Not proved</h3>\n<ul>\n\
         <li>This page. A program that is tested read the printed netlist again; the bars, the latest path and the drawing are its work.</li>\n{normal}\
         <li>That the graph is the circuit that was meant. Names come from its symbol table, which the call does not read.</li>\n\
         <li>That the metal is as fast as the library says. An arrival counts pin delays alone: no load, no wire, no temperature.</li>\n\
         <li>That the area is the smallest. It is not sought: of equally early cells the first in the library's order is taken.</li>\n\
         <li>That nobody has changed the netlist since. <code>arraymap --check</code> compares a netlist with its graph.</li>\n</ul>\n"
    )
}
