//! A sheet for the review before the metal is fixed: one page that needs nothing else. What others wrote stands in it as text alone, and a rule at its
//! head lets no script run and nothing be fetched.

mod bars;
mod drawing;
mod escape;
mod layers;
mod path;
mod proved;

use crate::{
    cells::Cell,
    genlib::expression,
    graph::Graph,
    message::Texts,
    netlist::{Netlist, Totals},
};
use escape::{bytes, escape, grouped, whole};
use std::fmt::Write;

/// What the sheet tells of.
pub struct Sheet<'a> {
    /// Of this program and the proved call in it.
    pub version: &'a str,
    /// Mapped with pairs of cells.
    pub pairs: bool,
    pub totals: Totals,
    /// The netlist as it is written.
    pub text: &'a str,
    pub netlist: &'a Netlist<'a>,
    pub cells: &'a [Cell],
    pub graph: Option<&'a Graph>,
    pub texts: &'a Texts<'a>,
}

/// A text of no more lines than this stands open.
const OPEN_LINES: usize = 40;

/// The last part of a path: the whole stands with the text.
fn file_name(path: &str) -> String {
    escape(path.rsplit('/').next().unwrap_or(path))
}

/// A net or an output with the symbol that it stands for.
fn meant(name: &str, symbol: Option<&str>) -> String {
    symbol.map_or(name.into(), |symbol| format!("{name} {symbol}"))
}

impl Sheet<'_> {
    /// The page.
    pub fn html(&self) -> String {
        let title = format!("{} with {}", file_name(&self.texts.graph.name), file_name(&self.texts.cells.file.name));
        let mut page = format!(
            "<!DOCTYPE html>\n<html lang=\"en\">\n<head>\n<meta charset=\"utf-8\">\n\
             <meta http-equiv=\"Content-Security-Policy\" content=\"default-src 'none'; style-src 'unsafe-inline'\">\n\
             <meta name=\"viewport\" content=\"width=device-width, initial-scale=1\">\n<title>Review sheet: {title}</title>\n<style>\n{}</style>\n</head>\n<body>\n\
             <header><h1>{title}</h1>\n<p class=\"soft\">A netlist for review, from the texts at the end of this page{}. {} {}.</p></header>\n",
            include_str!("style.css"),
            if self.pairs { ", with pairs of cells" } else { "" },
            if proved::joined(self.text).is_empty() { "Mapped by the proved call of" } else { "Joined from proved calls by" },
            escape(&self.version.trim_end().replace('\n', "; ")),
        );
        page += &self.tiles();
        page += &path::path(self);
        page += &bars::outputs(self);
        page += &self.used();
        page += &drawing::drawing(self);
        page += &proved::proved(self);
        page += &self.sources();
        page + "</body>\n</html>\n"
    }

    fn is_genlib(&self) -> bool {
        self.texts.cells.is_written()
    }

    /// A cell by the library's own name.
    fn cell_name(&self, cell: usize) -> String {
        let cell = &self.cells[cell].name;
        self.texts.cells.own_name(cell).unwrap_or(cell).into()
    }

    fn tiles(&self) -> String {
        let Totals { gates, area, arrival } = self.totals;
        let mut tiles = vec![("gates", gates), ("area", area), ("latest arrival", arrival)];
        if let Some(graph) = self.graph {
            let [_, inputs, _, outputs, ands] = graph.header;
            tiles.extend([("inputs", inputs as u64), ("outputs", outputs as u64), ("ANDs of the graph", ands as u64)]);
        }
        let tile = |(what, n): (&str, u64)| format!("<div><b>{}</b><span>{what}</span></div>", grouped(n));
        let unit = if self.is_genlib() {
            "<p class=\"soft\">The library is genlib: areas and arrivals are in thousandths of its figures.</p>\n"
        } else {
            ""
        };
        format!("<div class=\"tiles\">{}</div>\n{unit}", tiles.into_iter().map(tile).collect::<String>())
    }

    /// The cells that the netlist has, in the library's order.
    fn used(&self) -> String {
        let count = |k: usize| self.netlist.gates.iter().filter(|gate| gate.cell == k).count() as u32;
        let used: Vec<(usize, u32)> = (0..self.cells.len()).map(|k| (k, count(k))).filter(|(_, n)| *n > 0).collect();
        let mut text = String::from("<h2>Cells used</h2>\n");
        if used.is_empty() {
            return text + "<p>None.</p>\n";
        }
        text += "<table><thead><tr><th>cell</th><th>function</th><th class=\"n\">gates</th><th class=\"n\">area of one</th><th class=\"n\">area together</th>\
                 <th>share of the area</th></tr></thead>\n<tbody>\n";
        let all = self.totals.area.max(1);
        for &(k, n) in &used {
            let cell = &self.cells[k];
            let area = u64::from(n) * u64::from(cell.area);
            let _ = writeln!(
                text,
                "<tr><td class=\"mono\">{}</td><td class=\"mono\">{}</td><td class=\"n\">{}</td><td class=\"n\">{}</td><td class=\"n\">{}</td><td class=\"share\">{}</td></tr>",
                escape(&self.cell_name(k)),
                escape(&expression(cell)),
                grouped(n),
                grouped(cell.area),
                grouped(area),
                bars::bar(0, area, all, false)
            );
        }
        let _ = writeln!(
            text,
            "</tbody>\n<tfoot><tr><td>{} of {} cells</td><td></td><td class=\"n\">{}</td><td></td><td class=\"n\">{}</td><td></td></tr></tfoot></table>",
            used.len(),
            self.cells.len(),
            grouped(self.totals.gates),
            grouped(self.totals.area)
        );
        text
    }

    /// The texts, whole: those that were read, and the netlist that was written.
    fn sources(&self) -> String {
        let Texts { cells, graph, arrivals, .. } = self.texts;
        let mut text = String::from(
            "<h2>The texts, whole</h2>\n<p class=\"soft\">What cannot be seen is shown as an escape, as <code>\\x0d</code>. A text that is closed here is not printed on paper.</p>\n",
        );
        let mut put = |name: &str, what: &str, bytes: &[u8]| text += &source(name, what, bytes);
        if self.is_genlib() {
            put(&cells.file.name, "the library as it came, genlib", &cells.file.text);
            put("cell text", "the library as it was mapped", cells.text());
        } else {
            put(&cells.file.name, "the cell library", cells.text());
        }
        put(&graph.name, "the graph", &graph.text);
        if !arrivals.text.is_empty() {
            put(&arrivals.name, "when inputs arrive", &arrivals.text);
        }
        put("netlist", "what was printed", self.text.as_bytes());
        text
    }
}

fn source(name: &str, what: &str, text: &[u8]) -> String {
    let binary = text.starts_with(b"aig ");
    let lines = text.iter().filter(|&&byte| byte == b'\n').count();
    let open = if lines <= OPEN_LINES && !binary { " open" } else { "" };
    let form = if binary { ", its bytes by hexadecimal digits" } else { "" };
    let shown = if binary { bytes(text) } else { whole(text) };
    format!(
        "<details{open}><summary><code>{}</code> <span class=\"soft\">{what}, {} bytes{form}</span></summary><pre>{shown}</pre></details>\n",
        escape(name),
        grouped(text.len() as u64)
    )
}
