//! Netlists and tallies for the calls of request N11: printed, made of any numbers,
//! edited and damaged netlists; tallies handed on and forged ones.

use crate::gen::{self, Cell, Rng};
use crate::{reference, tally, CUT_LIMIT};

/// A library text with the cells that it lists.
#[derive(Clone, Debug)]
pub struct Listed {
    pub cells: Vec<Cell>,
    pub text: Vec<u8>,
}

/// A netlist text.
#[derive(Clone, Debug)]
pub struct Made {
    pub what: &'static str,
    pub text: Vec<u8>,
    pub knows: Known,
}

/// What the making knows of a netlist.
#[derive(Clone, Copy, Debug, PartialEq, Eq)]
pub enum Known {
    Counted,
    /// The place of 29.
    Broken(usize),
    Nothing,
}

pub fn library(rng: &mut Rng) -> Listed {
    let mut cells = match rng.below(4) {
        0 => gen::small_library(),
        1 => gen::full_library(),
        _ => {
            let count = gen::library_size(rng);
            gen::library(rng, count)
        }
    };
    if rng.one_in(3) {
        // Names that look like words of a netlist.
        let names = ["p1", "m2", "o0", "O", "A", "top", "gate", "end", "total", "inputs", "names", "s1"];
        for (index, cell) in cells.iter_mut().enumerate() {
            cell.name = names.get(index).map_or(format!("cell{index}"), |name| name.to_string());
        }
        rng.shuffle(&mut cells);
    }
    let text = gen::either_text(rng, &cells);
    let text = if rng.one_in(4) { gen::mixed(rng, &text).text } else { text };
    Listed { cells, text }
}

/// "net and output numbers and times may be any digits"
fn digits(rng: &mut Rng) -> String {
    match rng.below(8) {
        0 => "0".repeat(1 + rng.below(3)),
        1 => format!("0{}", rng.below(100)),
        2 => rng.word().to_string(),
        3 => format!("{}{}", rng.word(), rng.word()),
        _ => rng.below(5_000).to_string(),
    }
}

fn net(rng: &mut Rng, letters: &[u8]) -> String {
    format!("{}{}", rng.pick(letters) as char, digits(rng))
}

/// That of a gate line: sometimes `s` before it.
fn gate_net(rng: &mut Rng) -> String {
    let between = if rng.one_in(4) { "s" } else { "" };
    format!("{between}{}", net(rng, b"pm"))
}

/// The lines of a netlist of any gates: which of them are gates, and how many outputs.
#[derive(Clone, Debug)]
struct Lines {
    lines: Vec<String>,
    gates: std::ops::Range<usize>,
    outputs: usize,
}

impl Lines {
    fn figures_at(&self) -> usize {
        self.gates.end + 2 * self.outputs + 1
    }

    fn text(&self) -> Vec<u8> {
        self.lines.concat().into_bytes()
    }

    fn offset(&self, line: usize) -> usize {
        self.lines[..line].iter().map(String::len).sum()
    }
}

fn lines(rng: &mut Rng, library: &Listed) -> Lines {
    let (some, outputs) = (rng.pick(&[0, 1, 2, 3, 11]), rng.pick(&[0, 1, 1, 2, 3, 12]));
    let mut lines = vec![".model top\n".to_string()];
    for (keyword, letter, count) in [(".inputs", b"p", some), (".outputs", b"o", outputs)] {
        let names: String = (0..count).map(|_| format!(" {}", net(rng, letter))).collect();
        lines.push(format!("{keyword}{names}\n"));
    }
    let first = lines.len();
    let (mut gates, mut area) = (0, 0);
    let count = if library.cells.is_empty() { 0 } else { rng.pick(&[0, 1, 2, 3, 9, 40]) };
    for _ in 0..count {
        let cell = &library.cells[rng.below(library.cells.len())];
        let feeds: String = "ABCD".chars().take(cell.pins).map(|pin| format!(" {pin}={}", gate_net(rng))).collect();
        lines.push(format!(".gate {}{feeds} O={}\n", cell.name, gate_net(rng)));
        gates += 1;
        area += u64::from(cell.area);
    }
    let gates_end = lines.len();
    for _ in 0..outputs {
        lines.push(format!(".names {} {}\n", net(rng, b"pm"), net(rng, b"o")));
        lines.push("1 1\n".into());
    }
    lines.push(".end\n".into());
    lines.push(format!("# gates {gates} area {area} arrival {}\n", digits(rng)));
    if gen::is_ranged(&library.text) {
        for _ in 0..outputs {
            lines.push(format!("# timing {} {} {}\n", net(rng, b"o"), digits(rng), digits(rng)));
        }
    }
    Lines { lines, gates: first..gates_end, outputs }
}

/// A netlist that mapping prints with this library, of a graph by chance; none where
/// every try is refused.
pub fn printed(rng: &mut Rng, library: &Listed) -> Option<(reference::Answer, Vec<u8>)> {
    for _ in 0..6 {
        let most = rng.pick(&[1, 4, 10, 25]);
        let graph = gen::graph(rng, 6, most, CUT_LIMIT);
        let arrivals = if rng.one_in(3) { gen::arrivals(rng, graph.inputs.len()) } else { Vec::new() };
        let pairs = library.cells.len() < 8 && rng.one_in(2);
        let map = if pairs { reference::map_pairs } else { reference::map };
        let (answer, netlist) = map(&library.text, &graph.text(), &arrivals, graph.words(), 65_536);
        if answer.number == 0 {
            return Some((answer, netlist));
        }
    }
    None
}

/// A netlist by chance.
pub fn netlist(rng: &mut Rng, library: &Listed) -> Made {
    let made = |what, text, knows| Made { what, text, knows };
    let kind = rng.below(16);
    if kind < 5 {
        if let Some((_, text)) = printed(rng, library) {
            return match kind {
                0 => made("printed, damaged", gen::damaged(rng, &text), Known::Nothing),
                _ => made("printed", text, Known::Counted),
            };
        }
    }
    let mut lines = lines(rng, library);
    match kind {
        0..=7 => made("any numbers", lines.text(), Known::Counted),
        8..=12 => {
            let place = edited(rng, &mut lines, library);
            made("edited", lines.text(), Known::Broken(place))
        }
        13 => {
            // Cut off within a line or between two.
            let text = lines.text();
            let line = rng.below(lines.lines.len());
            let (from, length) = (lines.offset(line), lines.lines[line].len());
            made("cut off", text[..from + rng.below(length)].to_vec(), Known::Broken(from))
        }
        14 => made("damaged", gen::damaged(rng, &lines.text()), Known::Nothing),
        _ => made("damaged end", gen::damaged_end(rng, &lines.text()), Known::Nothing),
    }
}

/// One edit after which a line isn't what is due; its place.
fn edited(rng: &mut Rng, lines: &mut Lines, library: &Listed) -> usize {
    let figures = lines.figures_at();
    let last = lines.lines.len() - 1;
    let line = rng.below(lines.lines.len());
    let is_gate = lines.gates.contains(&line);
    let end = lines.gates.end + 2 * lines.outputs;
    match rng.below(10) {
        // Two lines of an output taken out, or twice: as many are due as there are outputs.
        8 if lines.outputs > 0 => {
            let pair = end - 2 * rng.between(1, lines.outputs);
            lines.lines.drain(pair..pair + 2);
            lines.offset(end - 2)
        }
        9 if lines.outputs > 0 => {
            let pair = [lines.lines[end - 2].clone(), lines.lines[end - 1].clone()];
            lines.lines.splice(end..end, pair);
            lines.offset(end)
        }
        // A line taken out: the next stands in its place.
        0 => {
            lines.lines.remove(line);
            match line {
                _ if is_gate => lines.offset(figures - 1),
                _ if line > figures => lines.text().len(),
                _ => lines.offset(line),
            }
        }
        // A line twice: the second isn't due.
        1 => {
            lines.lines.insert(line, lines.lines[line].clone());
            match line {
                _ if is_gate => lines.offset(figures + 1),
                _ if line > figures => lines.offset(last + 1),
                _ => lines.offset(line + 1),
            }
        }
        // A line more at the end.
        2 => {
            let end = lines.text().len();
            let more = rng.pick(&[
                "\n",
                "x\n",
                "x",
                ".end\n",
                "# timing o0 0 0\n",
                "# gates 0 area 0 arrival 0\n",
                "1 1\n",
                " ",
            ]);
            lines.lines.push(more.into());
            end
        }
        // Spaces and ends.
        3 => {
            let text = lines.lines[line].trim_end().to_string();
            lines.lines[line] = match rng.below(6) {
                0 => format!(" {text}\n"),
                1 => format!("{text} \n"),
                2 => format!("{text}\r\n"),
                3 => format!("{text}\t\n"),
                4 => format!("{text}\0\n"),
                _ if text.contains(' ') => text.replacen(' ', rng.pick(&["  ", "\t", "", " \r"]), 1) + "\n",
                _ => format!("{text}x\n"),
            };
            lines.offset(line)
        }
        // The figures.
        4 | 5 => {
            let text = lines.lines[figures].clone();
            let words: Vec<&str> = text.trim_end().split(' ').collect();
            let (gates, area, arrival) = (words[2], words[4], words[6]);
            let other = |word: &str| (word.parse::<u64>().unwrap_or(0) + 1).to_string();
            lines.lines[figures] = match rng.below(9) {
                0 => format!("# gates {} area {area} arrival {arrival}\n", other(gates)),
                1 => format!("# gates {gates} area {} arrival {arrival}\n", other(area)),
                2 => format!("# gates 0{gates} area {area} arrival {arrival}\n"),
                3 => format!("# gates {gates} area 0{area} arrival {arrival}\n"),
                4 => format!("# gates {gates} area {area} arrival\n"),
                5 => format!("# gates {gates} area {area} arrival \n"),
                6 => format!("# gates {gates} area {area} arrival -{arrival}\n"),
                7 => format!("# gates {gates} area {area} delay {arrival}\n"),
                _ => format!("# area {area} gates {gates} arrival {arrival}\n"),
            };
            lines.offset(figures)
        }
        // A gate line, or another line's words.
        _ if is_gate => {
            let text = lines.lines[line].trim_end().to_string();
            let words: Vec<String> = text.split(' ').map(String::from).collect();
            let pins = words.len() - 3;
            lines.lines[line] = match rng.below(12) {
                0 => text.replacen(&words[1], &unlisted(rng, library), 1) + "\n",
                1 => format!("{} {} Z=p1 {}\n", words[0], words[1], words[2..].join(" ")),
                2 => format!("{text} P=p1\n"),
                3 => format!("{}\n", words[..words.len() - 1].join(" ")),
                4 if pins > 0 => format!("{}\n", [&words[..2], &words[3..]].concat().join(" ")),
                5 if pins > 1 => {
                    let mut words = words.clone();
                    words.swap(2, 3);
                    words.join(" ") + "\n"
                }
                6 => text.replacen(" O=", " Q=", 1) + "\n",
                7 => text.replacen(" O=", rng.pick(&[" O=o", " O=ss", " O=ps", " O=S"]), 1) + "\n",
                8 => format!("{}{}\n", text, rng.pick(&["x", "=", "-", ".", "p1"])),
                9 => text.replacen(" O=", " o=", 1) + "\n",
                10 => text.replacen(".gate", ".names", 1) + "\n",
                _ => {
                    let at = text.find(" O=").map_or(0, |at| at + 4 + usize::from(text[at + 3..].starts_with('s')));
                    format!("{}\n", &text[..at])
                }
            };
            lines.offset(line)
        }
        _ => {
            let text = lines.lines[line].trim_end().to_string();
            let bad: &[&str] = match () {
                _ if line == 0 => &[".model Top", ".model", ".model top top", "# model top", ""],
                _ if line == 1 => &[
                    ".input p1",
                    ".inputs m1",
                    ".inputs o1",
                    ".inputs 1",
                    ".inputs p",
                    ".inputs p1x",
                    ".inputs s1",
                    ".inputs sp1",
                ],
                _ if line == 2 => &[
                    ".output o1",
                    ".outputs p1",
                    ".outputs 1",
                    ".outputs o",
                    ".outputs oo1",
                    ".outputs o-1",
                    ".outputs so1",
                ],
                _ if text == "1 1" => &["1 0", "0 1", "11", "1", "1 1 1", "11 1", ".names p1 o1"],
                _ if text == ".end" => &[".End", ".end top", "end", "1 1", ""],
                _ if text.starts_with(".names") => &[
                    ".names p1 p2",
                    ".names o1 o2",
                    ".names o1",
                    ".names p1 o2 o3",
                    ".names sp1 o2",
                    ".names p1 o",
                    "1 1",
                ],
                _ => &[
                    "# timing o1 2",
                    "# timing o1 2 3 4",
                    "# timing p1 2 3",
                    "# timing o1 2 -3",
                    "#timing o1 2 3",
                    "# timing o1 x 3",
                    "",
                ],
            };
            if line == figures {
                lines.lines[line] = "# gates\n".into();
            } else {
                lines.lines[line] = format!("{}\n", rng.pick(bad));
            }
            lines.offset(line)
        }
    }
}

/// A name that no cell has.
fn unlisted(rng: &mut Rng, library: &Listed) -> String {
    let own = library.cells[rng.below(library.cells.len())].name.clone();
    let other = match rng.below(5) {
        0 => own.to_uppercase(),
        1 => own.to_lowercase(),
        2 => format!("{own}x"),
        3 => own[..own.len() - 1].to_string(),
        _ => "zz".into(),
    };
    match library.cells.iter().any(|cell| cell.name == other) {
        true => "unlisted".into(),
        false => other,
    }
}

/// A tally that comes from anywhere: empty, of figures by chance, around 2^40, near 64
/// netlists, or of another length.
pub fn tally(rng: &mut Rng) -> Vec<u64> {
    let mut figures = tally::empty();
    let kind = rng.below(12);
    if kind < 4 {
        return figures;
    }
    for figure in &mut figures {
        *figure = match rng.below(4) {
            0 => 0,
            1 => rng.below(100) as u64,
            _ => rng.word() >> rng.between(24, 60),
        };
    }
    figures[96] = rng.pick(&[0, 1, 62, 63, 63, 64, 65, 1 << 40]);
    match kind {
        4..=6 => figures[96] = rng.below(64) as u64,
        7 => {
            let at = rng.below(97);
            figures[at] = rng.pick(&[1 << 40, (1 << 40) + 1, u64::MAX, 1 << 63, (1 << 40) - 1]);
        }
        8 => figures.fill(1 << 40),
        9 if rng.one_in(2) => figures.resize(rng.pick(&[0, 1, 64, 96, 98, 128]), 5),
        _ => {}
    }
    figures
}
