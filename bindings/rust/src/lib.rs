//! The array mapper from Rust: a cell library, an AND graph (AIGER, in either form) and the arrivals of its inputs in, a BLIF netlist out.
//!
//! ```
//! let cells = b"cell pins table area d0 d1 d2 d3\ninv 1 0001 1 10 0 0 0\nnand2 2 0007 2 20 20 0 0\n";
//! let graph = b"aag 3 2 0 1 1\n2\n4\n6\n6 2 4\n";
//! let netlist = arraymap::map(cells, graph, b"")?;
//! assert_eq!(netlist.figures, arraymap::Figures { gates: 2, area: 3, arrival: 30 });
//! assert!(netlist.text.starts_with(".model top\n"));
//! let late = arraymap::map(cells, graph, b"input arrival\n1 5\n")?;
//! assert_eq!(late.figures.arrival, 35);
//! let paired = arraymap::map_pairs(cells, graph, b"")?;
//! assert!(paired.text.contains(".gate nand2 A=p1 B=p2 O=sp3\n.gate inv A=sp3 O=p3\n"));
//! let edited = netlist.text.replace("nand2 A=p1 B=p2", "nand2 A=p2 B=p2");
//! assert_eq!(arraymap::check(cells, graph, edited.as_bytes())?, arraymap::Checked::Differs { setting: 2, output: 0 });
//! # Ok::<(), arraymap::Refusal>(())
//! ```
//!
//! What the call answers and leaves in the memory that it is lent is proved (crates/arraymap of the repository); docs/GUIDE.md has the texts, the
//! netlist and every refusal. Calls on memory of their own are safe from several threads at once. Texts may share memory, and may be empty.
//!
//! 1.5 MB of stack are enough for every call, and a thread of the standard library has 2 MB. On x86-64 a call takes up to
//!
//! | Function | Call in C | Stack |
//! |---|---|--:|
//! | [`map`], [`map_in`] | `arraymap_map` | 1,150 KB |
//! | [`map_pairs`], [`map_pairs_in`] | `arraymap_map_pairs` | 1,150 KB |
//! | [`map_two`] | `arraymap_map_two` | 450 KB |
//! | [`map_two_pairs`] | `arraymap_map_two_pairs` | 1,150 KB |
//! | [`check`], [`check_in`] | `arraymap_check` | 1,050 KB |
//! | [`cells`] | `arraymap_cells` | 6 KB |
//! | [`Tally::count`] | `arraymap_count` | 16 KB |
//! | [`Tally::report`] | `arraymap_report` | 14 KB |

mod raw;
mod refusal;

pub use raw::{
    call, call_cells, call_check, call_count, call_pairs, call_report, call_two, call_two_pairs, Answer, AnswerChecked,
    AnswerTwo, Channel,
};
pub use refusal::{Place, Refusal};

/// The longest text that is read: a longer one is refusal 1.
pub const TEXT_LIMIT: usize = 65_536;

/// The figures of the netlist's `# gates` line.
#[derive(Clone, Copy, Debug, PartialEq, Eq)]
pub struct Figures {
    pub gates: u32,
    /// The sum of the gates' areas.
    pub area: u32,
    /// The arrival of the latest output.
    pub arrival: u32,
}

/// A mapped graph.
#[derive(Clone, Debug, PartialEq, Eq)]
pub struct Netlist {
    /// BLIF, as document 01 fixes it; with a library whose delays are ranges, a `# timing` line for each output behind it.
    pub text: String,
    pub figures: Figures,
}

/// The five numbers M, I, L, O and A of a graph's header, where it has them.
pub fn header(graph: &[u8]) -> Option<[usize; 5]> {
    let line = graph.split(|&byte| byte == b'\n').next()?;
    let line = std::str::from_utf8(line.strip_suffix(b"\r").unwrap_or(line)).ok()?;
    let mut words = line.split(' ');
    if !matches!(words.next()?, "aag" | "aig") {
        return None;
    }
    let mut numbers = [0; 5];
    for number in &mut numbers {
        *number = words.next()?.parse::<u32>().ok()? as usize;
    }
    Some(numbers)
}

/// The words of work memory that mapping the graph takes, by its header: 124(M+1) + O, at most 512,000. It is 0 where the header is one that
/// is refused before the words are looked at.
pub fn words_needed(graph: &[u8]) -> usize {
    match header(graph) {
        Some([m, _, _, o, _]) if m <= 4_095 && o <= 4_096 => 124 * (m + 1) + o,
        _ => 0,
    }
}

/// A length that the graph's netlist does not exceed, by its header: 55 bytes for each phase's gate, 6 for an input's name, 29 for an output's
/// name and lines, 43 for its `# timing` line, and the frame.
pub fn bytes_enough(graph: &[u8]) -> usize {
    bytes_by(false, graph)
}

/// The same where pairs of cells are wanted: 88 bytes for each phase's gate, or its two.
pub fn bytes_enough_pairs(graph: &[u8]) -> usize {
    bytes_by(true, graph)
}

fn bytes_by(pairs: bool, graph: &[u8]) -> usize {
    let phase = if pairs { 88 } else { 55 };
    match header(graph) {
        Some([m, _, _, o, _]) if m <= 4_095 && o <= 4_096 => (2 * phase + 6) * (m + 1) + 72 * o + 128,
        _ => 0,
    }
}

/// Maps the graph with the cells, on memory of its own. Empty `arrivals` are none: every input arrives at 0.
pub fn map(cells: &[u8], graph: &[u8], arrivals: &[u8]) -> Result<Netlist, Refusal> {
    map_by(false, cells, graph, arrivals)
}

/// The same with pairs of cells: one refusal more, 30.
pub fn map_pairs(cells: &[u8], graph: &[u8], arrivals: &[u8]) -> Result<Netlist, Refusal> {
    map_by(true, cells, graph, arrivals)
}

fn map_by(pairs: bool, cells: &[u8], graph: &[u8], arrivals: &[u8]) -> Result<Netlist, Refusal> {
    let mut work = vec![0; words_needed(graph)];
    let mut text = vec![0; bytes_by(pairs, graph)];
    let mut mapped = raw::call_by(pairs, cells, graph, arrivals, &mut work, &mut text);
    if mapped.number == 18 {
        text = vec![0; mapped.value as usize];
        mapped = raw::call_by(pairs, cells, graph, arrivals, &mut work, &mut text);
    }
    Ok(netlist(answered(mapped)?, text))
}

/// Maps the graph with the cells over lent memory, and answers the netlist's length and its figures: `text` begins with the netlist and keeps
/// its other bytes. A refusal leaves `text` as it is. `work` is left unchanged by the refusals 1 to 10, 19, 27 and 30, and is all 0 after any
/// other refusal and after success.
pub fn map_in(
    cells: &[u8],
    graph: &[u8],
    arrivals: &[u8],
    work: &mut [u16],
    text: &mut [u8],
) -> Result<(usize, Figures), Refusal> {
    answered(call(cells, graph, arrivals, work, text))
}

/// The same with pairs of cells: as many words, and `bytes_enough_pairs` bytes.
pub fn map_pairs_in(
    cells: &[u8],
    graph: &[u8],
    arrivals: &[u8],
    work: &mut [u16],
    text: &mut [u8],
) -> Result<(usize, Figures), Refusal> {
    answered(call_pairs(cells, graph, arrivals, work, text))
}

/// The netlist's length and its figures, or the refusal.
fn answered(Answer { number, value, gates, area, arrival }: Answer) -> Result<(usize, Figures), Refusal> {
    // A length, an offset, a variable or an index: each is within the address space.
    let value = value as usize;
    match number {
        0 => Ok((value, Figures { gates, area, arrival })),
        number => Err(Refusal { number: number as u32, place: value }),
    }
}

/// Maps two graphs with the same cells in one call, on memory of its own. A refusal 1 to 9, 19, 27 or 30 of either channel is returned for both,
/// the first channel's if both have one; with any other the other channel is mapped as if alone.
pub fn map_two(cells: &[u8], first: Channel, second: Channel) -> [Result<Netlist, Refusal>; 2] {
    map_two_by(false, cells, [first, second])
}

/// The same with pairs of cells.
pub fn map_two_pairs(cells: &[u8], first: Channel, second: Channel) -> [Result<Netlist, Refusal>; 2] {
    map_two_by(true, cells, [first, second])
}

fn map_two_by(pairs: bool, cells: &[u8], channels: [Channel; 2]) -> [Result<Netlist, Refusal>; 2] {
    let mut work = vec![0; channels.iter().map(|channel| words_needed(channel.graph)).sum()];
    let mut texts = channels.map(|channel| vec![0; bytes_by(pairs, channel.graph)]);
    loop {
        let [text1, text2] = &mut texts;
        let AnswerTwo { first, second } = raw::call_two_by(pairs, cells, channels, &mut work, [text1, text2]);
        let mut is_short = false;
        for (answer, text) in [first, second].iter().zip(&mut texts) {
            if answer.number == 18 {
                is_short = true;
                *text = vec![0; answer.value as usize];
            }
        }
        if !is_short {
            let [text1, text2] = texts;
            return [(first, text1), (second, text2)].map(|(answer, text)| Ok(netlist(answered(answer)?, text)));
        }
    }
}

/// The netlist that begins a text memory.
fn netlist((length, figures): (usize, Figures), mut text: Vec<u8>) -> Netlist {
    text.truncate(length);
    Netlist { text: String::from_utf8(text).expect("a netlist is ASCII text"), figures }
}

/// What a check finds of a netlist that is not refused.
#[derive(Clone, Copy, Debug, PartialEq, Eq)]
pub enum Checked {
    /// Every output has the graph's value in every setting of the inputs.
    Accepted,
    /// The lowest setting in which an output has another value than the graph, input k as bit k, and that setting's first such output.
    Differs { setting: usize, output: usize },
}

/// The words of work memory that checking the netlist takes: those of mapping the graph, and 8 for each byte 10 of the netlist.
pub fn words_to_check(graph: &[u8], netlist: &[u8]) -> usize {
    words_needed(graph) + 8 * netlist.iter().filter(|&&byte| byte == b'\n').count()
}

/// Checks a netlist, as printed or edited since, against its graph, on memory of its own. The graph has up to 12 inputs.
pub fn check(cells: &[u8], graph: &[u8], netlist: &[u8]) -> Result<Checked, Refusal> {
    check_in(cells, graph, netlist, &mut vec![0; words_to_check(graph, netlist)])
}

/// The same over lent memory. `work` is left unchanged by the refusals 1 to 10, 19 and 27, and is all 0 otherwise.
pub fn check_in(cells: &[u8], graph: &[u8], netlist: &[u8], work: &mut [u16]) -> Result<Checked, Refusal> {
    let AnswerChecked { verdict, first, second } = call_check(cells, graph, netlist, work);
    let (first, second) = (first as usize, second as usize);
    match verdict {
        0 => Ok(Checked::Accepted),
        1 => Ok(Checked::Differs { setting: first, output: second }),
        _ => Err(Refusal { number: first as u32, place: second }),
    }
}

/// Writes the cell text of a genlib library.
pub fn cells(genlib: &[u8]) -> Result<Vec<u8>, Refusal> {
    let mut text = vec![0; 2 * genlib.len() + 64];
    let mut answer = call_cells(genlib, &mut text);
    if answer.number == 18 {
        text = vec![0; answer.value as usize];
        answer = call_cells(genlib, &mut text);
    }
    match answer.number {
        0 => {
            text.truncate(answer.value as usize);
            Ok(text)
        }
        number => Err(Refusal { number: number as u32, place: answer.value as usize }),
    }
}

/// The netlists of one library counted so far: for each of its cells the gates, their area and the netlists in which it occurs.
#[derive(Clone, Debug, PartialEq, Eq)]
pub struct Tally {
    numbers: [u64; 97],
}

impl Default for Tally {
    fn default() -> Tally {
        Tally { numbers: [0; 97] }
    }
}

impl Tally {
    /// Counts a netlist that was mapped by the library; a refusal leaves the tally as it was.
    pub fn count(&mut self, cells: &[u8], netlist: &[u8]) -> Result<(), Refusal> {
        let answer = call_count(cells, netlist, &mut self.numbers);
        match answer.number {
            0 => Ok(()),
            number => Err(Refusal { number: number as u32, place: answer.value as usize }),
        }
    }

    /// A line per cell, as `inv 3 3 2`, and the total.
    pub fn report(&self, cells: &[u8]) -> Result<Vec<u8>, Refusal> {
        let mut text = vec![0; 2048];
        let answer = call_report(cells, &self.numbers, &mut text);
        match answer.number {
            0 => {
                text.truncate(answer.value as usize);
                Ok(text)
            }
            number => Err(Refusal { number: number as u32, place: answer.value as usize }),
        }
    }
}
