//! Another mapper, plain and slow. Quoted sentences are document 01's and, for
//! binary graph texts, the names of outputs, line ends, late inputs and ranges of
//! delays, those of requests N1, N3, N5, N7 and N10 in document 02; pairs of cells are in `pairs`.

use crate::pairs::{self, Joint, Pin};
use crate::{CUT_LIMIT, WORDS_EACH};
use std::collections::{BTreeMap, BTreeSet};

#[derive(Clone, Copy, Debug, Default, PartialEq, Eq)]
pub struct Answer {
    pub number: u32,
    pub value: u32,
    pub gates: u32,
    pub area: u32,
    pub arrival: u32,
}

#[derive(Clone, Copy, Debug, PartialEq, Eq)]
pub struct Refusal {
    pub number: u32,
    pub place: u32,
}

fn refuse<T>(number: u32, place: usize) -> Result<T, Refusal> {
    Err(Refusal { number, place: place as u32 })
}

/// What is printed, with its three figures.
#[derive(Clone, Debug, PartialEq, Eq)]
pub struct Printed {
    pub text: Vec<u8>,
    pub gates: u32,
    pub area: u32,
    pub arrival: u32,
}

/// The whole mapper: the answer, and the netlist if it succeeds.
pub fn map(cells: &[u8], graph: &[u8], arrivals: &[u8], words: usize, text_len: usize) -> (Answer, Vec<u8>) {
    answer(print_all(cells, graph, arrivals, words), text_len)
}

/// The same with an empty arrivals text, "for none".
pub fn map_without_arrivals(cells: &[u8], graph: &[u8], words: usize, text_len: usize) -> (Answer, Vec<u8>) {
    map(cells, graph, &[], words, text_len)
}

/// "Text memory is shorter than the netlist" and the form of the answer.
pub fn answer(printed: Result<Printed, Refusal>, text_len: usize) -> (Answer, Vec<u8>) {
    let printed = printed.and_then(|printed| {
        let length = printed.text.len();
        let short = plain_or!(16, text_len < length, text_len <= length);
        if short {
            refuse(18, plain_or!(83, length, length - timing_lines(&printed.text)))
        } else {
            Ok(printed)
        }
    });
    match printed {
        Err(Refusal { number, place }) => (Answer { number, value: place, ..Answer::default() }, Vec::new()),
        Ok(Printed { text, gates, area, arrival }) => {
            (Answer { number: 0, value: text.len() as u32, gates, area, arrival }, text)
        }
    }
}

/// The length of the timing lines at a netlist's end.
#[cfg(feature = "mutants")]
fn timing_lines(text: &[u8]) -> usize {
    text.split_inclusive(|&byte| byte == b'\n').filter(|line| line.starts_with(b"# timing")).map(<[u8]>::len).sum()
}

/// The whole mapper where the call wants pairs of cells.
pub fn map_pairs(cells: &[u8], graph: &[u8], arrivals: &[u8], words: usize, text_len: usize) -> (Answer, Vec<u8>) {
    answer(print_with(cells, graph, arrivals, words, true), text_len)
}

/// Refusals 1 to 17, 19 to 21 and 25 to 27, or the netlist.
pub fn print_all(cells: &[u8], graph: &[u8], arrivals: &[u8], words: usize) -> Result<Printed, Refusal> {
    print_with(cells, graph, arrivals, words, false)
}

/// Every phase's source, whether an output needs it or not: refusals before 17.
pub fn mapped(cells: &[u8], graph: &[u8], arrivals: &[u8], with_pairs: bool) -> Result<Mapped, Refusal> {
    let listed = read_library(cells)?.cells;
    let cells = if with_pairs { pairs::joined(&listed)? } else { listed };
    let graph = read_graph(graph, usize::MAX)?;
    let late = read_arrivals(arrivals, graph.inputs.len())?;
    let order = placing_order(&graph)?;
    let cuts = cut_lists(&graph, &order)?;
    Ok(cover(&cells, &graph, &late, &order, &cuts))
}

/// The same as `print_all`, "Where a call wants them" with pairs and refusal 30.
pub fn print_with(
    cells: &[u8],
    graph: &[u8],
    arrivals: &[u8],
    words: usize,
    with_pairs: bool,
) -> Result<Printed, Refusal> {
    // "1 covers this text too."
    if cells.len() > 65_536 || graph.len() > 65_536 || arrivals.len() > plain_or!(63, 65_536, usize::MAX) {
        return refuse(1, 0);
    }
    let library = read_library(cells).map_err(|refusal| plain_or!(35, refusal, uncounted(cells, refusal)))?;
    let Library { cells: listed, ranged } = library;
    let joined = if with_pairs { pairs::joined(&listed) } else { Ok(listed.clone()) };
    let after_10 = plain_or!(112, false, joined.is_err());
    let cells = if after_10 { listed } else { joined? };
    let early = plain_or!(57, None, fault_of_arrivals(graph, arrivals));
    let graph = read_graph(graph, words).map_err(|refusal| {
        let refusal = plain_or!(35, refusal, uncounted(graph, refusal));
        early.filter(|_| !leaves_work_memory(refusal.number)).unwrap_or(refusal)
    })?;
    if after_10 {
        return refuse(30, 0);
    }
    // "both line by line after 14"
    let late = read_arrivals(arrivals, graph.inputs.len());
    let order = placing_order(&graph);
    let (late, order) = plain_or!(58, (late?, order?), order.and_then(|order| Ok((late?, order)))?);
    let cuts = cut_lists(&graph, &order)?;
    let chosen_by = plain_or!(79, cells.clone(), by_lowest(&cells));
    let mapped = plain_or!(
        55,
        cover(&chosen_by, &graph, &late, &order, &cuts),
        timed_again(&cells, &graph, &late, &cuts, cover(&cells, &graph, &[], &order, &cuts))
    );
    let mapped = plain_or!(79, mapped, timed_again(&cells, &graph, &late, &cuts, mapped));
    for (index, &literal) in graph.outputs.iter().enumerate() {
        if !mapped.contains_key(&phase_of(literal)) {
            return refuse(17, index);
        }
    }
    let printed = netlist(&cells, &graph, &cuts, &mapped);
    let low = low_arrivals(&cells, &order, &cuts, &mapped);
    Ok(if plain_or!(82, plain_or!(80, ranged, ranged && !cells.is_empty()), true) {
        timed(printed, &graph, &mapped, &low)
    } else {
        printed
    })
}

// ---------------------------------------------------------------- texts

/// "Accept either ending, line by line, in library and ASCII graph."
#[derive(Clone, Copy, Debug, PartialEq, Eq)]
enum Ends {
    /// Byte 10, or bytes 13 and 10.
    Either,
    /// Byte 10.
    TenAlone,
}

/// "where the contents stop and where the next line begins"
#[derive(Clone, Copy, Debug)]
struct Line<'a> {
    contents: &'a [u8],
    next: usize,
}

/// The line that begins at `offset`, or none where no byte 10 ends it. A 13 that
/// isn't part of its end stays in its contents, where no form allows it.
fn line_at(text: &[u8], offset: usize, ends: Ends) -> Option<Line<'_>> {
    let rest = &text[offset..];
    let is_end = |&byte: &u8| plain_or!(38, byte == b'\n', byte == b'\n' || byte == b'\r' && ends == Ends::Either);
    let stop = rest.iter().position(is_end)?;
    let contents = match rest[..stop].split_last() {
        Some((b'\r', before)) if ends == Ends::Either => {
            plain_or!(32, plain_or!(33, before, without_last_13s(before)), &rest[..stop])
        }
        _ => &rest[..stop],
    };
    let end = plain_or!(38, stop, if rest[stop..].starts_with(b"\r\n") { stop + 1 } else { stop });
    Some(Line { contents, next: offset + plain_or!(34, end, contents.len()) + 1 })
}

#[cfg(feature = "mutants")]
fn without_last_13s(contents: &[u8]) -> &[u8] {
    let kept = contents.iter().rposition(|&byte| byte != b'\r').map_or(0, |last| last + 1);
    &contents[..kept]
}

/// A refusal whose place leaves out the 13s before it.
#[cfg(feature = "mutants")]
fn uncounted(text: &[u8], Refusal { number, place }: Refusal) -> Refusal {
    let before = text[..place as usize].windows(2).filter(|pair| pair == b"\r\n").count();
    Refusal { number, place: place - before as u32 }
}

/// The fields of a line if there are as many as wanted; two spaces in a row
/// make an empty field, which no field's form allows.
fn fields(line: &[u8], wanted: usize) -> Option<Vec<&[u8]>> {
    let fields: Vec<&[u8]> = line.split(|&byte| byte == b' ' || plain_or!(138, false, byte == 12)).collect();
    (fields.len() == wanted).then_some(fields)
}

/// "decimal, 0 to 65,535, without leading zeros"
fn number(field: &[u8]) -> Option<u32> {
    let digits = field.iter().all(|byte| byte.is_ascii_digit());
    let leading_zero = plain_or!(12, field.len() > 1 && field[0] == b'0', false);
    if field.is_empty() || field.len() > 5 || !digits || leading_zero {
        return None;
    }
    let value = field.iter().fold(0, |value, digit| 10 * value + u32::from(digit - b'0'));
    (value <= 65_535).then_some(value)
}

fn numbers(fields: &[&[u8]]) -> Option<Vec<u32>> {
    fields.iter().map(|field| number(field)).collect()
}

// ---------------------------------------------------------------- library

#[derive(Clone, Debug, PartialEq, Eq)]
pub struct Cell {
    pub name: String,
    pub pins: usize,
    pub table: u16,
    pub area: u32,
    pub delays: [u32; 4],
    /// "the lowest delays"; where the names line has none they are 0 and unused.
    pub lowest: [u32; 4],
    /// The parts of a pair; a listed cell has none.
    pub made_of: Option<Joint>,
}

/// A library text, and whether it has `l0` to `l3` "after `d3` in its names line".
#[derive(Clone, Debug, PartialEq, Eq)]
pub struct Library {
    pub cells: Vec<Cell>,
    pub ranged: bool,
}

/// "2 takes either names line"
const NAMES: [&[u8]; 2] = [b"cell pins table area d0 d1 d2 d3", b"cell pins table area d0 d1 d2 d3 l0 l1 l2 l3"];

/// Refusals 2 to 6 and 27.
pub fn read_library(text: &[u8]) -> Result<Library, Refusal> {
    let names = line_at(text, 0, plain_or!(39, Ends::Either, Ends::TenAlone));
    let Some(names) = names.filter(|line| NAMES.contains(&line.contents)) else {
        return refuse(2, 0);
    };
    let ranged = names.contents == NAMES[1];
    read_cells(text, names.next, ranged, Vec::new()).map(|cells| Library { cells, ranged })
}

/// The cell lines from here on, after these cells.
fn read_cells(text: &[u8], from: usize, ranged: bool, mut cells: Vec<Cell>) -> Result<Vec<Cell>, Refusal> {
    let mut offset = from;
    while offset < text.len() {
        if cells.len() == 32 {
            return refuse(3, offset);
        }
        let line = line_at(text, offset, Ends::Either);
        let Some((line, cell)) = line.and_then(|line| Some((line, read_cell(line.contents, ranged)?))) else {
            return refuse(4, offset);
        };
        let repeated = cells.iter().any(|earlier| earlier.name == cell.name);
        if plain_or!(20, repeated, repeated && absent_pins_are_zero(&cell)) {
            return refuse(5, offset);
        }
        let exceeds = cell.lowest.iter().zip(&cell.delays).any(|(l, d)| plain_or!(84, l > d, l >= d && *d > 0));
        if !absent_pins_are_zero(&cell) && plain_or!(74, true, !exceeds) {
            return refuse(6, offset);
        }
        cells.push(cell);
        // "27 when a lowest delay exceeds its `d`, after 6 on its line, at that line's offset"
        if exceeds {
            let refused = refuse(27, offset);
            return plain_or!(75, refused, read_cells(text, line.next, ranged, cells).and(refused));
        }
        offset = line.next;
    }
    Ok(cells)
}

fn read_cell(line: &[u8], ranged: bool) -> Option<Cell> {
    let wanted = if ranged { 12 } else { 8 };
    let fields = fields(line, wanted).or_else(|| plain_or!(81, None, fields(line, 8)))?;
    let [name, pins, table] = [fields[0], fields[1], fields[2]];
    let figures = numbers(&fields[3..])?;
    let name_is_good = (1..=8).contains(&name.len())
        && name[0].is_ascii_alphabetic()
        && name.iter().all(|&byte| byte.is_ascii_alphanumeric() || byte == b'_');
    let pins_are_good = pins.len() == 1 && (b'0'..=b'4').contains(&pins[0]);
    let table_is_good = table.len() == 4 && table.iter().all(|byte| b"0123456789abcdef".contains(byte));
    if !name_is_good || !pins_are_good || !table_is_good {
        return None;
    }
    Some(Cell {
        name: String::from_utf8(name.to_vec()).ok()?,
        pins: usize::from(pins[0] - b'0'),
        table: u16::from_str_radix(std::str::from_utf8(table).ok()?, 16).ok()?,
        area: figures[0],
        delays: [figures[1], figures[2], figures[3], figures[4]],
        lowest: [5, 6, 7, 8].map(|index| figures.get(index).copied().unwrap_or(0)),
        made_of: None,
    })
}

/// "A table bit at or above row 2^pins, or the delay of an absent pin, isn't
/// 0", turned round. "An absent pin has lowest delay 0, else 6 applies."
fn absent_pins_are_zero(cell: &Cell) -> bool {
    let no_delay = |pin: usize| cell.delays[pin] == 0 && plain_or!(76, cell.lowest[pin] == 0, true);
    (1 << cell.pins..16).all(|row| cell.table >> row & 1 == 0) && (cell.pins..4).all(no_delay)
}

// ---------------------------------------------------------------- graph

#[derive(Clone, Debug)]
pub struct Graph {
    pub top: usize,
    /// Variables in the file's order.
    pub inputs: Vec<u16>,
    /// Literals in the file's order.
    pub outputs: Vec<u32>,
    /// The operands of the variables that are ANDs, by variable.
    pub operands: Vec<Option<(u32, u32)>>,
}

/// "Read the `aig` form too, known by the header's first word."
#[derive(Clone, Copy, Debug, PartialEq, Eq)]
enum Form {
    Ascii,
    Binary,
}

impl Form {
    /// Either ending "in library and ASCII graph": a binary text keeps byte 10.
    fn ends(self) -> Ends {
        match self {
            Form::Ascii => Ends::Either,
            Form::Binary => Ends::TenAlone,
        }
    }
}

/// The form, then M, I, L, O, A, and where the next line begins.
fn read_header(text: &[u8]) -> Option<(Form, [usize; 5], usize)> {
    let form = match text.split(|&byte| byte == b' ').next() {
        Some(b"aag") => Form::Ascii,
        Some(b"aig") => Form::Binary,
        _ => return None,
    };
    let line = line_at(text, 0, plain_or!(36, form.ends(), Ends::Either))?;
    let figures = numbers(&fields(line.contents, 6)?[1..])?;
    Some((form, [0, 1, 2, 3, 4].map(|index: usize| figures[index] as usize), line.next))
}

/// The words of work memory that a graph text asks for, if its header reads.
pub fn words_needed(text: &[u8]) -> Option<usize> {
    let (_, [m, _, _, o, _], _) = read_header(text)?;
    Some(WORDS_EACH * (m + 1) + o)
}

/// "Work memory is unchanged by every refusal tried up to 10": 19 is "tried
/// after 9", and so before it, 27 stands "after 6 on its line" and 30 "after 6".
pub fn leaves_work_memory(number: u32) -> bool {
    (1..=10).contains(&number) || [19, 27, 30].contains(&number)
}

/// Refusals 7 to 14 and 19 to 21.
pub fn read_graph(text: &[u8], words: usize) -> Result<Graph, Refusal> {
    let Some((form, [m, i, l, o, a], offset)) = read_header(text) else {
        return refuse(7, 0);
    };
    if l != 0 {
        return refuse(8, 0);
    }
    if m > 4_095 || o > 4_096 || plain_or!(17, i + a > m, i + a >= m && m > 0) {
        return refuse(9, 0);
    }
    // "19 when a binary header's M isn't I + A, tried after 9, place 0"
    let sums_up = plain_or!(21, m == i + a, true);
    if form == Form::Binary && plain_or!(22, !sums_up, !sums_up && words >= WORDS_EACH * (m + 1) + o) {
        return refuse(19, 0);
    }
    if words < WORDS_EACH * (m + 1) + o {
        return refuse(10, 0);
    }
    match form {
        Form::Ascii => read_lines(text, offset, m, [i, o, a]),
        Form::Binary => read_binary(text, offset, m, [i, o, a]),
    }
}

/// The numbers of a due line and the offset of the next: refusal 11, and 12 for
/// "A literal exceeds 2M+1".
fn due_line(text: &[u8], offset: usize, ends: Ends, wanted: usize, m: usize) -> Result<(Vec<u32>, usize), Refusal> {
    let line = line_at(text, offset, ends);
    let Some((line, literals)) = line.and_then(|line| Some((line, numbers(&fields(line.contents, wanted)?)?))) else {
        return refuse(11, offset);
    };
    if literals.iter().any(|&literal| literal as usize > 2 * m + 1) {
        return refuse(12, offset);
    }
    Ok((literals, line.next))
}

/// "then I input lines, O output lines and A lines `left right right`":
/// refusals 11 to 14.
fn read_lines(text: &[u8], first_line: usize, m: usize, [i, o, a]: [usize; 3]) -> Result<Graph, Refusal> {
    let mut graph = Graph { top: m, inputs: Vec::new(), outputs: Vec::new(), operands: vec![None; m + 1] };
    let mut defined: BTreeSet<u16> = BTreeSet::new();
    let mut uses: Vec<(usize, u16)> = Vec::new();
    let mut offset = first_line;
    for due in 0..i + o + a {
        let (is_output, is_and) = (due >= i && due < i + o, due >= i + o);
        let (literals, next) = due_line(text, offset, Form::Ascii.ends(), if is_and { 3 } else { 1 }, m)?;
        let first = literals[0];
        let variable = (first / 2) as u16;
        if !is_output && (first % 2 == 1 || first == 0) {
            return refuse(12, offset);
        }
        if !is_output && !defined.insert(variable) {
            return refuse(13, offset);
        }
        if is_output {
            graph.outputs.push(first);
            uses.push((offset, variable));
        } else if is_and {
            graph.operands[usize::from(variable)] = Some((literals[1], literals[2]));
            uses.push((offset, (literals[1] / 2) as u16));
            uses.push((offset, (literals[2] / 2) as u16));
        } else {
            graph.inputs.push(variable);
        }
        offset = next;
    }
    for (offset, variable) in uses {
        if variable != 0 && !defined.contains(&variable) {
            return refuse(14, offset);
        }
    }
    Ok(graph)
}

/// "Inputs are variables 1 to I and ANDs follow in sequence." "Output lines are
/// text as before and keep 11 and 12." Then "Each AND is two differences, left
/// minus first operand and first minus second"; 20 and 21 "are tried difference
/// by difference after the output lines".
fn read_binary(text: &[u8], first_line: usize, m: usize, [i, o, a]: [usize; 3]) -> Result<Graph, Refusal> {
    let inputs = (1..=i).map(|variable| variable as u16).collect();
    let mut graph = Graph { top: m, inputs, outputs: Vec::new(), operands: vec![None; m + 1] };
    let mut offset = first_line;
    for _ in 0..o {
        let (literals, next) = due_line(text, offset, plain_or!(37, Form::Binary.ends(), Ends::Either), 1, m)?;
        graph.outputs.push(literals[0]);
        offset = next;
    }
    for variable in i + 1..=i + a {
        let left = 2 * variable as u32;
        let (one, second_at) = difference(text, offset)?;
        if plain_or!(23, false, difference(text, second_at).is_err()) {
            return refuse(20, second_at);
        }
        if one == 0 || one > left {
            return refuse(21, offset);
        }
        let first = left - one;
        let (other, next) = difference(text, second_at)?;
        let taken_from = plain_or!(24, first, left);
        if plain_or!(25, other > taken_from, other == 0 || other > taken_from) {
            return refuse(21, second_at);
        }
        graph.operands[variable] = Some((first, taken_from - other));
        offset = next;
    }
    Ok(graph)
}

/// A difference and the offset after it: "in groups of seven bits, lowest first,
/// the top bit set on all but the last byte". "20 when a difference takes more
/// than two bytes or the text ends before its end".
fn difference(text: &[u8], offset: usize) -> Result<(u32, usize), Refusal> {
    let mut value = 0;
    for group in 0..2 {
        let Some(&byte) = text.get(offset + group) else { break };
        let bits = u32::from(byte % 128);
        value = plain_or!(26, value + (bits << (7 * group)), (value << 7) + bits);
        if byte < 128 {
            let padded = plain_or!(27, false, group == 1 && byte == 0);
            return if padded { refuse(20, offset) } else { Ok((value, offset + group + 1)) };
        }
    }
    refuse(20, offset)
}

// ---------------------------------------------------------------- arrivals

/// "first line `input arrival`, then an input's index from 0 and its arrival, each 0
/// to 65,535, spaced and ended as library lines are, without leading zeros. Inputs
/// not listed arrive at 0.": the arrivals by index. "25 when a line breaks its form;
/// 26 when an index is I or more, or is repeated, both line by line [...] at the
/// line's offset".
pub fn read_arrivals(text: &[u8], inputs: usize) -> Result<Vec<u32>, Refusal> {
    let mut arrivals = vec![0; inputs];
    let mut listed: BTreeSet<usize> = BTreeSet::new();
    if text.is_empty() {
        return Ok(arrivals);
    }
    let names = line_at(text, 0, Ends::Either);
    let Some(names) = names.filter(|line| plain_or!(62, line.contents == b"input arrival", true)) else {
        return refuse(25, 0);
    };
    let mut offset = names.next;
    while offset < text.len() {
        let line = line_at(text, offset, Ends::Either);
        let Some((line, [index, arrival])) = line.and_then(|line| Some((line, read_arrival(line.contents)?))) else {
            return plain_or!(56, refuse(25, offset), Err(later_26(text, offset, inputs, listed)));
        };
        let repeated = !listed.insert(index);
        let repeated = plain_or!(59, repeated, repeated && arrivals.get(index) != Some(&0));
        if index >= inputs + plain_or!(60, 0, 1) || repeated {
            return refuse(26, offset);
        }
        if let Some(slot) = arrivals.get_mut(index) {
            *slot = arrival as u32;
        }
        offset = line.next;
    }
    Ok(arrivals)
}

fn read_arrival(line: &[u8]) -> Option<[usize; 2]> {
    let figures = numbers(&fields(line, 2)?)?;
    Some([figures[0] as usize, figures[1] as usize])
}

/// The first 26 of the lines after this one, or else 25 at this one.
#[cfg(feature = "mutants")]
fn later_26(text: &[u8], offset: usize, inputs: usize, mut listed: BTreeSet<usize>) -> Refusal {
    let mut next = offset;
    while let Some(line) = (next < text.len()).then(|| line_at(text, next, Ends::Either)).flatten() {
        if let Some([index, _]) = read_arrival(line.contents) {
            if index >= inputs || !listed.insert(index) {
                return Refusal { number: 26, place: next as u32 };
            }
        }
        next = line.next;
    }
    Refusal { number: 25, place: offset as u32 }
}

/// 25 or 26 by the graph's header alone.
#[cfg(feature = "mutants")]
fn fault_of_arrivals(graph: &[u8], arrivals: &[u8]) -> Option<Refusal> {
    let (_, [_, inputs, ..], _) = read_header(graph)?;
    read_arrivals(arrivals, inputs).err()
}

// ---------------------------------------------------------------- placing

/// "variable 0 and the inputs first, then again and again the lowest-numbered
/// AND whose operands are both placed"
pub fn placing_order(graph: &Graph) -> Result<Vec<u16>, Refusal> {
    let mut order: Vec<u16> = vec![0];
    order.extend(&graph.inputs);
    let mut placed = vec![false; graph.top + 1];
    for &variable in &order {
        placed[usize::from(variable)] = true;
    }
    let mut waiting: Vec<u16> = Vec::new();
    for variable in 1..=graph.top {
        if graph.operands[variable].is_some() {
            waiting.push(variable as u16);
        }
    }
    loop {
        let is_ready = |variable: &u16| {
            let operands = graph.operands[usize::from(*variable)];
            operands.is_some_and(|(a, b)| placed[a as usize / 2] && placed[b as usize / 2])
        };
        let lowest = waiting.iter().position(is_ready);
        let next = plain_or!(4, lowest, waiting.iter().position(|v| order.last() < Some(v) && is_ready(v)).or(lowest));
        let Some(index) = next else { break };
        let variable = waiting.remove(index);
        placed[usize::from(variable)] = true;
        order.push(variable);
    }
    let stuck = plain_or!(11, waiting.first(), waiting.last());
    match stuck {
        Some(&stuck) => refuse(15, usize::from(stuck)),
        None => Ok(order),
    }
}

// ---------------------------------------------------------------- cuts

/// A cut as it is sorted: size, then ascending leaves.
type Cut = (usize, Vec<u16>);

fn cut(leaves: BTreeSet<u16>) -> Cut {
    (plain_or!(6, leaves.len(), 0), leaves.into_iter().collect())
}

/// The leaves of every cut of every placed variable, in the listed order;
/// refusal 16.
pub fn cut_lists(graph: &Graph, order: &[u16]) -> Result<Vec<Vec<Vec<u16>>>, Refusal> {
    let mut lists: Vec<Vec<Vec<u16>>> = vec![Vec::new(); graph.top + 1];
    for &variable in order {
        let mut set: BTreeSet<Cut> = BTreeSet::new();
        if variable == 0 {
            set.insert(cut(BTreeSet::new()));
        } else {
            set.insert(cut(BTreeSet::from([variable])));
        }
        if let Some((a, b)) = graph.operands[usize::from(variable)] {
            for one in &lists[a as usize / 2] {
                for other in &lists[b as usize / 2] {
                    let union: BTreeSet<u16> = one.iter().chain(other).copied().collect();
                    if union.len() <= plain_or!(5, 4, 3) {
                        set.insert(cut(union));
                    }
                }
            }
            if set.len() > plain_or!(1, CUT_LIMIT, CUT_LIMIT + 1) {
                return refuse(16, usize::from(variable));
            }
        }
        lists[usize::from(variable)] = set.into_iter().map(|(_, leaves)| leaves).collect();
    }
    Ok(lists)
}

/// The 16 rows in which leaf number `place` is 1.
fn column(place: usize) -> u16 {
    (0..16).filter(|row| row >> place & 1 == 1).map(|row| 1 << row).sum()
}

/// A cut's function: "from the root down, a leaf gives its bit and the walk
/// stops there; variable 0 gives 0; an AND gives the AND of its literals".
pub fn function(graph: &Graph, root: u16, leaves: &[u16]) -> u16 {
    walk(graph, root, leaves, &mut BTreeMap::new())
}

fn walk(graph: &Graph, variable: u16, leaves: &[u16], known: &mut BTreeMap<u16, u16>) -> u16 {
    if let Some(place) = leaves.iter().position(|&leaf| leaf == variable) {
        if plain_or!(3, true, !operands_are_leaves(graph, variable, leaves)) {
            return column(place);
        }
    }
    let Some((a, b)) = graph.operands[usize::from(variable)] else {
        return 0;
    };
    if let Some(&rows) = known.get(&variable) {
        return rows;
    }
    let mut rows = 0xffff;
    for literal in [a, b] {
        let below = walk(graph, (literal / 2) as u16, leaves, known);
        rows &= if literal % 2 == 1 { !below } else { below };
    }
    known.insert(variable, rows);
    rows
}

#[cfg(feature = "mutants")]
fn operands_are_leaves(graph: &Graph, variable: u16, leaves: &[u16]) -> bool {
    let operands = graph.operands[usize::from(variable)];
    operands.is_some_and(|(a, b)| leaves.contains(&((a / 2) as u16)) && leaves.contains(&((b / 2) as u16)))
}

// ---------------------------------------------------------------- matching

/// "The 24 orders of places 0 to 3 stand in lexicographic order"
pub fn orders() -> Vec<[usize; 4]> {
    let mut orders = Vec::new();
    for number in 0..256usize {
        let order = [number >> 6 & 3, number >> 4 & 3, number >> 2 & 3, number & 3];
        if (0..4).all(|place| order.contains(&place)) {
            orders.push(order);
        }
    }
    orders
}

/// "the row whose bit j is the bit of r at the order's place j"
pub fn fed_row(order: [usize; 4], row: usize) -> usize {
    (0..4).map(|j| (row >> order[j] & 1) << j).sum()
}

/// One way to feed a cell, and how many leaves a cut must have for the places
/// of its pins.
struct Fed {
    cell: usize,
    order: usize,
    mask: usize,
    places: [usize; 4],
    reach: usize,
}

/// Every cell under every order and mask, in that order, by the table that it
/// then gives over the 16 rows of a cut.
struct Ways<'a> {
    cells: &'a [Cell],
    fed: BTreeMap<u16, Vec<Fed>>,
}

impl<'a> Ways<'a> {
    fn new(cells: &'a [Cell]) -> Ways<'a> {
        let mut fed: BTreeMap<u16, Vec<Fed>> = BTreeMap::new();
        let orders = orders();
        for (line, cell) in cells.iter().enumerate() {
            if plain_or!(
                122,
                false,
                cells[..line].iter().any(|earlier| (earlier.pins, earlier.table) == (cell.pins, cell.table))
            ) {
                continue;
            }
            for (number, &places) in orders.iter().enumerate() {
                // The same places of all pins under an earlier order would be chosen before.
                if orders[..number].iter().any(|earlier| earlier[..cell.pins] == places[..cell.pins]) {
                    continue;
                }
                for mask in 0..1 << cell.pins {
                    let gives = |row: &usize| {
                        let pins = (fed_row(places, *row) ^ mask) % (1 << cell.pins);
                        cell.table >> pins & 1 == 1
                    };
                    let table = (0..16).filter(gives).map(|row| 1 << row).sum();
                    let reach = (0..cell.pins).map(|pin| places[pin] + 1).max().unwrap_or(0);
                    let one = Fed { cell: line, order: number, mask, places, reach };
                    fed.entry(table).or_default().push(one);
                }
            }
        }
        Ways { cells, fed }
    }

    /// The ways that match a cut of so many leaves with this function.
    fn matching(&self, table: u16, leaves: usize) -> impl Iterator<Item = &Fed> {
        let all = self.fed.get(&table).map_or(&[][..], |list| list);
        all.iter().filter(move |fed| plain_or!(13, fed.reach <= leaves, fed.reach == leaves))
    }
}

// ---------------------------------------------------------------- cover

/// A variable, and whether the phase is the negative one.
pub type Phase = (u16, bool);

pub fn phase_of(literal: u32) -> Phase {
    ((literal / 2) as u16, literal % 2 == 1)
}

#[derive(Clone, Copy, Debug, PartialEq, Eq)]
pub enum Source {
    Input,
    /// Numbers of cut, cell line, order, and the mask.
    Cell {
        cut: usize,
        cell: usize,
        order: usize,
        mask: usize,
    },
    Inverter {
        cell: usize,
    },
}

#[derive(Clone, Copy, Debug, PartialEq, Eq)]
pub struct Net {
    pub arrival: u32,
    pub source: Source,
}

/// The phases that have a source.
pub type Mapped = BTreeMap<Phase, Net>;

/// What feeds a pin, and the pin's delays.
#[derive(Clone, Copy, Debug, PartialEq, Eq)]
pub struct Feed {
    pub phase: Phase,
    pub delay: u32,
    pub lowest: u32,
}

/// The feeds of a source, pin by pin.
pub fn feeds(cells: &[Cell], cuts: &[Vec<Vec<u16>>], phase: Phase, source: Source) -> Vec<Feed> {
    let (variable, negative) = phase;
    let feed = |phase, cell: &Cell, pin: usize| Feed { phase, delay: cell.delays[pin], lowest: cell.lowest[pin] };
    match source {
        Source::Input => Vec::new(),
        Source::Inverter { cell } => vec![feed((variable, !negative), &cells[cell], 0)],
        Source::Cell { cut, cell, order, mask } => {
            let (cell, places) = (&cells[cell], orders()[order]);
            let leaves = &cuts[usize::from(variable)][cut];
            let fed_by = |pin: usize| (leaves[places[pin]], mask >> pin & 1 == 1);
            (0..cell.pins).map(|pin| feed(fed_by(pin), cell, pin)).collect()
        }
    }
}

/// "In the state each phase is one of these sources with its data, or none":
/// every phase's source by the choice, where it has one. "The input record gains
/// this number, every arrival starts from it": the inputs' arrivals stand by index.
pub fn cover(cells: &[Cell], graph: &Graph, late: &[u32], order: &[u16], cuts: &[Vec<Vec<u16>>]) -> Mapped {
    let ways = Ways::new(cells);
    // "The inverter role stays with listed cells."
    let is_inverter = |cell: &Cell| cell.pins == 1 && cell.table == 0x0001 && cell.made_of.is_none();
    let inverters = cells.iter().enumerate().filter(|(_, cell)| is_inverter(cell));
    let inverter =
        inverters.min_by_key(|(line, cell)| (plain_or!(121, cell.delays[0], 0), plain_or!(8, *line, 99 - *line)));
    let mut mapped = Mapped::new();
    for &variable in order {
        let lists = &cuts[usize::from(variable)];
        let own = [false, true].map(|negative| {
            if let Some(index) = graph.inputs.iter().position(|&input| input == variable) {
                let index = plain_or!(54, index, usize::from(variable) - 1);
                let arrival = late.get(index).copied().unwrap_or(0);
                return (!negative).then_some(Net { arrival, source: Source::Input });
            }
            matched(&ways, graph, &mapped, variable, negative, lists)
        });
        for (negative, own, opposite) in [(false, own[0], own[1]), (true, own[1], own[0])] {
            let inverted = opposite.zip(inverter).map(|(opposite, (line, cell))| Net {
                arrival: cell.delays[0]
                    + plain_or!(
                        61,
                        opposite.arrival,
                        if opposite.source == Source::Input { 0 } else { opposite.arrival }
                    ),
                source: Source::Inverter { cell: line },
            });
            // "earliest arrival; then a matched cell before the inverter"
            let net = match (own, inverted) {
                (Some(own), Some(inverted))
                    if plain_or!(2, inverted.arrival < own.arrival, inverted.arrival <= own.arrival) =>
                {
                    Some(inverted)
                }
                (own, inverted) => own.or(inverted),
            };
            if let Some(net) = net {
                mapped.insert((variable, negative), net);
            }
        }
    }
    mapped
}

/// A cover with its sources kept and the arrivals of late inputs.
#[cfg(feature = "mutants")]
fn timed_again(cells: &[Cell], graph: &Graph, late: &[u32], cuts: &[Vec<Vec<u16>>], mapped: Mapped) -> Mapped {
    fn arrival(phase: Phase, known: &mut BTreeMap<Phase, u32>, of: &dyn Fn(Phase) -> Result<u32, Vec<Feed>>) -> u32 {
        if let Some(&arrival) = known.get(&phase) {
            return arrival;
        }
        let latest = match of(phase) {
            Ok(start) => start,
            Err(feeds) => feeds.iter().map(|feed| arrival(feed.phase, known, of) + feed.delay).max().unwrap_or(0),
        };
        known.insert(phase, latest);
        latest
    }
    let of = |phase: Phase| match mapped[&phase].source {
        Source::Input => {
            let index = graph.inputs.iter().position(|&input| input == phase.0);
            Ok(index.and_then(|index| late.get(index).copied()).unwrap_or(0))
        }
        source => Err(feeds(cells, cuts, phase, source)),
    };
    let mut known = BTreeMap::new();
    mapped.iter().map(|(&phase, &net)| (phase, Net { arrival: arrival(phase, &mut known, &of), ..net })).collect()
}

/// What the choice compares: arrival, cut, cell line, order number, mask.
type Rank = (u32, usize, usize, usize, usize);

/// The best matched cell on a cut other than the variable alone: "earliest
/// arrival; [...] then cut, cell line, order number, mask, lowest first".
fn matched(
    ways: &Ways,
    graph: &Graph,
    mapped: &Mapped,
    variable: u16,
    negative: bool,
    cuts: &[Vec<u16>],
) -> Option<Net> {
    let mut best: Option<(Rank, Net)> = None;
    for (number, leaves) in cuts.iter().enumerate() {
        if *leaves == [variable] {
            continue;
        }
        let positive = function(graph, variable, leaves);
        let table = if negative { !positive } else { positive };
        for fed in ways.matching(table, leaves.len()) {
            let cell = &ways.cells[fed.cell];
            let mut arrival = Some(0);
            for pin in 0..cell.pins {
                let feeding = mapped.get(&(leaves[fed.places[pin]], fed.mask >> pin & 1 == 1));
                let delay = plain_or!(15, cell.delays[pin], cell.delays[fed.places[pin]]);
                let counts = plain_or!(19, true, !is_ignored(cell, pin));
                let later = |net: &Net| net.arrival + if counts { delay } else { 0 };
                arrival = arrival.zip(feeding).map(|(latest, net): (u32, &Net)| latest.max(later(net)));
            }
            let Some(arrival) = arrival else { continue };
            let rank = plain_or!(
                7,
                (arrival, number, fed.cell, fed.order, fed.mask),
                (arrival, fed.cell, number, fed.order, fed.mask)
            );
            if best.is_none_or(|(lowest, _)| rank < lowest) {
                let source = Source::Cell { cut: number, cell: fed.cell, order: fed.order, mask: fed.mask };
                best = Some((rank, Net { arrival, source }));
            }
        }
    }
    best.map(|(_, net)| net)
}

#[cfg(feature = "mutants")]
fn is_ignored(cell: &Cell, pin: usize) -> bool {
    (0..1 << cell.pins).all(|row| cell.table >> row & 1 == cell.table >> (row ^ 1 << pin) & 1)
}

// ---------------------------------------------------------------- netlist

pub fn net_name((variable, negative): Phase) -> String {
    format!("{}{variable}", if negative { 'm' } else { 'p' })
}

/// "A phase is needed if an output is that phase or the source of a needed
/// phase is fed by it": the least such set.
pub fn needed(cells: &[Cell], graph: &Graph, cuts: &[Vec<Vec<u16>>], mapped: &Mapped) -> BTreeSet<Phase> {
    let mut needed = BTreeSet::new();
    let mut asked: Vec<Phase> = graph.outputs.iter().map(|&literal| phase_of(literal)).collect();
    while let Some(phase) = asked.pop() {
        if needed.insert(phase) {
            let feeding = feeds(cells, cuts, phase, mapped[&phase].source);
            asked.extend(feeding.iter().map(|feed| feed.phase));
        }
    }
    needed
}

/// The gates of a source: cell, nets of its pins, and the net that it drives. "A pair
/// prints as two gates, the inner first, on a net `s` followed by the root's net name".
fn gates_of(cells: &[Cell], line: usize, nets: Vec<String>, output: String) -> Vec<(usize, Vec<String>, String)> {
    let Some(Joint { root, fed, inner, pins }) = &cells[line].made_of else {
        return vec![(line, nets, output)];
    };
    let between = plain_or!(119, format!("s{output}"), format!("s{}", &output[1..]));
    let mut at_root = vec![between.clone(); cells[*root].pins];
    let mut at_inner = vec![String::new(); cells[*inner].pins];
    for (pin, net) in pins.iter().zip(nets) {
        match *pin {
            Pin::Root(pin) => at_root[pin] = net,
            Pin::Inner(pin) => at_inner[pin] = net,
        }
    }
    debug_assert_eq!(at_root[*fed], between);
    let mut gates = vec![(*inner, at_inner, between), (*root, at_root, output)];
    if plain_or!(110, false, true) {
        gates.reverse();
    }
    gates
}

fn netlist(cells: &[Cell], graph: &Graph, cuts: &[Vec<Vec<u16>>], mapped: &Mapped) -> Printed {
    let mut text = String::from(".model top\n.inputs");
    let inputs = plain_or!(18, graph.inputs.clone(), Vec::from_iter(BTreeSet::from_iter(graph.inputs.clone())));
    for &variable in &inputs {
        text += &format!(" {}", net_name((variable, false)));
    }
    let phases: Vec<Phase> = graph.outputs.iter().map(|&literal| phase_of(literal)).collect();
    // "The list becomes `o0`, `o1` and so on, in file order."
    let names: Vec<String> = (0..phases.len())
        .map(|index| {
            let own = plain_or!(31, index, phases.iter().take_while(|&&phase| phase != phases[index]).count());
            format!("o{}", own + plain_or!(29, 0, 1))
        })
        .collect();
    text += "\n.outputs";
    for name in &names {
        text += &format!(" {name}");
    }
    text += "\n";
    let (mut gates, mut area) = (0, 0);
    let needed = needed(cells, graph, cuts, mapped);
    for (&phase, net) in mapped {
        let line = match net.source {
            Source::Input => continue,
            Source::Cell { cell, .. } | Source::Inverter { cell } => cell,
        };
        if !needed.contains(&phase) {
            continue;
        }
        let fed_by = |feed: Feed| {
            let (variable, negative) = feed.phase;
            net_name(plain_or!(
                14,
                (variable, negative),
                (variable, negative && matches!(net.source, Source::Inverter { .. }))
            ))
        };
        let nets: Vec<String> = feeds(cells, cuts, phase, net.source).into_iter().map(fed_by).collect();
        for (line, nets, output) in gates_of(cells, line, nets, net_name(phase)) {
            let cell = &cells[line];
            text += &format!(".gate {}", cell.name);
            for (net, pin) in nets.iter().zip("ABCD".chars()) {
                text += &format!(" {pin}={net}");
            }
            text += &format!(" O={output}\n");
            gates += 1;
            area += plain_or!(10, cell.area, if cell.pins == 1 { 0 } else { cell.area });
        }
    }
    // "Before `.end`, each gets `.names` with its net and its own name, then
    // `1 1`. These lines aren't gates and add no delay."
    for (index, name) in names.iter().enumerate() {
        let net = net_name(phases[plain_or!(28, index, (index + 1) % phases.len())]);
        text += &format!(".names {net} {name}\n{}\n", plain_or!(30, "1 1", "1 0"));
    }
    let outputs = phases.iter().map(|phase| mapped[phase].arrival);
    let latest = plain_or!(9, outputs.max(), mapped.values().map(|net| net.arrival).max());
    let arrival = latest.unwrap_or(0);
    text += &format!(".end\n# gates {gates} area {area} arrival {arrival}\n");
    Printed { text: text.into_bytes(), gates, area, arrival }
}

// ---------------------------------------------------------------- ranges

/// The low arrivals: the same gates with every pin at its lowest delay. An input's
/// own arrival stands in both ends.
fn low_arrivals(cells: &[Cell], order: &[u16], cuts: &[Vec<Vec<u16>>], mapped: &Mapped) -> BTreeMap<Phase, u32> {
    let mut low: BTreeMap<Phase, u32> = BTreeMap::new();
    for &variable in order {
        let phases = [(variable, false), (variable, true)];
        let mut nets: Vec<(Phase, Net)> =
            phases.iter().filter_map(|phase| Some((*phase, *mapped.get(phase)?))).collect();
        // An inverter's feed, the opposite phase, is no inverter: it comes first.
        nets.sort_by_key(|(_, net)| matches!(net.source, Source::Inverter { .. }));
        for (phase, net) in nets {
            let feeds = feeds(cells, cuts, phase, net.source);
            let feeds = plain_or!(77, feeds, latest_alone(feeds, mapped));
            let ends = feeds.iter().map(|feed| low[&feed.phase] + plain_or!(72, feed.lowest, feed.delay));
            let arrival = match net.source {
                Source::Input => plain_or!(78, net.arrival, 0),
                _ => plain_or!(73, ends.max(), ends.min()).unwrap_or(0),
            };
            low.insert(phase, arrival);
        }
    }
    low
}

/// The feed that decides the high arrival, alone.
#[cfg(feature = "mutants")]
fn latest_alone(feeds: Vec<Feed>, mapped: &Mapped) -> Vec<Feed> {
    feeds.into_iter().max_by_key(|feed| mapped[&feed.phase].arrival + feed.delay).into_iter().collect()
}

/// The cells with their lowest delays in place of the others.
#[cfg(feature = "mutants")]
fn by_lowest(cells: &[Cell]) -> Vec<Cell> {
    cells.iter().map(|cell| Cell { delays: cell.lowest, ..cell.clone() }).collect()
}

/// "The netlist is then followed by a line per output, as `# timing o0 30 35`: a low
/// and a high arrival."
fn timed(printed: Printed, graph: &Graph, mapped: &Mapped, low: &BTreeMap<Phase, u32>) -> Printed {
    let mut text = printed.text;
    for (index, &literal) in graph.outputs.iter().enumerate() {
        let phase = phase_of(literal);
        let high = plain_or!(85, mapped[&phase].arrival, printed.arrival);
        text.extend(format!("# timing o{index} {} {high}\n", low[&phase]).bytes());
    }
    Printed { text, ..printed }
}
