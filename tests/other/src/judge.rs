//! A second reader for refusals 1 to 14, 19 to 21 and 25 to 27, made another way round:
//! it reads loosely, prints what it understood and compares the bytes. Used
//! where no one knows by construction what a damaged text brings.

use crate::WORDS_EACH;
use std::collections::BTreeSet;

/// A line's text, its offset, and whether it is the wanted form.
fn lines(text: &[u8]) -> impl Iterator<Item = (usize, &[u8])> {
    let mut offset = 0;
    text.split_inclusive(|&byte| byte == 10).map(move |line| {
        offset += line.len();
        (offset - line.len(), line)
    })
}

/// Whether a line has these contents and an end that its text allows.
fn reads_again(contents: &str, line: &[u8], either_end: bool) -> bool {
    let ends: &[&str] = if either_end { &["\n", "\r\n"] } else { &["\n"] };
    ends.iter().any(|end| format!("{contents}{end}").as_bytes() == line)
}

fn loosely(line: &[u8]) -> Option<Vec<&str>> {
    Some(std::str::from_utf8(line).ok()?.split_whitespace().collect())
}

struct Cell {
    name: String,
    pins: u8,
    table: u16,
    /// The `d` figures, then the `l` figures where the names line has them.
    delays: Vec<u16>,
}

fn cell(line: &[u8], figures: usize) -> Option<Cell> {
    let words = loosely(line)?;
    let [name, pins, table, area, ..] = words[..] else { return None };
    let delays: Vec<u16> = words[4..].iter().map(|word| word.parse().ok()).collect::<Option<_>>()?;
    let pins: u8 = pins.parse().ok()?;
    let table = u16::from_str_radix(table, 16).ok()?;
    let area: u16 = area.parse().ok()?;
    let again =
        delays.iter().fold(format!("{name} {pins} {table:04x} {area}"), |again, delay| format!("{again} {delay}"));
    let letters =
        name.chars().all(|c| c == '_' || c.is_ascii_digit() || c.is_ascii_lowercase() || c.is_ascii_uppercase());
    let starts_well = !name.starts_with(|c: char| c == '_' || c.is_ascii_digit());
    let good = reads_again(&again, line, true) && pins < 5 && name.len() < 9 && letters && starts_well;
    let good = good && delays.len() == figures;
    good.then(|| Cell { name: name.to_string(), pins, table, delays })
}

fn figures(line: &[u8], head: &str, wanted: usize, either_end: bool) -> Option<Vec<u16>> {
    let mut words = loosely(line)?;
    if !head.is_empty() && (words.is_empty() || words.remove(0) != head) {
        return None;
    }
    let figures: Vec<u16> = words.iter().map(|word| word.parse().ok()).collect::<Option<_>>()?;
    let mut again: Vec<String> = figures.iter().map(u16::to_string).collect();
    if !head.is_empty() {
        again.insert(0, head.to_string());
    }
    (figures.len() == wanted && reads_again(&again.join(" "), line, either_end)).then_some(figures)
}

/// The refusal among 1 to 14, 19 to 21 and 25 to 27 that the texts bring, if one
/// does.
pub fn judge(cells: &[u8], graph: &[u8], arrivals: &[u8], words: usize) -> Option<(u32, usize)> {
    judge_with(cells, graph, arrivals, words, false)
}

/// The same, with 30 where the call wants pairs.
pub fn judge_with(cells: &[u8], graph: &[u8], arrivals: &[u8], words: usize, pairs: bool) -> Option<(u32, usize)> {
    if cells.len().max(graph.len()).max(arrivals.len()) > 65_536 {
        return Some((1, 0));
    }
    let inputs = match judge_two(cells, graph, words, pairs) {
        Ok(inputs) => inputs,
        Err(refusal) => return Some(refusal),
    };
    let mut free: BTreeSet<usize> = (0..inputs).collect();
    for (number, (offset, line)) in lines(arrivals).enumerate() {
        if number == 0 {
            if !reads_again("input arrival", line, true) {
                return Some((25, 0));
            }
            continue;
        }
        let Some(figures) = figures(line, "", 2, true) else { return Some((25, offset)) };
        if !free.remove(&usize::from(figures[0])) {
            return Some((26, offset));
        }
    }
    None
}

/// The refusal of the library and the graph, or else the number of inputs.
fn judge_two(cells: &[u8], graph: &[u8], words: usize, pairs: bool) -> Result<usize, (u32, usize)> {
    let mut listed = lines(cells);
    let names = listed.next().map_or(&cells[..0], |(_, line)| line);
    let short = "cell pins table area d0 d1 d2 d3";
    let figures = if reads_again(&format!("{short} l0 l1 l2 l3"), names, true) { 8 } else { 4 };
    if figures == 4 && !reads_again(short, names, true) {
        return Err((2, 0));
    }
    let mut seen: BTreeSet<String> = BTreeSet::new();
    let mut pins: Vec<usize> = Vec::new();
    for (offset, line) in listed {
        if seen.len() == 32 {
            return Err((3, offset));
        }
        let Some(cell) = cell(line, figures) else { return Err((4, offset)) };
        if !seen.insert(cell.name) {
            return Err((5, offset));
        }
        let rows = 1u32 << cell.pins;
        let absent = |ends: &[u16]| ends.iter().skip(cell.pins.into()).any(|&delay| delay > 0);
        if u32::from(cell.table) >= 1 << rows || cell.delays.chunks(4).any(absent) {
            return Err((6, offset));
        }
        if (4..figures).any(|at| cell.delays[at] > cell.delays[at - 4]) {
            return Err((27, offset));
        }
        pins.push(cell.pins.into());
    }
    if pairs && crate::gen::cells_and_pairs(&pins) > 256 {
        return Err((30, 0));
    }
    let mut due = lines(graph);
    let first = due.next().map_or(&graph[..0], |(_, line)| line);
    let is_binary = first.starts_with(b"aig");
    let Some(header) = self::figures(first, if is_binary { "aig" } else { "aag" }, 5, !is_binary) else {
        return Err((7, 0));
    };
    let [m, i, l, o, a] = [0, 1, 2, 3, 4].map(|index: usize| usize::from(header[index]));
    if l > 0 {
        return Err((8, 0));
    }
    if m >= 4096 || o >= 4097 || m < i + a {
        return Err((9, 0));
    }
    if is_binary && m > i + a {
        return Err((19, 0));
    }
    if words < WORDS_EACH * m + WORDS_EACH + o {
        return Err((10, 0));
    }
    let mut defined = vec![false; m + 1];
    defined[0] = true;
    let mut used: Vec<(usize, usize)> = Vec::new();
    // A binary text has output lines alone, then differences.
    let mut end = first.len();
    let sorts = if is_binary { [(0, 1), (o, 1), (0, 3)] } else { [(i, 1), (o, 1), (a, 3)] };
    for (sort, (count, wanted)) in sorts.into_iter().enumerate() {
        for _ in 0..count {
            let Some((offset, line)) = due.next() else { return Err((11, graph.len())) };
            let Some(literals) = self::figures(line, "", wanted, !is_binary) else { return Err((11, offset)) };
            end = offset + line.len();
            let literals: Vec<usize> = literals.into_iter().map(usize::from).collect();
            if literals.iter().any(|literal| literal / 2 > m) {
                return Err((12, offset));
            }
            let reads = if sort == 1 {
                &literals[..]
            } else {
                if literals[0] & 1 == 1 || literals[0] < 2 {
                    return Err((12, offset));
                }
                if std::mem::replace(&mut defined[literals[0] / 2], true) {
                    return Err((13, offset));
                }
                &literals[1..]
            };
            used.extend(reads.iter().map(|literal| (offset, literal / 2)));
        }
    }
    if is_binary {
        return judge_differences(graph, end, i, a).map_or(Ok(i), Err);
    }
    let fault = used.into_iter().find(|&(_, variable)| !defined[variable]);
    fault.map_or(Ok(i), |(offset, _)| Err((14, offset)))
}

/// Cuts the rest into runs of bytes that end with one below 128, however long,
/// and takes each from what the one before it leaves.
fn judge_differences(graph: &[u8], from: usize, inputs: usize, ands: usize) -> Option<(u32, usize)> {
    let mut at = from;
    let mut runs = graph[from..].split_inclusive(|&byte| byte < 128);
    let mut remains = 0;
    for index in 0..2 * ands {
        let run = runs.next().unwrap_or(&[]);
        let value = match *run {
            [low] if low < 128 => i64::from(low),
            [low, high] if high < 128 => i64::from(low) - 128 + 128 * i64::from(high),
            _ => return Some((20, at)),
        };
        let is_first = index % 2 == 0;
        remains = if is_first { 2 * (inputs + 1 + index / 2) as i64 } else { remains } - value;
        if remains < 0 || (is_first && value == 0) {
            return Some((21, at));
        }
        at += run.len();
    }
    None
}
