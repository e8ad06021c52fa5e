//! Arrivals by the graph's symbols: a text of its own form, turned line by line into the one that the call reads.

use crate::{
    arrivals,
    graph::Graph,
    lines::{large_number, line_at, number, offset_of},
};
use arraymap::{Place, Refusal};
use std::borrow::Cow;

pub const NAMES_LINE: &str = "symbol arrival";

/// An index that a graph of so many inputs has not: the call refuses its line (26), in its turn among the refusals. A graph of more inputs is read by
/// another reader, which takes larger numbers.
fn no_input(inputs: usize) -> usize {
    if inputs <= 65_535 {
        65_535
    } else {
        1 << 24
    }
}

/// The text has the first line of this form.
pub fn is_named(text: &[u8]) -> bool {
    line_at(text, 0).bytes == NAMES_LINE.as_bytes()
}

/// The symbol and the arrival of a line. A symbol may have spaces in it, an arrival has none.
pub fn fields(line: &[u8]) -> Option<(&[u8], &[u8])> {
    let at = line.iter().rposition(|&byte| byte == b' ').filter(|&at| at > 0)?;
    Some((&line[..at], &line[at + 1..]))
}

/// The text as the call reads it, by the symbols of the graph's text. What breaks the form stays as it is, for the call to refuse.
pub fn turned<'t>(text: &'t [u8], graph: &[u8]) -> Cow<'t, [u8]> {
    if !is_named(text) {
        return text.into();
    }
    let graph = Graph::read(graph);
    let none = no_input(graph.as_ref().map_or(0, |graph| graph.header[1]));
    let inputs = graph.as_ref().map(Graph::inputs_by_name).unwrap_or_default();
    let mut turned = Vec::new();
    for (k, line) in text.split_inclusive(|&byte| byte == b'\n').enumerate() {
        match fields(line) {
            _ if k == 0 => {
                turned.extend_from_slice(arrivals::NAMES_LINE.as_bytes());
                turned.extend_from_slice(&line[NAMES_LINE.len()..]);
            }
            Some((symbol, arrival)) => {
                let named = inputs.get(&*String::from_utf8_lossy(symbol)).map_or(&[][..], Vec::as_slice);
                let index = if let [one] = named { *one } else { none };
                turned.extend_from_slice(format!("{index} ").as_bytes());
                turned.extend_from_slice(arrival);
            }
            None => turned.extend_from_slice(line),
        }
    }
    turned.into()
}

/// The refusal of a turned text with its place in the text as it was: each line has the number that it had.
pub fn in_given(refusal: Refusal, turned: &[u8], given: &[u8]) -> Refusal {
    match refusal.place() {
        Place::Arrivals(byte) if is_named(given) => {
            let line = line_at(turned, byte).number;
            Refusal { place: offset_of(given, line).unwrap_or(given.len()), ..refusal }
        }
        _ => refusal,
    }
}

/// The number of the fault that the reader of larger graphs found in a turned text at that line, 25 or 26, and the line that has it.
pub fn fault_of(turned: &[u8], line: usize) -> (u32, usize) {
    if !turned.ends_with(b"\n") {
        return (25, line_at(turned, turned.iter().rposition(|&byte| byte == b'\n').map_or(0, |at| at + 1)).number);
    }
    let of = offset_of(turned, line).map_or(&[][..], |at| line_at(turned, at).bytes);
    let mut fields = of.split(|&byte| byte == b' ');
    let is_index = fields.next().and_then(large_number).is_some();
    let is_arrival = fields.next().and_then(number).is_some();
    (if is_index && is_arrival && fields.next().is_none() { 26 } else { 25 }, line)
}
