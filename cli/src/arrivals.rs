//! The arrivals of inputs: an accepted text read again, and what breaks a line that is not accepted.

use crate::lines::{ending, line_at, number, offset_of, shown, spacing, Line, NUMBER};

pub const NAMES_LINE: &str = "input arrival";

/// The arrival of each of so many inputs.
pub fn read(text: &[u8], inputs: usize) -> Vec<u32> {
    let mut arrivals = vec![0; inputs];
    for line in String::from_utf8_lossy(text).lines().skip(1) {
        let read = line.split_once(' ').and_then(|(k, at)| Some((k.parse::<usize>().ok()?, at.parse().ok()?)));
        if let Some((k, at)) = read.filter(|&(k, _)| k < inputs) {
            arrivals[k] = at;
        }
    }
    arrivals
}

/// What breaks the form of a line (refusal 25).
pub fn fault(line: &Line) -> Option<String> {
    if line.number == 1 && line.bytes != NAMES_LINE.as_bytes() {
        return Some(format!("the first line is `{NAMES_LINE}`"));
    }
    let due = ["input", "arrival"];
    let fields = || line.bytes.split(|&byte| byte == b' ').zip(due).filter(|_| line.number > 1);
    let bad = |(field, what): (&[u8], &str)| {
        number(field).is_none().then(|| format!("`{what}` is {NUMBER}, not `{}`", shown(field)))
    };
    spacing(line.bytes, &due).or_else(|| fields().find_map(bad)).or_else(|| ending(line))
}

/// The input that a line in form names.
pub fn input(line: &[u8]) -> Option<usize> {
    number(line.split(|&byte| byte == b' ').next()?)
}

/// The line above `before` that names the same input.
pub fn line_of(text: &[u8], k: usize, before: usize) -> Option<usize> {
    (2..before).find(|&number| offset_of(text, number).and_then(|offset| input(line_at(text, offset).bytes)) == Some(k))
}
