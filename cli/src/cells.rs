//! A cell library that the call has accepted, read again for figures; and what breaks a line that it has not.

use crate::lines::{counted, ending, number, offset_of, shown, spacing, Line, NUMBER};

pub const NAMES_LINE: &str = "cell pins table area d0 d1 d2 d3";

/// The names line of a library whose delays are ranges.
pub const RANGED_LINE: &str = "cell pins table area d0 d1 d2 d3 l0 l1 l2 l3";

#[derive(Clone, Debug, PartialEq, Eq)]
pub struct Cell {
    pub name: String,
    /// Bit r is the value in row r, and bit j of r is the value of pin j.
    pub table: u16,
    pub area: u32,
    /// The delay of each pin that is there, the highest of its range.
    pub delays: Vec<u32>,
}

impl Cell {
    pub fn pins(&self) -> usize {
        self.delays.len()
    }
}

pub fn pin(k: usize) -> char {
    (b'A' + k as u8) as char
}

/// The cells of an accepted library, in its order.
pub fn read(text: &[u8]) -> Vec<Cell> {
    let text = String::from_utf8_lossy(text);
    let cell = |line: &str| {
        let fields: Vec<&str> = line.trim_end_matches('\r').split(' ').collect();
        let pins = fields.get(1)?.parse::<usize>().ok()?;
        Some(Cell {
            name: fields[0].into(),
            table: u16::from_str_radix(fields.get(2)?, 16).ok()?,
            area: fields.get(3)?.parse().ok()?,
            delays: fields.get(4..4 + pins)?.iter().map_while(|delay| delay.parse().ok()).collect(),
        })
    };
    text.lines().skip(1).map_while(cell).collect()
}

/// How many pairs the cells form: a root, one of its pins, and an inner cell with a pin, where that leaves four pins at most.
pub fn pairs(cells: &[Cell]) -> usize {
    let inner = |root: &Cell| cells.iter().filter(|inner| (1..=5 - root.pins()).contains(&inner.pins())).count();
    cells.iter().map(|root| root.pins() * inner(root)).sum()
}

/// The line above `before` whose cell has that name.
pub fn line_of(text: &[u8], name: &[u8], before: usize) -> Option<usize> {
    (2..before).find(|&k| {
        let offset = offset_of(text, k).unwrap_or(text.len());
        text[offset..].starts_with(name) && text.get(offset + name.len()) == Some(&b' ')
    })
}

/// Whether the library has the longer names line.
pub fn is_ranged(text: &[u8]) -> bool {
    super::lines::line_at(text, 0).bytes == RANGED_LINE.as_bytes()
}

/// The field names of the library's first line.
fn due(text: &[u8]) -> Vec<&str> {
    let line = super::lines::line_at(text, 0);
    std::str::from_utf8(line.bytes).unwrap_or(NAMES_LINE).split(' ').collect()
}

/// What breaks a cell line's form (refusal 4).
pub fn fault(text: &[u8], line: &Line) -> Option<String> {
    let due = due(text);
    if line.bytes.starts_with(b"#") {
        return Some("there are no comments".into());
    }
    if let Some(fault) = spacing(line.bytes, &due) {
        return Some(fault);
    }
    for (&field, what) in line.bytes.split(|&byte| byte == b' ').collect::<Vec<_>>().iter().zip(due) {
        let good = match what {
            "cell" => {
                (1..=8).contains(&field.len())
                    && field[0].is_ascii_alphabetic()
                    && field.iter().all(|&byte| byte.is_ascii_alphanumeric() || byte == b'_')
            }
            "pins" => matches!(field, [b'0'..=b'4']),
            "table" => field.len() == 4 && field.iter().all(|&byte| matches!(byte, b'0'..=b'9' | b'a'..=b'f')),
            _ => number(field).is_some(),
        };
        let form = match what {
            "cell" => "1 to 8 letters, digits or underscores, a letter first",
            "pins" => "a number from 0 to 4",
            "table" => "four lower-case hexadecimal digits",
            _ => NUMBER,
        };
        if !good {
            return Some(format!("`{what}` is {form}, not `{}`", shown(field)));
        }
    }
    ending(line)
}

/// What stands beyond the pins of a cell line in form (refusal 6).
pub fn beyond(text: &[u8], line: &Line) -> Option<String> {
    let fields: Vec<&[u8]> = line.bytes.split(|&byte| byte == b' ').collect();
    let pins = number(fields.get(1)?)?;
    let table = u32::from_str_radix(std::str::from_utf8(fields.get(2)?).ok()?, 16).ok()?;
    if let Some(row) = (1 << pins..16).find(|row| table >> row & 1 == 1) {
        let rows = counted(1 << pins, "row", "rows");
        return Some(format!(
            "the table has a 1 in row {row}, and a cell of {} has {rows}",
            counted(pins, "pin", "pins")
        ));
    }
    due(text).iter().zip(&fields).skip(4).find_map(|(what, field)| {
        let k: usize = what.get(1..)?.parse().ok()?;
        (k >= pins && number(field)? != 0).then(|| format!("`{what}` is {}, and the cell has no pin {k}", shown(field)))
    })
}

/// The first lowest delay above its delay in a cell line in form (refusal 27).
pub fn above(line: &Line) -> Option<String> {
    let fields: Vec<usize> =
        line.bytes.split(|&byte| byte == b' ').map(|field| number(field).unwrap_or_default()).collect();
    let (delays, lows) = (fields.get(4..8)?, fields.get(8..12)?);
    let k = delays.iter().zip(lows).position(|(delay, low)| low > delay)?;
    Some(format!("`l{k}` is {}, more than `d{k}`, {}", lows[k], delays[k]))
}
