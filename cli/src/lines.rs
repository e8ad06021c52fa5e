//! Lines of a text by the offset that a refusal names, and how bytes are shown.

use std::{ffi::OsStr, os::unix::ffi::OsStrExt};

/// A line, and where it stands.
pub struct Line<'t> {
    /// From 1, as editors count.
    pub number: usize,
    /// Without the bytes that end it.
    pub bytes: &'t [u8],
    /// Bytes 13 and 10 end it.
    pub carriage: bool,
    /// Byte 10 ends it.
    pub ended: bool,
}

/// The line whose first byte is at the offset; an empty one at the text's end.
pub fn line_at(text: &[u8], offset: usize) -> Line<'_> {
    let offset = offset.min(text.len());
    let number = 1 + text[..offset].iter().filter(|&&byte| byte == b'\n').count();
    let rest = &text[offset..];
    let end = rest.iter().position(|&byte| byte == b'\n');
    let bytes = &rest[..end.unwrap_or(rest.len())];
    let short = bytes.strip_suffix(b"\r");
    Line { number, bytes: short.unwrap_or(bytes), carriage: short.is_some(), ended: end.is_some() }
}

/// The offset of the line with that number, from 1, where the text has it.
pub fn offset_of(text: &[u8], number: usize) -> Option<usize> {
    match number {
        0 => None,
        1 => Some(0),
        _ => text.iter().enumerate().filter(|(_, &byte)| byte == b'\n').nth(number - 2).map(|(k, _)| k + 1),
    }
}

/// Bytes as a message shows them: what is no printable ASCII as an escape, and not more than fits a line.
pub fn shown(bytes: &[u8]) -> String {
    const WIDTH: usize = 100;
    let mut text: String =
        bytes.iter().take(WIDTH).flat_map(|&byte| std::ascii::escape_default(byte)).map(char::from).collect();
    text = text.replace("\\'", "'").replace("\\\"", "\"").replace("\\\\", "\\");
    if bytes.len() > WIDTH {
        text += " ..";
    }
    text
}

/// A file name or another word of the command line as a message shows it: letters of any alphabet as they are, and nothing that moves a terminal's cursor,
/// changes its colours or turns the order of letters.
pub fn printable(word: &OsStr) -> String {
    let mut text = String::new();
    for part in word.as_bytes().utf8_chunks() {
        text.extend(part.valid().chars().map(visible));
        text.extend(part.invalid().iter().map(|byte| format!("\\x{byte:02x}")));
    }
    text
}

/// A letter, or the escape of one that is not seen.
pub fn visible(letter: char) -> String {
    let turns = matches!(letter, '\u{200e}' | '\u{200f}' | '\u{2028}'..='\u{202e}' | '\u{2066}'..='\u{2069}');
    match letter {
        '\t' | '\r' | '\n' => letter.escape_default().collect(),
        _ if letter.is_ascii_control() => format!("\\x{:02x}", u32::from(letter)),
        _ if letter.is_control() || turns => letter.escape_unicode().collect(),
        _ => letter.into(),
    }
}

/// What a number of the texts is.
pub const NUMBER: &str = "a whole number from 0 to 65535 without leading zeros";

pub fn number(field: &[u8]) -> Option<usize> {
    large_number(field).filter(|&number| number <= usize::from(u16::MAX))
}

/// A number of a graph that several calls map.
pub fn large_number(field: &[u8]) -> Option<usize> {
    let plain = !field.is_empty() && field.iter().all(u8::is_ascii_digit) && (field.len() == 1 || field[0] != b'0');
    std::str::from_utf8(field).ok().filter(|_| plain)?.parse::<u32>().ok().map(|number| number as usize)
}

/// What breaks the form of fields with one space between them, before any field is looked at.
pub fn spacing(bytes: &[u8], due: &[&str]) -> Option<String> {
    let fields = bytes.split(|&byte| byte == b' ').count();
    if bytes.is_empty() {
        Some("the line is empty".into())
    } else if bytes.contains(&b'\t') {
        Some("there is a tab: one space stands between two fields".into())
    } else if bytes.starts_with(b" ") {
        Some("the line begins with a space".into())
    } else if bytes.ends_with(b" ") {
        Some("the line ends with a space".into())
    } else if bytes.windows(2).any(|pair| pair == b"  ") {
        Some("there are two spaces side by side: one stands between two fields".into())
    } else if fields != due.len() {
        let are = if due.len() == 1 { "is" } else { "are" };
        Some(format!("{} where {} {are} due: {}", counted(fields, "field", "fields"), due.len(), due.join(" ")))
    } else {
        None
    }
}

/// What is wrong with how a line ends, where nothing else is.
pub fn ending(line: &Line) -> Option<String> {
    if !line.ended {
        Some("the last line is not ended: add a line feed, byte 10".into())
    } else if line.carriage {
        Some("it is ended by bytes 13 and 10, not by 10 alone".into())
    } else {
        None
    }
}

pub fn counted(n: usize, one: &str, more: &str) -> String {
    format!("{n} {}", if n == 1 { one } else { more })
}
