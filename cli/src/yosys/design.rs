//! A design as yosys writes it by `write_json`: ports, cells and net names, bit by bit.

use std::collections::HashMap;

/// A JSON value. Numbers of this format are small and not negative.
#[derive(Debug, PartialEq)]
enum Value {
    Number(u64),
    Text(String),
    List(Vec<Value>),
    Object(Vec<(String, Value)>),
    /// `true`, `false` and `null`: the format has none that is read here.
    Word,
}

impl Value {
    fn get(&self, key: &str) -> Option<&Value> {
        self.members().iter().find(|(name, _)| name == key).map(|(_, value)| value)
    }

    fn members(&self) -> &[(String, Value)] {
        match self {
            Value::Object(members) => members,
            _ => &[],
        }
    }

    fn text(&self) -> Option<&str> {
        match self {
            Value::Text(text) => Some(text),
            _ => None,
        }
    }
}

struct Reader<'t> {
    bytes: &'t [u8],
    at: usize,
}

impl Reader<'_> {
    fn next(&mut self) -> Option<u8> {
        while self.bytes.get(self.at).is_some_and(u8::is_ascii_whitespace) {
            self.at += 1;
        }
        self.bytes.get(self.at).copied()
    }

    fn take(&mut self, byte: u8) -> bool {
        let found = self.next() == Some(byte);
        self.at += usize::from(found);
        found
    }

    /// The format is six deep: deeper values are not taken, so that no text exhausts the stack.
    fn value(&mut self, depth: usize) -> Option<Value> {
        if depth > 16 {
            return None;
        }
        match self.next()? {
            b'"' => self.text().map(Value::Text),
            b'[' => {
                self.at += 1;
                let mut list = Vec::new();
                if self.take(b']') {
                    return Some(Value::List(list));
                }
                loop {
                    list.push(self.value(depth + 1)?);
                    if !self.take(b',') {
                        return self.take(b']').then_some(Value::List(list));
                    }
                }
            }
            b'{' => {
                self.at += 1;
                let mut members = Vec::new();
                if self.take(b'}') {
                    return Some(Value::Object(members));
                }
                loop {
                    self.next()?;
                    let key = self.text()?;
                    if !self.take(b':') {
                        return None;
                    }
                    members.push((key, self.value(depth + 1)?));
                    if !self.take(b',') {
                        return self.take(b'}').then_some(Value::Object(members));
                    }
                }
            }
            _ => {
                let ends = |byte: &u8| byte.is_ascii_whitespace() || matches!(byte, b',' | b']' | b'}');
                let rest = &self.bytes[self.at..];
                let word = &rest[..rest.iter().position(ends).unwrap_or(rest.len())];
                self.at += word.len();
                match std::str::from_utf8(word).ok()? {
                    "true" | "false" | "null" => Some(Value::Word),
                    digits => digits.parse().ok().map(Value::Number),
                }
            }
        }
    }

    fn text(&mut self) -> Option<String> {
        if !self.take(b'"') {
            return None;
        }
        let mut text = Vec::new();
        loop {
            let byte = *self.bytes.get(self.at)?;
            self.at += 1;
            match byte {
                b'"' => return Some(String::from_utf8_lossy(&text).into_owned()),
                b'\\' => {
                    let sign = *self.bytes.get(self.at)?;
                    self.at += 1;
                    match sign {
                        b'n' => text.push(b'\n'),
                        b't' => text.push(b'\t'),
                        b'r' => text.push(b'\r'),
                        b'b' => text.push(8),
                        b'f' => text.push(12),
                        b'u' => {
                            let digits = std::str::from_utf8(self.bytes.get(self.at..self.at + 4)?).ok()?;
                            self.at += 4;
                            let sign = char::from_u32(u32::from_str_radix(digits, 16).ok()?).unwrap_or('?');
                            text.extend_from_slice(sign.encode_utf8(&mut [0; 4]).as_bytes());
                        }
                        other => text.push(other),
                    }
                }
                other => text.push(other),
            }
        }
    }
}

/// What a bit of a port, pin or net is connected to.
#[derive(Clone, Copy, Debug, PartialEq, Eq, Hash)]
pub enum Bit {
    Net(u32),
    Zero,
    One,
    Unknown,
    HighImpedance,
}

#[derive(Clone, Copy, Debug, PartialEq, Eq)]
pub enum Direction {
    Input,
    Output,
    Inout,
}

impl Direction {
    fn of(value: Option<&Value>) -> Direction {
        match value.and_then(Value::text) {
            Some("output") => Direction::Output,
            Some("inout") => Direction::Inout,
            _ => Direction::Input,
        }
    }
}

/// A port or a named net; its bits by the names that the source has for them.
#[derive(Debug)]
pub struct Named {
    pub name: String,
    pub bits: Vec<Bit>,
    pub direction: Direction,
    /// The name is yosys's own.
    pub hidden: bool,
    /// The last bit's first, as yosys writes it; empty where there is none.
    pub init: String,
    pub source: String,
    first: u64,
    descends: bool,
}

impl Named {
    /// The name of bit k, counted from the lowest.
    pub fn bit(&self, k: usize) -> String {
        let last = self.bits.len() as u64 - 1;
        if last == 0 && self.first == 0 {
            return self.name.clone();
        }
        let number = if self.descends { self.first + k as u64 } else { self.first + last - k as u64 };
        format!("{}[{number}]", self.name)
    }
}

#[derive(Debug)]
pub struct Cell {
    pub name: String,
    pub kind: String,
    pub pins: Vec<(String, Vec<Bit>)>,
    pub outputs: Vec<String>,
    /// The value of MEMID, of a cell that belongs to a memory.
    pub memory: Option<String>,
    /// File and line, as yosys writes them.
    pub source: String,
}

impl Cell {
    pub fn pin(&self, name: &str) -> &[Bit] {
        self.pins.iter().find(|(pin, _)| pin == name).map_or(&[], |(_, bits)| bits)
    }

    /// The one bit of a pin.
    pub fn bit(&self, name: &str) -> Option<Bit> {
        self.pin(name).first().copied()
    }

    pub fn is_output(&self, pin: &str) -> bool {
        self.outputs.iter().any(|output| output == pin)
    }
}

#[derive(Debug)]
pub struct Memory {
    pub name: String,
    pub width: u64,
    pub size: u64,
}

#[derive(Debug)]
pub struct Module {
    pub name: String,
    pub is_top: bool,
    /// It is declared, and has no body.
    pub is_black_box: bool,
    pub source: String,
    pub ports: Vec<Named>,
    pub cells: Vec<Cell>,
    pub nets: Vec<Named>,
    pub memories: Vec<Memory>,
}

impl Module {
    /// Names of each net, the source's own before yosys's.
    pub fn names(&self) -> HashMap<u32, String> {
        let mut names = HashMap::new();
        let own = self.ports.iter().chain(self.nets.iter().filter(|net| !net.hidden));
        for net in own.chain(self.nets.iter().filter(|net| net.hidden)) {
            for (k, bit) in net.bits.iter().enumerate() {
                if let Bit::Net(number) = bit {
                    names.entry(*number).or_insert_with(|| net.bit(k));
                }
            }
        }
        names
    }
}

/// The modules of a design; `None` where the text is not what yosys writes.
pub fn read(text: &[u8]) -> Option<Vec<Module>> {
    let design = Reader { bytes: text, at: 0 }.value(0)?;
    Some(design.get("modules")?.members().iter().map(|(name, value)| module(name, value)).collect())
}

fn attribute(value: &Value, name: &str) -> Option<String> {
    value.get("attributes")?.get(name)?.text().map(String::from)
}

fn module(name: &str, value: &Value) -> Module {
    let all = |key: &str| value.get(key).map(Value::members).unwrap_or_default();
    Module {
        name: name.into(),
        is_top: attribute(value, "top").is_some_and(|bits| bits.contains('1')),
        is_black_box: attribute(value, "blackbox").is_some() || attribute(value, "whitebox").is_some(),
        source: attribute(value, "src").unwrap_or_default(),
        ports: all("ports").iter().map(|(name, value)| named(name, value)).collect(),
        cells: all("cells").iter().map(|(name, value)| cell(name, value)).collect(),
        nets: all("netnames").iter().map(|(name, value)| named(name, value)).collect(),
        memories: all("memories").iter().map(|(name, value)| memory(name, value)).collect(),
    }
}

fn number(value: &Value, key: &str) -> u64 {
    match value.get(key) {
        Some(Value::Number(number)) => *number,
        Some(Value::Text(bits)) => u64::from_str_radix(bits, 2).unwrap_or_default(),
        _ => 0,
    }
}

fn memory(name: &str, value: &Value) -> Memory {
    Memory { name: name.into(), width: number(value, "width"), size: number(value, "size") }
}

fn bits(value: Option<&Value>) -> Vec<Bit> {
    let Some(Value::List(list)) = value else { return Vec::new() };
    let bit = |value: &Value| match value {
        Value::Number(number) => Bit::Net(*number as u32),
        Value::Text(sign) if sign == "0" => Bit::Zero,
        Value::Text(sign) if sign == "1" => Bit::One,
        Value::Text(sign) if sign == "z" => Bit::HighImpedance,
        _ => Bit::Unknown,
    };
    list.iter().map(bit).collect()
}

fn named(name: &str, value: &Value) -> Named {
    Named {
        name: name.into(),
        bits: bits(value.get("bits")),
        direction: Direction::of(value.get("direction")),
        hidden: number(value, "hide_name") == 1,
        init: attribute(value, "init").unwrap_or_default(),
        source: attribute(value, "src").unwrap_or_default(),
        first: number(value, "offset"),
        descends: number(value, "upto") == 0,
    }
}

fn cell(name: &str, value: &Value) -> Cell {
    let all = |key: &str| value.get(key).map(Value::members).unwrap_or_default();
    let is_output = |value: &Value| matches!(value.text(), Some("output" | "inout"));
    Cell {
        name: name.into(),
        kind: value.get("type").and_then(Value::text).unwrap_or_default().into(),
        pins: all("connections").iter().map(|(pin, value)| (pin.clone(), bits(Some(value)))).collect(),
        outputs: all("port_directions").iter().filter(|(_, way)| is_output(way)).map(|(pin, _)| pin.clone()).collect(),
        memory: value.get("parameters").and_then(|all| all.get("MEMID")?.text().map(String::from)),
        source: attribute(value, "src").unwrap_or_default(),
    }
}

#[cfg(test)]
mod tests {
    use super::*;

    const TEXT: &str = r#"{ "creator": "Yosys", "modules": { "m\\;\"x": { "attributes": { "top": "0001", "src": "m.v:1.1-2.3" },
        "ports": { "a": { "direction": "input", "bits": [ 2, 3 ], "offset": 4 }, "y": { "direction": "inout", "bits": [ "z" ] } },
        "cells": { "$1": { "hide_name": 1, "type": "$mux", "parameters": { }, "attributes": { "src": "m.v:2" },
            "port_directions": { "A": "input", "Y": "output" }, "connections": { "A": [ "x", "0", "1", 2 ], "Y": [ 5 ] } } },
        "memories": { "s": { "width": 8, "size": 16 } },
        "netnames": { "q": { "hide_name": 0, "bits": [ 5 ], "attributes": { "init": "1" } } } } } }"#;

    #[test]
    fn a_design_is_read() {
        let modules = read(TEXT.as_bytes()).expect("a design");
        let [module] = &modules[..] else { panic!("one module") };
        assert_eq!((module.name.as_str(), module.is_top, module.source.as_str()), ("m\\;\"x", true, "m.v:1.1-2.3"));
        assert_eq!((module.ports[0].bit(1).as_str(), module.ports[1].bit(0).as_str()), ("a[5]", "y"));
        assert_eq!(module.ports[1].bits, [Bit::HighImpedance]);
        assert_eq!(module.cells[0].pin("A"), [Bit::Unknown, Bit::Zero, Bit::One, Bit::Net(2)]);
        assert!(module.cells[0].is_output("Y") && !module.cells[0].is_output("A"));
        assert_eq!((module.memories[0].width, module.memories[0].size), (8, 16));
        assert_eq!((module.nets[0].init.as_str(), module.names()[&5].as_str()), ("1", "q"));
    }

    #[test]
    fn what_is_no_design_is_none() {
        for text in ["", "{", "{ \"modules\": [", "{ \"modules\" 1 }", "[1, 2", "{}", "{ \"modules\": \"a"] {
            assert!(read(text.as_bytes()).is_none(), "{text}");
        }
        assert!(read(format!("{{\"modules\": {}", "[".repeat(100_000)).as_bytes()).is_none());
    }
}
