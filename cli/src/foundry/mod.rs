//! A foundry's library as tools write it, made into the form that the proved reader takes.
//!
//! Remarks, blank lines and latches are left out; words count, not lines; quotation marks go; `&` is written `*`, `|` is written `+`, factors side by
//! side get a `*`, and an expression with `^` is written as the sum of its rows. No figure and no function is changed. The proved reader judges
//! what is written: here it is said where in the file, and which word, is at fault.

mod choose;
mod expression;
mod figure;
mod judge;
mod names;
mod parts;
mod words;

pub use figure::{Figure, Unit, THOUSANDTH};
pub use words::{is_genlib, may_be_genlib};

use crate::lines::{counted, line_at};
use arraymap::Refusal;
use parts::{in_form, Part, Parts};
use std::fmt;
use words::Word;

/// What is asked beyond the form. The default asks nothing.
#[derive(Clone, Copy, Debug, Default)]
pub struct Wish {
    /// A cell whose name is repeated, or is not 1 to 8 letters, digits or underscores with a letter first, gets another.
    pub rename: bool,
    /// Gates that can be no cell are left out, then those that another does not slower, and of the rest at most so many are kept: see [`choose`].
    pub most: Option<usize>,
    /// Areas are divided by their greatest common measure, and delays by theirs: then `units` says what one of them stands for.
    pub measure: bool,
}

/// A gate that was written, by the library's own names.
#[derive(Clone, Debug, PartialEq, Eq)]
pub struct Gate {
    /// Its name in the cell text and in netlists.
    pub cell: String,
    pub name: String,
    /// Its pins in the order of the netlist: the netlist's `A` is the first.
    pub pins: Vec<String>,
    pub output: String,
    /// Its function: bit r is the value in row r, and bit j of r is pin j. None over four pins.
    pub table: Option<u16>,
    /// Where its GATE stands in the library.
    pub byte: usize,
}

/// A part of the library that is not in the written text.
#[derive(Clone, Debug, PartialEq, Eq)]
pub struct LeftOut {
    pub byte: usize,
    pub name: String,
    pub why: String,
}

/// What one of the cell text's figures stands for in the library's own.
#[derive(Clone, Copy, Debug, PartialEq, Eq)]
pub struct Units {
    pub area: Unit,
    pub delay: Unit,
}

/// A library in the proved reader's form.
#[derive(Clone, Debug)]
pub struct Normal {
    pub text: Vec<u8>,
    /// The gates in the order of the text: the cell text's lines behind its first.
    pub gates: Vec<Gate>,
    /// In the library's order.
    pub left_out: Vec<LeftOut>,
    pub units: Units,
    /// Where words of the text begin, and where they stand in the library; both ascend gate by gate.
    places: Vec<(usize, usize)>,
    /// What is wrong with a gate, by its number, should the proved reader refuse it.
    faults: Vec<Option<Fault>>,
}

/// What is wrong with a library, and where in the file.
#[derive(Clone, Debug, PartialEq, Eq)]
pub struct Fault {
    /// 22, 23 or 24, as document 02 has them; 1 for a written text that is too long.
    pub number: u32,
    pub byte: usize,
    pub what: String,
    pub help: String,
}

const FORM: &str = "a gate is `GATE NAME AREA OUTPUT=EXPRESSION;` and behind it `PIN NAME PHASE LOAD LOAD RISE FANOUT FALL FANOUT` for each pin,\n\
                    or `PIN * ..` for all; signs are ! ' * + ( ), and & | ^";

impl Fault {
    fn form(byte: usize, what: impl Into<String>) -> Fault {
        Fault { number: 22, byte, what: what.into(), help: FORM.into() }
    }
}

impl fmt::Display for Fault {
    fn fmt(&self, f: &mut fmt::Formatter) -> fmt::Result {
        write!(f, "refused {} at byte {} of the genlib text: {}", self.number, self.byte, self.what)
    }
}

impl std::error::Error for Fault {}

/// The library in the proved reader's form, its names, figures and functions as they are.
pub fn normalise(text: &[u8]) -> Result<Normal, Fault> {
    normalise_by(text, &Wish::default())
}

/// The same, and what is wished.
pub fn normalise_by(text: &[u8], wish: &Wish) -> Result<Normal, Fault> {
    let words = words::words(text);
    let Parts { mut gates, latches: mut left_out, fault } = parts::parts(&words, text.len());
    if let Some(fault) = fault {
        let before = gates.iter().find_map(|gate| names::fault(gate, wish).or_else(|| judge::fault(gate, wish)));
        return Err(before.unwrap_or(fault));
    }
    if let Some(most) = wish.most {
        choose::choose(&mut gates, &mut left_out, wish, most);
    }
    if let Some(fault) = gates.iter().find_map(|gate| names::fault(gate, wish)) {
        return Err(fault);
    }
    let units = if wish.measure { measure(&gates)? } else { Units { area: THOUSANDTH, delay: THOUSANDTH } };
    left_out.sort_by_key(|part| part.byte);
    let mut writer = Writer { text: Vec::new(), places: Vec::new() };
    let cells = names::cells(&gates, wish);
    for (gate, cell) in gates.iter().zip(&cells) {
        writer.gate(gate, cell, wish.measure.then_some(&units))?;
    }
    let faults = gates.iter().map(|gate| judge::fault(gate, wish)).collect();
    let gates = gates.iter().zip(cells).map(|(gate, cell)| named(gate, cell)).collect();
    Ok(Normal { text: writer.text, gates, left_out, units, places: writer.places, faults })
}

/// The library in the proved reader's form, and the cell text that it writes of it.
pub fn read(text: &[u8], wish: &Wish) -> Result<(Normal, Vec<u8>), Fault> {
    let normal = normalise_by(text, wish)?;
    match arraymap::cells(&normal.text) {
        Ok(cells) => Ok((normal, cells)),
        Err(refusal) => Err(normal.fault(refusal)),
    }
}

impl Normal {
    /// Where the word of the written text at that byte stands in the library.
    pub fn place(&self, byte: usize) -> usize {
        let k = self.places.partition_point(|&(written, _)| written <= byte);
        self.places.get(k.saturating_sub(1)).map_or(0, |&(_, place)| place)
    }

    /// What the proved reader's refusal of the written text means in the library.
    pub fn fault(&self, refusal: Refusal) -> Fault {
        let byte = self.place(refusal.place);
        let gate = self.gates.iter().position(|gate| gate.byte == byte);
        let found = gate.and_then(|k| self.faults[k].clone()).filter(|fault| fault.number == refusal.number);
        found.unwrap_or_else(|| Fault {
            number: refusal.number,
            byte,
            what: refusal.what().into(),
            help: String::new(),
        })
    }

    /// The gate of that cell.
    pub fn gate(&self, cell: &str) -> Option<&Gate> {
        self.gates.iter().find(|gate| gate.cell == cell)
    }

    /// What was left out, a line each, and how many gates are left.
    pub fn notes(&self, file: &str, library: &[u8]) -> String {
        let mut notes: String = self
            .left_out
            .iter()
            .map(|part| format!("{file}:{}: left out `{}`: {}\n", line_of(library, part.byte), part.name, part.why))
            .collect();
        if !notes.is_empty() {
            notes += &format!(
                "{file}: {} of it {} read\n",
                counted(self.gates.len(), "gate", "gates"),
                if self.gates.len() == 1 { "is" } else { "are" }
            );
        }
        notes
    }
}

/// The number of the line that a byte stands on.
fn line_of(text: &[u8], byte: usize) -> usize {
    line_at(text, byte).number
}

fn named(gate: &Part, cell: String) -> Gate {
    Gate {
        cell,
        name: gate.name.text(),
        pins: gate.expression.pins.iter().map(Word::text).collect(),
        output: gate.output.text(),
        table: gate.expression.table(),
        byte: gate.word.byte,
    }
}

/// The common measures of the areas and of the delays.
fn measure(gates: &[Part]) -> Result<Units, Fault> {
    let long = |word: &Word| Fault {
        number: 24,
        byte: word.byte,
        what: format!("the figure {} has too many digits", crate::lines::shown(word.bytes)),
        help: String::new(),
    };
    let value = |word: Word| figure::value(word.bytes).ok_or_else(|| long(&word));
    let areas = gates.iter().map(|gate| value(gate.area)).collect::<Result<Vec<_>, _>>()?;
    let delays =
        gates.iter().flat_map(|gate| gate.used().into_iter().skip(1)).map(value).collect::<Result<Vec<_>, _>>()?;
    let widest = |what: &str| Fault {
        number: 24,
        byte: 0,
        what: format!("the {what} have no common measure that can be counted with"),
        help: String::new(),
    };
    Ok(Units {
        area: Unit::common(&areas).ok_or_else(|| widest("areas"))?,
        delay: Unit::common(&delays).ok_or_else(|| widest("delays"))?,
    })
}

/// The text as it grows, and where its words come from.
struct Writer {
    text: Vec<u8>,
    places: Vec<(usize, usize)>,
}

impl Writer {
    fn put(&mut self, piece: &[u8], from: &Word) {
        self.places.push((self.text.len(), from.byte));
        self.text.extend_from_slice(piece);
    }

    fn space(&mut self) {
        self.text.push(b' ');
    }

    fn gate(&mut self, gate: &Part, cell: &str, units: Option<&Units>) -> Result<(), Fault> {
        let pins = names::pins(gate);
        self.put(b"GATE", &gate.word);
        self.space();
        self.put(cell.as_bytes(), &gate.name);
        self.space();
        let area = figure_by(&gate.area, units.map(|units| units.area))?;
        self.put(&area, &gate.area);
        self.space();
        self.put(if in_form(gate.output.bytes) { gate.output.bytes } else { b"O" }, &gate.output);
        self.text.push(b'=');
        for (piece, from) in gate.expression.written(&pins) {
            self.put(piece.as_bytes(), &from);
        }
        self.text.extend_from_slice(b";\n");
        for (line, counts) in gate.pins.iter().zip(gate.counting()) {
            self.pin(gate, line, &pins, units.filter(|_| counts))?;
        }
        Ok(())
    }

    /// A PIN; where delays are measured, a PIN that counts comes with its units.
    fn pin(&mut self, gate: &Part, line: &parts::Pin, pins: &[String], units: Option<&Units>) -> Result<(), Fault> {
        let number =
            gate.expression.pins.iter().position(|pin| pin.bytes == line.name.bytes && !line.name.is_sign(b'*'));
        self.put(b"PIN", &line.word);
        self.space();
        match number {
            Some(k) => self.put(pins[k].as_bytes(), &line.name),
            None if line.name.is_sign(b'*') => self.put(b"*", &line.name),
            None => self.put(names::unused(pins).as_bytes(), &line.name),
        }
        self.space();
        self.put(line.phase.bytes, &line.phase);
        for (k, word) in line.figures.iter().enumerate() {
            let is_block = matches!(k, 2 | 4);
            let figure = figure_by(word, units.filter(|_| is_block).map(|units| units.delay))?;
            self.space();
            self.put(&figure, word);
        }
        self.text.push(b'\n');
        Ok(())
    }
}

/// A figure as it is, or how many times a unit goes into it, in thousandths.
fn figure_by(word: &Word, unit: Option<Unit>) -> Result<Vec<u8>, Fault> {
    let Some(unit) = unit else { return Ok(figure::written(word.bytes)) };
    let count = figure::value(word.bytes).and_then(|figure| unit.count(figure));
    match count.filter(|&count| count <= u128::from(u16::MAX)) {
        Some(count) => Ok(format!("{}.{:03}", count / 1_000, count % 1_000).into_bytes()),
        None => Err(Fault {
            number: 24,
            byte: word.byte,
            what: format!(
                "{} is more than 65,535 times {}, the common measure",
                crate::lines::shown(word.bytes),
                unit.times(1)
            ),
            help: "give areas and delays with fewer digits".into(),
        }),
    }
}

#[cfg(test)]
mod tests {
    use super::*;

    fn written(text: &str) -> String {
        let normal = normalise(text.as_bytes()).expect("in form");
        String::from_utf8(normal.text).expect("ASCII")
    }

    fn fault(text: &str, wish: Wish) -> (u32, usize, String) {
        let fault = match normalise_by(text.as_bytes(), &wish) {
            Err(fault) => fault,
            Ok(normal) => normal.faults.into_iter().flatten().next().expect("a fault"),
        };
        (fault.number, fault.byte, fault.what)
    }

    #[test]
    fn words_count_and_not_lines() {
        let text = "# a remark\nGATE\t\"inv\" 1. O=!a; PIN * INV 1 999\n.9 0.3000 0.9 0.3 # another\r\n\r\nGATE or2 2 O=a|b;\nPIN * X 1 999 1 0 1 0";
        assert_eq!(
            written(text),
            "GATE inv 1 O=!a;\nPIN * INV 1 999 0.9 0.300 0.9 0.3\nGATE or2 2 O=a+b;\nPIN * X 1 999 1 0 1 0\n"
        );
    }

    #[test]
    fn signs_become_those_of_the_reader() {
        let of = |words: &str| {
            let text = written(&format!("GATE g 1 Y={words}; PIN * X 1 1 1 0 1 0\n"));
            text.split_once('=').and_then(|(_, rest)| rest.split_once(';')).map(|(words, _)| words.to_string())
        };
        assert_eq!(of("a b").as_deref(), Some("a*b"));
        assert_eq!(of("a'b+!(a)(b)").as_deref(), Some("a'*b+!(a)*(b)"));
        assert_eq!(of("a&b | c").as_deref(), Some("a*b+c"));
        assert_eq!(of("a^b").as_deref(), Some("a*!b+!a*b"));
        assert_eq!(of("b^a*b").as_deref(), Some("b*!a"));
        assert_eq!(of("a^a").as_deref(), Some("CONST0*a"));
        assert_eq!(of("CONST1^CONST0").as_deref(), Some("CONST1"));
        assert_eq!(of("a[0] * b.x").as_deref(), Some("A*B"));
    }

    #[test]
    fn the_word_at_fault_is_named() {
        let cases = [
            ("GATE inv 1 O=!a PIN * INV 1 999 1 0 1 0\nGATE b 1 O=a;", 40, "no `;` ends the expression of gate `inv`"),
            ("GATE inv O=!a;", 9, "`O` stands where the area of gate `inv`, a figure of digits with or without a point, is due"),
            ("GATE inv 1 O=!a; PIN a INV 1 999 x", 33, "`x` stands where the rise block delay of PIN `a` in gate `inv`, a figure of digits with or without a point, is due"),
            ("PIN * INV 1 999 1 0 1 0\n", 0, "a PIN stands before every GATE"),
            ("GATE and2 1 O=a*b;\nPIN a X 1 999 1 0 1 0\n", 16, "pin `b` of gate `and2` has no PIN"),
            ("GATE g 1 O=a*+b;", 13, "`+` stands where a pin, a constant, `!` or `(` is due, in gate `g`"),
            ("GATE g 1 O=(a;", 11, "`(` is not closed, in gate `g`"),
            ("GATE \"g 1 O=a;\n", 5, "the quotation mark is not closed on its line"),
            ("GATE g-1 1 O=CONST1;\n", 5, "the name `g-1` has other bytes than letters, digits and underscores"),
            ("GATE g 1 O=a;\nPIN * X 1 1 1 0 1 0\nEND", 34, "`END` stands behind gate `g` where PIN or GATE is due"),
        ];
        for (text, byte, what) in cases {
            assert_eq!(fault(text, Wish::default()), (22, byte, what.to_string()), "{text}");
        }
    }

    #[test]
    fn what_cannot_be_read_is_left_out_or_told() {
        let latch = "LATCH \"lat\" 5 Q=D; PIN D NONINV 1 999 1 .2 1 .2\nSEQ Q ANY ACTIVE_HIGH\nCONTROL GATE 1 999 1 .2 1 .2\nCONSTRAINT D .3 .05\n";
        let text = format!("{latch}GATE one 0 O=CONST1;\n{latch}");
        let normal = normalise(text.as_bytes()).expect("in form");
        assert_eq!(normal.text, b"GATE one 0 O=CONST1;\n");
        let latch = |byte| LeftOut { byte, name: "lat".into(), why: "a latch".into() };
        assert_eq!(normal.left_out, [latch(0), latch(text.rfind("LATCH").unwrap_or_default())]);
        let five = "GATE g 1 O=a b c d e;\nPIN * X 1 1 1 0 1 0\n";
        assert_eq!(fault(five, Wish::default()), (23, 19, "gate `g` has 5 pins: `e` is the fifth".into()));
        let fine = "GATE g 1 O=a;\nPIN * X 1 1 1 0 1.2345 0\n";
        assert_eq!(
            fault(fine, Wish::default()),
            (24, 30, "a block delay of gate `g`: 1.2345 has 4 decimals, and three are read".into())
        );
        let wish = Wish { most: Some(32), ..Wish::default() };
        let normal = normalise_by(format!("{five}{fine}GATE t 2.5 O=CONST0;\n").as_bytes(), &wish).expect("in form");
        assert_eq!((normal.text.as_slice(), normal.left_out.len()), (&b"GATE t 2.5 O=CONST0;\n"[..], 2));
    }

    #[test]
    fn names_go_both_ways() {
        let text = "GATE very_long_name 1 Z=!A1; PIN * X 1 1 1 0 1 0\nGATE c0 1 Z=A2*A1; PIN * X 1 1 1 0 1 0\nGATE c0 1 Z=A2+A1; PIN * X 1 1 1 0 1 0\n";
        let normal = normalise_by(text.as_bytes(), &Wish { rename: true, ..Wish::default() }).expect("in form");
        let cells: Vec<&str> = normal.gates.iter().map(|gate| gate.cell.as_str()).collect();
        assert_eq!(cells, ["c1", "c0", "c2"]);
        let gate = normal.gate("c1").expect("the first gate");
        assert_eq!((gate.name.as_str(), gate.output.as_str(), gate.table), ("very_long_name", "Z", Some(1)));
        assert_eq!(normal.gates[1].pins, ["A2", "A1"]);
        assert_eq!(normal.place(normal.text.len() - 1), text.len() - 2);
    }

    #[test]
    fn figures_are_measured() {
        let text = "GATE g 928 O=!a; PIN * X 1 999 0.90 7 1.20 7\nGATE h 1392 O=a*b; PIN * X 1 999 3 0 3 0\n";
        let normal = normalise_by(text.as_bytes(), &Wish { measure: true, ..Wish::default() }).expect("in form");
        let due =
            "GATE g 0.002 O=!a;\nPIN * X 1 999 0.003 7 0.004 7\nGATE h 0.003 O=a*b;\nPIN * X 1 999 0.010 0 0.010 0\n";
        assert_eq!(String::from_utf8_lossy(&normal.text), due);
        assert_eq!((normal.units.area.times(2), normal.units.delay.times(4)), ("928".into(), "1.2".into()));
        let wide = "GATE g 0.00001 O=!a; PIN * X 1 999 1 0 1 0\nGATE h 1 O=a; PIN * X 1 999 1 0 1 0\n";
        let wish = Wish { measure: true, ..Wish::default() };
        assert_eq!(fault(wide, wish), (24, 50, "1 is more than 65,535 times 0.00001, the common measure".into()));
    }

    #[test]
    fn the_fastest_of_each_class_is_kept() {
        let gate =
            |name: &str, words: &str, delay: u32| format!("GATE {name} 1 O={words}; PIN * X 1 1 {delay} 0 {delay} 0\n");
        let text = [
            gate("slow", "!(a*b)", 9),
            gate("nand", "!(b*a)", 8),
            gate("and", "a*b", 7),
            gate("xor", "a^b", 5),
            gate("buf", "a", 1),
            gate("inv", "!a", 2),
        ]
        .concat();
        let kept = |most| {
            let normal = normalise_by(text.as_bytes(), &Wish { most: Some(most), ..Wish::default() }).expect("in form");
            let left = normal.left_out.iter().map(|part| part.name.clone()).collect::<Vec<_>>();
            (normal.gates.iter().map(|gate| gate.cell.clone()).collect::<Vec<_>>().join(" "), left.join(" "))
        };
        assert_eq!(kept(32), ("nand and xor buf inv".into(), "slow".into()));
        assert_eq!(kept(4), ("and xor buf inv".into(), "slow nand".into()));
        assert_eq!(kept(3), ("and buf inv".into(), "slow nand xor".into()));
    }
}
