//! The GATE and LATCH parts of a genlib text, out of its words.

use super::{
    expression::Expression,
    figure,
    words::{Kind, Word},
    Fault, LeftOut,
};
use crate::lines::shown;

#[derive(Debug)]
pub struct Pin<'t> {
    /// Of a name, or `*` for all.
    pub name: Word<'t>,
    pub phase: Word<'t>,
    /// Two loads, then block and fanout delay for rise and for fall.
    pub figures: [Word<'t>; 6],
    pub word: Word<'t>,
}

impl<'t> Pin<'t> {
    fn fits(&self, pin: &Word) -> bool {
        self.name.is_sign(b'*') || self.name.bytes == pin.bytes
    }

    /// Rise and fall block delay.
    pub fn delays(&self) -> [Word<'t>; 2] {
        [self.figures[2], self.figures[4]]
    }
}

#[derive(Debug)]
pub struct Part<'t> {
    pub word: Word<'t>,
    pub name: Word<'t>,
    pub area: Word<'t>,
    pub output: Word<'t>,
    pub expression: Expression<'t>,
    pub pins: Vec<Pin<'t>>,
}

impl<'t> Part<'t> {
    /// The PIN that counts for a pin: the first that fits.
    pub fn pin(&self, pin: &Word) -> Option<&Pin<'t>> {
        self.pins.iter().find(|line| line.fits(pin))
    }

    pub fn title(&self) -> String {
        format!("gate `{}`", shown(self.name.bytes))
    }

    /// Whether each PIN counts for a pin.
    pub fn counting(&self) -> Vec<bool> {
        let mut counts = vec![false; self.pins.len()];
        for pin in &self.expression.pins {
            if let Some(k) = self.pins.iter().position(|line| line.fits(pin)) {
                counts[k] = true;
            }
        }
        counts
    }

    /// The figures that are used: the area, and both block delays of each PIN that counts.
    pub fn used(&self) -> Vec<Word<'t>> {
        let lines = self.pins.iter().zip(self.counting()).filter(|(_, counts)| *counts);
        [self.area].into_iter().chain(lines.flat_map(|(line, _)| line.delays())).collect()
    }
}

/// The gates up to the first word that cannot stand where it does, the latches left out, and that word's fault.
pub struct Parts<'t> {
    pub gates: Vec<Part<'t>>,
    pub latches: Vec<LeftOut>,
    pub fault: Option<Fault>,
}

pub fn parts<'t>(words: &[Word<'t>], end: usize) -> Parts<'t> {
    let mut cursor = Cursor { words, at: 0, end };
    let mut parts = Parts { gates: Vec::new(), latches: Vec::new(), fault: None };
    while let Some(word) = cursor.next() {
        if word.is("LATCH") {
            parts.latches.push(cursor.latch(word));
            continue;
        }
        match if word.is("GATE") { cursor.gate(word) } else { Err(stray(&word, parts.gates.last())) } {
            Ok(gate) => parts.gates.push(gate),
            Err(fault) => {
                parts.fault = Some(fault);
                break;
            }
        }
    }
    parts
}

/// A word where a part is due.
fn stray(word: &Word, gate: Option<&Part>) -> Fault {
    let found = shown(word.bytes);
    let what = match gate {
        None if word.is("PIN") => "a PIN stands before every GATE".into(),
        None => format!("`{found}` stands where GATE is due"),
        Some(gate) => format!("`{found}` stands behind {} where PIN or GATE is due", gate.title()),
    };
    Fault::form(word.byte, what)
}

struct Cursor<'w, 't> {
    words: &'w [Word<'t>],
    at: usize,
    /// The text's length.
    end: usize,
}

impl<'t> Cursor<'_, 't> {
    fn peek(&self) -> Option<Word<'t>> {
        self.words.get(self.at).copied()
    }

    fn next(&mut self) -> Option<Word<'t>> {
        let word = self.peek()?;
        self.at += 1;
        Some(word)
    }

    /// The next word, where it is good; else a fault that says what is due.
    fn due(&mut self, what: &str, good: impl Fn(&Word<'t>) -> bool) -> Result<Word<'t>, Fault> {
        match self.next() {
            Some(word) if good(&word) => Ok(word),
            Some(word) if word.kind == Kind::Open => {
                Err(Fault::form(word.byte, "the quotation mark is not closed on its line"))
            }
            Some(word) => Err(Fault::form(word.byte, format!("`{}` stands where {what} is due", shown(word.bytes)))),
            None => Err(Fault::form(self.end, format!("the text ends where {what} is due"))),
        }
    }

    fn figure(&mut self, what: &str) -> Result<Word<'t>, Fault> {
        self.due(&format!("{what}, a figure of digits with or without a point,"), |word| {
            word.kind == Kind::Plain && figure::parts(word.bytes).is_some()
        })
    }

    fn gate(&mut self, word: Word<'t>) -> Result<Part<'t>, Fault> {
        let name = self.due("the gate's name", Word::names)?;
        let title = format!("gate `{}`", shown(name.bytes));
        let area = self.figure(&format!("the area of {title}"))?;
        let output = self.due(&format!("the output of {title}"), Word::names)?;
        self.due(&format!("`=`, between output and expression of {title},"), |word| word.is_sign(b'='))?;
        let expression = self.expression(&title)?;
        let mut pins = Vec::new();
        while let Some(word) = self.peek().filter(|word| word.is("PIN")) {
            self.at += 1;
            pins.push(self.pin(word, &title)?);
        }
        Ok(Part { word, name, area, output, expression, pins })
    }

    fn expression(&mut self, title: &str) -> Result<Expression<'t>, Fault> {
        let start = self.at;
        while let Some(word) = self.next() {
            if word.is_sign(b';') {
                return Expression::read(&self.words[start..self.at - 1]).map_err(|(wrong, why)| {
                    let wrong = wrong.unwrap_or(word);
                    Fault::form(wrong.byte, format!("`{}` {why}, in {title}", shown(wrong.bytes)))
                });
            }
            let begins = word.is("GATE") || word.is("LATCH") || word.is("PIN");
            if begins && word.leads {
                self.at -= 1;
                break;
            }
        }
        let byte = self.peek().map_or(self.end, |word| word.byte);
        Err(Fault::form(byte, format!("no `;` ends the expression of {title}")))
    }

    fn pin(&mut self, word: Word<'t>, title: &str) -> Result<Pin<'t>, Fault> {
        let name = self.due(&format!("a pin of {title} or `*`"), |word| word.names() || word.is_sign(b'*'))?;
        let of = format!("of PIN `{}` in {title}", shown(name.bytes));
        let phase = self.due(&format!("the phase {of}"), |word| word.names() && in_form(word.bytes))?;
        let due = [
            "the input load",
            "the maximum load",
            "the rise block delay",
            "the rise fanout delay",
            "the fall block delay",
            "the fall fanout delay",
        ];
        let mut figures = [word; 6];
        for (figure, due) in figures.iter_mut().zip(due) {
            *figure = self.figure(&format!("{due} {of}"))?;
        }
        Ok(Pin { name, phase, figures, word })
    }

    /// Passes over a latch: its name, area and expression, and the PIN, SEQ, CONTROL and CONSTRAINT words behind it. What does not have that form
    /// is passed over up to the next GATE or LATCH.
    fn latch(&mut self, word: Word<'t>) -> LeftOut {
        let name = self.peek().filter(Word::names);
        while self.next().is_some_and(|word| !word.is_sign(b';')) {}
        while let Some(word) = self.peek().filter(|word| !word.is("GATE") && !word.is("LATCH")) {
            let behind = match word.bytes {
                b"PIN" => 8,
                b"SEQ" | b"CONSTRAINT" => 3,
                b"CONTROL" => 7,
                _ => 0,
            };
            self.at = (self.at + 1 + behind).min(self.words.len());
        }
        let name = name.map(|name| shown(name.bytes)).unwrap_or_default();
        LeftOut { byte: word.byte, name, why: "a latch".into() }
    }
}

/// Letters, digits and underscores.
pub fn in_form(name: &[u8]) -> bool {
    !name.is_empty() && name.iter().all(|&byte| byte.is_ascii_alphanumeric() || byte == b'_')
}
