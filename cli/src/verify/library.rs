//! What the cells of a library compute: of a cell text, and of genlib by the library's own names. It shares no code with the readers of the mapper.

use std::collections::HashMap;

/// The function of a cell: bit r of the table is the value in row r, and bit j of r is the value of pin j.
#[derive(Clone, Debug, PartialEq, Eq)]
pub struct Cell {
    pub pins: Vec<Vec<u8>>,
    pub output: Vec<u8>,
    pub table: u16,
}

/// The cells by their names; `None` where one name stands for different cells, or for one that is no function of up to four pins.
#[derive(Debug, Default)]
pub struct Library(HashMap<Vec<u8>, Option<Cell>>);

impl Library {
    pub fn cell(&self, name: &[u8]) -> Result<&Cell, &'static str> {
        match self.0.get(name) {
            None => Err("no cell of the library has this name"),
            Some(None) => Err("the library has several cells of this name, or one of more than four pins"),
            Some(Some(cell)) => Ok(cell),
        }
    }

    fn add(&mut self, name: &[u8], cell: Option<Cell>) {
        match self.0.get_mut(name) {
            Some(known) if *known == cell => {}
            Some(known) => *known = None,
            None => drop(self.0.insert(name.to_vec(), cell)),
        }
    }
}

/// A cell text: behind its first line `name pins table ..`, a cell a line. Pins are A to D and the output is O.
pub fn cell_text(text: &[u8]) -> Result<Library, String> {
    let mut library = Library::default();
    for (k, line) in text.split(|byte| *byte == b'\n').enumerate().skip(1).filter(|(_, line)| !line.is_empty()) {
        let wrong = || format!("line {} of the library is no cell", k + 1);
        let fields: Vec<&[u8]> = line.split(|byte| *byte == b' ').collect();
        let [name, [pins @ b'0'..=b'4'], digits, ..] = fields[..] else { return Err(wrong()) };
        let pins = usize::from(pins - b'0');
        let mut table = 0;
        for digit in digits {
            let value = (*digit as char).to_digit(16).ok_or_else(wrong)?;
            table = table << 4 | value;
        }
        if digits.len() != 4 || table >> (1 << pins) != 0 || library.0.contains_key(name) {
            return Err(wrong());
        }
        let pins = (0..pins).map(|j| vec![b'A' + j as u8]).collect();
        library.add(name, Some(Cell { pins, output: b"O".to_vec(), table: table as u16 }));
    }
    Ok(library)
}

/// A token of genlib. Quotation marks are gone.
#[derive(Clone, Copy, Debug, PartialEq, Eq)]
enum Token<'t> {
    Word(&'t [u8]),
    Sign(u8),
}

fn tokens(text: &[u8]) -> Vec<Token<'_>> {
    let (mut tokens, mut at) = (Vec::new(), 0);
    while let Some(&byte) = text.get(at) {
        let rest = &text[at..];
        let until =
            |ends: &dyn Fn(u8) -> bool| rest[1..].iter().position(|byte| ends(*byte)).map_or(rest.len(), |n| n + 1);
        at += match byte {
            b'#' => until(&|byte| byte == b'\n'),
            b'"' => {
                let end = until(&|byte| byte == b'"' || byte == b'\n');
                tokens.push(Token::Word(&rest[1..end]));
                end + usize::from(rest.get(end) == Some(&b'"'))
            }
            _ if is_sign(byte) => {
                tokens.push(Token::Sign(byte));
                1
            }
            _ if byte <= b' ' => 1,
            _ => {
                let end = until(&|byte| byte <= b' ' || is_sign(byte) || matches!(byte, b'"' | b'#'));
                tokens.push(Token::Word(&rest[..end]));
                end
            }
        };
    }
    tokens
}

fn is_sign(byte: u8) -> bool {
    b"=;!'*+()&|^".contains(&byte)
}

/// Genlib: the function of each GATE `NAME AREA OUTPUT=EXPRESSION;`. PIN and LATCH are passed over.
pub fn genlib(text: &[u8]) -> Library {
    let tokens = tokens(text);
    let mut library = Library::default();
    let mut at = 0;
    while at < tokens.len() {
        let part = &tokens[at..];
        let is_gate = part[0] == Token::Word(b"GATE");
        at += 1;
        // A pin of a latch may be called GATE: only what has a gate's form is one.
        let [_, Token::Word(name), Token::Word(_), Token::Word(output), Token::Sign(b'='), ..] = part else { continue };
        let Some(end) = part.iter().position(|token| *token == Token::Sign(b';')).filter(|_| is_gate) else { continue };
        at += end;
        library.add(name, function(&part[5..end]).map(|(pins, table)| Cell { pins, output: output.to_vec(), table }));
    }
    library
}

/// The pins in order of first appearance, and the table.
fn function(expression: &[Token]) -> Option<(Vec<Vec<u8>>, u16)> {
    let mut pins: Vec<Vec<u8>> = Vec::new();
    for token in expression {
        match token {
            Token::Word(word) if !matches!(*word, b"CONST0" | b"CONST1") && pins.iter().all(|pin| pin != word) => {
                pins.push(word.to_vec());
            }
            _ => {}
        }
    }
    if pins.len() > 4 {
        return None;
    }
    let mut table = 0;
    for row in 0..1u32 << pins.len() {
        let value = |word: &[u8]| match word {
            b"CONST0" => false,
            b"CONST1" => true,
            _ => pins.iter().position(|pin| pin == word).is_some_and(|j| row >> j & 1 == 1),
        };
        let mut parser = Parser { rest: expression, depth: 0 };
        let found = parser.sum(&value)?;
        if !parser.rest.is_empty() {
            return None;
        }
        table |= u16::from(found) << row;
    }
    Some((pins, table))
}

struct Parser<'e, 't> {
    rest: &'e [Token<'t>],
    depth: usize,
}

/// Deeper brackets are no cell's: the stack of the parser is bounded.
const DEPTH: usize = 256;

impl Parser<'_, '_> {
    fn next_is(&mut self, signs: &[u8]) -> bool {
        let found = matches!(self.rest.first(), Some(Token::Sign(sign)) if signs.contains(sign));
        if found {
            self.rest = &self.rest[1..];
        }
        found
    }

    fn sum(&mut self, value: &dyn Fn(&[u8]) -> bool) -> Option<bool> {
        let mut found = self.parity(value)?;
        while self.next_is(b"+|") {
            found |= self.parity(value)?;
        }
        Some(found)
    }

    fn parity(&mut self, value: &dyn Fn(&[u8]) -> bool) -> Option<bool> {
        let mut found = self.product(value)?;
        while self.next_is(b"^") {
            found ^= self.product(value)?;
        }
        Some(found)
    }

    fn product(&mut self, value: &dyn Fn(&[u8]) -> bool) -> Option<bool> {
        let mut found = self.factor(value)?;
        loop {
            let begins = matches!(self.rest.first(), Some(Token::Word(_) | Token::Sign(b'!' | b'(')));
            if !self.next_is(b"*&") && !begins {
                return Some(found);
            }
            found &= self.factor(value)?;
        }
    }

    fn factor(&mut self, value: &dyn Fn(&[u8]) -> bool) -> Option<bool> {
        let mut complement = false;
        while self.next_is(b"!") {
            complement = !complement;
        }
        let (first, rest) = self.rest.split_first()?;
        self.rest = rest;
        let mut found = match first {
            Token::Word(word) => value(word),
            Token::Sign(b'(') if self.depth < DEPTH => {
                self.depth += 1;
                let inner = self.sum(value)?;
                self.depth -= 1;
                self.next_is(b")").then_some(inner)?
            }
            Token::Sign(_) => return None,
        };
        while self.next_is(b"'") {
            found = !found;
        }
        Some(found ^ complement)
    }
}

#[cfg(test)]
mod tests {
    use super::*;

    #[test]
    fn cells_of_a_cell_text() {
        let library =
            cell_text(b"cell pins table area d0 d1 d2 d3\r\ninv 1 0001 1 10 0 0 0\r\naoi 3 0007 2 1 2 3 0\n").unwrap();
        let aoi = library.cell(b"aoi").unwrap();
        assert_eq!((aoi.pins.concat(), aoi.output.as_slice(), aoi.table), (b"ABC".to_vec(), b"O".as_slice(), 7));
        assert!(library.cell(b"nor").is_err());
        for wrong in ["inv 1 0004 1 10 0 0 0", "inv 5 0001 1 1 1 1 1", "inv 1 001 1 10", "inv", "inv 1 00g1 1 10 0 0 0"]
        {
            assert!(cell_text(format!("first\n{wrong}\n").as_bytes()).is_err(), "{wrong}");
        }
        assert!(cell_text(b"first\ninv 1 0001 1 1 0 0 0\ninv 1 0002 1 1 0 0 0\n").is_err());
    }

    #[test]
    fn gates_of_a_genlib_text() {
        let text = b"# remark\nGATE \"big inv\" 1. Y=!A1;PIN * INV 1 999 .9 .3 .9 .3\nGATE and 2 O = b a; PIN * X 1 1 1 1 1 1\n\
            LATCH l 3 Q=D; PIN D X 1 1 1 1 1 1 SEQ Q ANY X CONTROL GATE 1 1 1 1 1 1\nGATE one 0 O=CONST1;\n\
            GATE x 1 O=a^b*c+!(d')'; GATE wide 1 O=a*b*c*d*e; GATE two 1 O=a; GATE two 1 O=!a; GATE bad 1 O=a+;";
        let library = genlib(text);
        let of = |name: &str| library.cell(name.as_bytes()).map(|cell| (cell.pins.join(&b' '), cell.table));
        assert_eq!(of("big inv"), Ok((b"A1".to_vec(), 1)));
        assert_eq!(of("and"), Ok((b"b a".to_vec(), 8)));
        assert_eq!(of("one"), Ok((Vec::new(), 1)));
        // (a xor (b and c)) or not d.
        assert_eq!(of("x"), Ok((b"a b c d".to_vec(), 0x6aff)));
        assert!(of("wide").is_err() && of("two").is_err() && of("bad").is_err() && of("l").is_err());
    }
}
