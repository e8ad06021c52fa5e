//! A Liberty function: its pins in their order of first appearance, and its truth table.

/// The rows in which the pin of that number is 1, of four.
const COLUMNS: [u16; 4] = [0xaaaa, 0xcccc, 0xf0f0, 0xff00];

#[derive(Debug, PartialEq, Eq)]
pub struct Function {
    pub pins: Vec<String>,
    /// Bit r is the value in row r, and bit j of r is pin j. None over four pins.
    pub table: Option<u16>,
}

#[derive(Clone, Debug, PartialEq, Eq)]
enum Token {
    Pin(usize),
    Constant(bool),
    Sign(u8),
}

const SIGNS: &[u8] = b"!'^*&+|()";

/// Brackets and complements within one another, no deeper.
const DEEPEST: usize = 200;

/// Reads a function. `!` and `'` bind most, then `^`, then `*`, `&` and factors side by side, then `+` and `|`.
pub fn read(text: &str) -> Result<Function, String> {
    let (mut pins, mut tokens): (Vec<String>, Vec<Token>) = (Vec::new(), Vec::new());
    let mut rest = text.trim();
    while let Some(first) = rest.bytes().next() {
        if SIGNS.contains(&first) {
            tokens.push(Token::Sign(first));
            rest = rest[1..].trim_start();
            continue;
        }
        let ends = |c: char| c.is_whitespace() || (c.is_ascii() && SIGNS.contains(&(c as u8)));
        let (word, behind) = rest.split_at(rest.find(ends).unwrap_or(rest.len()));
        tokens.push(match word {
            "0" => Token::Constant(false),
            "1" => Token::Constant(true),
            _ => {
                let known = pins.iter().position(|pin| pin == word);
                if known.is_none() {
                    pins.push(word.into());
                }
                Token::Pin(known.unwrap_or(pins.len() - 1))
            }
        });
        rest = behind.trim_start();
    }
    let mut reader = Reader { tokens: &tokens, at: 0, depth: 0 };
    let table = reader.sum()?;
    match reader.tokens.get(reader.at) {
        Some(token) => Err(format!("{} is not expected there", shown(token, &pins))),
        None => Ok(Function { table: (pins.len() <= 4).then_some(table), pins }),
    }
}

fn shown(token: &Token, pins: &[String]) -> String {
    match token {
        Token::Pin(k) => format!("`{}`", pins[*k]),
        Token::Constant(value) => format!("`{}`", u8::from(*value)),
        Token::Sign(sign) => format!("`{}`", *sign as char),
    }
}

/// Values in all rows at once. Beyond four pins the value says nothing, and only the form is read.
struct Reader<'t> {
    tokens: &'t [Token],
    at: usize,
    depth: usize,
}

impl Reader<'_> {
    fn takes(&mut self, signs: &[u8]) -> bool {
        let found = matches!(self.tokens.get(self.at), Some(Token::Sign(sign)) if signs.contains(sign));
        self.at += usize::from(found);
        found
    }

    fn sum(&mut self) -> Result<u16, String> {
        let mut value = self.product()?;
        while self.takes(b"+|") {
            value |= self.product()?;
        }
        Ok(value)
    }

    fn product(&mut self) -> Result<u16, String> {
        let mut value = self.parity()?;
        loop {
            let begins = match self.tokens.get(self.at) {
                Some(Token::Pin(_) | Token::Constant(_)) => true,
                Some(Token::Sign(sign)) => b"!(".contains(sign),
                None => false,
            };
            if !self.takes(b"*&") && !begins {
                return Ok(value);
            }
            value &= self.parity()?;
        }
    }

    fn parity(&mut self) -> Result<u16, String> {
        let mut value = self.factor()?;
        while self.takes(b"^") {
            value ^= self.factor()?;
        }
        Ok(value)
    }

    fn factor(&mut self) -> Result<u16, String> {
        self.depth += 1;
        if self.depth > DEEPEST {
            return Err("it is nested too deeply".into());
        }
        let mut value = match self.tokens.get(self.at) {
            None => return Err("it ends where a pin, a constant, `!` or `(` is expected".into()),
            Some(Token::Pin(k)) => COLUMNS.get(*k).copied().unwrap_or_default(),
            Some(Token::Constant(value)) => {
                if *value {
                    0xffff
                } else {
                    0
                }
            }
            Some(Token::Sign(b'!')) => {
                self.at += 1;
                let value = !self.factor()?;
                self.depth -= 1;
                return Ok(value);
            }
            Some(Token::Sign(b'(')) => {
                self.at += 1;
                let value = self.sum()?;
                if !matches!(self.tokens.get(self.at), Some(Token::Sign(b')'))) {
                    return Err("a bracket is not closed".into());
                }
                value
            }
            Some(Token::Sign(sign)) => return Err(format!("`{}` is not expected there", *sign as char)),
        };
        self.at += 1;
        while self.takes(b"'") {
            value = !value;
        }
        self.depth -= 1;
        Ok(value)
    }
}

impl Function {
    /// The table over its own pins alone, as a sum of rows in genlib's signs. Every pin stands in it, first in their order.
    pub fn genlib(&self) -> Option<String> {
        let (table, pins) = (self.table?, self.pins.len());
        let rows = 1usize << pins;
        let minterm = |row: usize| {
            let literal = |(k, pin): (usize, &String)| format!("{}{pin}", if row >> k & 1 == 1 { "" } else { "!" });
            self.pins.iter().enumerate().map(literal).collect::<Vec<_>>().join("*")
        };
        let on: Vec<usize> = (0..rows).filter(|row| table >> row & 1 == 1).collect();
        Some(match (pins, on.len()) {
            (0, _) => format!("CONST{}", table & 1),
            (_, 0) => format!("CONST0*{}", self.pins.join("*")),
            _ => on.into_iter().map(minterm).collect::<Vec<_>>().join("+"),
        })
    }
}

#[cfg(test)]
mod tests {
    use super::*;

    fn table(text: &str) -> (String, u16) {
        let function = read(text).expect("in form");
        let rows = (1u32 << (1 << function.pins.len())) - 1;
        (function.pins.join(" "), function.table.expect("four pins at most") & rows as u16)
    }

    #[test]
    fn tables_by_hand() {
        assert_eq!(table("(A B)'"), ("A B".into(), 0x7));
        assert_eq!(table("!(A*B)"), ("A B".into(), 0x7));
        assert_eq!(table("!A'"), ("A".into(), 0x2));
        assert_eq!(table("A''"), ("A".into(), 0x2));
        assert_eq!(table("B & A | C"), ("B A C".into(), 0xf8));
        // `^` binds more than `*`: A * (B ^ C), and not (A * B) ^ C.
        assert_eq!(table("A*B^C"), ("A B C".into(), 0x28));
        assert_eq!(table("A^B+C"), ("A B C".into(), 0xf6));
        assert_eq!(table("(A1&!S)|(A2&S)"), ("A1 S A2".into(), 0xe2));
        assert_eq!(table("1"), (String::new(), 1));
        assert_eq!(table(" 0 "), (String::new(), 0));
        assert_eq!(read("A B C D E").map(|f| (f.pins.len(), f.table)), Ok((5, None)));
    }

    #[test]
    fn what_is_no_function_is_refused() {
        for text in ["", "A+", "(A", "A)", "A ! ", "*A", "'A", "A ^ ^ B", "()"] {
            assert!(read(text).is_err(), "{text}");
        }
        assert!(read(&"(".repeat(100_000)).is_err());
        assert!(read(&format!("{}A", "!".repeat(100_000))).is_err());
    }

    #[test]
    fn the_written_sum_is_the_same_function() {
        for text in ["A", "!A", "A^B", "A B'+C", "(A+B)(C+D)", "A A'", "A+!A", "1", "0"] {
            let function = read(text).expect("in form");
            let written = function.genlib().expect("four pins at most");
            // The reader's own signs: CONST0 and CONST1 are constants there, and pins here.
            let again = read(&written.replace("CONST", "")).expect("in form");
            assert_eq!(again, function, "{text}: {written}");
        }
    }
}
