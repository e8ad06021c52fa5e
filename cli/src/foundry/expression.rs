//! A gate's expression: its form, its pins, its value in every row, and the same in the signs of the proved reader.

use super::words::{Kind, Word};

/// Brackets as deep as the proved reader takes them.
pub const DEEPEST: usize = 16;

/// The rows in which the pin of that number is 1, of four.
const COLUMNS: [u16; 4] = [0xaaaa, 0xcccc, 0xf0f0, 0xff00];

#[derive(Clone, Copy, Debug)]
pub enum Token<'t> {
    Pin(Word<'t>),
    Constant(bool, Word<'t>),
    Not(Word<'t>),
    Prime(Word<'t>),
    /// `*`, or what stands for it: `&`, or nothing between two factors.
    And(Word<'t>),
    /// `+` or `|`.
    Or(Word<'t>),
    Xor(Word<'t>),
    Open(Word<'t>),
    Close(Word<'t>),
}

#[derive(Debug)]
pub struct Expression<'t> {
    tokens: Vec<Token<'t>>,
    /// The pins in their order of first appearance, each where it first stands.
    pub pins: Vec<Word<'t>>,
    /// The first bracket that is deeper than the proved reader takes.
    pub too_deep: Option<Word<'t>>,
}

/// A word that cannot stand where it does, and why; no word where the expression ends.
pub type Misplaced<'t> = (Option<Word<'t>>, &'static str);

impl<'t> Expression<'t> {
    /// The expression of these words, with `*` put between factors that stand side by side.
    pub fn read(words: &[Word<'t>]) -> Result<Expression<'t>, Misplaced<'t>> {
        const FACTOR: &str = "stands where a pin, a constant, `!` or `(` is due";
        let (mut tokens, mut open, mut too_deep) = (Vec::new(), Vec::new(), None);
        // Whether a factor has ended: then a sign may follow, or the next factor.
        let mut ended = false;
        for &word in words {
            let sign = if word.kind == Kind::Sign { word.bytes[0] } else { 0 };
            let begins = word.kind == Kind::Plain || matches!(sign, b'!' | b'(');
            if ended && begins {
                tokens.push(Token::And(word));
                ended = false;
            }
            let token = match sign {
                0 if word.kind == Kind::Plain => factor(word),
                b'!' => Token::Not(word),
                b'(' => Token::Open(word),
                b'\'' if ended => Token::Prime(word),
                b')' if ended && !open.is_empty() => Token::Close(word),
                b'*' | b'&' if ended => Token::And(word),
                b'+' | b'|' if ended => Token::Or(word),
                b'^' if ended => Token::Xor(word),
                b')' if ended => return Err((Some(word), "closes no bracket")),
                _ if ended => return Err((Some(word), "stands where a sign or `;` is due")),
                _ => return Err((Some(word), FACTOR)),
            };
            match token {
                Token::Open(_) => {
                    open.push(word);
                    if open.len() > DEEPEST {
                        too_deep = too_deep.or(Some(word));
                    }
                }
                Token::Close(_) => drop(open.pop()),
                _ => {}
            }
            ended = matches!(token, Token::Pin(_) | Token::Constant(..) | Token::Prime(_) | Token::Close(_));
            tokens.push(token);
        }
        if !ended {
            return Err((None, FACTOR));
        }
        if let Some(&bracket) = open.last() {
            return Err((Some(bracket), "is not closed"));
        }
        let mut pins: Vec<Word> = Vec::new();
        for token in &tokens {
            if let Token::Pin(word) = token {
                if !pins.iter().any(|pin| pin.bytes == word.bytes) {
                    pins.push(*word);
                }
            }
        }
        Ok(Expression { tokens, pins, too_deep })
    }

    /// The value in the 2^pins rows, 0 above; bit j of a row is the pin of that number. None over four pins.
    pub fn table(&self) -> Option<u16> {
        if self.pins.len() > 4 {
            return None;
        }
        let rows = ((1u32 << (1 << self.pins.len())) - 1) as u16;
        let (mut values, mut signs) = (Vec::new(), Vec::new());
        for token in &self.tokens {
            match token {
                Token::Pin(word) => {
                    let pin = self.pins.iter().position(|pin| pin.bytes == word.bytes)?;
                    values.push(COLUMNS[pin]);
                    settle(&mut values, &mut signs, NOT);
                }
                Token::Constant(one, _) => {
                    values.push(if *one { u16::MAX } else { 0 });
                    settle(&mut values, &mut signs, NOT);
                }
                Token::Prime(_) => values.last_mut().map(|value| *value = !*value)?,
                Token::Not(_) => signs.push(NOT),
                Token::Open(_) => signs.push(OPEN),
                Token::And(_) => push(&mut values, &mut signs, AND),
                Token::Xor(_) => push(&mut values, &mut signs, XOR),
                Token::Or(_) => push(&mut values, &mut signs, OR),
                Token::Close(_) => {
                    settle(&mut values, &mut signs, OR);
                    signs.pop();
                    settle(&mut values, &mut signs, NOT);
                }
            }
        }
        settle(&mut values, &mut signs, OR);
        Some(values.pop()? & rows)
    }

    /// The expression in the proved reader's signs, each piece with its word of the text; pins by the names given.
    /// `^` is no sign of it: with one, the sum of the rows is written, which has the same value in each.
    pub fn written(&self, names: &[String]) -> Vec<(String, Word<'t>)> {
        let has_xor = self.tokens.iter().any(|token| matches!(token, Token::Xor(_)));
        if let (true, Some(table), Some(&first)) = (has_xor, self.table(), self.pins.first()) {
            return vec![(rows(table, names), first)];
        }
        let name = |word: &Word| self.pins.iter().position(|pin| pin.bytes == word.bytes).map(|k| names[k].clone());
        let piece = |token: &Token<'t>| match token {
            Token::Pin(word) => (name(word).unwrap_or_default(), *word),
            Token::Constant(one, word) => (format!("CONST{}", u8::from(*one)), *word),
            Token::Not(word) => ("!".into(), *word),
            Token::Prime(word) => ("'".into(), *word),
            Token::And(word) => ("*".into(), *word),
            // Over four pins, or without any, the value of `^` is not asked for: `written` is refused, or constant.
            Token::Or(word) | Token::Xor(word) => ("+".into(), *word),
            Token::Open(word) => ("(".into(), *word),
            Token::Close(word) => (")".into(), *word),
        };
        if has_xor && self.pins.is_empty() {
            let one = self.table().unwrap_or_default() & 1;
            return self.tokens.first().map(|token| (format!("CONST{one}"), piece(token).1)).into_iter().collect();
        }
        self.tokens.iter().map(piece).collect()
    }
}

fn factor(word: Word) -> Token {
    match word.bytes {
        b"CONST0" => Token::Constant(false, word),
        b"CONST1" => Token::Constant(true, word),
        _ => Token::Pin(word),
    }
}

/// Signs by how tightly they bind.
const OPEN: u8 = 0;
const OR: u8 = 1;
const XOR: u8 = 2;
const AND: u8 = 3;
const NOT: u8 = 4;

/// A sign between two operands comes: what binds as tightly before it is done first.
fn push(values: &mut Vec<u16>, signs: &mut Vec<u8>, sign: u8) {
    settle(values, signs, sign);
    signs.push(sign);
}

/// Does what waits, back to the last bracket, and binds as tightly as that sign.
fn settle(values: &mut Vec<u16>, signs: &mut Vec<u8>, sign: u8) {
    while let Some(&last) = signs.last().filter(|&&last| last >= sign && last != OPEN) {
        signs.pop();
        let Some(value) = values.pop() else { return };
        if last == NOT {
            values.push(!value);
            continue;
        }
        let Some(other) = values.pop() else { return };
        values.push(match last {
            AND => other & value,
            XOR => other ^ value,
            _ => other | value,
        });
    }
}

/// The sum of a table's rows; where there is none, a product that is 0. All pins stand in it, in their order.
fn rows(table: u16, names: &[String]) -> String {
    let row = |row: usize| {
        let pins: Vec<String> = names
            .iter()
            .enumerate()
            .map(|(k, name)| format!("{}{name}", if row >> k & 1 == 1 { "" } else { "!" }))
            .collect();
        pins.join("*")
    };
    let sum: Vec<String> = (0..1 << names.len()).filter(|k| table >> k & 1 == 1).map(row).collect();
    if sum.is_empty() {
        return format!("CONST0*{}", names.join("*"));
    }
    sum.join("+")
}
