//! Another reader of genlib libraries, over a syntax tree. Quoted sentences are
//! those of request N6 in document 02.

use crate::reference::{Answer, Refusal};

/// The whole call: the answer, and the cell text if it succeeds.
pub fn cells(genlib: &[u8], memory: usize) -> (Answer, Vec<u8>) {
    let text = written(genlib).and_then(|text| {
        // "18 last for this memory"
        let short = plain_or!(52, memory < text.len(), memory <= text.len());
        if short {
            Err(refusal(18, text.len()))
        } else {
            Ok(text)
        }
    });
    match text {
        Err(Refusal { number, place }) => (Answer { number, value: place, ..Answer::default() }, Vec::new()),
        Ok(text) => (Answer { number: 0, value: text.len() as u32, ..Answer::default() }, text),
    }
}

fn refusal(number: u32, place: usize) -> Refusal {
    Refusal { number, place: place as u32 }
}

/// "Read GATE and PIN lines and write our cell text": refusals 1 and 22 to 24, or
/// the text.
pub fn written(genlib: &[u8]) -> Result<Vec<u8>, Refusal> {
    // "1 is tried first, on the genlib text"
    if genlib.len() > 65_536 {
        return Err(refusal(1, 0));
    }
    // The tree of a deep expression is walked on a stack of its own.
    if genlib.iter().filter(|&&byte| byte == b'(').count() < 200 {
        return write_all(genlib);
    }
    #[cfg(feature = "mutants")]
    let mutant = crate::mutants::which();
    std::thread::scope(|scope| {
        let deep = std::thread::Builder::new().stack_size(1 << 28).spawn_scoped(scope, || {
            #[cfg(feature = "mutants")]
            crate::mutants::switch(mutant);
            write_all(genlib)
        });
        deep.expect("a thread").join().expect("the reader ends")
    })
}

fn write_all(genlib: &[u8]) -> Result<Vec<u8>, Refusal> {
    let lines = lines(genlib);
    let mut text = b"cell pins table area d0 d1 d2 d3\n".to_vec();
    let starts: Vec<usize> = (0..lines.len()).filter(|&line| lines[line].begins_gate()).collect();
    // "(a line before the first, its own)": a PIN line that precedes every GATE,
    // or one out of form.
    if let Some(first) = lines.first().filter(|line| !line.begins_gate()) {
        return Err(refusal(22, first.offset));
    }
    let mut late = None;
    for (index, &start) in starts.iter().enumerate() {
        let end = starts.get(index + 1).map_or(lines.len(), |&next| next);
        match cell_line(&lines[start..end]) {
            Ok(line) => text.extend(line),
            Err(Fault { number, line: _line }) => {
                // "gate by gate with the lines up to the next GATE, at the GATE
                // line's offset"
                let at = plain_or!(48, start, start + _line);
                let refused = refusal(number, lines[at].offset);
                if plain_or!(51, false, number == 24) {
                    late = late.or(Some(refused));
                } else {
                    return Err(refused);
                }
            }
        }
    }
    late.map_or(Ok(text), Err)
}

// ---------------------------------------------------------------- lines

/// A line: "lines end as in N5".
#[derive(Clone, Copy, Debug)]
struct Line<'a> {
    offset: usize,
    contents: &'a [u8],
    has_end: bool,
}

fn lines(text: &[u8]) -> Vec<Line<'_>> {
    let mut lines = Vec::new();
    let mut offset = 0;
    for whole in text.split_inclusive(|&byte| byte == 10) {
        let (contents, has_end) = match whole {
            [contents @ .., 13, 10] | [contents @ .., 10] => (contents, true),
            _ => (whole, false),
        };
        lines.push(Line { offset, contents, has_end });
        offset += whole.len();
    }
    lines
}

fn is_blank(byte: u8) -> bool {
    byte == b' ' || byte == b'\t' || plain_or!(137, false, byte == 12)
}

/// "Names are of letters, digits and underscores"
fn is_name_byte(byte: u8) -> bool {
    byte.is_ascii_alphanumeric() || byte == b'_'
}

impl Line<'_> {
    /// Whether its first word is GATE, in form or not.
    fn begins_gate(&self) -> bool {
        let mut bytes = self.contents.iter().copied().skip_while(|&byte| is_blank(byte));
        let word: Vec<u8> = bytes.by_ref().take_while(|&byte| is_name_byte(byte)).collect();
        word == b"GATE"
    }
}

/// A sign, or a run of the bytes that names and figures are made of: "Spaces or
/// tabs part words and may stand beside signs and at a line's ends".
#[derive(Clone, Copy, Debug, PartialEq, Eq)]
enum Token<'a> {
    Sign(u8),
    Run(&'a [u8]),
}

/// None where a byte is none of these.
fn tokens(contents: &[u8]) -> Option<Vec<Token<'_>>> {
    let mut tokens = Vec::new();
    let mut rest = contents;
    while let Some((&first, after)) = rest.split_first() {
        if is_blank(first) {
            rest = after;
        } else if b"=;!'*+()".contains(&first) {
            tokens.push(Token::Sign(first));
            rest = after;
        } else {
            let length = rest.iter().take_while(|&&byte| is_name_byte(byte) || byte == b'.').count();
            if length == 0 {
                return None;
            }
            tokens.push(Token::Run(&rest[..length]));
            rest = &rest[length..];
        }
    }
    Some(tokens)
}

/// "figures of digits with or without a point and more digits"
#[derive(Clone, Copy, Debug, PartialEq, Eq)]
struct Figure<'a> {
    whole: &'a [u8],
    decimals: &'a [u8],
}

impl<'a> Figure<'a> {
    fn new(run: &'a [u8]) -> Option<Figure<'a>> {
        let mut parts = run.splitn(2, |&byte| byte == b'.');
        let whole = parts.next()?;
        let decimals = parts.next();
        let are_digits = |part: &[u8]| !part.is_empty() && part.iter().all(u8::is_ascii_digit);
        let good = are_digits(whole) && decimals.is_none_or(are_digits);
        good.then_some(Figure { whole, decimals: decimals.unwrap_or(b"") })
    }

    /// "it and the area are in thousandths"; "24 when a used figure has over three
    /// decimals or exceeds 65.535".
    fn thousandths(&self) -> Option<u32> {
        let zeros = self.whole.iter().take_while(|&&digit| digit == b'0').count();
        let whole = &self.whole[zeros..];
        let decimals = plain_or!(47, self.decimals, without_last_zeros(self.decimals));
        if decimals.len() > 3 || whole.len() > 2 {
            return None;
        }
        let padded = decimals.iter().copied().chain([b'0'; 3]).take(3);
        let value = whole.iter().copied().chain(padded).fold(0, |value, digit| 10 * value + u32::from(digit - b'0'));
        (value <= 65_535).then_some(value)
    }
}

#[cfg(feature = "mutants")]
fn without_last_zeros(decimals: &[u8]) -> &[u8] {
    let kept = decimals.iter().rposition(|&digit| digit != b'0').map_or(0, |last| last + 1);
    &decimals[..kept]
}

/// The next tokens of a line, one by one.
struct Reader<'a> {
    tokens: Vec<Token<'a>>,
    next: usize,
}

impl<'a> Reader<'a> {
    fn new(line: &Line<'a>) -> Option<Reader<'a>> {
        let tokens = tokens(line.contents).filter(|_| line.has_end)?;
        Some(Reader { tokens, next: 0 })
    }

    fn peek(&self) -> Option<Token<'a>> {
        self.tokens.get(self.next).copied()
    }

    fn sign(&mut self, sign: u8) -> Option<()> {
        let is = self.peek() == Some(Token::Sign(sign));
        self.next += usize::from(is);
        is.then_some(())
    }

    fn run(&mut self) -> Option<&'a [u8]> {
        let Some(Token::Run(run)) = self.peek() else { return None };
        self.next += 1;
        Some(run)
    }

    fn name(&mut self) -> Option<&'a [u8]> {
        self.run().filter(|run| run.iter().all(|&byte| is_name_byte(byte)))
    }

    fn word(&mut self, word: &[u8]) -> Option<()> {
        (self.run()? == word).then_some(())
    }

    fn figure(&mut self) -> Option<Figure<'a>> {
        Figure::new(self.run()?)
    }

    fn end(&self) -> Option<()> {
        (self.next == self.tokens.len()).then_some(())
    }
}

// ---------------------------------------------------------------- GATE lines

/// "a sum is made of products, a product of factors, and a bracketed factor of a
/// sum again"
#[derive(Debug)]
enum Tree {
    Constant(bool),
    /// Its place among the pins.
    Pin(usize),
    /// A sum in brackets.
    Bracket(Box<Tree>),
    /// A factor with so many `!` and `'`.
    Turned(usize, Box<Tree>),
    Product(Vec<Tree>),
    Sum(Vec<Tree>),
}

impl Tree {
    /// The value in a row, whose bit j is pin j.
    fn value(&self, row: usize) -> bool {
        match self {
            Tree::Constant(value) => *value,
            Tree::Pin(pin) => row >> pin & 1 == 1,
            Tree::Bracket(sum) => sum.value(row),
            Tree::Turned(times, factor) => factor.value(row) ^ (times % 2 == 1),
            Tree::Product(factors) => factors.iter().all(|factor| factor.value(row)),
            Tree::Sum(products) => products.iter().any(|product| product.value(row)),
        }
    }

    /// How deep brackets stand in brackets.
    fn depth(&self) -> usize {
        match self {
            Tree::Constant(_) | Tree::Pin(_) => 0,
            Tree::Bracket(sum) => 1 + sum.depth(),
            Tree::Turned(_, factor) => factor.depth(),
            Tree::Product(parts) | Tree::Sum(parts) => parts.iter().map(Tree::depth).max().unwrap_or(0),
        }
    }
}

/// "A GATE line has name, area, output, `=`, expression, `;`"
#[derive(Debug)]
struct GateLine<'a> {
    name: &'a [u8],
    area: Figure<'a>,
    tree: Tree,
    /// "Pins take their order of first appearance."
    pins: Vec<&'a [u8]>,
}

fn gate_line<'a>(line: &Line<'a>) -> Option<GateLine<'a>> {
    let mut reader = Reader::new(line)?;
    reader.word(b"GATE")?;
    let name = reader.name()?;
    let area = reader.figure()?;
    let _output = reader.name()?;
    reader.sign(b'=')?;
    let mut pins = Vec::new();
    let tree = sum(&mut reader, &mut pins)?;
    reader.sign(b';')?;
    reader.end()?;
    Some(GateLine { name, area, tree, pins })
}

fn sum<'a>(reader: &mut Reader<'a>, pins: &mut Vec<&'a [u8]>) -> Option<Tree> {
    let mut products = vec![product(reader, pins)?];
    while reader.sign(b'+').is_some() {
        products.push(product(reader, pins)?);
    }
    Some(Tree::Sum(products))
}

fn product<'a>(reader: &mut Reader<'a>, pins: &mut Vec<&'a [u8]>) -> Option<Tree> {
    let mut factors = vec![factor(reader, pins)?];
    while reader.sign(b'*').is_some() {
        factors.push(factor(reader, pins)?);
    }
    Some(plain_or!(40, plain_or!(46, joined(factors), turned_from_the_front(factors)), turned_from_behind(factors)))
}

/// "any number of `!` before a factor and of `'` after it"
struct Factor {
    bangs: usize,
    tree: Tree,
    primes: usize,
}

fn joined(factors: Vec<Factor>) -> Tree {
    let turned = |Factor { bangs, tree, primes }| Tree::Turned(bangs + primes, Box::new(tree));
    Tree::Product(factors.into_iter().map(turned).collect())
}

/// The `'` of the last factor stand after the product.
#[cfg(feature = "mutants")]
fn turned_from_behind(mut factors: Vec<Factor>) -> Tree {
    let primes = factors.last_mut().map_or(0, |last| std::mem::take(&mut last.primes));
    Tree::Turned(primes, Box::new(joined(factors)))
}

/// The `!` of the first factor stand before the product.
#[cfg(feature = "mutants")]
fn turned_from_the_front(mut factors: Vec<Factor>) -> Tree {
    let bangs = std::mem::take(&mut factors[0].bangs);
    Tree::Turned(bangs, Box::new(joined(factors)))
}

fn factor<'a>(reader: &mut Reader<'a>, pins: &mut Vec<&'a [u8]>) -> Option<Factor> {
    let (mut bangs, mut primes) = (0, 0);
    while reader.sign(b'!').is_some() {
        bangs += 1;
    }
    let tree = if reader.sign(b'(').is_some() {
        let inner = sum(reader, pins)?;
        reader.sign(b')')?;
        Tree::Bracket(Box::new(inner))
    } else {
        match reader.name()? {
            b"CONST0" => Tree::Constant(false),
            b"CONST1" => Tree::Constant(true),
            name => {
                let known = pins.iter().position(|pin| *pin == name);
                if known.is_none() {
                    pins.push(name);
                }
                Tree::Pin(known.unwrap_or(pins.len() - 1))
            }
        }
    };
    while reader.sign(b'\'').is_some() {
        primes += 1;
    }
    Some(Factor { bangs, tree, primes })
}

// ---------------------------------------------------------------- PIN lines

/// "a PIN line name, phase, two loads, then block and fanout delay for rise, then
/// for fall"
#[derive(Debug)]
struct PinLine<'a> {
    /// None for `PIN *`.
    name: Option<&'a [u8]>,
    rise: Figure<'a>,
    fall: Figure<'a>,
}

impl PinLine<'_> {
    /// "`PIN *` fits all pins"
    fn fits(&self, pin: &[u8]) -> bool {
        self.name.is_none_or(|name| name == pin)
    }
}

fn pin_line<'a>(line: &Line<'a>) -> Option<PinLine<'a>> {
    let mut reader = Reader::new(line)?;
    reader.word(b"PIN")?;
    let name = if reader.sign(b'*').is_some() { None } else { Some(reader.name()?) };
    let _phase = reader.name()?;
    let _loads = [reader.figure()?, reader.figure()?];
    let [rise, _rise_fanout, fall, _fall_fanout] =
        [reader.figure()?, reader.figure()?, reader.figure()?, reader.figure()?];
    reader.end()?;
    Some(PinLine { name, rise, fall })
}

// ---------------------------------------------------------------- gates

/// A number among 22 to 24, and the line at fault, counted from the GATE line.
struct Fault {
    number: u32,
    line: usize,
}

fn fault<T>(number: u32, line: usize) -> Result<T, Fault> {
    Err(Fault { number, line })
}

/// The cell line of a GATE line with the lines up to the next, or the first of 22
/// to 24, "tried in this order".
fn cell_line(group: &[Line]) -> Result<Vec<u8>, Fault> {
    let Some(GateLine { name, area, tree, pins }) = gate_line(&group[0]) else {
        return fault(22, 0);
    };
    if plain_or!(44, false, pins.len() > 4 || tree.depth() > 16) {
        return fault(23, 0);
    }
    let mut lines = Vec::new();
    for (index, line) in group.iter().enumerate().skip(1) {
        match pin_line(line) {
            Some(pin) => lines.push((index, pin)),
            None if plain_or!(53, false, line.has_end && line.contents.iter().all(|&byte| is_blank(byte))) => {}
            None => return fault(22, index),
        }
    }
    // "the first that fits counts"; 22 when "a pin has no PIN line".
    let mut counting = Vec::new();
    for pin in &pins {
        let mut fitting = lines.iter().filter(|(_, line)| line.fits(pin));
        match plain_or!(41, fitting.next(), fitting.last()) {
            Some(line) => counting.push(line),
            None => return fault(22, 0),
        }
    }
    // "23 when a gate has over four pins or brackets over 16 deep"
    if pins.len() > 4 || tree.depth() > plain_or!(50, 16, 17) {
        return fault(23, 0);
    }
    // "24 when a used figure has over three decimals or exceeds 65.535"
    let Some(area) = area.thousandths() else {
        return fault(24, 0);
    };
    let mut delays = [0; 4];
    for (delay, (index, line)) in delays.iter_mut().zip(&counting) {
        let (Some(rise), Some(fall)) = (line.rise.thousandths(), line.fall.thousandths()) else {
            return fault(24, *index);
        };
        // "A pin's delay is the larger of its rise and fall block delays"
        *delay = plain_or!(42, rise.max(fall), rise);
    }
    if plain_or!(49, false, lines.iter().any(|(_, line)| line.rise.thousandths().is_none())) {
        return fault(24, 0);
    }
    let place = |pin: usize| plain_or!(45, pin, pins.iter().filter(|other| **other < pins[pin]).count());
    // "The written table must equal the expression in its 2^pins rows and be 0
    // above": a row's bit at a pin's place is that pin's.
    let rows = plain_or!(43, 1 << pins.len(), 16);
    let by_pin = |row: usize| (0..pins.len()).map(|pin| (row >> place(pin) & 1) << pin).sum::<usize>();
    let table: u32 = (0..rows).filter(|&row| tree.value(by_pin(row))).map(|row| 1 << row).sum();
    let mut placed = [0; 4];
    for pin in 0..pins.len() {
        placed[place(pin)] = delays[pin];
    }
    let [d0, d1, d2, d3] = placed;
    let figures = format!(" {} {table:04x} {area} {d0} {d1} {d2} {d3}\n", pins.len());
    Ok([name, figures.as_bytes()].concat())
}
