//! Makes genlib texts from a fixed seed: good ones with the cell text that they
//! mean, faulty ones with what they bring, and damage.

use crate::gen::{self, Rng};

/// A genlib text, and what it gives where the making knows it: the cell text, or
/// a refusal's number and place.
#[derive(Clone, Debug)]
pub struct Case {
    pub what: String,
    pub genlib: Vec<u8>,
    pub expected: Option<Result<Vec<u8>, (u32, usize)>>,
}

// ---------------------------------------------------------------- expressions

/// The 16 rows in which pin number k of a pool of four is 1.
const COLUMNS: [u16; 4] = [0xaaaa, 0xcccc, 0xf0f0, 0xff00];

/// An expression in tokens, and its value in the pool's 16 rows.
type Made = (Vec<String>, u16);

struct Expression<'a> {
    pool: &'a [String],
    /// How many names and brackets may still come.
    budget: usize,
    /// What ABC 1.01 reads: no constants, and at most one `!` before a factor.
    for_abc: bool,
}

impl Expression<'_> {
    fn sum(&mut self, rng: &mut Rng, depth: usize) -> Made {
        let (mut tokens, mut value) = self.product(rng, depth);
        while self.budget > 0 && rng.one_in(3) {
            let (more, other) = self.product(rng, depth);
            tokens.push("+".into());
            tokens.extend(more);
            value |= other;
        }
        (tokens, value)
    }

    fn product(&mut self, rng: &mut Rng, depth: usize) -> Made {
        let (mut tokens, mut value) = self.factor(rng, depth);
        while self.budget > 0 && rng.one_in(3) {
            let (more, other) = self.factor(rng, depth);
            tokens.push("*".into());
            tokens.extend(more);
            value &= other;
        }
        (tokens, value)
    }

    fn factor(&mut self, rng: &mut Rng, depth: usize) -> Made {
        self.budget = self.budget.saturating_sub(1);
        let turns = |rng: &mut Rng| if rng.one_in(3) { rng.pick(&[1, 1, 1, 2, 3, 7]) } else { 0 };
        let (mut before, after) = (turns(rng), turns(rng));
        if self.for_abc {
            before %= 2;
        }
        let (inner, value) = if depth > 0 && self.budget > 0 && rng.one_in(3) {
            let (sum, value) = self.sum(rng, depth - 1);
            ([vec!["(".to_string()], sum, vec![")".to_string()]].concat(), value)
        } else if self.pool.is_empty() || !self.for_abc && rng.one_in(12) {
            let one = rng.one_in(2);
            (vec![format!("CONST{}", u8::from(one))], if one { 0xffff } else { 0 })
        } else {
            let pin = rng.below(self.pool.len());
            (vec![self.pool[pin].clone()], COLUMNS.get(pin).copied().unwrap_or(0))
        };
        let tokens = [vec!["!".to_string(); before], inner, vec!["'".to_string(); after]].concat();
        (tokens, if (before + after) % 2 == 1 { !value } else { value })
    }
}

/// An expression over the pins `a` to `d` that ABC reads.
pub fn expression_for_abc(rng: &mut Rng) -> String {
    let pool = ["a", "b", "c", "d"].map(String::from);
    let mut expression = Expression { pool: &pool, budget: rng.pick(&[2, 5, 12]), for_abc: true };
    expression.sum(rng, 4).0.concat()
}

fn in_brackets(tokens: Vec<String>, times: usize) -> Vec<String> {
    [vec!["(".to_string(); times], tokens, vec![")".to_string(); times]].concat()
}

/// The pins in their order of first appearance, as numbers of the pool.
fn appearance(tokens: &[String], pool: &[String]) -> Vec<usize> {
    let mut order = Vec::new();
    for token in tokens {
        let pin = pool.iter().position(|name| name == token);
        order.extend(pin.filter(|pin| !order.contains(pin)));
    }
    order
}

/// The table of the rows whose bit j is the j-th pin to appear.
fn table(value: u16, order: &[usize]) -> u16 {
    let pool_row = |row: usize| order.iter().enumerate().map(|(bit, &pin)| (row >> bit & 1) << pin).sum::<usize>();
    (0..1usize << order.len()).filter(|&row| value >> pool_row(row) & 1 == 1).map(|row| 1 << row).sum()
}

// ---------------------------------------------------------------- words

/// Names of every kind: of digits, underscores, and the words of the form.
fn name(rng: &mut Rng) -> String {
    const BYTES: &[u8] = b"abcxyzABCXYZ0123456789__";
    match rng.below(8) {
        0 => rng.pick(&["GATE", "PIN", "0", "1", "O", "CONST2", "CONST", "const0", "_", "7", "x1_"]).to_string(),
        1 => (0..rng.between(9, 40)).map(|_| rng.pick(BYTES) as char).collect(),
        2..=4 => rng.pick(&["A", "B", "C", "D", "a", "b", "i1", "Z"]).to_string(),
        _ => (0..rng.between(1, 8)).map(|_| rng.pick(BYTES) as char).collect(),
    }
}

/// So many different names that are no constants.
fn pool(rng: &mut Rng, count: usize) -> Vec<String> {
    let mut names: Vec<String> = Vec::new();
    while names.len() < count {
        let name = name(rng);
        if name != "CONST0" && name != "CONST1" && !names.contains(&name) {
            names.push(name);
        }
    }
    names
}

/// So many thousandths as a figure: with leading zeros and zeros behind by chance.
fn figure(rng: &mut Rng, thousandths: u32) -> String {
    let decimals = format!("{:03}", thousandths % 1_000);
    let least = decimals.trim_end_matches('0').len();
    let kept = if rng.one_in(2) { least } else { rng.between(least, 3) };
    let zeros = if rng.one_in(6) { rng.pick(&[1, 2, 5, 40]) } else { 0 };
    let whole = format!("{}{}", "0".repeat(zeros), thousandths / 1_000);
    if kept == 0 {
        whole
    } else {
        format!("{whole}.{}", &decimals[..kept])
    }
}

fn thousandths(rng: &mut Rng) -> u32 {
    match rng.below(6) {
        0 => rng.pick(&[0, 1, 999, 1_000, 9_999, 10_000, 65_000, 65_534, 65_535]),
        1 => 1_000 * rng.below(66) as u32,
        _ => rng.below(65_536) as u32,
    }
}

/// A figure in form that no used one may be.
fn too_large(rng: &mut Rng) -> String {
    match rng.below(4) {
        0 => format!("{}.{:04}", rng.below(70), rng.below(10_000)),
        1 => rng.pick(&["65.536", "66", "100", "65.5350", "0.0000", "1.0000", "65536", "00066.0"]).to_string(),
        2 => format!("{}{}", rng.between(1, 9), "0".repeat(rng.between(2, 60))),
        _ => format!("0.{}", "0".repeat(rng.between(4, 60))),
    }
}

/// Any figure in form, for one that isn't used.
fn unused(rng: &mut Rng) -> String {
    if rng.one_in(2) {
        return too_large(rng);
    }
    let some = thousandths(rng);
    figure(rng, some)
}

fn is_run(token: &str) -> bool {
    token.bytes().all(|byte| byte.is_ascii_alphanumeric() || byte == b'_' || byte == b'.')
}

/// Tokens as a line's contents: "Spaces or tabs part words and may stand beside
/// signs and at a line's ends".
fn spaced(rng: &mut Rng, tokens: &[String]) -> Vec<u8> {
    let style = rng.below(3);
    let blanks = |rng: &mut Rng, least: usize| {
        let count = match style {
            0 => least,
            1 => rng.between(least, 1),
            _ => rng.between(least, 3),
        };
        (0..count).map(|_| if style == 2 { rng.pick(b" \t") } else { b' ' }).collect::<Vec<u8>>()
    };
    let mut line = blanks(rng, 0);
    for (index, token) in tokens.iter().enumerate() {
        if index > 0 {
            let both = is_run(token) && is_run(&tokens[index - 1]);
            line.extend(blanks(rng, usize::from(both)));
        }
        line.extend(token.as_bytes());
    }
    line.extend(blanks(rng, 0));
    line
}

fn words(words: &[&str]) -> Vec<String> {
    words.iter().map(|word| word.to_string()).collect()
}

// ---------------------------------------------------------------- gates

/// What is wrong with a gate.
#[derive(Clone, Copy, Default)]
struct Wrong {
    form: bool,
    pins: bool,
    depth: bool,
    figure: bool,
}

impl Wrong {
    fn number(self) -> Option<u32> {
        match self {
            Wrong { form: true, .. } => Some(22),
            Wrong { pins: true, .. } | Wrong { depth: true, .. } => Some(23),
            Wrong { figure: true, .. } => Some(24),
            _ => None,
        }
    }
}

/// A GATE line and its PIN lines, without their ends, and the cell line meant.
struct Gate {
    lines: Vec<Vec<u8>>,
    cell: String,
}

fn gate(rng: &mut Rng, wrong: Wrong) -> Gate {
    let count = if wrong.pins { rng.between(5, 9) } else { rng.between(0, 4) };
    let pool = pool(rng, count);
    let budget = rng.pick(&[1, 3, 8, 20]);
    let deepest = rng.pick(&[0, 2, 4, 9]);
    let mut expression = Expression { pool: &pool, budget, for_abc: false };
    let (mut tokens, value) = expression.sum(rng, deepest);
    if wrong.pins {
        // Every pin of the pool, in some brackets.
        for name in &pool {
            tokens.extend([rng.pick(&["+", "*"]).to_string(), name.clone()]);
        }
    }
    let around = if wrong.depth {
        rng.pick(&[17, 17, 18, 40])
    } else if rng.one_in(6) {
        16 - deepest
    } else {
        0
    };
    tokens = in_brackets(tokens, around);
    let order = appearance(&tokens, &pool);

    // PIN lines: each pin's own or one for all, with others between them.
    let mut fits: Vec<Option<String>> = order.iter().map(|&pin| Some(pool[pin].clone())).collect();
    rng.shuffle(&mut fits);
    match rng.below(4) {
        0 => {
            fits.truncate(rng.below(fits.len() + 1));
            fits.push(None);
        }
        1 => fits.insert(rng.below(fits.len() + 1), None),
        _ => {}
    }
    for _ in 0..rng.pick(&[0, 0, 1, 3]) {
        let other = if order.is_empty() || rng.one_in(2) { name(rng) } else { pool[rng.pick(&order)].clone() };
        fits.insert(rng.below(fits.len() + 1), Some(other));
    }
    let counting: Vec<usize> = order
        .iter()
        .map(|&pin| fits.iter().position(|fit| fit.is_none() || fit.as_ref() == Some(&pool[pin])).expect("a line"))
        .collect();
    let delays: Vec<[u32; 2]> = fits.iter().map(|_| [thousandths(rng), thousandths(rng)]).collect();
    // Which used figure is too large: the area, or a delay that counts.
    let bad = if wrong.figure { Some(rng.below(1 + 2 * counting.len())) } else { None };
    let mut lines = Vec::new();
    for (index, fit) in fits.iter().enumerate() {
        let is_used = counting.contains(&index);
        let block = |rng: &mut Rng, which: usize| {
            let is_bad = bad.is_some_and(|bad| bad > 0 && counting[(bad - 1) / 2] == index && (bad - 1) % 2 == which);
            match (is_bad, is_used) {
                (true, _) => too_large(rng),
                (_, true) => figure(rng, delays[index][which]),
                (_, false) => unused(rng),
            }
        };
        let (rise, fall) = (block(rng, 0), block(rng, 1));
        let phase = if rng.one_in(2) { "INV".to_string() } else { name(rng) };
        let fit = fit.clone().unwrap_or("*".into());
        let line = words(&["PIN", &fit, &phase, &unused(rng), &unused(rng), &rise, &unused(rng), &fall, &unused(rng)]);
        lines.push(spaced(rng, &line));
    }
    let area = thousandths(rng);
    let area_word = if bad == Some(0) { too_large(rng) } else { figure(rng, area) };
    let (own, output) = (name(rng), name(rng));
    let mut first = words(&["GATE", &own, &area_word, &output, "="]);
    first.extend(tokens);
    first.push(";".into());
    lines.insert(0, spaced(rng, &first));
    let mut figures = [0; 4];
    for (slot, &line) in figures.iter_mut().zip(&counting) {
        *slot = delays[line][0].max(delays[line][1]);
    }
    let [d0, d1, d2, d3] = figures;
    let table = if order.len() > 4 { 0 } else { table(value, &order) };
    let cell = format!("{own} {} {table:04x} {area} {d0} {d1} {d2} {d3}\n", order.len());
    let mut gate = Gate { lines, cell };
    if wrong.form {
        spoil(rng, &mut gate.lines, !order.is_empty());
    }
    gate
}

/// Breaks the form of one line, but not the first word of the GATE line.
fn spoil(rng: &mut Rng, lines: &mut Vec<Vec<u8>>, has_pins: bool) {
    let text = |bytes: &[u8]| String::from_utf8_lossy(bytes).into_owned();
    if rng.one_in(4) {
        let whole: &[&[u8]] = &[
            b"",
            b" ",
            b"\t \t",
            b"# remark",
            b"PIN",
            b"PIN A",
            b"PIN A INV 1 1 1 1 1",
            b"PIN A INV 1 1 1 1 1 1 1",
            b"PIN A INV 1 1 1. 1 1 1",
            b"PIN A INV 1 1 .5 1 1 1",
            b"PIN A INV 1 1 -1 1 1 1",
            b"PIN A INV 1 1 1e3 1 1 1",
            b"PIN A INV 1 1 1.2.3 1 1 1",
            b"PIN A INV 1 1 1 1 1 x",
            b"PIN A * 1 1 1 1 1 1",
            b"PIN ** INV 1 1 1 1 1 1",
            b"PIN A.B INV 1 1 1 1 1 1",
            b"PIN A INV 1 1 1 1 1 1;",
            b"PIN A INV 1 1 1 1 1 1\r ",
            b"PIN A INV 1\r1 1 1 1 1",
            b"PINA INV 1 1 1 1 1 1",
            b"pin A INV 1 1 1 1 1 1",
            b"LATCH l 1 Q=D;",
            b"GATES g 1 O=A;",
            b"gate g 1 O=A;",
            b"PIN A INV 1 1 1 1 1 1\0",
            b"PIN A INV 1 1 1 1 1 1 \x80",
            b"\x0bPIN A INV 1 1 1 1 1 1",
        ];
        lines.insert(rng.between(1, lines.len()), rng.pick(whole).to_vec());
        return;
    }
    if rng.one_in(6) && has_pins {
        lines.truncate(1);
        return;
    }
    let gate = text(&lines[0]);
    let (head, expression) = gate.split_once('=').expect("a GATE line");
    let expression = expression.trim_end().trim_end_matches(';');
    let start = &gate[..gate.find("GATE").expect("its first word") + 4];
    lines[0] = match rng.below(22) {
        0 => format!("{head}={expression}"),
        1 => format!("{head}={expression};;"),
        2 => format!("{head}={expression}; x"),
        3 => format!("{head}==({expression});"),
        4 => format!("{head} {expression};"),
        5 => format!("{head}={expression}+;"),
        6 => format!("{head}=*{expression};"),
        7 => format!("{head}={expression} A;"),
        8 => format!("{head}={expression}*!;"),
        9 => format!("{head}='{expression};"),
        10 => format!("{head}=({expression};"),
        11 => format!("{head}={expression});"),
        12 => format!("{head}={expression}*();"),
        13 => format!("{head}={expression}(A);"),
        14 => format!("{head}=;"),
        15 => format!("{head} x={expression};"),
        16 => format!("{start}={expression};"),
        17 => format!("{start} g O={expression};"),
        18 => format!(
            "{start} g {} O={expression};",
            rng.pick(&["1.", ".5", "1.2.3", "-1", "+1", "1e3", "1,5", "x", "."])
        ),
        19 => format!("{start} g.h 1 O={expression};"),
        20 => format!("{head}={expression};# remark"),
        _ => format!("{head}={expression}\r;"),
    }
    .into_bytes();
}

/// Lines with ends by chance.
fn ended(rng: &mut Rng, lines: &[Vec<u8>]) -> Vec<u8> {
    let many = rng.pick(&[1, 2, 3, 1_000]);
    let mut text = Vec::new();
    for line in lines {
        text.extend(line);
        text.extend_from_slice(if rng.one_in(many) { b"\r\n" } else { b"\n" });
    }
    text
}

pub const NAMES_LINE: &str = gen::NAMES_LINE;

/// A good text of some gates; sometimes of more than a library may have.
pub fn good(rng: &mut Rng) -> Case {
    let count = match rng.below(20) {
        0 => 0,
        1 => rng.between(30, 40),
        _ => rng.between(1, 6),
    };
    let gates: Vec<Gate> = (0..count).map(|_| gate(rng, Wrong::default())).collect();
    let lines: Vec<Vec<u8>> = gates.iter().flat_map(|gate| gate.lines.clone()).collect();
    let cells = gates.iter().fold(NAMES_LINE.to_string(), |text, gate| text + &gate.cell);
    Case { what: "good".into(), genlib: ended(rng, &lines), expected: Some(Ok(cells.into_bytes())) }
}

/// Gates of which some have faults, of any number each: the first gate that has
/// one decides, and there the first in the order 22, 23, 24.
pub fn faults(rng: &mut Rng) -> Case {
    let rarity = rng.pick(&[2, 4, 10]);
    let mut expected = None;
    let mut text = Vec::new();
    let mut cells = NAMES_LINE.to_string();
    if rng.one_in(15 * rarity) {
        let lines: &[&[u8]] = &[
            b"",
            b" ",
            b"# remark",
            b"PIN A INV 1 1 1 1 1 1",
            b"PIN * INV 1 1 1 1 1 1",
            b"gate g 1 O=A;",
            b"GATES g 1 O=A;",
            b"\r\r",
        ];
        let line = rng.pick(lines);
        text.extend(ended(rng, &[line.to_vec()]));
        expected = Some((22, 0));
    }
    for _ in 0..rng.between(1, 5) {
        let wrong = Wrong {
            form: rng.one_in(4 * rarity),
            pins: rng.one_in(4 * rarity),
            depth: rng.one_in(4 * rarity),
            figure: rng.one_in(2 * rarity),
        };
        let made = gate(rng, wrong);
        expected = expected.or(wrong.number().map(|number| (number, text.len())));
        let start = text.len();
        text.extend(ended(rng, &made.lines));
        cells += &made.cell;
        if rng.one_in(40 * rarity) {
            // The last line's end goes.
            text.pop();
            if expected.is_none_or(|(_, place)| place == start) {
                expected = Some((22, start));
            }
            break;
        }
    }
    if rng.one_in(20 * rarity) {
        // Blanks at the end of the first line bring the length to its limit.
        let length = 65_536 + rng.below(2);
        let at = text.iter().position(|&byte| byte == b'\r' || byte == b'\n').unwrap_or(text.len());
        let more = length.saturating_sub(text.len());
        text.splice(at..at, vec![b' '; more]);
        expected = match expected {
            _ if text.len() > 65_536 => Some((1, 0)),
            Some((number, place)) if place > at => Some((number, place + more)),
            other => other,
        };
    }
    let expected = Some(expected.map_or(Ok(cells.into_bytes()), Err));
    Case { what: "faults".into(), genlib: text, expected }
}

/// The bytes that damage puts in.
pub const BYTES: &[u8] = b"\0\t\n\r !'()*+-.;=#019_AGxz~\x80\xff";

/// A made text with one to three damages: of bytes, of lines, of line ends, or
/// cut off.
pub fn damaged(rng: &mut Rng) -> Case {
    let count = rng.between(1, 4);
    let gates: Vec<Gate> = (0..count).map(|_| gate(rng, Wrong::default())).collect();
    let lines: Vec<Vec<u8>> = gates.iter().flat_map(|gate| gate.lines.clone()).collect();
    let mut text = ended(rng, &lines);
    for _ in 0..rng.pick(&[1, 1, 2, 3]) {
        if text.is_empty() {
            break;
        }
        let at = rng.below(text.len());
        match rng.below(10) {
            0 | 1 => text[at] = rng.pick(BYTES),
            2 => text.insert(at, rng.pick(BYTES)),
            3 => drop(text.remove(at)),
            4 => text.truncate(at),
            5 => text = gen::damaged_end(rng, &text),
            6 => text = gen::damaged(rng, &text),
            _ => {
                // Lines changed for each other, left out, or twice.
                let mut lines: Vec<&[u8]> = text.split_inclusive(|&byte| byte == b'\n').collect();
                let (one, other) = (rng.below(lines.len()), rng.below(lines.len()));
                match rng.below(3) {
                    0 => lines.swap(one, other),
                    1 => drop(lines.remove(one)),
                    _ => lines.insert(other, lines[one]),
                }
                text = lines.concat();
            }
        }
    }
    Case { what: "damaged".into(), genlib: text, expected: None }
}

/// Every damage of a small text.
pub fn all_damage() -> Vec<Case> {
    let lines: [&[u8]; 4] = [
        b"GATE n1 1.5 O = !(A*B)' + CONST1;\r\n",
        b"PIN * INV 1 9 0.3 0 2 0\n",
        b"GATE i 2 O=a';\n",
        b"PIN a X 1 1 1 1 0.25 1\r\n",
    ];
    let damaged = gen::all_damage_by(&lines.concat(), BYTES).into_iter();
    damaged.map(|genlib| Case { what: "all damage".into(), genlib, expected: None }).collect()
}

// ---------------------------------------------------------------- edges

fn cells(lines: &[&str]) -> Vec<u8> {
    lines.iter().fold(NAMES_LINE.to_string(), |text, line| format!("{text}{line}\n")).into_bytes()
}

/// The limits of 1, 22, 23 and 24, each from both sides.
pub fn edges() -> Vec<Case> {
    let mut cases = Vec::new();
    let mut add = |genlib: &[u8], expected: Result<Vec<u8>, (u32, usize)>| {
        let what = format!("edge {:?}", String::from_utf8_lossy(&genlib[..genlib.len().min(200)]));
        cases.push(Case { what, genlib: genlib.to_vec(), expected: Some(expected) });
    };
    add(b"", Ok(cells(&[])));

    // 1: blanks at a line's end up to the length.
    let gate = b"GATE t 1 O=CONST0;";
    for length in [65_535, 65_536, 65_537] {
        let text = [&gate[..], &vec![b' '; length - gate.len() - 1], b"\n"].concat();
        add(&text, if length > 65_536 { Err((1, 0)) } else { Ok(cells(&["t 0 0000 1000 0 0 0 0"])) });
        add(&vec![b'x'; length], Err(if length > 65_536 { (1, 0) } else { (22, 0) }));
        // The deepest brackets, the longest name, the longest figure, all the `!`.
        let pin = b"PIN * X 1 1 1 1 1 1\n";
        let fill = |rest: usize| length - pin.len() - rest;
        let half = fill(14) / 2;
        let deep = [&b"GATE g 1 O="[..], &vec![b'('; half], b"a", &vec![b')'; half], b";", pin].concat();
        let text = [&deep[..deep.len() - pin.len()], &vec![b' '; length - deep.len() - 1], b"\n", pin].concat();
        add(&text, Err(if length > 65_536 { (1, 0) } else { (23, 0) }));
        let bangs = [&b"GATE g 1 O="[..], &vec![b'!'; fill(14)], b"a;\n", pin].concat();
        let table = if fill(14) % 2 == 1 { "0001" } else { "0002" };
        add(&bangs, if length > 65_536 { Err((1, 0)) } else { Ok(cells(&[&format!("g 1 {table} 1000 1000 0 0 0")])) });
        let name = vec![b'n'; length - 18];
        let long = [b"GATE ", &name[..], b" 1 O=CONST1;\n"].concat();
        let cell = String::from_utf8_lossy(&name).into_owned() + " 0 0001 1000 0 0 0 0";
        add(&long, if length > 65_536 { Err((1, 0)) } else { Ok(cells(&[&cell])) });
        let figure = vec![b'0'; length - 19];
        let zeros = [b"GATE t ", &figure[..], b"7 O=CONST0;\n"].concat();
        add(&zeros, if length > 65_536 { Err((1, 0)) } else { Ok(cells(&["t 0 0000 7000 0 0 0 0"])) });
        let digits = [b"GATE t ", &vec![b'9'; length - 18][..], b" O=CONST0;\n"].concat();
        add(&digits, Err(if length > 65_536 { (1, 0) } else { (24, 0) }));
        let decimals = [b"GATE t 0.", &vec![b'0'; length - 20][..], b" O=CONST0;\n"].concat();
        add(&decimals, Err(if length > 65_536 { (1, 0) } else { (24, 0) }));
    }
    // As many gates as fit; the text written is longer than 65,536 bytes.
    let many = b"GATE a 1 O=CONST1;\n".repeat(3_449);
    add(&many, Ok(cells(&vec!["a 0 0001 1000 0 0 0 0"; 3_449])));

    // 23: four pins and five, brackets 16 deep and 17; the same name again is one pin.
    let pin = "PIN * X 1 1 2 1 1 1\n";
    let mut of = |expression: &str, expected: Result<&str, u32>| {
        let text = format!("GATE f 1 O=CONST1;\nGATE g 1 O={expression};\n{pin}");
        let wanted = expected.map(|cell| cells(&["f 0 0001 1000 0 0 0 0", cell])).map_err(|number| (number, 19));
        add(text.as_bytes(), wanted);
    };
    let brackets = |times: usize| format!("{}a{}", "(".repeat(times), ")".repeat(times));
    of("a*b*c*d", Ok("g 4 8000 1000 2000 2000 2000 2000"));
    of("a*b*c*d*a*b*c*d", Ok("g 4 8000 1000 2000 2000 2000 2000"));
    of("a*b*c*d*e", Err(23));
    of("a+b+c+d+e+f+g+h+i+j", Err(23));
    of("a*b*c*d*CONST0+CONST1", Ok("g 4 ffff 1000 2000 2000 2000 2000"));
    of(&brackets(16), Ok("g 1 0002 1000 2000 0 0 0"));
    of(&brackets(17), Err(23));
    of(&brackets(300), Err(23));
    of(&format!("{}*{}", brackets(16), brackets(16)), Ok("g 1 0002 1000 2000 0 0 0"));
    of(&format!("({}*{})", brackets(15), brackets(15)), Ok("g 1 0002 1000 2000 0 0 0"));
    of(&format!("({}*{})", brackets(15), brackets(16)), Err(23));
    // 22 before 23, in the GATE line and in the PIN line.
    of(&format!("{}*", brackets(17)), Err(22));
    of(&format!("{})", brackets(17)), Err(22));
    of("a*b*c*d*e*", Err(22));
    // Signs and what they bind.
    of("!a*b", Ok("g 2 0004 1000 2000 2000 0 0"));
    of("!a*b'", Ok("g 2 0001 1000 2000 2000 0 0"));
    of("a*b'", Ok("g 2 0002 1000 2000 2000 0 0"));
    of("a'*b", Ok("g 2 0004 1000 2000 2000 0 0"));
    of("!(a*b)", Ok("g 2 0007 1000 2000 2000 0 0"));
    of("(a*b)'", Ok("g 2 0007 1000 2000 2000 0 0"));
    of("!(a*b)'", Ok("g 2 0008 1000 2000 2000 0 0"));
    of("!a+b", Ok("g 2 000d 1000 2000 2000 0 0"));
    of("a+b*c", Ok("g 3 00ea 1000 2000 2000 2000 0"));
    of("a*b+c", Ok("g 3 00f8 1000 2000 2000 2000 0"));
    of("b+a", Ok("g 2 000e 1000 2000 2000 0 0"));
    of("b*!a", Ok("g 2 0002 1000 2000 2000 0 0"));
    of("!!a''", Ok("g 1 0002 1000 2000 0 0 0"));
    of("!!!a", Ok("g 1 0001 1000 2000 0 0 0"));
    of("CONST0'", Ok("g 0 0001 1000 0 0 0 0"));
    of("!CONST1", Ok("g 0 0000 1000 0 0 0 0"));
    of("0*1", Ok("g 2 0008 1000 2000 2000 0 0"));
    of("a*!a", Ok("g 1 0000 1000 2000 0 0 0"));
    for broken in [
        "", "a b", "a!", "'a", "a**b", "a++b", "a+", "*a", "()", "(a", "a)", "a(b)", "(a)(b)", "!", "a*", "a.b", "a#",
        "a,b", "a&b", "a|b", "~a", "a^b", "1.5", "a'b", "a=b", ")a(",
    ] {
        of(broken, Err(22));
    }

    // 24: thousandths at both sides of the largest.
    for (figure, thousandths) in [
        ("0", Some(0)),
        ("000", Some(0)),
        ("0.000", Some(0)),
        ("0.0000", None),
        ("0.001", Some(1)),
        ("0.0010", None),
        ("0.01", Some(10)),
        ("0.1", Some(100)),
        ("1", Some(1_000)),
        ("12", Some(12_000)),
        ("65", Some(65_000)),
        ("65.5", Some(65_500)),
        ("65.53", Some(65_530)),
        ("65.535", Some(65_535)),
        ("0065.535", Some(65_535)),
        ("65.5350", None),
        ("65.5349", None),
        ("65.536", None),
        ("65.54", None),
        ("65.6", None),
        ("66", None),
        ("100", None),
        ("999", None),
        ("65536", None),
        ("4294967296", None),
        ("4294967297", None),
        ("18446744073709551616", None),
        ("18446744073709551617.001", None),
        ("340282366920938463463374607431768211457", None),
    ] {
        let area = format!("GATE f 1 O=CONST1;\nGATE g {figure} O=a;\n{pin}");
        let cell = |area: u32, delay: u32| cells(&["f 0 0001 1000 0 0 0 0", &format!("g 1 0002 {area} {delay} 0 0 0")]);
        add(area.as_bytes(), thousandths.map(|area| cell(area, 2_000)).ok_or((24, 19)));
        for fall in [false, true] {
            let (rise, fall) = if fall { ("0", figure) } else { (figure, "0") };
            let text = format!("GATE f 1 O=CONST1;\nGATE g 1 O=a;\nPIN a X 1 1 {rise} 1 {fall} 1\n");
            add(text.as_bytes(), thousandths.map(|delay| cell(1_000, delay)).ok_or((24, 19)));
            // The same in a line that counts for no pin.
            let unused = text + &format!("PIN a X 1 1 {rise} 1 {fall} 1\nPIN b X 1 1 {rise} 1 {fall} 1\n");
            add(unused.as_bytes(), thousandths.map(|delay| cell(1_000, delay)).ok_or((24, 19)));
            let first = format!("GATE f 1 O=CONST1;\nGATE g 1 O=a;\nPIN b X 1 1 {rise} 1 {fall} 1\n{pin}PIN * X 1 1 {rise} 1 {fall} 1\n");
            add(first.as_bytes(), Ok(cell(1_000, 2_000)));
        }
        let others = format!("GATE f 1 O=CONST1;\nPIN a X {figure} {figure} {figure} {figure} {figure} {figure}\nGATE g 1 O=a;\nPIN a X {figure} {figure} 1 {figure} 2 {figure}\n");
        add(others.as_bytes(), Ok(cell(1_000, 2_000)));
    }
    for broken in ["1.", ".5", ".", "1..5", "1.2.3", "-1", "+1", "1e3", "1,5", "0x1", "x", "1_0", "*", "1 .5", "1. 5"] {
        add(format!("GATE g {broken} O=a;\n{pin}").as_bytes(), Err((22, 0)));
        add(format!("GATE g 1 O=a;\nPIN a X 1 1 {broken} 1 1 1\n").as_bytes(), Err((22, 0)));
        add(format!("GATE g 1 O=a;\nPIN a X 1 1 1 {broken} 1 1\n").as_bytes(), Err((22, 0)));
        add(format!("GATE g 1 O=a;\nPIN a X {broken} 1 1 1 1 1\n").as_bytes(), Err((22, 0)));
        add(format!("GATE g 1 O=a;\n{pin}PIN b X {broken} 1 1 1 1 1\n").as_bytes(), Err((22, 0)));
    }

    // Gate by gate: 24 of one before 22 of the next, and 22 to 24 in one.
    let (good, large, deep, broken) = (
        format!("GATE a 1 O=a;\n{pin}"),
        format!("GATE b 99 O=a;\n{pin}"),
        format!("GATE c 99 O={};\n{pin}", brackets(17)),
        format!("GATE d 99 O={};\nPIN b X 1 1 1 1 1 1\n", brackets(17)),
    );
    let length = good.len();
    for (gates, number) in [
        ([&good, &large, &deep, &broken], 24),
        ([&good, &deep, &large, &broken], 23),
        ([&good, &broken, &deep, &large], 22),
    ] {
        let text: String = gates.iter().map(|gate| gate.as_str()).collect();
        add(text.as_bytes(), Err((number, length)));
        add(text.replace('\n', "\r\n").as_bytes(), Err((number, length + 2)));
    }
    cases
}
