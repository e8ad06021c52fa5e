//! The checks of the reader of genlib, and a second reader made another way: it
//! parts words by text, goes through an expression once from left to right with
//! a stack of sums, and has all 16 rows in one word.

use crate::checks::Check;
use crate::gaps;
use crate::gen::Rng;
use crate::genlib;
use crate::genlib_gen::{self, Case, NAMES_LINE};

type Outcome = Result<Vec<u8>, (u32, usize)>;

macro_rules! ensure {
    ($condition:expr, $($message:tt)*) => {
        if !$condition {
            return Err(format!($($message)*));
        }
    };
}

/// What the reader gives, with memory enough.
pub fn outcome(text: &[u8]) -> Outcome {
    genlib::written(text).map_err(|refusal| (refusal.number, refusal.place as usize))
}

// ---------------------------------------------------------------- second reader

/// What stands in open brackets so far: the products that are done, the factors
/// of the open one, the factor just read, and the `!` before the next.
#[derive(Clone, Default)]
struct Open {
    done: u16,
    product: Option<u16>,
    factor: Option<u16>,
    bangs: usize,
}

impl Open {
    fn close_product(&mut self) -> Option<()> {
        let factor = self.factor.take()?;
        self.done |= factor & self.product.take().unwrap_or(0xffff);
        (self.bangs == 0).then_some(())
    }

    fn take_factor(&mut self, value: u16) -> Option<()> {
        if self.factor.is_some() {
            return None;
        }
        let odd = std::mem::take(&mut self.bangs) % 2 == 1;
        self.factor = Some(if odd { !value } else { value });
        Some(())
    }
}

struct Expression {
    value: u16,
    pins: Vec<String>,
    deepest: usize,
}

fn expression(words: &[&str]) -> Option<Expression> {
    let mut open = vec![Open::default()];
    let mut pins: Vec<String> = Vec::new();
    let mut deepest = 0;
    for &word in words {
        let depth = open.len() - 1;
        let inner = open.last_mut()?;
        match word {
            "!" if inner.factor.is_none() => inner.bangs += 1,
            "'" => inner.factor = Some(!inner.factor?),
            "*" => {
                let factor = inner.factor.take()?;
                inner.product = Some(factor & inner.product.unwrap_or(0xffff));
            }
            "+" => inner.close_product()?,
            "(" if inner.factor.is_none() => {
                deepest = deepest.max(depth + 1);
                open.push(Open::default());
            }
            ")" => {
                inner.close_product()?;
                let value = inner.done;
                open.pop();
                open.last_mut()?.take_factor(value)?;
            }
            "CONST0" => inner.take_factor(0)?,
            "CONST1" => inner.take_factor(0xffff)?,
            _ if is_name(word) => {
                let known = pins.iter().position(|pin| pin == word);
                let pin = known.unwrap_or(pins.len());
                if known.is_none() {
                    pins.push(word.to_string());
                }
                let column = (0..16u32).filter(|row| pin < 4 && row >> pin & 1 == 1).map(|row| 1 << row).sum();
                inner.take_factor(column)?;
            }
            _ => return None,
        }
    }
    let [whole] = &mut open[..] else { return None };
    whole.close_product()?;
    Some(Expression { value: whole.done, pins, deepest })
}

fn is_name(word: &str) -> bool {
    !word.is_empty() && word.chars().all(|c| c == '_' || c.is_ascii_alphanumeric())
}

/// Whole part and decimals of a figure in form.
fn figure(word: &str) -> Option<(&str, &str)> {
    let parts = match word.split_once('.') {
        Some((_, "")) => return None,
        Some(parts) => parts,
        None => (word, ""),
    };
    let digits = |part: &str| part.chars().all(|c| c.is_ascii_digit());
    (!parts.0.is_empty() && digits(parts.0) && digits(parts.1)).then_some(parts)
}

/// The thousandths of a used figure.
fn small((whole, decimals): (&str, &str)) -> Option<u64> {
    let whole = whole.trim_start_matches('0');
    if decimals.len() > 3 || whole.len() > 9 {
        return None;
    }
    let number = |digits: &str| if digits.is_empty() { 0 } else { digits.parse::<u64>().unwrap_or(u64::MAX) };
    let value = 1_000 * number(whole) + number(decimals) * [0, 100, 10, 1][decimals.len()];
    (value <= 65_535).then_some(value)
}

/// A line's words and signs, if its bytes are those of text and it has its end.
fn parted(line: &[u8]) -> Option<String> {
    let text = std::str::from_utf8(line).ok()?;
    let text = text.strip_suffix("\r\n").or(text.strip_suffix('\n'))?;
    let text = text.replace('\t', " ");
    if text.chars().any(|c| c.is_whitespace() && c != ' ') {
        return None;
    }
    let signs = "=;!'*+()";
    Some(text.chars().flat_map(|c| if signs.contains(c) { vec![' ', c, ' '] } else { vec![c] }).collect())
}

/// A PIN line: the name or `*`, rise and fall.
fn pin<'a>(words: &[&'a str]) -> Option<(&'a str, [(&'a str, &'a str); 2])> {
    let &["PIN", name, phase, ref figures @ ..] = words else { return None };
    let figures: Vec<_> = figures.iter().map(|word| figure(word)).collect::<Option<_>>()?;
    let good = figures.len() == 6 && (name == "*" || is_name(name)) && is_name(phase);
    good.then(|| (name, [figures[2], figures[4]]))
}

/// The second reader's outcome.
pub fn judge(text: &[u8]) -> Outcome {
    if text.len() > 65_536 {
        return Err((1, 0));
    }
    let mut groups: Vec<(usize, Vec<&[u8]>)> = Vec::new();
    let mut offset = 0;
    for line in text.split_inclusive(|&byte| byte == 10) {
        let start = line.iter().position(|byte| *byte != b' ' && *byte != b'\t').unwrap_or(line.len());
        let after = &line[start..];
        let is_gate =
            after.starts_with(b"GATE") && !after.get(4).is_some_and(|b| b.is_ascii_alphanumeric() || *b == b'_');
        if is_gate {
            groups.push((offset, Vec::new()));
        }
        groups.last_mut().ok_or((22, offset))?.1.push(line);
        offset += line.len();
    }
    let mut cells = NAMES_LINE.to_string();
    for (offset, lines) in groups {
        let lines: Vec<String> = lines.iter().map(|line| parted(line)).collect::<Option<_>>().ok_or((22, offset))?;
        let words: Vec<Vec<&str>> = lines.iter().map(|line| line.split_whitespace().collect()).collect();
        let ["GATE", name, area, output, "=", middle @ .., ";"] = &words[0][..] else { return Err((22, offset)) };
        let area = figure(area).filter(|_| is_name(name) && is_name(output)).ok_or((22, offset))?;
        let Expression { value, pins, deepest } = expression(middle).ok_or((22, offset))?;
        let listed: Vec<_> = words[1..].iter().map(|words| pin(words)).collect::<Option<_>>().ok_or((22, offset))?;
        let of = |pin: &String| listed.iter().find(|(name, _)| *name == "*" || name == pin);
        let counting: Vec<_> = pins.iter().map(of).collect::<Option<_>>().ok_or((22, offset))?;
        if pins.len() >= 5 || deepest >= 17 {
            return Err((23, offset));
        }
        let used = counting.iter().flat_map(|(_, delays)| *delays);
        let used: Vec<u64> = [area].into_iter().chain(used).map(small).collect::<Option<_>>().ok_or((24, offset))?;
        let table = u32::from(value) & ((1 << (1 << pins.len())) - 1);
        cells += &format!("{name} {} {table:04x} {}", pins.len(), used[0]);
        for pin in 0..4 {
            let delays = used.get(1 + 2 * pin..3 + 2 * pin).unwrap_or(&[]);
            cells += &format!(" {}", delays.iter().max().unwrap_or(&0));
        }
        cells += "\n";
    }
    Ok(cells.into_bytes())
}

// ---------------------------------------------------------------- checks

fn told(case: &Case) -> String {
    let text = String::from_utf8_lossy(&case.genlib[..case.genlib.len().min(2_000)]).into_owned();
    format!("{}\n{text:?}", case.what)
}

fn short(outcome: &Outcome) -> String {
    match outcome {
        Ok(text) => format!("{:?}", String::from_utf8_lossy(&text[..text.len().min(2_000)])),
        Err(refusal) => format!("{refusal:?}"),
    }
}

/// Both readers and the making agree.
fn check(case: &Case, counts: &mut [usize; 25]) -> Result<(), String> {
    let got = outcome(&case.genlib);
    for (who, wanted) in [("made for", case.expected.clone()), ("second reader", Some(judge(&case.genlib)))] {
        let Some(wanted) = wanted else { continue };
        ensure!(got == wanted, "{}\n{who} {}\ngot {}", told(case), short(&wanted), short(&got));
    }
    counts[got.as_ref().err().map_or(0, |&(number, _)| number as usize)] += 1;
    // 18 from both sides.
    if let Ok(text) = got {
        for (memory, number) in [(text.len(), 0), (text.len() + 7, 0), (text.len() - 1, 18), (0, 18)] {
            let (answer, written) = genlib::cells(&case.genlib, memory);
            let wanted = if number == 0 { &text[..] } else { &[] };
            let good = (answer.number, answer.value as usize) == (number, text.len()) && written == wanted;
            ensure!(good, "{}\nwith {memory} bytes {answer:?}", told(case));
        }
    }
    Ok(())
}

fn told_counts(counts: [usize; 25]) -> String {
    let numbers = [0, 1, 22, 23, 24].map(|number| format!("{number}:{}", counts[number]));
    format!("{} texts, by number {}", counts.iter().sum::<usize>(), numbers.join(" "))
}

pub fn edges() -> Check {
    let mut counts = [0; 25];
    for case in genlib_gen::edges() {
        check(&case, &mut counts)?;
    }
    Ok(told_counts(counts))
}

/// Texts made with the cell text that they mean.
pub fn good(cases: usize, seed: u64) -> Check {
    let mut rng = Rng::new(seed);
    let mut counts = [0; 25];
    for _ in 0..cases {
        check(&genlib_gen::good(&mut rng), &mut counts)?;
    }
    ensure!(counts[0] == cases, "a good text is refused");
    Ok(told_counts(counts))
}

/// Texts with any number of faults.
pub fn faults(cases: usize, seed: u64) -> Check {
    let mut rng = Rng::new(seed);
    let mut counts = [0; 25];
    for _ in 0..cases {
        check(&genlib_gen::faults(&mut rng), &mut counts)?;
    }
    ensure!([0, 1, 22, 23, 24].iter().all(|&number| counts[number] > cases / 500), "{}", told_counts(counts));
    Ok(told_counts(counts))
}

/// Damaged texts, every damage of a small one, and every byte at every gap of one.
pub fn damage(cases: usize, seed: u64) -> Check {
    let mut rng = Rng::new(seed);
    let mut counts = [0; 25];
    for _ in 0..cases {
        check(&genlib_gen::damaged(&mut rng), &mut counts)?;
    }
    for case in genlib_gen::all_damage() {
        check(&case, &mut counts)?;
    }
    for genlib in gaps::genlibs() {
        check(&Case { what: "every byte at a gap".into(), genlib, expected: None }, &mut counts)?;
    }
    Ok(told_counts(counts))
}

/// A cell text with area and delays in thousandths.
pub fn times_thousand(cells: &[u8]) -> Vec<u8> {
    let text = String::from_utf8_lossy(cells);
    let mut lines = text.lines();
    let mut more = format!("{}\n", lines.next().unwrap_or_default());
    for line in lines {
        let words = line.split(' ').enumerate();
        let times = |(at, word): (usize, &str)| match word.parse::<u32>() {
            Ok(figure) if at > 2 => (1_000 * figure).to_string(),
            _ => word.to_string(),
        };
        more += &(words.map(times).collect::<Vec<_>>().join(" ") + "\n");
    }
    more.into_bytes()
}

/// The genlibs of a folder: `tiny` and `array` give the cell texts beside them in
/// thousandths; `full` has a delay of 66 or more.
pub fn real(folder: &std::path::Path) -> Check {
    let read = |name: &str| std::fs::read(folder.join(name)).map_err(|error| format!("{name}: {error}"));
    for name in ["tiny", "array"] {
        let case = Case {
            what: name.into(),
            genlib: read(&format!("{name}.genlib"))?,
            expected: Some(Ok(times_thousand(&read(&format!("{name}.txt"))?))),
        };
        check(&case, &mut [0; 25])?;
    }
    let full = read("full.genlib")?;
    let got = outcome(&full);
    let place = match got {
        Err((24, place)) => place,
        _ => return Err(format!("full: {}", short(&got))),
    };
    ensure!(judge(&full) == got && full[place..].starts_with(b"GATE"), "full: {}", short(&got));
    Ok(format!("tiny and array; full is 24 at {place}"))
}
