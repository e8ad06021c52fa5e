//! An AND graph of any size. A text gives two graphs of the same outputs: as it is written, and with equal ANDs merged and constants followed through.
//! Both are without the ANDs and inputs that no output uses. Neither has all covers of the other: merging takes away cuts with redundant leaves, and so
//! matches; and as written, an AND of a literal with itself or with a constant needs a gate.

use std::{
    cmp::Reverse,
    collections::{BinaryHeap, HashMap},
};

/// Literal 2v is variable v, 2v+1 its complement. Variable 0 is constant false, then come the inputs, then the ANDs, operands before their users.
#[derive(Clone, Debug, Default)]
pub struct Aig {
    /// The inputs; of a text, those that an output uses.
    pub inputs: usize,
    /// The operands of each AND, the larger literal first.
    pub ands: Vec<[u32; 2]>,
    pub outputs: Vec<u32>,
    /// The number that each variable has in the text.
    pub numbers: Vec<u32>,
    /// The highest number of the text.
    pub highest: u32,
    /// All inputs of the text.
    pub given: Inputs,
    /// Which of those each input is, ascending.
    pub places: Vec<u32>,
}

/// The inputs of a text, in its order.
#[derive(Clone, Debug, PartialEq, Eq)]
pub enum Inputs {
    /// The variables from 1 on, so many: the binary form names none of them.
    First(u32),
    /// The variables of these numbers.
    Listed(Vec<u32>),
}

impl Default for Inputs {
    fn default() -> Inputs {
        Inputs::First(0)
    }
}

impl Inputs {
    pub fn count(&self) -> usize {
        match self {
            Inputs::First(count) => *count as usize,
            Inputs::Listed(numbers) => numbers.len(),
        }
    }

    /// The number of input k.
    pub fn number(&self, k: usize) -> u32 {
        match self {
            Inputs::First(_) => k as u32 + 1,
            Inputs::Listed(numbers) => numbers[k],
        }
    }
}

impl Aig {
    /// The variables, 0 among them.
    pub fn variables(&self) -> usize {
        1 + self.inputs + self.ands.len()
    }

    /// The operands of a variable that is an AND.
    pub fn operands(&self, variable: u32) -> Option<[u32; 2]> {
        let k = (variable as usize).checked_sub(1 + self.inputs)?;
        self.ands.get(k).copied()
    }

    pub fn is_and(&self, variable: u32) -> bool {
        variable as usize > self.inputs
    }

    /// AIGER's binary form.
    pub fn binary(&self) -> Vec<u8> {
        binary(self.inputs, &self.outputs, &self.ands)
    }
}

/// AIGER's binary form of ANDs in turn behind the inputs, the larger operand first.
pub fn binary(inputs: usize, outputs: &[u32], ands: &[[u32; 2]]) -> Vec<u8> {
    let mut text = format!("aig {} {inputs} 0 {} {}\n", inputs + ands.len(), outputs.len(), ands.len()).into_bytes();
    for output in outputs {
        text.extend(format!("{output}\n").bytes());
    }
    for (k, &[a, b]) in ands.iter().enumerate() {
        for mut difference in [2 * (inputs + k + 1) as u32 - a, a - b] {
            while difference > 127 {
                text.push(difference as u8 & 127 | 128);
                difference >>= 7;
            }
            text.push(difference as u8);
        }
    }
    text
}

/// Makes a graph AND by AND.
#[derive(Default)]
pub struct Builder {
    inputs: usize,
    ands: Vec<[u32; 2]>,
    /// The number of each AND in the text.
    numbers: Vec<u32>,
    known: HashMap<[u32; 2], u32>,
}

impl Builder {
    pub fn new(inputs: usize) -> Builder {
        Builder { inputs, ..Builder::default() }
    }

    pub fn both(&mut self, a: u32, b: u32) -> u32 {
        self.both_as(a, b, 0)
    }

    /// The literal of the AND of two literals; a new AND takes the number.
    pub fn both_as(&mut self, a: u32, b: u32, number: u32) -> u32 {
        let (a, b) = (a.max(b), a.min(b));
        match (a, b) {
            (_, 0) => 0,
            (_, 1) => a,
            _ if a == b => a,
            _ if a == b ^ 1 => 0,
            _ => *self.known.entry([a, b]).or_insert_with(|| {
                self.ands.push([a, b]);
                self.numbers.push(number);
                2 * (self.inputs + self.ands.len()) as u32
            }),
        }
    }

    /// The AND of all of them, as a balanced tree.
    pub fn all(&mut self, mut literals: Vec<u32>) -> u32 {
        while literals.len() > 1 {
            literals = literals
                .chunks(2)
                .map(|pair| match *pair {
                    [a, b] => self.both(a, b),
                    _ => pair[0],
                })
                .collect();
        }
        literals.first().copied().unwrap_or(1)
    }

    /// The graph of these outputs. `input_numbers` are the numbers of the inputs in the text.
    pub fn graph(self, outputs: &[u32], input_numbers: Vec<u32>, highest: u32) -> Aig {
        let mut used = vec![false; 1 + self.inputs + self.ands.len()];
        for output in outputs {
            used[*output as usize / 2] = true;
        }
        for (k, [a, b]) in self.ands.iter().enumerate().rev() {
            if used[1 + self.inputs + k] {
                used[*a as usize / 2] = true;
                used[*b as usize / 2] = true;
            }
        }
        let mut numbers = vec![0];
        numbers.extend(&input_numbers);
        let mut place: Vec<u32> = (0..=self.inputs as u32).collect();
        let (mut ands, mut next) = (Vec::new(), self.inputs as u32);
        for (k, operands) in self.ands.iter().enumerate() {
            let kept = used[1 + self.inputs + k];
            if kept {
                next += 1;
                ands.push(operands.map(|literal| 2 * place[literal as usize / 2] + literal % 2));
                numbers.push(self.numbers[k]);
            }
            place.push(if kept { next } else { 0 });
        }
        let outputs = outputs.iter().map(|literal| 2 * place[*literal as usize / 2] + literal % 2).collect();
        let (given, places) = (Inputs::Listed(input_numbers), (0..self.inputs as u32).collect());
        Aig { inputs: self.inputs, ands, outputs, numbers, highest, given, places }
    }
}

/// A graph's text that is not one: where, as a line or a byte, and why.
#[derive(Debug, PartialEq, Eq)]
pub struct Fault {
    pub place: String,
    pub why: String,
}

fn fault<T>(place: String, why: impl Into<String>) -> Result<T, Fault> {
    Err(Fault { place, why: why.into() })
}

/// The highest variable. What a graph takes is bounded by its text, but for the names of its inputs in the netlist, some 150 MB for so many.
const HIGHEST: u32 = 1 << 24;

/// The place of a fault in a header that is in form.
pub const HEADER: &str = "the header";

struct Reader<'t> {
    text: &'t [u8],
    at: usize,
    line: usize,
}

impl Reader<'_> {
    /// The numbers of the next line, behind a first word where one is due.
    fn line<const FIELDS: usize>(&mut self, word: bool) -> Result<[u32; FIELDS], Fault> {
        self.line += 1;
        let rest = &self.text[self.at..];
        let Some(end) = rest.iter().position(|&byte| byte == b'\n') else {
            return fault(self.place(), "the text ends before the end of a line that is due");
        };
        self.at += end + 1;
        let line = rest[..end].strip_suffix(b"\r").unwrap_or(&rest[..end]);
        let mut fields = line.split(|&byte| byte == b' ').skip(usize::from(word));
        let mut numbers = [0; FIELDS];
        for (k, found) in numbers.iter_mut().enumerate() {
            let field = fields.next().unwrap_or_default();
            match number(field) {
                Some(number) => *found = number,
                None if is_decimal(field) => {
                    let place = if self.line == 1 { HEADER.into() } else { self.place() };
                    return fault(
                        place,
                        format!("number {} of the line exceeds {}, the highest literal", k + 1, 2 * HIGHEST + 1),
                    );
                }
                None => return fault(self.place(), numbers_due(FIELDS)),
            }
        }
        if fields.next().is_some() {
            return fault(self.place(), numbers_due(FIELDS));
        }
        Ok(numbers)
    }

    fn place(&self) -> String {
        format!("line {}", self.line)
    }

    fn difference(&mut self) -> Result<u32, Fault> {
        let start = self.at;
        let (mut value, mut shift) = (0, 0);
        while let Some(&byte) = self.text.get(self.at) {
            self.at += 1;
            value |= u32::from(byte & 127) << shift;
            shift += 7;
            if byte < 128 {
                return Ok(value);
            }
            if shift > 28 {
                return fault(format!("byte {start}"), "a difference has more than five bytes");
            }
        }
        fault(format!("byte {start}"), "the text ends before the end of a difference")
    }
}

fn numbers_due(fields: usize) -> String {
    format!("{fields} numbers are due, with one space between two of them")
}

fn is_decimal(field: &[u8]) -> bool {
    !field.is_empty() && field.iter().all(u8::is_ascii_digit) && (field.len() == 1 || field[0] != b'0')
}

/// A number of the texts, however large a graph may be.
pub fn number(field: &[u8]) -> Option<u32> {
    let text = std::str::from_utf8(field).ok().filter(|_| is_decimal(field))?;
    text.parse().ok().filter(|&number| number <= 2 * HIGHEST + 1)
}

/// A graph's text, read: what it defines, numbered in turn. What it takes is bounded by the text's length, whatever the header says.
pub struct Text {
    highest: u32,
    inputs: Inputs,
    /// Literals as `operands` has them.
    outputs: Vec<u32>,
    /// The ANDs, operands before their users: 0 is constant false, then come all inputs, then these ANDs.
    operands: Vec<[u32; 2]>,
    /// The number of each AND in the text.
    numbers: Vec<u32>,
}

/// Reads either form of AIGER: the graph with equal ANDs merged, and with all inputs of the text.
pub fn read(text: &[u8]) -> Result<Aig, Fault> {
    Ok(Text::read(text)?.merged_with(true))
}

impl Text {
    /// Reads either form of AIGER.
    pub fn read(text: &[u8]) -> Result<Text, Fault> {
        let written = lines(text)?;
        let defined = Defined::new(&written)?;
        let (outputs, operands) = defined.literals(&written)?;
        let first = written.inputs.count() as u32 + 1;
        if defined.is_in_turn() && is_ordered(&operands, first) {
            let numbers = written.ands.iter().map(|and| and.variable).collect();
            return Ok(Text { highest: written.highest, inputs: written.inputs, outputs, operands, numbers });
        }
        let order = topological(&written, &operands, first)?;
        let mut place = vec![0; order.len()];
        for (to, &k) in order.iter().enumerate() {
            place[k] = to as u32;
        }
        let moved = |literal: u32| match (literal / 2).checked_sub(first) {
            Some(k) => 2 * (first + place[k as usize]) + literal % 2,
            None => literal,
        };
        Ok(Text {
            highest: written.highest,
            outputs: outputs.into_iter().map(moved).collect(),
            operands: order.iter().map(|&k| operands[k].map(moved)).collect(),
            numbers: order.iter().map(|&k| written.ands[k].variable).collect(),
            inputs: written.inputs,
        })
    }

    /// How many inputs it has.
    pub fn inputs(&self) -> usize {
        self.inputs.count()
    }

    /// The ANDs that an output uses, and the inputs that it uses, or all of them.
    fn used(&self, all_inputs: bool) -> (Vec<bool>, Vec<u32>) {
        let first = self.inputs.count() as u32 + 1;
        let mut used = vec![false; self.operands.len()];
        let mut places = Vec::new();
        let mut mark = |used: &mut Vec<bool>, literal: u32| match (literal / 2).checked_sub(first) {
            Some(k) => used[k as usize] = true,
            None if literal > 1 && !all_inputs => places.push(literal / 2 - 1),
            None => {}
        };
        self.outputs.iter().for_each(|&literal| mark(&mut used, literal));
        for k in (0..used.len()).rev() {
            if used[k] {
                self.operands[k].into_iter().for_each(|literal| mark(&mut used, literal));
            }
        }
        places.sort_unstable();
        places.dedup();
        if all_inputs {
            places = (0..first - 1).collect();
        }
        (used, places)
    }

    /// The graph as it is written: no AND is merged or left out that an output uses.
    pub fn as_written(&self) -> Aig {
        let (used, places) = self.used(false);
        let mut place = vec![0; used.len()];
        let of = |place: &[u32], literal: u32| self.moved(literal, &places, |k| 2 * place[k]);
        let (mut ands, mut numbers) = (Vec::new(), self.input_numbers(&places));
        for k in (0..used.len()).filter(|&k| used[k]) {
            let [a, b] = self.operands[k].map(|literal| of(&place, literal));
            ands.push([a.max(b), a.min(b)]);
            numbers.push(self.numbers[k]);
            place[k] = (places.len() + ands.len()) as u32;
        }
        let outputs = self.outputs.iter().map(|&literal| of(&place, literal)).collect();
        let (given, highest) = (self.inputs.clone(), self.highest);
        Aig { inputs: places.len(), ands, outputs, numbers, highest, given, places }
    }

    /// The graph with equal ANDs merged and constants followed through. It has the inputs of the graph as it is written.
    pub fn merged(&self) -> Aig {
        self.merged_with(false)
    }

    fn merged_with(&self, all_inputs: bool) -> Aig {
        let (used, places) = self.used(all_inputs);
        let mut builder = Builder::new(places.len());
        let mut made = vec![0; used.len()];
        for k in (0..used.len()).filter(|&k| used[k]) {
            let [a, b] = self.operands[k].map(|literal| self.moved(literal, &places, |k| made[k]));
            made[k] = builder.both_as(a, b, self.numbers[k]);
        }
        let outputs: Vec<u32> = self.outputs.iter().map(|&literal| self.moved(literal, &places, |k| made[k])).collect();
        let numbers = self.input_numbers(&places).split_off(1);
        let graph = builder.graph(&outputs, numbers, self.highest);
        Aig { given: self.inputs.clone(), places, ..graph }
    }

    /// A literal over the inputs at these places, and the literals that its ANDs have become.
    fn moved(&self, literal: u32, places: &[u32], and: impl Fn(usize) -> u32) -> u32 {
        let all = self.inputs.count();
        let variable = literal as usize / 2;
        if variable == 0 {
            return literal;
        }
        if variable > all {
            return and(variable - all - 1) ^ literal % 2;
        }
        let place = variable as u32 - 1;
        let input = if places.len() == all { Ok(place as usize) } else { places.binary_search(&place) };
        2 * (input.unwrap_or_default() as u32 + 1) + literal % 2
    }

    /// The number of variable 0, and of the inputs at these places.
    fn input_numbers(&self, places: &[u32]) -> Vec<u32> {
        std::iter::once(0).chain(places.iter().map(|&k| self.inputs.number(k as usize))).collect()
    }
}

/// A text as its lines have it.
struct Written {
    highest: u32,
    inputs: Inputs,
    /// Each literal, and its line.
    outputs: Vec<(u32, usize)>,
    ands: Vec<WrittenAnd>,
}

struct WrittenAnd {
    variable: u32,
    operands: [u32; 2],
    line: usize,
}

fn lines(text: &[u8]) -> Result<Written, Fault> {
    let is_binary = text.starts_with(b"aig ");
    if !is_binary && !text.starts_with(b"aag ") {
        return fault("line 1".into(), "the first line is `aag M I L O A` or `aig M I L O A`");
    }
    let mut reader = Reader { text, at: 0, line: 0 };
    let [highest, inputs, latches, outputs, ands] = reader.line(true)?;
    if latches != 0 {
        return fault(HEADER.into(), "the graph has latches: map the logic between them");
    }
    if highest > HIGHEST {
        return fault(HEADER.into(), format!("M exceeds {HIGHEST}"));
    }
    if u64::from(inputs) + u64::from(ands) > u64::from(highest) {
        return fault(HEADER.into(), "I + A exceeds M");
    }
    if is_binary && inputs + ands != highest {
        return fault(HEADER.into(), "M is not I + A");
    }
    // No line is shorter than two bytes: a header that promises more than the text has asks for no memory.
    let due = u64::from(outputs) + u64::from(ands) + if is_binary { 0 } else { u64::from(inputs) };
    if 2 * due > text.len() as u64 {
        return fault(HEADER.into(), "the text is shorter than the header says");
    }
    let listed = if is_binary { Inputs::First(inputs) } else { input_lines(&mut reader, inputs)? };
    let mut written = Written { highest, inputs: listed, outputs: Vec::new(), ands: Vec::new() };
    for _ in 0..outputs {
        let [literal] = reader.line(false)?;
        written.outputs.push((literal, reader.line));
    }
    for k in 1..=ands {
        let and = if is_binary { difference_pair(&mut reader, 2 * (inputs + k))? } else { and_line(&mut reader)? };
        written.ands.push(and);
    }
    Ok(written)
}

fn input_lines(reader: &mut Reader, inputs: u32) -> Result<Inputs, Fault> {
    let mut listed = Vec::new();
    for _ in 0..inputs {
        let [literal] = reader.line(false)?;
        if literal % 2 == 1 || literal == 0 {
            return fault(reader.place(), "an input's literal is even and not 0");
        }
        listed.push(literal / 2);
    }
    Ok(Inputs::Listed(listed))
}

fn difference_pair(reader: &mut Reader, left: u32) -> Result<WrittenAnd, Fault> {
    let start = reader.at;
    let (one, two) = (reader.difference()?, reader.difference()?);
    match left.checked_sub(one).filter(|_| one > 0).and_then(|first| Some([first, first.checked_sub(two)?])) {
        Some(operands) => Ok(WrittenAnd { variable: left / 2, operands, line: 0 }),
        None => {
            fault(format!("byte {start}"), "a first difference is 0, or a difference exceeds what it is taken from")
        }
    }
}

fn and_line(reader: &mut Reader) -> Result<WrittenAnd, Fault> {
    let [left, one, two] = reader.line(false)?;
    if left % 2 == 1 || left == 0 {
        return fault(reader.place(), "the left literal of an AND is even and not 0");
    }
    Ok(WrittenAnd { variable: left / 2, operands: [one, two], line: reader.line })
}

/// Which input or AND has a number: they count from 1, the inputs first.
enum Defined {
    /// Each has its own number, up to this one.
    InTurn(u32),
    /// The numbers, ascending, and what has each.
    Sorted(Vec<(u32, u32)>),
}

impl Defined {
    /// No number is above M, and none stands twice.
    fn new(written: &Written) -> Result<Defined, Fault> {
        let inputs = written.inputs.count() as u32;
        let all = inputs + written.ands.len() as u32;
        let Inputs::Listed(listed) = &written.inputs else { return Ok(Defined::InTurn(all)) };
        let numbers = || listed.iter().copied().chain(written.ands.iter().map(|and| and.variable));
        if numbers().zip(1..).all(|(number, k)| number == k) {
            return Ok(Defined::InTurn(all));
        }
        let line = |k: u32| match k.checked_sub(inputs) {
            Some(and) => format!("line {}", written.ands[and as usize].line),
            None => format!("line {}", k + 2),
        };
        let mut sorted: Vec<(u32, u32)> = numbers().zip(1..).collect();
        sorted.sort_unstable();
        let repeated = sorted.windows(2).filter(|pair| pair[0].0 == pair[1].0).map(|pair| pair[1].1 - 1).min();
        let beyond = numbers().position(|number| number > written.highest).map(|k| k as u32);
        let number = |k: u32| numbers().nth(k as usize).unwrap_or_default();
        match (beyond, repeated) {
            (Some(k), repeated) if repeated.is_none_or(|other| k < other) => {
                fault(line(k), format!("variable {} exceeds M", number(k)))
            }
            (_, Some(k)) => fault(line(k), format!("variable {} is already defined", number(k))),
            _ => Ok(Defined::Sorted(sorted)),
        }
    }

    fn is_in_turn(&self) -> bool {
        matches!(self, Defined::InTurn(_))
    }

    fn literal(&self, literal: u32) -> Option<u32> {
        let variable = literal / 2;
        let place = match self {
            _ if variable == 0 => 0,
            Defined::InTurn(all) => (variable <= *all).then_some(variable)?,
            Defined::Sorted(sorted) => {
                let at = sorted.binary_search_by_key(&variable, |(number, _)| *number).ok()?;
                sorted[at].1
            }
        };
        Some(2 * place + literal % 2)
    }

    /// The outputs and the operands of the ANDs, as literals of what is defined.
    fn literals(&self, written: &Written) -> Result<(Vec<u32>, Vec<[u32; 2]>), Fault> {
        let of = |literal: u32, line: usize| match self.literal(literal) {
            Some(literal) => Ok(literal),
            None => fault(format!("line {line}"), format!("no line defines the variable of literal {literal}")),
        };
        let outputs = written.outputs.iter().map(|&(literal, line)| of(literal, line)).collect::<Result<_, _>>()?;
        let operands = |and: &WrittenAnd| Ok([of(and.operands[0], and.line)?, of(and.operands[1], and.line)?]);
        Ok((outputs, written.ands.iter().map(operands).collect::<Result<_, _>>()?))
    }
}

/// Whether every AND stands behind its operands.
fn is_ordered(operands: &[[u32; 2]], first: u32) -> bool {
    operands.iter().zip(first..).all(|(operands, own)| operands.iter().all(|literal| literal / 2 < own))
}

/// The ANDs in topological order, document 01's placing order: again and again the lowest-numbered one whose operands are both placed.
fn topological(written: &Written, operands: &[[u32; 2]], first: u32) -> Result<Vec<usize>, Fault> {
    let mut waits = vec![0u8; operands.len()];
    let mut users: Vec<Vec<u32>> = vec![Vec::new(); operands.len()];
    let mut ready = BinaryHeap::new();
    for (k, operands) in operands.iter().enumerate() {
        for source in operands.iter().filter_map(|literal| (literal / 2).checked_sub(first)) {
            waits[k] += 1;
            users[source as usize].push(k as u32);
        }
        if waits[k] == 0 {
            ready.push(Reverse((written.ands[k].variable, k)));
        }
    }
    let mut order = Vec::with_capacity(operands.len());
    while let Some(Reverse((_, k))) = ready.pop() {
        order.push(k);
        for &user in &users[k] {
            waits[user as usize] -= 1;
            if waits[user as usize] == 0 {
                ready.push(Reverse((written.ands[user as usize].variable, user as usize)));
            }
        }
    }
    if order.len() < operands.len() {
        let waiting = (0..waits.len()).filter(|&k| waits[k] > 0).map(|k| written.ands[k].variable);
        let stuck = waiting.min().unwrap_or_default();
        return fault(format!("variable {stuck}"), "the AND waits, directly or not, for itself");
    }
    Ok(order)
}

#[cfg(test)]
mod tests {
    use super::*;

    #[test]
    fn equal_ands_stand_once_and_constants_are_followed() {
        let graph = read(b"aag 8 2 0 3 5\n2\n4\n16\n11\n14\n6 2 4\n8 4 2\n10 6 9\n14 6 8\n16 14 1\n").unwrap();
        assert_eq!(graph.ands, [[4, 2]]);
        assert_eq!(graph.outputs, [6, 1, 6]);
        assert_eq!(graph.numbers, [0, 1, 2, 3]);
    }

    /// The same text as it is written: five ANDs, of which the outputs use all; inputs that no output uses are left out, and known by their places.
    #[test]
    fn as_written_nothing_is_merged() {
        let text =
            Text::read(b"aag 99 4 0 3 6\n40\n2\n4\n60\n16\n11\n14\n6 2 4\n8 4 2\n10 6 9\n14 6 8\n16 14 1\n20 40 60\n")
                .unwrap();
        let graph = text.as_written();
        assert_eq!(graph.ands, [[4, 2], [4, 2], [9, 6], [8, 6], [12, 1]]);
        assert_eq!((&graph.outputs[..], &graph.numbers[..]), (&[14, 11, 12][..], &[0, 1, 2, 3, 4, 5, 7, 8][..]));
        assert_eq!((graph.inputs, &graph.places[..]), (2, &[1, 2][..]));
        assert_eq!(graph.given, Inputs::Listed(vec![20, 1, 2, 30]));
        let merged = text.merged();
        assert_eq!((merged.inputs, &merged.ands[..], &merged.outputs[..]), (2, &[[4, 2]][..], &[6, 1, 6][..]));
        assert_eq!(merged.places, graph.places);
    }

    /// A header that promises inputs without a text for them takes no memory for them.
    #[test]
    fn inputs_that_no_output_uses_are_counted_alone() {
        let graph = Text::read(b"aig 16777216 16777216 0 1 0\n33554433\n").unwrap().as_written();
        assert_eq!((graph.inputs, &graph.outputs[..], &graph.places[..]), (1, &[3][..], &[16_777_215][..]));
        assert_eq!((graph.given.count(), graph.given.number(16_777_215)), (16_777_216, 16_777_216));
    }

    #[test]
    fn both_forms_are_one_graph() {
        let graph = read(b"aag 4 2 0 1 2\r\n2\n4\n9\r\n8 6 3\n6 4 2\n").unwrap();
        let twin = read(&graph.binary()).unwrap();
        assert_eq!((&graph.ands, &graph.outputs), (&twin.ands, &twin.outputs));
    }

    #[test]
    fn what_is_no_graph_is_said() {
        let why = |text: &[u8]| read(text).unwrap_err().why;
        assert!(why(b"aag 1 0 0 0 1\n2 2 2\n").contains("waits"));
        assert!(why(b"aag 2 1 0 1 1\n2\n4\n4 2 6\n").contains("no line defines"));
        assert!(why(b"aag 9999999 9999999 0 0 0\n").contains("shorter than the header"));
        assert!(why(b"aig 1 0 0 0 1\n\x00\x00").contains("first difference"));
        assert!(why(b"aag 1 0 1 0 0\n2\n").contains("latches"));
        assert!(why(b"aag 2 2 0 0 0\n2\n2\n").contains("already defined"));
        assert!(why(b"aag 2 2 0 0 0\n6\n6\n").contains("variable 3 exceeds M"));
        assert!(why(b"aag 3 1 0 0 2\n6\n4 2 2\n4 6 6\n").contains("variable 2 is already defined"));
        assert!(why(b"aag 4294967295 0 0 0 0\n").contains("number 1 of the line exceeds"));
        assert!(why(b"aag 1 2 3 4\n").contains("5 numbers are due"));
    }
}
