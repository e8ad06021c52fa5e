//! A graph of either form, read as far as it can be read: for the line, the AND or the name that a message shows.

use crate::lines::{large_number, line_at};
use std::collections::HashMap;

pub struct And {
    pub left: usize,
    pub operands: [usize; 2],
    /// The line's number in the ASCII form.
    pub line: Option<usize>,
}

impl And {
    pub fn variable(&self) -> usize {
        self.left / 2
    }

    /// As the ASCII form has it.
    pub fn text(&self) -> String {
        format!("{} {} {}", self.left, self.operands[0], self.operands[1])
    }
}

pub struct Graph {
    pub binary: bool,
    /// M, I, L, O and A.
    pub header: [usize; 5],
    /// The literals of the inputs, of the outputs, and the ANDs, up to the first line that cannot be read.
    pub inputs: Vec<usize>,
    pub outputs: Vec<usize>,
    pub ands: Vec<And>,
    /// Where the differences of the binary form begin.
    body: usize,
    input_names: HashMap<usize, String>,
    output_names: HashMap<usize, String>,
}

/// The numbers of the line at `at`, and where the next one begins.
fn numbers(text: &[u8], at: usize) -> Option<(Vec<usize>, usize)> {
    if at >= text.len() {
        return None;
    }
    // Not by `line_at`, which counts the lines above.
    let line = text[at..].split(|&byte| byte == b'\n').next()?;
    let fields = line.strip_suffix(b"\r").unwrap_or(line).split(|&byte| byte == b' ');
    let read = fields.map(large_number).collect::<Option<Vec<_>>>()?;
    Some((read, at + line.len() + 1))
}

/// The difference at `at`, and where the next one begins.
fn difference(text: &[u8], mut at: usize) -> Option<(usize, usize)> {
    let (mut value, mut shift) = (0, 0);
    loop {
        let byte = *text.get(at)?;
        value |= usize::from(byte & 127) << shift;
        at += 1;
        shift += 7;
        if byte < 128 {
            return Some((value, at));
        }
        if shift > 28 {
            return None;
        }
    }
}

impl Graph {
    pub fn read(text: &[u8]) -> Option<Graph> {
        let header = arraymap::header(text)?;
        let line = line_at(text, 0);
        let mut at = line.bytes.len() + usize::from(line.carriage) + 1;
        let mut graph = Graph {
            binary: text.starts_with(b"aig "),
            header,
            inputs: Vec::new(),
            outputs: Vec::new(),
            ands: Vec::new(),
            body: text.len(),
            input_names: HashMap::new(),
            output_names: HashMap::new(),
        };
        if graph.read_due(text, &mut at).is_some() {
            graph.read_names(text, at);
        }
        Some(graph)
    }

    fn read_due(&mut self, text: &[u8], at: &mut usize) -> Option<()> {
        let [_, inputs, latches, outputs, ands] = self.header;
        if latches != 0 {
            return None;
        }
        let mut line = 1;
        let mut next = |at: &mut usize, fields: usize| {
            let (read, after) = numbers(text, *at)?;
            *at = after;
            line += 1;
            (read.len() == fields).then_some((read, line))
        };
        if self.binary {
            // A header alone may promise any number of them. Nobody asks for those of a graph that one call does not take.
            self.inputs = (1..=inputs.min(4_095)).map(|variable| 2 * variable).collect();
        } else {
            for _ in 0..inputs {
                self.inputs.push(next(at, 1)?.0[0]);
            }
        }
        for _ in 0..outputs {
            self.outputs.push(next(at, 1)?.0[0]);
        }
        self.body = *at;
        for k in 1..=ands {
            if self.binary {
                let left = 2 * (inputs + k);
                let (one, after) = difference(text, *at)?;
                let (two, after) = difference(text, after)?;
                *at = after;
                let first = left.checked_sub(one)?;
                self.ands.push(And { left, operands: [first, first.checked_sub(two)?], line: None });
            } else {
                let (read, line) = next(at, 3)?;
                self.ands.push(And { left: read[0], operands: [read[1], read[2]], line: Some(line) });
            }
        }
        Some(())
    }

    /// The symbol table behind the last AND: lines as `i0 NAME` and `o0 NAME`, up to the comments.
    fn read_names(&mut self, text: &[u8], at: usize) {
        for line in text.get(at..).unwrap_or_default().split(|&byte| byte == b'\n') {
            let line = String::from_utf8_lossy(line.strip_suffix(b"\r").unwrap_or(line));
            let Some((place, name)) = line.split_once(' ') else { break };
            let names = match place.chars().next() {
                Some('i') => &mut self.input_names,
                Some('o') => &mut self.output_names,
                _ => break,
            };
            let Ok(k) = place[1..].parse() else { break };
            names.insert(k, name.into());
        }
    }

    pub fn input_name(&self, k: usize) -> Option<&str> {
        self.input_names.get(&k).map(String::as_str)
    }

    pub fn output_name(&self, k: usize) -> Option<&str> {
        self.output_names.get(&k).map(String::as_str)
    }

    /// The inputs that each symbol names, from 0.
    pub fn inputs_by_name(&self) -> HashMap<&str, Vec<usize>> {
        let mut inputs: HashMap<&str, Vec<usize>> = HashMap::new();
        for (&k, name) in self.input_names.iter().filter(|(&k, _)| k < self.header[1]) {
            inputs.entry(name).or_default().push(k);
        }
        inputs.values_mut().for_each(|inputs| inputs.sort_unstable());
        inputs
    }

    /// The outputs that a word names, from 0: those that have it as their symbol, or else the one that the netlist calls so.
    pub fn outputs_named(&self, word: &str) -> Vec<usize> {
        let outputs = 0..self.header[3];
        let named: Vec<usize> = outputs.clone().filter(|&k| self.output_name(k) == Some(word)).collect();
        if named.is_empty() {
            return outputs.filter(|k| word == format!("o{k}")).collect();
        }
        named
    }

    pub fn and(&self, variable: usize) -> Option<&And> {
        self.ands.iter().find(|and| and.variable() == variable)
    }

    /// The number of the line that has the output, where the form has one.
    pub fn output_line(&self, k: usize) -> usize {
        2 + k + if self.binary { 0 } else { self.header[1] }
    }

    /// What is due on the line with that number.
    pub fn due(&self, line: usize) -> Due {
        let [_, inputs, _, outputs, _] = self.header;
        let inputs = if self.binary { 0 } else { inputs };
        match line.saturating_sub(2) {
            k if k < inputs => Due::Input(k),
            k if k < inputs + outputs => Due::Output(k - inputs),
            k => Due::And(k - inputs - outputs),
        }
    }

    /// The value of a literal in a setting: input k has bit k.
    pub fn value(&self, literal: usize, setting: usize) -> Option<bool> {
        let mut known = vec![None; self.header[0] + 1];
        known[0] = Some(false);
        for (k, input) in self.inputs.iter().enumerate() {
            *known.get_mut(input / 2)? = Some(setting >> k & 1 == 1);
        }
        let of = |known: &[Option<bool>], literal: usize| Some((*known.get(literal / 2)?)? ^ (literal % 2 == 1));
        // AND lines stand in any order: over them again until nothing is left to learn.
        let mut left: Vec<&And> = self.ands.iter().collect();
        loop {
            let before = left.len();
            left.retain(|and| {
                let [one, other] = and.operands.map(|operand| of(&known, operand));
                let value = one.zip(other).map(|(one, other)| one & other);
                known[and.variable()] = value;
                value.is_none()
            });
            if left.len() == before {
                return of(&known, literal);
            }
        }
    }

    /// The line that defines the variable, above the one with number `before`.
    pub fn defined_on(&self, variable: usize, before: usize) -> Option<usize> {
        let input = self.inputs.iter().position(|literal| literal / 2 == variable).map(|k| k + 2);
        let and = self.ands.iter().find(|and| and.variable() == variable).and_then(|and| and.line);
        [input, and].into_iter().flatten().find(|&line| line < before)
    }

    pub fn is_defined(&self, variable: usize) -> bool {
        variable == 0 || self.inputs.iter().any(|literal| literal / 2 == variable) || self.and(variable).is_some()
    }

    /// What is known of the difference at that byte.
    pub fn difference_at(&self, text: &[u8], byte: usize) -> Option<Difference> {
        let mut at = self.body;
        for k in 0..self.header[4] {
            let variable = self.header[1] + 1 + k;
            let mut from = 2 * variable;
            for which in ["first", "second"] {
                let read = difference(text, at);
                if at == byte {
                    return Some(Difference { variable, which, from, value: read.map(|(value, _)| value) });
                }
                let (value, after) = read?;
                (from, at) = (from.checked_sub(value)?, after);
            }
        }
        None
    }

    /// Variables that wait for one another in turn, the last for the first, behind a variable that cannot be placed.
    pub fn circle(&self, variable: usize) -> Vec<usize> {
        let of: HashMap<usize, &And> = self.ands.iter().map(|and| (and.variable(), and)).collect();
        let waits = |v: usize| of.get(&v).map_or([0, 0], |and| and.operands.map(|literal| literal / 2));
        // How many ANDs wait directly for each variable are placed as it is placed; what is left waits on a circle or behind one.
        let mut users: HashMap<usize, Vec<usize>> = HashMap::new();
        let mut open: HashMap<usize, usize> = HashMap::new();
        for &v in of.keys() {
            open.insert(v, waits(v).iter().filter(|w| of.contains_key(w)).count());
            for w in waits(v) {
                users.entry(w).or_default().push(v);
            }
        }
        let mut ready: Vec<usize> = open.iter().filter(|(_, &n)| n == 0).map(|(&v, _)| v).collect();
        while let Some(v) = ready.pop() {
            open.remove(&v);
            for user in users.remove(&v).unwrap_or_default() {
                let Some(left) = open.get_mut(&user) else { continue };
                *left -= 1;
                if *left == 0 {
                    ready.push(user);
                }
            }
        }
        let (mut path, mut v) = (Vec::new(), variable);
        while open.contains_key(&v) {
            if let Some(start) = path.iter().position(|&w| w == v) {
                return path.split_off(start);
            }
            path.push(v);
            let [one, other] = waits(v);
            v = if open.contains_key(&one) { one } else { other };
        }
        Vec::new()
    }
}

pub struct Difference {
    /// The variable of its AND.
    pub variable: usize,
    pub which: &'static str,
    /// The literal that it is taken from.
    pub from: usize,
    /// None where the text ends before its end.
    pub value: Option<usize>,
}

pub enum Due {
    Input(usize),
    Output(usize),
    And(usize),
}
