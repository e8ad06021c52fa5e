//! AIGER in its ASCII or its binary form, line by line. It shares no code with the mapper's readers, and keeps every AND that the text has.

use super::{
    graph::{topological_order, Graph},
    Names,
};
use std::collections::HashMap;

/// A graph, and the names that its netlist gives to inputs and outputs.
pub struct Aiger {
    pub graph: Graph,
    pub inputs: Names,
    pub outputs: Names,
    /// The largest number of the header.
    pub largest: u64,
}

struct Lines<'t> {
    rest: &'t [u8],
    number: usize,
}

impl<'t> Lines<'t> {
    /// The next line's numbers, behind `word` where one is expected.
    fn numbers<const N: usize>(&mut self, word: &[u8]) -> Result<[u64; N], String> {
        self.number += 1;
        let number = self.number;
        let wrong = |what: &str| format!("line {number} of the graph: {what}");
        let end = self.rest.iter().position(|byte| *byte == b'\n').ok_or_else(|| wrong("the text ends"))?;
        let line = self.rest[..end].strip_suffix(b"\r").unwrap_or(&self.rest[..end]);
        self.rest = &self.rest[end + 1..];
        let line = line.strip_prefix(word).ok_or_else(|| wrong("not the header of an AIGER text"))?;
        let mut numbers = [0; N];
        let mut fields = line.split(|byte| *byte == b' ');
        for found in &mut numbers {
            *found = fields.next().and_then(decimal).ok_or_else(|| wrong("a number is expected"))?;
        }
        fields.next().map_or(Ok(numbers), |_| Err(wrong("the line has further fields")))
    }

    /// A difference of the binary form: seven bits a byte, the lowest first.
    fn difference(&mut self) -> Result<u64, String> {
        let mut value = 0;
        for k in 0..5 {
            let (byte, rest) = self.rest.split_first().ok_or("the binary part of the graph ends early")?;
            self.rest = rest;
            value |= u64::from(byte & 0x7f) << (7 * k);
            if byte & 0x80 == 0 {
                return Ok(value);
            }
        }
        Err("a difference in the binary part of the graph has more than five bytes".into())
    }
}

fn decimal(field: &[u8]) -> Option<u64> {
    let digits = (1..=10).contains(&field.len()) && field.iter().all(u8::is_ascii_digit);
    digits.then(|| field.iter().fold(0, |value, digit| 10 * value + u64::from(digit - b'0')))
}

/// What stands for a literal whose variable is defined.
fn literal_of(literal: u64, number: &HashMap<u64, u32>) -> Result<u32, String> {
    match number.get(&(literal / 2)) {
        Some(number) => Ok(2 * number + (literal % 2) as u32),
        None => Err(format!("literal {literal} of the graph has no definition")),
    }
}

pub fn read(text: &[u8]) -> Result<Aiger, String> {
    let is_binary = text.starts_with(b"aig ");
    let mut lines = Lines { rest: text, number: 0 };
    let header: [u64; 5] = lines.numbers(if is_binary { b"aig " } else { b"aag " })?;
    let [highest, inputs, latches, outputs, ands] = header;
    let largest = header.into_iter().max().unwrap_or_default();
    if latches > 0
        || inputs + ands > highest
        || is_binary && inputs + ands < highest
        || highest > u64::from(u32::MAX / 4)
    {
        return Err("line 1 of the graph: the header's numbers do not agree".into());
    }
    let read = if is_binary { binary(&mut lines, inputs, outputs, ands) } else { ascii(&mut lines, header) };
    let (numbers, ands, outputs) = read?;
    let graph = Graph::of_cones(numbers.len(), &ands, &outputs);
    Ok(Aiger {
        outputs: Names::Counted { first: "o", count: outputs.len() },
        inputs: Names::Numbered { first: "p", numbers },
        graph,
        largest,
    })
}

/// The variables of the inputs, the operands of the ANDs and the outputs, in literals behind the inputs.
type Parts = (Vec<u32>, Vec<[u32; 2]>, Vec<u32>);

fn binary(lines: &mut Lines, inputs: u64, outputs: u64, ands: u64) -> Result<Parts, String> {
    let limit = 2 * (inputs + ands) + 1;
    let mut literals = Vec::new();
    for _ in 0..outputs {
        let [literal] = lines.numbers(b"")?;
        if literal > limit {
            return Err(format!("literal {literal} of the graph has no definition"));
        }
        literals.push(literal as u32);
    }
    let mut operands = Vec::new();
    for k in 0..ands {
        let left = 2 * (inputs + k + 1);
        let one = left.checked_sub(lines.difference()?).filter(|one| *one < left);
        let other = one.and_then(|one| Some(one.checked_sub(lines.difference().ok()?)));
        let (Some(one), Some(Some(other))) = (one, other) else {
            return Err(format!("the AND {left} of the graph has an operand that does not stand before it"));
        };
        operands.push([one as u32, other as u32]);
    }
    Ok(((1..=inputs as u32).collect(), operands, literals))
}

fn ascii(lines: &mut Lines, [highest, inputs, _, outputs, ands]: [u64; 5]) -> Result<Parts, String> {
    let mut number: HashMap<u64, u32> = HashMap::from([(0, 0)]);
    let mut define = |literal: u64, as_: u32| match number.insert(literal / 2, as_) {
        None if literal % 2 == 0 && literal / 2 <= highest => Ok(literal / 2),
        _ => Err(format!("literal {literal} of the graph cannot be defined")),
    };
    let mut variables = Vec::new();
    for k in 0..inputs {
        let [literal] = lines.numbers(b"")?;
        variables.push(define(literal, k as u32 + 1)? as u32);
    }
    let mut literals = Vec::new();
    for _ in 0..outputs {
        let [literal] = lines.numbers(b"")?;
        literals.push(literal);
    }
    let mut written = Vec::new();
    for k in 0..ands {
        let [left, one, other] = lines.numbers(b"")?;
        define(left, (inputs + k) as u32 + 1)?;
        written.push([one, other]);
    }
    // The ANDs stand in any order.
    let first = 1 + variables.len();
    let operands: Result<Vec<[u32; 2]>, String> =
        written.iter().map(|[one, other]| Ok([literal_of(*one, &number)?, literal_of(*other, &number)?])).collect();
    let operands = operands?;
    let outputs: Result<Vec<u32>, String> = literals.iter().map(|literal| literal_of(*literal, &number)).collect();
    let needs = |k: usize, needed: &mut Vec<usize>| {
        needed.extend(operands[k].iter().filter_map(|operand| (*operand as usize / 2).checked_sub(first)));
    };
    let order = topological_order(operands.len(), needs)
        .map_err(|k| format!("the AND {} of the graph is on a cycle", variable_of(&number, first + k)))?;
    let mut place = vec![0; operands.len()];
    for (at, k) in order.iter().enumerate() {
        place[*k] = at;
    }
    let moved = |literal: u32| match (literal as usize / 2).checked_sub(first) {
        Some(k) => 2 * (first + place[k]) as u32 + literal % 2,
        None => literal,
    };
    let ands = order.iter().map(|k| operands[*k].map(moved)).collect();
    Ok((variables, ands, outputs?.into_iter().map(moved).collect()))
}

fn variable_of(number: &HashMap<u64, u32>, of: usize) -> u64 {
    number.iter().find(|(_, number)| **number as usize == of).map_or(0, |(variable, _)| *variable)
}

#[cfg(test)]
mod tests {
    use super::*;

    fn why(text: &[u8]) -> String {
        read(text).err().unwrap_or_default()
    }

    #[test]
    fn nothing_is_merged_or_simplified() {
        // Equal ANDs, an AND of a literal and its complement, one with a constant: all stand, in topological order.
        let Aiger { graph, .. } =
            read(b"aag 8 2 0 2 5\n2\n4\n16\n11\n16 14 1\n6 2 4\n8 4 2\n10 6 9\n14 8 9\n").unwrap();
        assert_eq!(graph.ands.len(), 5);
        assert_eq!(graph.support, [0, 1]);
        assert!(graph.ands.iter().enumerate().all(|(k, ands)| ands.iter().all(|literal| literal / 2 < k as u32 + 3)));
    }

    #[test]
    fn both_forms_and_both_line_ends() {
        let ascii = read(b"aag 4 2 0 1 2\r\n2\r\n4\r\n9\r\n8 6 3\n6 4 2\ni0 x\nc\nremark\n").unwrap().graph;
        let binary = read(b"aig 4 2 0 1 2\r\n9\r\n\x02\x02\x02\x03i0 x\n").unwrap().graph;
        assert_eq!(ascii, binary);
        assert_eq!(binary.ands, [[4, 2], [6, 3]]);
    }

    #[test]
    fn names_are_those_of_the_text() {
        let Aiger { inputs, outputs, .. } = read(b"aag 9 2 0 1 0\n18\n4\n18\n").unwrap();
        assert!(inputs.is(0, b"p9") && inputs.is(1, b"p2") && !inputs.is(0, b"p2") && outputs.is(0, b"o0"));
    }

    #[test]
    fn what_is_no_graph_is_rejected() {
        assert!(why(b"aag 1 0 0 0 1\n2 2 2\n").contains("on a cycle"));
        assert!(why(b"aag 2 1 0 1 1\n2\n4\n4 2 6\n").contains("no definition"));
        assert!(why(b"aag 2 1 0 1 1\n2\n4\n4 2\n").contains("a number is expected"));
        assert!(why(b"aag 2 1 0 1 1\n2\n4\n4 2 2 2\n").contains("further fields"));
        assert!(why(b"aag 2 2 0 0 0\n2\n2\n").contains("cannot be defined"));
        assert!(why(b"aag 2 1 0 0 0\n3\n").contains("cannot be defined"));
        assert!(why(b"aag 2 1 0 0 0\n6\n").contains("cannot be defined"));
        assert!(why(b"aag 1 0 1 0 0\n2\n").contains("do not agree"));
        assert!(why(b"aig 1 0 0 0 1\n\x00\x00").contains("stand before it"));
        assert!(why(b"aig 1 1 0 1 0\n4\n").contains("no definition"));
        assert!(why(b"aig 3 2 0 0 1\n\x02").contains("stand before it"));
        assert!(why(b"module x;\n").contains("not the header"));
    }
}
