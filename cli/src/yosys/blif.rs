//! The block that yosys hands to ABC: BLIF of `.names` and `.latch`, made into an AND graph.

use crate::any::aig::{Aig, Builder};
use std::collections::{HashMap, HashSet};

pub struct Latch {
    pub input: String,
    pub output: String,
    /// Kind, clock and start value, as they stand.
    pub rest: Vec<String>,
}

struct Table {
    pins: Vec<String>,
    /// Of each row its bits and its value.
    rows: Vec<(String, char)>,
}

#[derive(Default)]
pub struct Block {
    pub model: String,
    pub inputs: Vec<String>,
    pub outputs: Vec<String>,
    pub latches: Vec<Latch>,
    tables: HashMap<String, Table>,
    /// What the designer calls the nets, by yosys's remarks.
    pub meant: HashMap<String, String>,
}

impl Block {
    pub fn read(text: &str) -> Result<Block, String> {
        let mut block = Block { model: "netlist".into(), ..Block::default() };
        let joined = text.replace("\\\r\n", " ").replace("\\\n", " ");
        let mut now: Option<String> = None;
        for line in joined.lines() {
            if let Some(remark) = line.strip_prefix("# ") {
                if let Some((net, name)) = remark.trim().split_once(char::is_whitespace) {
                    block.meant.insert(net.into(), name.trim().trim_start_matches('\\').replace(" [", "["));
                }
                continue;
            }
            let words: Vec<String> =
                line.split('#').next().unwrap_or_default().split_whitespace().map(String::from).collect();
            let Some((first, rest)) = words.split_first() else { continue };
            match first.as_str() {
                ".model" => block.model = rest.first().cloned().unwrap_or(block.model),
                ".inputs" => block.inputs.extend_from_slice(rest),
                ".outputs" => block.outputs.extend_from_slice(rest),
                ".latch" => match rest {
                    [input, output, rest @ ..] => {
                        let (input, output) = (input.clone(), output.clone());
                        block.latches.push(Latch { input, output, rest: rest.to_vec() });
                    }
                    _ => return Err("a `.latch` line without two nets".into()),
                },
                ".names" => {
                    let (net, pins) = rest.split_last().ok_or("a `.names` line without a net")?;
                    if block.tables.insert(net.clone(), Table { pins: pins.to_vec(), rows: Vec::new() }).is_some() {
                        return Err(format!("net {net} is driven twice"));
                    }
                    now = Some(net.clone());
                }
                ".end" => break,
                other if other.starts_with('.') => return Err(format!("`{other}` in the block is not known")),
                _ => {
                    let table =
                        now.as_ref().and_then(|net| block.tables.get_mut(net)).ok_or("a row before every `.names`")?;
                    table.row(&words)?;
                }
            }
        }
        Ok(block)
    }

    /// The inputs of the logic: the block's, then its latches' outputs.
    pub fn sources(&self) -> Vec<String> {
        self.inputs.iter().cloned().chain(self.latches.iter().map(|latch| latch.output.clone())).collect()
    }

    /// The outputs of the logic: the block's, then its latches' inputs.
    pub fn sinks(&self) -> Vec<String> {
        self.outputs.iter().cloned().chain(self.latches.iter().map(|latch| latch.input.clone())).collect()
    }

    /// The AND graph between sources and sinks, and the nets that nothing drives, which are 0.
    pub fn graph(&self) -> Result<(Aig, Vec<String>), String> {
        let (sources, sinks) = (self.sources(), self.sinks());
        let mut builder = Builder::new(sources.len());
        let mut literal: HashMap<&str, u32> = HashMap::new();
        for (net, k) in sources.iter().zip(1..) {
            if literal.insert(net, 2 * k).is_some() || self.tables.contains_key(net) {
                return Err(format!("net {net} is driven twice"));
            }
        }
        let (mut open, mut bare) = (HashSet::new(), Vec::new());
        for sink in &sinks {
            let mut stack: Vec<&str> = vec![sink];
            while let Some(&net) = stack.last() {
                if literal.contains_key(net) {
                    stack.pop();
                    continue;
                }
                let Some(table) = self.tables.get(net) else {
                    bare.push(net.to_string());
                    literal.insert(net, 0);
                    continue;
                };
                let waits: Vec<&str> =
                    table.pins.iter().map(String::as_str).filter(|pin| !literal.contains_key(pin)).collect();
                if waits.is_empty() {
                    let made = table.literal(&mut builder, &literal);
                    literal.insert(net, made);
                } else if !open.insert(net) {
                    return Err(format!("net {net} is on a circle"));
                }
                stack.extend(waits);
            }
        }
        let outputs: Vec<u32> = sinks.iter().map(|net| literal[net.as_str()]).collect();
        let numbers = (1..=sources.len() as u32).collect();
        Ok((builder.graph(&outputs, numbers, 0), bare))
    }
}

impl Table {
    fn row(&mut self, words: &[String]) -> Result<(), String> {
        let (bits, value) = match words {
            [value] => ("", value),
            [bits, value] => (bits.as_str(), value),
            _ => return Err("a row of a `.names` with more than two words".into()),
        };
        let value = match value.as_str() {
            "0" => '0',
            "1" => '1',
            _ => return Err(format!("a row of a `.names` with the value {value}")),
        };
        if bits.len() != self.pins.len() || !bits.chars().all(|bit| matches!(bit, '0' | '1' | '-')) {
            return Err(format!("a row of a `.names` of {} nets with the bits `{bits}`", self.pins.len()));
        }
        if self.rows.first().is_some_and(|(_, first)| *first != value) {
            return Err("rows of both values in one `.names`".into());
        }
        self.rows.push((bits.into(), value));
        Ok(())
    }

    fn literal(&self, builder: &mut Builder, literal: &HashMap<&str, u32>) -> u32 {
        let mut terms = Vec::new();
        for (bits, _) in &self.rows {
            let used = self.pins.iter().zip(bits.chars()).filter(|(_, bit)| *bit != '-');
            let factors = used.map(|(pin, bit)| literal[pin.as_str()] ^ u32::from(bit == '0')).collect();
            terms.push(builder.all(factors) ^ 1);
        }
        let is_off = self.rows.first().is_some_and(|(_, value)| *value == '0');
        builder.all(terms) ^ 1 ^ u32::from(is_off)
    }
}

#[cfg(test)]
mod tests {
    use super::*;

    fn outputs(text: &str) -> Vec<u32> {
        Block::read(text).expect("a block").graph().expect("a graph").0.outputs
    }

    #[test]
    fn tables_of_both_kinds_and_constants() {
        let text = ".model m\n.inputs a \\\n b\n.outputs x y z one zero w\n# a  \\in [3]\n.names a b x\n11 1\n.names a b y\n11 0\n.names z\n.names one\n1\n.names zero\n0\n.names a w\n1 1\n.end\n";
        assert_eq!(outputs(text), [6, 7, 0, 1, 0, 2]);
        let block = Block::read(text).expect("a block");
        assert_eq!(block.meant["a"], "in[3]");
    }

    #[test]
    fn latches_are_cut() {
        let block = Block::read(".inputs d\n.outputs q\n.latch n q re clk 2\n.names d q n\n10 1\n").expect("a block");
        assert_eq!(block.sources(), ["d", "q"]);
        assert_eq!(block.sinks(), ["q", "n"]);
        assert_eq!(block.graph().expect("a graph").0.outputs, [4, 6]);
    }

    #[test]
    fn what_is_no_block_is_said() {
        let told = |text: &str| match Block::read(text).and_then(|block| block.graph().map(|_| ())) {
            Ok(()) => String::new(),
            Err(why) => why,
        };
        assert!(told(".outputs x\n.names y x\n1 1\n.names x y\n1 1\n").contains("circle"));
        assert!(told(".outputs x\n.names x\n1\n.names x\n0\n").contains("twice"));
        assert!(told(".subckt s a=b\n").contains(".subckt"));
        assert!(told("11 1\n").contains("before every"));
        assert_eq!(Block::read(".outputs x\n").expect("a block").graph().expect("a graph").1, ["x"]);
    }
}
