//! Directed input vectors: assignments under which an output is 1 or 0, found by walking back from it through the graph (justification, as PODEM does it),
//! and their neighbours. Random input vectors do not reach what only a few assignments set, as the outputs of a wide decoder.

use super::{
    graph::Graph,
    simulate::{places, Block, Random, VECTORS},
};
use std::collections::HashSet;

/// Values that all searches together may propagate, and one search its decisions that may be taken back: an effort below that of the random vectors.
const STEPS: u64 = 16 << 20;
const BACKTRACKS: usize = 64;

/// Directed input vectors at most, and bits of them.
const MOST_VECTORS: u64 = 1 << 16;
const MOST_BITS: u64 = 1 << 26;

const UNKNOWN: u8 = 2;
const PLAIN: u32 = u32::MAX;

/// Full assignments, and the input vectors made of them: an assignment, and the column that is flipped in it.
#[derive(Default)]
pub struct Directed {
    /// Bits by columns.
    assignments: Vec<Vec<u64>>,
    vectors: Vec<(u32, u32)>,
}

impl Directed {
    pub fn count(&self) -> u64 {
        self.vectors.len() as u64
    }

    pub fn blocks(&self) -> u64 {
        self.count().div_ceil(VECTORS)
    }

    /// The columns in the input vectors of a block. The last block is filled up with zeros.
    pub fn fill(&self, block: u64, columns: &mut [Block]) {
        let vectors = self.vectors.iter().skip((block * VECTORS) as usize).take(VECTORS as usize);
        columns.iter_mut().for_each(|column| *column = Block::default());
        for (at, (assignment, flipped)) in vectors.enumerate() {
            let (word, bit) = (at / 64, at % 64);
            for (column, bits) in columns.chunks_mut(64).zip(&self.assignments[*assignment as usize]) {
                for (k, column) in column.iter_mut().enumerate() {
                    column[word] |= (bits >> k & 1) << bit;
                }
            }
            if *flipped != PLAIN {
                columns[*flipped as usize][word] ^= 1 << bit;
            }
        }
    }
}

/// For each output of each graph an assignment that sets it and one that clears it, where the search finds them; then, as long as there is room, the
/// neighbours of all of them: one input flipped that the value was found by. Inputs that were not asked for are random.
pub fn directed(graphs: &[&Graph], columns: &[u32]) -> Directed {
    let most = MOST_VECTORS.min(MOST_BITS / columns.len().max(1) as u64).max(1) as usize;
    let mut directed = Directed::default();
    // The columns that each assignment was found by.
    let mut found_by: Vec<Vec<u32>> = Vec::new();
    for graph in graphs {
        let places = places(&graph.support, columns);
        let mut search = Search::new(graph);
        let mut goals: Vec<u32> = graph.outputs.iter().flat_map(|literal| [*literal, literal ^ 1]).collect();
        let mut known = HashSet::new();
        goals.retain(|literal| *literal > 1 && known.insert(*literal));
        let mut steps = STEPS / graphs.len() as u64;
        for (k, goal) in goals.iter().enumerate() {
            if directed.assignments.len() >= most || steps == 0 {
                break;
            }
            let share = (steps / (goals.len() - k) as u64).max(1_000).min(steps);
            search.steps = share;
            let inputs = search.justify(*goal);
            steps -= share - search.steps;
            let Some(inputs) = inputs else { continue };
            let mut random = Random::new(u64::MAX / 2 + directed.assignments.len() as u64);
            let mut bits: Vec<u64> = (0..columns.len().div_ceil(64)).map(|_| random.word()).collect();
            for (variable, value) in &inputs {
                let column = places[*variable as usize - 1];
                bits[column / 64] &= !(1 << (column % 64));
                bits[column / 64] |= u64::from(*value) << (column % 64);
            }
            found_by.push(inputs.iter().map(|(variable, _)| places[*variable as usize - 1] as u32).collect());
            directed.vectors.push((directed.assignments.len() as u32, PLAIN));
            directed.assignments.push(bits);
        }
    }
    // One neighbour of each in turn, so that no assignment takes the room of the others.
    for round in 0.. {
        let before = directed.vectors.len();
        for (k, columns) in found_by.iter().enumerate() {
            if let Some(column) = columns.get(round).filter(|_| directed.vectors.len() < most) {
                directed.vectors.push((k as u32, *column));
            }
        }
        if directed.vectors.len() == before {
            break;
        }
    }
    directed
}

/// A search over the inputs of a graph, in values of 0, 1 and unknown.
struct Search<'g> {
    graph: &'g Graph,
    /// The ANDs that a variable feeds: from `first[v]` to `first[v + 1]` in `fanout`.
    first: Vec<u32>,
    fanout: Vec<u32>,
    level: Vec<u32>,
    value: Vec<u8>,
    /// The variables that have a value, in the order in which they got it.
    trail: Vec<u32>,
    /// What is left of the effort.
    steps: u64,
}

struct Decision {
    /// How long the trail was before it.
    trail: usize,
    input: u32,
    value: u8,
    is_last: bool,
}

impl Search<'_> {
    fn new(graph: &Graph) -> Search<'_> {
        let variables = graph.variables();
        let inputs = 1 + graph.support.len();
        let mut first = vec![0; variables + 1];
        for literal in graph.ands.iter().flatten() {
            first[*literal as usize / 2 + 1] += 1;
        }
        for variable in 0..variables {
            first[variable + 1] += first[variable];
        }
        let mut next = first.clone();
        let mut fanout = vec![0; 2 * graph.ands.len()];
        let mut level = vec![0; variables];
        for (k, operands) in graph.ands.iter().enumerate() {
            for literal in operands {
                let place = &mut next[*literal as usize / 2];
                fanout[*place as usize] = (inputs + k) as u32;
                *place += 1;
            }
            level[inputs + k] = 1 + operands.map(|literal| level[literal as usize / 2]).into_iter().max().unwrap_or(0);
        }
        let mut search =
            Search { graph, first, fanout, level, value: vec![UNKNOWN; variables], trail: Vec::new(), steps: u64::MAX };
        // What constant false decides stays.
        search.assign(0, 0);
        search.trail.clear();
        search
    }

    fn literal(&self, literal: u32) -> u8 {
        match self.value[literal as usize / 2] {
            UNKNOWN => UNKNOWN,
            value => value ^ (literal % 2) as u8,
        }
    }

    fn operands(&self, variable: u32) -> Option<[u32; 2]> {
        (variable as usize).checked_sub(1 + self.graph.support.len()).map(|k| self.graph.ands[k])
    }

    /// Gives an unknown variable a value, and all that follows from it.
    fn assign(&mut self, variable: u32, value: u8) {
        let mut at = self.trail.len();
        self.value[variable as usize] = value;
        self.trail.push(variable);
        while let Some(&from) = self.trail.get(at) {
            at += 1;
            let users = self.first[from as usize] as usize..self.first[from as usize + 1] as usize;
            self.steps = self.steps.saturating_sub(1 + users.len() as u64);
            for k in users {
                let user = self.fanout[k];
                let Some([one, other]) = self.operands(user).filter(|_| self.value[user as usize] == UNKNOWN) else {
                    continue;
                };
                let value = match (self.literal(one), self.literal(other)) {
                    (0, _) | (_, 0) => 0,
                    (1, 1) => 1,
                    _ => continue,
                };
                self.value[user as usize] = value;
                self.trail.push(user);
            }
        }
    }

    fn undo(&mut self, length: usize) {
        for variable in self.trail.drain(length..) {
            self.value[variable as usize] = UNKNOWN;
        }
    }

    /// An input, and its value, on the way back from an unknown variable that is to have a value.
    fn backtrace(&self, variable: u32, value: u8) -> (u32, u8) {
        let (mut variable, mut value) = (variable, value);
        while let Some(operands) = self.operands(variable) {
            let unknown = operands.into_iter().filter(|literal| self.literal(*literal) == UNKNOWN);
            let level = |literal: &u32| self.level[*literal as usize / 2];
            // Both operands must be 1: the harder one first. One 0 is enough: the easier one.
            let next = if value == 1 { unknown.max_by_key(level) } else { unknown.min_by_key(level) };
            let Some(next) = next else { break };
            (variable, value) = (next / 2, value ^ (next % 2) as u8);
        }
        (variable, value)
    }

    /// Values of some inputs under which the literal is 1, whatever the others are; `None` where there are none, or they take more than the effort.
    fn justify(&mut self, goal: u32) -> Option<Vec<(u32, bool)>> {
        let (variable, value) = (goal / 2, 1 ^ (goal % 2) as u8);
        let mut decisions: Vec<Decision> = Vec::new();
        let mut backtracks = 0;
        let found = loop {
            match self.value[variable as usize] {
                UNKNOWN if self.steps == 0 => break false,
                UNKNOWN => {
                    let (input, value) = self.backtrace(variable, value);
                    self.steps = self.steps.saturating_sub(u64::from(self.level[variable as usize]));
                    decisions.push(Decision { trail: self.trail.len(), input, value, is_last: false });
                    self.assign(input, value);
                }
                now if now == value => break true,
                _ => {
                    // The last decision of which the other value was not tried.
                    while decisions.last().is_some_and(|decision| decision.is_last) {
                        decisions.pop();
                    }
                    backtracks += 1;
                    let Some(decision) = decisions.last_mut().filter(|_| backtracks <= BACKTRACKS) else { break false };
                    (decision.value, decision.is_last) = (1 - decision.value, true);
                    let (trail, input, value) = (decision.trail, decision.input, decision.value);
                    self.undo(trail);
                    self.assign(input, value);
                }
            }
        };
        self.undo(0);
        found.then(|| decisions.iter().map(|decision| (decision.input, decision.value == 1)).collect())
    }
}

#[cfg(test)]
mod tests {
    use super::*;

    /// Two decoders of 24 inputs, and an output that is never 1.
    fn decoders() -> Graph {
        let (mut ands, mut outputs) = (Vec::new(), Vec::new());
        for pattern in [0x5a_5a5au32, 0xc3_0fa5] {
            let mut product = 2 + (pattern & 1 ^ 1);
            for k in 1..24 {
                ands.push([product, 2 * (k + 1) + (pattern >> k & 1 ^ 1)]);
                product = 2 * (24 + ands.len()) as u32;
            }
            outputs.push(product);
        }
        ands.push([outputs[0], outputs[1]]);
        outputs.push(2 * (24 + ands.len()) as u32);
        Graph::of_cones(24, &ands, &outputs)
    }

    #[test]
    fn rare_values_are_found_and_impossible_ones_are_not() {
        let graph = decoders();
        let mut search = Search::new(&graph);
        for (output, pattern) in [(0, 0x5a_5a5a), (1, 0xc3_0fa5)] {
            let mut found = search.justify(graph.outputs[output]).expect("it can be set");
            found.sort_unstable();
            let expected: Vec<(u32, bool)> = (0..24).map(|k| (k + 1, pattern >> k & 1 == 1)).collect();
            assert_eq!(found, expected);
            assert_eq!(search.justify(graph.outputs[output] ^ 1).map(|found| found.len()), Some(1));
        }
        assert_eq!(search.justify(graph.outputs[2]), None);
        assert!(search.justify(graph.outputs[2] ^ 1).is_some());
        assert!(search.trail.is_empty());
    }

    /// Whatever is found gives the output its value, in random graphs with constants among the operands.
    #[test]
    fn what_is_found_is_so() {
        let mut random = Random::new(11);
        let mut count = 0;
        for _ in 0..200 {
            let mut below = |n: u64| random.word() % n;
            let inputs = 1 + below(8);
            let ands: Vec<[u32; 2]> =
                (0..1 + below(40)).map(|k| [(); 2].map(|()| below(2 * (1 + inputs + k)) as u32)).collect();
            let top = 2 * (inputs as u32 + ands.len() as u32);
            let graph = Graph::of_cones(inputs as usize, &ands, &[top]);
            for goal in [0, 1].map(|bit| graph.outputs[0] ^ bit) {
                let Some(found) = Search::new(&graph).justify(goal) else { continue };
                for _ in 0..8 {
                    let mut value: Vec<bool> =
                        (0..=graph.support.len()).map(|k| k > 0 && random.word() & 1 == 1).collect();
                    found.iter().for_each(|(variable, bit)| value[*variable as usize] = *bit);
                    for operands in &graph.ands {
                        value.push(operands.iter().all(|literal| value[*literal as usize / 2] ^ (literal % 2 == 1)));
                    }
                    assert!(value[goal as usize / 2] ^ (goal % 2 == 1));
                }
                count += 1;
            }
        }
        assert!(count > 200, "{count}");
    }

    #[test]
    fn neighbours_flip_one_input_each() {
        let graph = decoders();
        let columns: Vec<u32> = (0..24).collect();
        let directed = directed(&[&graph], &columns);
        // Two outputs are set by 24 inputs and cleared by one; the third is cleared by one.
        assert_eq!(directed.count(), (24 + 1) * 2 + 3 * 2);
        let mut block = vec![Block::default(); 24];
        directed.fill(0, &mut block);
        let vector = |at: usize| (0..24).map(|k| (block[k][0] >> at & 1) << k).sum::<u64>();
        let found: HashSet<u64> = (0..directed.count() as usize).map(vector).collect();
        for pattern in [0x5a_5a5a, 0xc3_0fa5] {
            assert!(found.contains(&pattern));
            assert!((0..24).all(|k| found.contains(&(pattern ^ 1 << k))));
        }
    }
}
