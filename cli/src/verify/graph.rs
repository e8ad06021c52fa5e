//! An AND graph as its text has it. No AND is merged and no constant is followed: whatever the mapper makes of the text is compared with this.

/// Literal 2v is variable v, 2v+1 its complement. Variable 0 is constant false, then come the inputs of the support, then the ANDs in topological order.
#[derive(Clone, Debug, Default, PartialEq, Eq)]
pub struct Graph {
    /// The inputs that the text declares.
    pub inputs: usize,
    /// The inputs in the fan-in cones of the outputs, by their positions from 0, ascending: variable 1 + k is input `support[k]`.
    pub support: Vec<u32>,
    /// The ANDs in the fan-in cones of the outputs.
    pub ands: Vec<[u32; 2]>,
    pub outputs: Vec<u32>,
}

impl Graph {
    /// The fan-in cones of the outputs. `ands` stand in topological order behind constant false and all inputs.
    pub fn of_cones(inputs: usize, ands: &[[u32; 2]], outputs: &[u32]) -> Graph {
        let mut used = vec![false; 1 + inputs + ands.len()];
        for output in outputs {
            used[*output as usize / 2] = true;
        }
        for (k, operands) in ands.iter().enumerate().rev() {
            if used[1 + inputs + k] {
                operands.iter().for_each(|operand| used[*operand as usize / 2] = true);
            }
        }
        let mut number = vec![0; used.len()];
        let mut next = 0;
        for variable in (1..used.len()).filter(|variable| used[*variable]) {
            next += 1;
            number[variable] = next;
        }
        let literal = |literal: u32| 2 * number[literal as usize / 2] + literal % 2;
        let support = (1..=inputs).filter(|variable| used[*variable]).map(|variable| variable as u32 - 1).collect();
        let kept = ands.iter().enumerate().filter(|(k, _)| used[1 + inputs + k]);
        let ands = kept.map(|(_, operands)| operands.map(literal)).collect();
        let outputs = outputs.iter().copied().map(literal).collect();
        Graph { inputs, support, ands, outputs }
    }

    /// The variables, constant false among them.
    pub fn variables(&self) -> usize {
        1 + self.support.len() + self.ands.len()
    }
}

/// The order in which each node stands behind those that it needs, or a node on a cycle. `needs` gives the nodes that one needs, some of them perhaps twice.
pub fn topological_order(nodes: usize, mut needs: impl FnMut(usize, &mut Vec<usize>)) -> Result<Vec<usize>, usize> {
    const NEW: u8 = 0;
    const OPEN: u8 = 1;
    const DONE: u8 = 2;
    let mut state = vec![NEW; nodes];
    let mut order = Vec::with_capacity(nodes);
    let (mut stack, mut needed) = (Vec::new(), Vec::new());
    for root in 0..nodes {
        stack.push(root);
        while let Some(&node) = stack.last() {
            if state[node] == DONE {
                stack.pop();
                continue;
            }
            needed.clear();
            needs(node, &mut needed);
            needed.retain(|other| state[*other] != DONE);
            if needed.is_empty() {
                state[node] = DONE;
                order.push(node);
                stack.pop();
            } else if state[node] == OPEN {
                // It was opened before, and what it needs is still not done: the way from there leads back to it.
                return Err(node);
            } else {
                state[node] = OPEN;
                stack.extend_from_slice(&needed);
            }
        }
    }
    Ok(order)
}

#[cfg(test)]
mod tests {
    use super::*;

    #[test]
    fn cones_keep_equal_ands_apart() {
        let graph = Graph::of_cones(3, &[[6, 2], [6, 2], [8, 10], [8, 1]], &[12, 13]);
        assert_eq!(
            graph,
            Graph { inputs: 3, support: vec![0, 2], ands: vec![[4, 2], [4, 2], [6, 8]], outputs: vec![10, 11] }
        );
    }

    #[test]
    fn order_and_cycle() {
        let of =
            |needs: &[&[usize]]| topological_order(needs.len(), |node, needed| needed.extend_from_slice(needs[node]));
        assert_eq!(of(&[&[1, 2], &[2, 2], &[]]), Ok(vec![2, 1, 0]));
        // A node that two others need is opened once more by the second, and is no cycle.
        assert_eq!(of(&[&[1, 2], &[3], &[1, 3], &[]]), Ok(vec![3, 1, 2, 0]));
        assert!(of(&[&[1], &[2], &[1]]).is_err());
        assert_eq!(of(&[&[0]]), Err(0));
    }
}
