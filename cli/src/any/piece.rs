//! A graph for one call: what of the whole it takes in, and what it gives out.

use super::{
    aig::binary,
    plan::{Net, Plan, Source},
};

/// The call's limits on a graph (document 01's 9).
pub const VARIABLES: usize = 4_095;
pub const OUTPUTS: usize = 4_096;

/// The call's limit on the cuts of an AND.
pub const CUTS: usize = 18;

pub struct Piece {
    /// The nets of the whole that come in, in the order of the graph's inputs. A cut point comes in and goes out.
    pub inputs: Vec<Net>,
    pub outputs: Vec<Net>,
    /// Its cut points.
    pub points: usize,
    /// In AIGER's binary form, within the limits.
    pub graph: Vec<u8>,
}

impl Piece {
    /// `None` where the graph exceeds the limits.
    pub fn new(
        inputs: Vec<Net>,
        outputs: Vec<Net>,
        literals: &[u32],
        ands: &[[u32; 2]],
        points: usize,
    ) -> Option<Piece> {
        if inputs.len() + ands.len() > VARIABLES || literals.len() > OUTPUTS {
            return None;
        }
        let graph = binary(inputs.len(), literals, ands);
        Some(Piece { inputs, outputs, points, graph })
    }
}

/// The net that a gate gives where the plan has this one: the other phase, where this one is its inverter.
pub fn given(plan: &Plan, net: Net) -> Net {
    match plan.source(net) {
        Source::Inverter => net.other(),
        _ => net,
    }
}
