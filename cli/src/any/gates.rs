//! Every planned gate by itself: its leaves' nets are inputs of the call's graph, its net an output, its ANDs those of its cut's function, made afresh.
//! No AND has more than 18 cuts, and the planned match is among the call's, so that no net comes later than planned.

use super::{
    calls::shift,
    function::literal_with,
    matches::NEVER,
    piece::{given, Piece, OUTPUTS, VARIABLES},
    plan::{Net, Plan, Taken},
};
use std::collections::{HashMap, HashSet};

/// ANDs are numbered from here until the number of inputs is known.
const FIRST: u32 = 1 << 20;

#[derive(Default)]
struct Draft {
    inputs: Vec<Net>,
    number: HashMap<Net, u32>,
    ands: Vec<[u32; 2]>,
    known: HashMap<[u32; 2], u32>,
    outputs: Vec<(Net, u32)>,
}

impl Draft {
    fn input(&mut self, net: Net) -> u32 {
        *self.number.entry(net).or_insert_with(|| {
            self.inputs.push(net);
            2 * self.inputs.len() as u32
        })
    }

    /// The gate's ANDs, and its net as an output; the other phase too, where it is wanted and no gate of its own.
    fn add(&mut self, plan: &Plan, net: Net, other: bool) {
        let Some(gate) = plan.source(net).gate() else { return };
        let (mut leaves, mut places) = ([0; 4], Vec::new());
        for (place, leaf) in gate.cut.leaves().iter().enumerate() {
            let taken = gate.pins.iter().find(|pin| pin.net.variable == *leaf);
            let Some(net) = taken.map(|pin| given(plan, pin.net)) else { continue };
            leaves[place] = self.input(net) ^ u32::from(net.phase);
            places.push(place);
        }
        let Draft { ands, known, .. } = self;
        let root = literal_with(gate.table, &places, &leaves, &mut |a, b| {
            *known.entry([a, b]).or_insert_with(|| {
                ands.push([a, b]);
                2 * (FIRST + ands.len() as u32 - 1)
            })
        });
        self.outputs.push((net, root ^ u32::from(net.phase)));
        if other {
            self.outputs.push((net.other(), root ^ u32::from(net.other().phase)));
        }
    }

    /// Whether another gate, with four inputs and their function's ANDs, is within the limits.
    fn has_room(&self, limit: usize) -> bool {
        self.inputs.len() + self.ands.len() + 4 + 16 <= limit && self.outputs.len() + 2 <= OUTPUTS
    }

    fn piece(self) -> Option<Piece> {
        let inputs = self.inputs.len() as u32;
        let placed = |literal: u32| if literal >= 2 * FIRST { literal - 2 * FIRST + 2 * (1 + inputs) } else { literal };
        let ands: Vec<[u32; 2]> = self.ands.iter().map(|and| and.map(placed)).collect();
        let (outputs, literals): (Vec<Net>, Vec<u32>) =
            self.outputs.into_iter().map(|(net, literal)| (net, placed(literal))).unzip();
        let points = outputs.iter().filter(|net| self.number.contains_key(net)).count();
        Piece::new(self.inputs, outputs, &literals, &ands, points)
    }
}

/// By how much a gate's nets may be told to come earlier than they do: by so much that the latest can be told at all, and by no more than leaves the gate at
/// its planned arrival where what comes before the shift is told to come with it.
struct Shifts {
    least: u64,
    most: u64,
}

impl Shifts {
    fn of(plan: &Plan, net: Net) -> Shifts {
        let pins = plan.source(net).gate().map_or(&[][..], |gate| &gate.pins);
        let arrival = |net: Net| plan.arrival(given(plan, net));
        // From the net that comes in, by its inverter where there is one.
        let delay = |pin: &Taken| u64::from(pin.delay) + plan.arrival(pin.net) - arrival(pin.net);
        let most = pins.iter().map(|pin| plan.arrival(net).saturating_sub(delay(pin))).min();
        Shifts { least: shift(pins.iter().map(|pin| arrival(pin.net))), most: most.unwrap_or(NEVER) }
    }
}

/// The planned gates in windows of at most so many variables, whose arrivals one shift brings within what can be told. `wanted` are the nets that the
/// graph's outputs take.
pub fn pieces(plan: &Plan, gates: &[Net], wanted: &HashSet<Net>, window: usize) -> Option<Vec<Piece>> {
    let planned: HashSet<Net> = gates.iter().copied().collect();
    let mut gates: Vec<(Net, Shifts)> = gates.iter().map(|&net| (net, Shifts::of(plan, net))).collect();
    if gates.iter().any(|(_, shifts)| shifts.least > 0) {
        gates.sort_by_key(|(_, shifts)| shifts.most);
    }
    let mut pieces = Vec::new();
    let (mut draft, mut most) = (Draft::default(), NEVER);
    for (net, shifts) in gates {
        let has_room = shifts.least <= most && draft.has_room(window.min(VARIABLES));
        if !draft.outputs.is_empty() && !has_room {
            pieces.push(std::mem::take(&mut draft).piece()?);
            most = NEVER;
        }
        most = most.min(shifts.most);
        draft.add(plan, net, wanted.contains(&net.other()) && !planned.contains(&net.other()));
    }
    if !draft.outputs.is_empty() {
        pieces.push(draft.piece()?);
    }
    Some(pieces)
}
