//! The plan: an early cover by the rules of document 01, without its limit on cuts. It is the earliest where no AND has more cuts than are kept. It is not
//! proved, and no gate is taken from it: it says which nets a good cover has and when they arrive, so that the call can be given graphs within its limits
//! that still contain this cover.

use super::{
    aig::Aig,
    function::LEAF,
    matches::{Match, Matches, Pin, NEVER},
};

/// The cuts of an AND that are kept, those with the earliest leaves. A cover by another cut is missed. One call takes 18 cuts of each AND: of what it takes,
/// none is missed.
pub const KEPT: usize = 64;

/// Unions of cuts that are tried before no more than [`KEPT`] are kept, some seconds.
const EFFORT: u64 = 1 << 30;

/// A variable in a phase, 1 for the complement.
#[derive(Clone, Copy, Debug, PartialEq, Eq, Hash, PartialOrd, Ord)]
pub struct Net {
    pub variable: u32,
    pub phase: u8,
}

impl Net {
    pub fn of(literal: u32) -> Net {
        Net { variable: literal / 2, phase: (literal % 2) as u8 }
    }

    pub fn other(self) -> Net {
        Net { phase: 1 - self.phase, ..self }
    }

    /// The variable's index, and the phase's.
    pub fn at(self) -> (usize, usize) {
        (self.variable as usize, self.phase as usize)
    }
}

/// What a pin of a planned gate takes.
#[derive(Clone, Copy, Debug)]
pub struct Taken {
    pub net: Net,
    pub delay: u32,
}

/// A planned gate.
#[derive(Clone, Debug)]
pub struct Planned {
    pub cell: u16,
    pub pins: Vec<Taken>,
    pub cut: Cut,
    /// The function of the cut, whatever the phase.
    pub table: u16,
}

impl Planned {
    pub fn new(found: &Match, cut: Cut, table: u16) -> Planned {
        let taken = |pin: &Pin| {
            let net = Net { variable: cut.leaves[pin.place as usize], phase: pin.phase };
            Taken { net, delay: pin.delay }
        };
        Planned { cell: found.cell, pins: found.pins().iter().map(taken).collect(), cut, table }
    }
}

#[derive(Clone, Debug, Default)]
pub enum Source {
    #[default]
    Nothing,
    Input,
    Inverter,
    Gate(Box<Planned>),
}

impl Source {
    pub fn gate(&self) -> Option<&Planned> {
        match self {
            Source::Gate(gate) => Some(gate),
            _ => None,
        }
    }
}

/// Up to four leaves, ascending.
#[derive(Clone, Copy, Debug, PartialEq, Eq)]
pub struct Cut {
    leaves: [u32; 4],
    len: u8,
    /// A bit for each leaf, by its number modulo 64: two cuts whose bits are more than four have more than four leaves.
    sign: u64,
}

impl Cut {
    const EMPTY: Cut = Cut { leaves: [u32::MAX; 4], len: 0, sign: 0 };

    pub fn one(leaf: u32) -> Cut {
        Cut { leaves: [leaf, u32::MAX, u32::MAX, u32::MAX], len: 1, sign: 1 << (leaf % 64) }
    }

    /// The cut of a constant.
    pub fn none() -> Cut {
        Cut::EMPTY
    }

    pub fn leaves(&self) -> &[u32] {
        &self.leaves[..self.len as usize]
    }

    /// The union, unless it has a fifth leaf.
    pub fn with(&self, other: &Cut) -> Option<Cut> {
        let sign = self.sign | other.sign;
        if sign.count_ones() > 4 {
            return None;
        }
        let mut made = Cut { sign, ..Cut::EMPTY };
        let (one, two) = (self.leaves(), other.leaves());
        let (mut i, mut j) = (0, 0);
        loop {
            let leaf = match (one.get(i), two.get(j)) {
                (None, None) => return Some(made),
                (Some(&a), None) => a,
                (None, Some(&b)) => b,
                (Some(&a), Some(&b)) => a.min(b),
            };
            i += usize::from(one.get(i) == Some(&leaf));
            j += usize::from(two.get(j) == Some(&leaf));
            if made.len == 4 {
                return None;
            }
            made.leaves[made.len as usize] = leaf;
            made.len += 1;
        }
    }

    fn hash(&self) -> usize {
        let mix = |h: u64, leaf: &u32| (h ^ u64::from(*leaf)).wrapping_mul(0x9e37_79b9_7f4a_7c15).rotate_left(23);
        self.leaves.iter().fold(0, mix) as usize
    }
}

pub struct Plan<'g> {
    pub graph: &'g Aig,
    pub arrival: Vec<[u64; 2]>,
    pub source: Vec<[Source; 2]>,
    /// The latest time at which each needed net may arrive.
    pub needed: Vec<[Option<u64>; 2]>,
    /// The arrival of the latest output, `NEVER` where an output has no cover.
    pub latest: u64,
    /// An AND had more cuts than were kept: there may be an earlier cover.
    pub is_partial: bool,
    /// The cuts of each AND, other than itself, and their functions, where they are kept for less area.
    pub kept: Vec<Vec<(Cut, u16)>>,
}

/// Unions of cuts, each once.
struct Unions {
    list: Vec<Cut>,
    /// More than twice as many as there are unions; a power of 2.
    slots: Vec<u32>,
}

impl Unions {
    fn new() -> Unions {
        Unions { list: Vec::new(), slots: vec![u32::MAX; 16_384] }
    }

    fn add(&mut self, cut: Cut) {
        if let Some(at) = self.free_slot(&cut) {
            self.slots[at] = self.list.len() as u32;
            self.list.push(cut);
            if 2 * self.list.len() >= self.slots.len() {
                self.grow();
            }
        }
    }

    /// Where the cut goes; `None` where it is there already.
    fn free_slot(&self, cut: &Cut) -> Option<usize> {
        let mut at = cut.hash() & (self.slots.len() - 1);
        while self.slots[at] != u32::MAX {
            if self.list[self.slots[at] as usize] == *cut {
                return None;
            }
            at = (at + 1) & (self.slots.len() - 1);
        }
        Some(at)
    }

    fn grow(&mut self) {
        self.slots = vec![u32::MAX; 4 * self.slots.len()];
        for k in 0..self.list.len() {
            if let Some(at) = self.free_slot(&self.list[k]) {
                self.slots[at] = k as u32;
            }
        }
    }

    fn clear(&mut self) {
        let mask = self.slots.len() - 1;
        for cut in &self.list {
            let mut at = cut.hash() & mask;
            while self.slots[at] != u32::MAX {
                self.slots[at] = u32::MAX;
                at = (at + 1) & mask;
            }
        }
        self.list.clear();
    }
}

/// The values of a cone's variables in the 16 rows, for one walk after another.
pub struct Walk {
    value: Vec<u16>,
    /// The walk that set a variable's value.
    set: Vec<u32>,
    walk: u32,
    stack: Vec<u32>,
}

impl Walk {
    pub fn new(graph: &Aig) -> Walk {
        Walk { value: vec![0; graph.variables()], set: vec![0; graph.variables()], walk: 0, stack: Vec::new() }
    }

    /// The function of a cut as document 01 has it: from the root down, a leaf gives its bit and the walk stops there.
    pub fn function(&mut self, graph: &Aig, root: u32, cut: &Cut) -> u16 {
        self.walk += 1;
        self.put(0, 0);
        for (&leaf, bits) in cut.leaves().iter().zip(LEAF) {
            self.put(leaf, bits);
        }
        self.stack.push(root);
        while let Some(&variable) = self.stack.last() {
            if self.set[variable as usize] == self.walk {
                self.stack.pop();
                continue;
            }
            let Some([a, b]) = graph.operands(variable) else {
                // A cut's leaves stand before every input: nothing else is met.
                self.put(variable, 0);
                continue;
            };
            match (self.literal(a), self.literal(b)) {
                (Some(one), Some(other)) => self.put(variable, one & other),
                (one, other) => {
                    self.stack.extend(one.is_none().then_some(a / 2));
                    self.stack.extend(other.is_none().then_some(b / 2));
                }
            }
        }
        self.value[root as usize]
    }

    fn put(&mut self, variable: u32, value: u16) {
        self.value[variable as usize] = value;
        self.set[variable as usize] = self.walk;
    }

    fn literal(&self, literal: u32) -> Option<u16> {
        let at = literal as usize / 2;
        (self.set[at] == self.walk).then(|| self.value[at] ^ if literal % 2 == 1 { 0xffff } else { 0 })
    }
}

/// The best match of a phase so far.
#[derive(Clone, Copy)]
struct Best<'m> {
    arrival: u64,
    found: Option<(&'m Match, Cut, u16)>,
}

impl<'g> Plan<'g> {
    /// `late` has the arrival of each input, `kept` how many cuts of an AND are kept.
    pub fn new(graph: &'g Aig, matches: &Matches, late: &[u32], kept: usize) -> Plan<'g> {
        Plan::make(graph, matches, late, kept, false)
    }

    /// The same for less area, by `recover`: all cuts are remembered.
    pub fn keeping(graph: &'g Aig, matches: &Matches, late: &[u32]) -> Plan<'g> {
        Plan::make(graph, matches, late, KEPT, true)
    }

    fn make(graph: &'g Aig, matches: &Matches, late: &[u32], kept: usize, remember: bool) -> Plan<'g> {
        let mut plan = Plan {
            graph,
            arrival: vec![[NEVER; 2]; graph.variables()],
            source: (0..graph.variables()).map(|_| Default::default()).collect(),
            needed: Vec::new(),
            latest: 0,
            is_partial: false,
            kept: vec![Vec::new(); if remember { graph.variables() } else { 0 }],
        };
        let mut cuts: Vec<Vec<Cut>> = vec![Vec::new(); graph.variables()];
        plan.start(matches, late, &mut cuts);
        let mut users = uses(graph);
        let mut walk = Walk::new(graph);
        let mut unions = Unions::new();
        let mut effort = 0;
        for (k, operands) in graph.ands.iter().enumerate() {
            let variable = (1 + graph.inputs + k) as u32;
            let [one, other] = operands.map(|literal| &cuts[literal as usize / 2]);
            for cut in one {
                for other in other {
                    if let Some(cut) = cut.with(other) {
                        unions.add(cut);
                    }
                }
            }
            effort += (one.len() * other.len()) as u64;
            let kept = if effort < EFFORT { kept } else { kept.min(KEPT) };
            plan.choose(matches, variable, &unions.list, &mut walk);
            cuts[variable as usize] = plan.keep(variable, &unions.list, kept);
            unions.clear();
            for literal in operands {
                let at = *literal as usize / 2;
                users[at] -= 1;
                if users[at] == 0 {
                    cuts[at] = Vec::new();
                }
            }
        }
        plan.need(matches, 0);
        plan
    }

    /// Variable 0 and the inputs.
    fn start(&mut self, matches: &Matches, late: &[u32], cuts: &mut [Vec<Cut>]) {
        for (phase, table) in [0, 0xffff].into_iter().enumerate() {
            if let Some(tie) = matches.of(table).iter().find(|made| made.pins().is_empty()) {
                let gate = Planned { cell: tie.cell, pins: Vec::new(), cut: Cut::EMPTY, table: 0 };
                self.arrival[0][phase] = 0;
                self.source[0][phase] = Source::Gate(Box::new(gate));
            }
        }
        self.invert(0, matches.inverter_delay());
        cuts[0] = vec![Cut::EMPTY];
        for (k, &arrival) in late.iter().enumerate() {
            self.arrival[k + 1][0] = arrival.into();
            self.source[k + 1][0] = Source::Input;
            self.invert(k + 1, matches.inverter_delay());
            cuts[k + 1] = vec![Cut::one(k as u32 + 1)];
        }
    }

    fn choose(&mut self, matches: &Matches, variable: u32, cuts: &[Cut], walk: &mut Walk) {
        let mut best = [Best { arrival: NEVER, found: None }; 2];
        for cut in cuts {
            let table = walk.function(self.graph, variable, cut);
            if let Some(kept) = self.kept.get_mut(variable as usize) {
                kept.push((*cut, table));
            }
            for (best, table) in best.iter_mut().zip([table, !table]) {
                for found in matches.of(table).iter().filter(|found| found.leaves <= cut.len) {
                    let arrival = self.arrive(found, cut);
                    if arrival < best.arrival {
                        *best = Best { arrival, found: Some((found, *cut, table)) };
                    }
                }
            }
        }
        let at = variable as usize;
        for (phase, best) in best.into_iter().enumerate() {
            let Some((found, cut, table)) = best.found else { continue };
            self.arrival[at][phase] = best.arrival;
            let table = if phase == 1 { !table } else { table };
            self.source[at][phase] = Source::Gate(Box::new(Planned::new(found, cut, table)));
        }
        self.invert(at, matches.inverter_delay());
    }

    fn arrive(&self, found: &Match, cut: &Cut) -> u64 {
        let of = |pin: &Pin| self.arrival[cut.leaves[pin.place as usize] as usize][pin.phase as usize];
        let at = |pin: &Pin| of(pin) + u64::from(pin.delay);
        found.pins().iter().map(at).max().unwrap_or_default()
    }

    fn keep(&mut self, variable: u32, cuts: &[Cut], kept: usize) -> Vec<Cut> {
        let earliest = |leaf: &u32| self.arrival[*leaf as usize][0].min(self.arrival[*leaf as usize][1]);
        let rank = |cut: &Cut| (cut.leaves().iter().map(earliest).max().unwrap_or_default(), cut.len);
        let mut ranked: Vec<((u64, u8), Cut)> = cuts.iter().map(|cut| (rank(cut), *cut)).collect();
        if ranked.len() > kept {
            ranked.sort_by_key(|(rank, _)| *rank);
            ranked.truncate(kept);
            self.is_partial = true;
        }
        std::iter::once(Cut::one(variable)).chain(ranked.into_iter().map(|(_, cut)| cut)).collect()
    }

    /// The inverter of the other phase, where it is earlier.
    fn invert(&mut self, at: usize, delay: u64) {
        let [p, m] = self.arrival[at];
        if m + delay < p {
            (self.arrival[at][0], self.source[at][0]) = (m + delay, Source::Inverter);
        } else if p + delay < m {
            (self.arrival[at][1], self.source[at][1]) = (p + delay, Source::Inverter);
        }
    }

    pub fn arrival(&self, net: Net) -> u64 {
        let (at, phase) = net.at();
        self.arrival[at][phase]
    }

    pub fn source(&self, net: Net) -> &Source {
        let (at, phase) = net.at();
        &self.source[at][phase]
    }

    pub fn needed(&self, net: Net) -> Option<u64> {
        let (at, phase) = net.at();
        self.needed[at][phase]
    }

    /// When a gate, or the inverter of the net, may take what time it has left.
    pub fn slack(&self, net: Net) -> u64 {
        self.needed(net).unwrap_or(NEVER).saturating_sub(self.arrival(net))
    }

    /// Which nets the outputs need, and how late each may be; outputs may be as late as the latest, or as `allow`.
    pub fn need(&mut self, matches: &Matches, allow: u64) {
        let outputs: Vec<Net> = self.graph.outputs.iter().copied().map(Net::of).collect();
        let latest = outputs.iter().map(|net| self.arrival(*net)).max().unwrap_or_default();
        self.latest = latest;
        let mut needed = vec![[None; 2]; self.graph.variables()];
        let ask = |needed: &mut Vec<[Option<u64>; 2]>, net: Net, by: u64| {
            let (at, phase) = net.at();
            let old: &mut Option<u64> = &mut needed[at][phase];
            *old = Some(old.map_or(by, |old| old.min(by)));
        };
        for net in outputs {
            ask(&mut needed, net, latest.max(allow));
        }
        let inverter = matches.inverter_delay();
        for variable in (0..self.graph.variables() as u32).rev() {
            let nets = [0, 1].map(|phase| Net { variable, phase });
            for net in nets {
                if let (Some(by), Source::Inverter) = (needed[variable as usize][net.phase as usize], self.source(net))
                {
                    ask(&mut needed, net.other(), by.saturating_sub(inverter));
                }
            }
            for net in nets {
                if let (Some(by), Source::Gate(gate)) =
                    (needed[variable as usize][net.phase as usize], self.source(net))
                {
                    for pin in &gate.pins {
                        ask(&mut needed, pin.net, by.saturating_sub(pin.delay.into()));
                    }
                }
            }
        }
        self.needed = needed;
    }

    /// The ANDs between a planned gate and the cut that it is matched on.
    pub fn cone(&self, net: Net) -> Vec<u32> {
        let Source::Gate(gate) = self.source(net) else { return Vec::new() };
        let (mut seen, mut stack) = (Vec::new(), vec![net.variable]);
        while let Some(variable) = stack.pop() {
            if seen.contains(&variable) || gate.cut.leaves().contains(&variable) {
                continue;
            }
            if let Some(operands) = self.graph.operands(variable) {
                seen.push(variable);
                stack.extend(operands.map(|literal| literal / 2));
            }
        }
        seen
    }

    /// The planned gates in topological order. `with_leaves`: a leaf that a match does without but its cone has gets a gate too, where no planned gate is
    /// at its root; `None` where such a leaf has no cover.
    pub fn gates(&mut self, with_leaves: bool) -> Option<Vec<Net>> {
        let mut planned = vec![[false; 2]; self.graph.variables()];
        let mut todo = Vec::new();
        for variable in 1 + self.graph.inputs as u32..self.graph.variables() as u32 {
            for phase in [0, 1] {
                let net = Net { variable, phase };
                if self.needed(net).is_some() && self.source(net).gate().is_some() {
                    planned[variable as usize][phase as usize] = true;
                    todo.push(net);
                }
            }
        }
        while let Some(net) = todo.pop() {
            let Some(gate) = self.source(net).gate() else { continue };
            let mut wanted: Vec<Net> = gate.pins.iter().map(|pin| pin.net).collect();
            if with_leaves {
                let bare = gate.cut.leaves().iter().filter(|leaf| planned[**leaf as usize] == [false; 2]);
                wanted.extend(bare.map(|&variable| self.earlier(variable)));
                if wanted.iter().any(|net| self.arrival(*net) >= NEVER) {
                    return None;
                }
            }
            for net in wanted {
                let net = if matches!(self.source(net), Source::Inverter) { net.other() } else { net };
                let (at, phase) = net.at();
                if self.graph.is_and(net.variable) && !planned[at][phase] {
                    planned[at][phase] = true;
                    todo.push(net);
                }
                self.needed[at][phase].get_or_insert(NEVER);
            }
        }
        let all = (0..planned.len() as u32).flat_map(|variable| [0, 1].map(|phase| Net { variable, phase }));
        Some(all.filter(|net| planned[net.variable as usize][net.phase as usize]).collect())
    }

    /// The phase of a variable that arrives first.
    pub fn earlier(&self, variable: u32) -> Net {
        let [p, m] = self.arrival[variable as usize];
        Net { variable, phase: u8::from(m < p) }
    }
}

/// How many operands each variable is.
fn uses(graph: &Aig) -> Vec<u32> {
    let mut uses = vec![0; graph.variables()];
    for literal in graph.ands.iter().flatten() {
        uses[*literal as usize / 2] += 1;
    }
    uses
}
