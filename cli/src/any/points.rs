//! Cut points: the graph's own ANDs, and where one of them has more than 18 cuts, a planned net below it becomes an output and an input.

use super::{
    matches::NEVER,
    piece::{Piece, CUTS},
    plan::{Cut, Net, Plan, Source},
};
use std::{
    cell::Cell,
    collections::{BTreeSet, HashMap, HashSet},
};

/// A leaf that is a net and no variable of the piece.
const NETS: [u32; 2] = [1 << 30, 1 << 31];

/// Cut sets made again, over all pieces, before the way is given up: where so many points are due, gates by themselves are as good and sooner had.
const EFFORT: usize = 150_000;

/// What an AND uses for an operand.
#[derive(Clone, Copy, PartialEq, Eq)]
enum Leaf {
    False,
    /// An AND of the piece, by its place.
    And(usize),
    Net(Net),
}

struct Draft<'p, 'g> {
    plan: &'p Plan<'g>,
    gates: &'p [Net],
    /// The ANDs of the gates' cones, ascending, and their places.
    ands: Vec<u32>,
    place: HashMap<u32, usize>,
    /// The phase of a leaf that an AND would take: the gate with the least slack over them decides.
    edge: HashMap<(u32, u32), u8>,
    /// The least slack of a gate that loses its match where the AND is a point.
    spare: Vec<u64>,
    is_point: Vec<bool>,
    users: Vec<Vec<usize>>,
    cuts: Vec<Vec<Cut>>,
    effort: &'p Cell<usize>,
}

impl<'p, 'g> Draft<'p, 'g> {
    fn new(plan: &'p Plan<'g>, gates: &'p [Net], effort: &'p Cell<usize>) -> Draft<'p, 'g> {
        let cones: Vec<Vec<u32>> = gates.iter().map(|net| plan.cone(*net)).collect();
        let ands: Vec<u32> = cones.iter().flatten().copied().collect::<BTreeSet<u32>>().into_iter().collect();
        let place: HashMap<u32, usize> = ands.iter().enumerate().map(|(k, and)| (*and, k)).collect();
        let mut users = vec![Vec::new(); ands.len()];
        for (k, and) in ands.iter().enumerate() {
            for operand in plan.graph.operands(*and).into_iter().flatten() {
                if let Some(&source) = place.get(&(operand / 2)) {
                    users[source].push(k);
                }
            }
        }
        let (is_point, cuts) = (vec![false; ands.len()], vec![Vec::new(); ands.len()]);
        let spare = vec![NEVER; ands.len()];
        let edge = HashMap::new();
        let mut draft = Draft { plan, gates, ands, place, edge, spare, is_point, users, cuts, effort };
        draft.wishes(&cones);
        draft.spares(&cones);
        draft
    }

    /// The edges of a gate's cone into its pins' leaves: the AND, the net taken and its slack.
    fn taken(&self, net: Net, cone: &[u32]) -> Vec<(u32, Net, u64)> {
        let plan = self.plan;
        let Some(gate) = plan.source(net).gate() else { return Vec::new() };
        let due = plan.needed(net).unwrap_or(NEVER);
        let mut edges = Vec::new();
        for &and in cone {
            for operand in plan.graph.operands(and).into_iter().flatten() {
                if let Some(pin) = gate.pins.iter().find(|pin| pin.net.variable == operand / 2) {
                    edges.push((and, pin.net, due.saturating_sub(u64::from(pin.delay) + plan.arrival(pin.net))));
                }
            }
        }
        edges
    }

    fn wishes(&mut self, cones: &[Vec<u32>]) {
        let mut wish: HashMap<(u32, u32), (u64, u8)> = HashMap::new();
        for (&gate, cone) in self.gates.iter().zip(cones) {
            for (and, net, slack) in self.taken(gate, cone) {
                let old = wish.entry((and, net.variable)).or_insert((slack, net.phase));
                if slack < old.0 {
                    *old = (slack, net.phase);
                }
            }
        }
        self.edge = wish.into_iter().map(|(edge, (_, phase))| (edge, phase)).collect();
    }

    fn spares(&mut self, cones: &[Vec<u32>]) {
        for (&gate, cone) in self.gates.iter().zip(cones) {
            let slack = self.plan.slack(gate);
            for and in cone.iter().filter(|and| **and != gate.variable) {
                self.spend(*and, slack);
            }
            for (and, net, slack) in self.taken(gate, cone) {
                let other = self.phase(and, net.variable) != net.phase;
                if other && !matches!(self.plan.source(net), Source::Inverter) {
                    self.spend(net.variable, slack);
                }
            }
        }
    }

    fn spend(&mut self, and: u32, slack: u64) {
        if let Some(&k) = self.place.get(&and) {
            self.spare[k] = self.spare[k].min(slack);
        }
    }

    /// The phases in which a variable comes in: those that the plan makes by gates of their own.
    fn phases(&self, variable: u32) -> Vec<u8> {
        let net = |phase| Net { variable, phase };
        if !self.plan.graph.is_and(variable) {
            return vec![0];
        }
        let made =
            |phase: &u8| self.plan.source(net(*phase)).gate().is_some() && self.plan.needed(net(*phase)).is_some();
        let made: Vec<u8> = [0, 1].into_iter().filter(made).collect();
        if made.is_empty() {
            return vec![self.plan.earlier(variable).phase];
        }
        made
    }

    fn phase(&self, and: u32, variable: u32) -> u8 {
        let have = self.phases(variable);
        self.edge.get(&(and, variable)).copied().filter(|phase| have.contains(phase)).unwrap_or(have[0])
    }

    fn leaf(&self, and: u32, literal: u32) -> Leaf {
        let variable = literal / 2;
        match self.place.get(&variable) {
            _ if variable == 0 => Leaf::False,
            Some(&k) if !self.is_point[k] => Leaf::And(k),
            _ => Leaf::Net(Net { variable, phase: self.phase(and, variable) }),
        }
    }

    /// The cuts of an AND as the call would count them.
    fn count(&mut self, k: usize) -> Vec<Cut> {
        self.effort.set(self.effort.get().saturating_sub(1));
        let and = self.ands[k];
        let sets = self.operands(and).map(|literal| match self.leaf(and, literal) {
            Leaf::False => vec![Cut::none()],
            Leaf::And(k) => self.cuts[k].clone(),
            Leaf::Net(net) => vec![Cut::one(net.variable | NETS[net.phase as usize])],
        });
        let mut made = vec![Cut::one(and)];
        for one in &sets[0] {
            made.extend(sets[1].iter().filter_map(|other| one.with(other)));
        }
        made.sort_unstable_by(|one, other| one.leaves().cmp(other.leaves()));
        made.dedup();
        made
    }

    fn operands(&self, and: u32) -> [u32; 2] {
        self.plan.graph.operands(and).unwrap_or_default()
    }

    /// Makes points until no AND has more than 18 cuts; `None` where that takes too long.
    fn choose(&mut self) -> Option<()> {
        for k in 0..self.ands.len() {
            self.cuts[k] = self.count(k);
            while self.cuts[k].len() > CUTS {
                self.add_point(k)?;
            }
        }
        Some(())
    }

    /// The ANDs below one that are in a cut of it, or between, nearest first.
    fn near(&self, k: usize) -> Vec<usize> {
        let members: HashSet<u32> = self.cuts[k].iter().flat_map(|cut| cut.leaves().iter().copied()).collect();
        let (mut found, mut stack) = (BTreeSet::new(), vec![k]);
        while let Some(x) = stack.pop() {
            let and = self.ands[x];
            for literal in self.operands(and) {
                let Leaf::And(b) = self.leaf(and, literal) else { continue };
                let within = |leaf: &u32| *leaf != self.ands[b] && members.contains(leaf);
                if found.insert(b) && self.cuts[b].iter().any(|cut| cut.leaves().iter().any(within)) {
                    stack.push(b);
                }
            }
        }
        found.into_iter().rev().collect()
    }

    /// The planned net whose cutting costs the plan least: the most slack of the gates that lose their match, then the fewest cuts left, then the nearest.
    fn add_point(&mut self, k: usize) -> Option<()> {
        let near = self.near(k);
        let is_planned = |&b: &usize| self.plan.needed[self.ands[b] as usize] != [None; 2];
        // A net without a cover is no point: no call could make it.
        let is_covered = |&b: &usize| self.plan.arrival(self.plan.earlier(self.ands[b])) < NEVER;
        let mut planned: Vec<usize> = near.iter().copied().filter(is_planned).filter(is_covered).collect();
        if planned.is_empty() {
            planned.extend(near.iter().find(|b| is_covered(b)));
        }
        let before = self.cuts[k].len();
        let mut best = None;
        for b in planned {
            let undo = self.set_point(b, k);
            let left = self.cuts[k].len();
            for (x, cuts) in undo {
                self.cuts[x] = cuts;
            }
            self.is_point[b] = false;
            let score = (left == before, NEVER - self.spare[b], left.max(CUTS), usize::MAX - b);
            if best.is_none_or(|(old, _)| score < old) {
                best = Some((score, b));
            }
        }
        if self.effort.get() == 0 {
            return None;
        }
        self.set_point(best?.1, k);
        Some(())
    }

    /// Makes an AND a point, with the cuts of the ANDs up to k that change; answers the former ones.
    fn set_point(&mut self, b: usize, k: usize) -> Vec<(usize, Vec<Cut>)> {
        self.is_point[b] = true;
        let mut undo = Vec::new();
        let mut todo: BTreeSet<usize> = self.users[b].iter().copied().collect();
        while let Some(x) = todo.pop_first() {
            if x > k {
                break;
            }
            let cuts = self.count(x);
            if cuts != self.cuts[x] {
                undo.push((x, std::mem::replace(&mut self.cuts[x], cuts)));
                if !self.is_point[x] {
                    todo.extend(&self.users[x]);
                }
            }
        }
        undo
    }

    /// The graph that gives these nets; `None` where it is too large.
    fn piece(&self, wanted: &BTreeSet<Net>) -> Option<Piece> {
        let mut outputs = wanted.clone();
        let mut inputs = BTreeSet::new();
        let mut reached = vec![false; self.ands.len()];
        let mut stack: Vec<usize> = wanted.iter().filter_map(|net| self.place.get(&net.variable).copied()).collect();
        while let Some(k) = stack.pop() {
            if std::mem::replace(&mut reached[k], true) {
                continue;
            }
            for literal in self.operands(self.ands[k]) {
                match self.leaf(self.ands[k], literal) {
                    Leaf::False => {}
                    Leaf::And(b) => stack.push(b),
                    Leaf::Net(net) => {
                        inputs.insert(net);
                        if let Some(&b) = self.place.get(&net.variable) {
                            outputs.insert(net);
                            stack.push(b);
                        }
                    }
                }
            }
        }
        let inputs: Vec<Net> = inputs.into_iter().collect();
        let of_net: HashMap<Net, u32> = inputs.iter().zip(1..).map(|(net, k)| (*net, k)).collect();
        let mut of_and = vec![0; self.ands.len()];
        let mut ands = Vec::new();
        for k in (0..self.ands.len()).filter(|k| reached[*k]) {
            let and = self.ands[k];
            let [a, b] = self.operands(and).map(|literal| match self.leaf(and, literal) {
                Leaf::False => literal,
                Leaf::And(b) => 2 * of_and[b] + literal % 2,
                Leaf::Net(net) => 2 * of_net[&net] + (literal % 2 ^ u32::from(net.phase)),
            });
            ands.push([a.max(b), a.min(b)]);
            of_and[k] = (inputs.len() + ands.len()) as u32;
        }
        let outputs: Vec<Net> = outputs.into_iter().collect();
        let literal = |net: &Net| Some(2 * of_and[*self.place.get(&net.variable)?] + u32::from(net.phase));
        let literals = outputs.iter().map(literal).collect::<Option<Vec<u32>>>()?;
        let points = self.is_point.iter().zip(&reached).filter(|(point, reached)| **point && **reached).count();
        Piece::new(inputs, outputs, &literals, &ands, points)
    }
}

/// The planned gates' cones in windows of some so many variables; `None` where too many points are due. `wanted` are the nets that the graph's
/// outputs take.
pub fn pieces(plan: &Plan, gates: &[Net], wanted: &HashSet<Net>, window: usize) -> Option<Vec<Piece>> {
    let effort = Cell::new(EFFORT);
    let mut drafts: Vec<(Draft, Piece)> = Vec::new();
    let mut todo: Vec<&[Net]> = rough(plan, gates, window);
    todo.reverse();
    while let Some(gates) = todo.pop() {
        let mut draft = Draft::new(plan, gates, &effort);
        draft.choose()?;
        match draft.piece(&gates.iter().copied().collect()) {
            Some(piece) => drafts.push((draft, piece)),
            None if gates.len() > 1 => {
                let (one, other) = gates.split_at(gates.len() / 2);
                todo.extend([other, one]);
            }
            None => return None,
        }
    }
    // A net is made in the first piece that has a gate for its variable; what pieces take in, that piece gives out.
    let mut made_in: HashMap<u32, usize> = HashMap::new();
    for (w, (draft, _)) in drafts.iter().enumerate() {
        for net in draft.gates {
            made_in.entry(net.variable).or_insert(w);
        }
    }
    let mut give: Vec<BTreeSet<Net>> = vec![BTreeSet::new(); drafts.len()];
    for (w, (_, piece)) in drafts.iter().enumerate() {
        let own: HashSet<&Net> = piece.outputs.iter().collect();
        for net in piece.inputs.iter().filter(|net| !own.contains(net)) {
            match made_in.get(&net.variable) {
                Some(&from) if from != w => drop(give[from].insert(*net)),
                None if plan.graph.is_and(net.variable) => return None,
                _ => {}
            }
        }
    }
    for net in wanted {
        if let Some(&from) = made_in.get(&net.variable) {
            give[from].insert(*net);
        }
    }
    drafts.iter().zip(&give).map(|((draft, _), give)| draft.piece(give)).collect()
}

/// Gates in placing order, as many as a call takes with some room for points.
fn rough<'n>(plan: &Plan, gates: &'n [Net], window: usize) -> Vec<&'n [Net]> {
    let mut windows = Vec::new();
    let (mut start, mut inside, mut outside) = (0, HashSet::new(), HashSet::new());
    for (k, &net) in gates.iter().enumerate() {
        let cone = plan.cone(net);
        let cut: Vec<u32> = plan.source(net).gate().map_or(Vec::new(), |gate| gate.cut.leaves().to_vec());
        let add = |inside: &mut HashSet<u32>, outside: &mut HashSet<u32>| {
            for and in &cone {
                outside.remove(and);
            }
            inside.extend(&cone);
            outside.extend(cut.iter().filter(|leaf| !inside.contains(*leaf)));
            inside.len() + 2 * outside.len()
        };
        if add(&mut inside, &mut outside) > window && k > start {
            windows.push(&gates[start..k]);
            start = k;
            inside.clear();
            outside.clear();
            add(&mut inside, &mut outside);
        }
    }
    if start < gates.len() {
        windows.push(&gates[start..]);
    }
    windows
}
