//! All covers of a tiny graph, one after the other: which phases have one, the
//! least arrival each net gets in any of them, and the source that the choice
//! names. Made another way than the reference: cuts are sets of bits, pins are
//! laid on leaves one by one, arrivals come from whole covers, a pair's value from its
//! two gates.

use crate::gen::{Cell, Graph};
use std::collections::{BTreeMap, BTreeSet};

/// Variable, and whether it is the negative phase.
pub type Phase = (usize, bool);

/// Where a source stands in the choice after its arrival: inverter or not,
/// the cut's size and leaves, cell line, order, mask.
type Rank = (bool, usize, Vec<usize>, usize, [usize; 4], usize);

#[derive(Clone, Debug)]
pub struct Source {
    pub rank: Rank,
    /// The kind's number; none for an input's own net.
    pub cell: Option<usize>,
    /// For each pin the phase that feeds it, and the pin's delay.
    pub feeds: Vec<(Phase, u64)>,
    /// The arrival of what nothing feeds: an input's own, or 0.
    pub start: u64,
}

pub struct Brute {
    pub sources: BTreeMap<Phase, Vec<Source>>,
    /// The listed cells and, where they are wanted, the pairs, in the order of lines.
    pub kinds: Vec<Kind>,
}

/// A listed cell, or a pair of two: the lines of root and inner, and the fed pin.
#[derive(Clone, Debug)]
pub struct Kind {
    pub root: usize,
    pub inner: Option<(usize, usize)>,
    values: Vec<bool>,
    delays: Vec<u64>,
}

/// The value of a listed cell where its pins have these.
fn cell_value(cell: &Cell, pins: &[bool]) -> bool {
    let row: usize = pins.iter().enumerate().map(|(pin, &is)| usize::from(is) << pin).sum();
    cell.table >> row & 1 == 1
}

fn kinds(cells: &[Cell], pairs: bool) -> Vec<Kind> {
    let bits = |row: usize, count: usize| (0..count).map(|bit| row >> bit & 1 == 1).collect::<Vec<bool>>();
    let own = |cell: &Cell| cell.delays[..cell.pins].iter().map(|&delay| u64::from(delay)).collect::<Vec<u64>>();
    let mut kinds = Vec::new();
    for (root, cell) in cells.iter().enumerate() {
        let values = (0..1 << cell.pins).map(|row| cell_value(cell, &bits(row, cell.pins))).collect();
        kinds.push(Kind { root, inner: None, values, delays: own(cell) });
    }
    for (root, outer) in cells.iter().enumerate().filter(|_| pairs) {
        for fed in 0..outer.pins {
            for (inner, within) in cells.iter().enumerate() {
                let count = outer.pins + within.pins - 1;
                if within.pins == 0 || count > 4 {
                    continue;
                }
                let value = |row: usize| {
                    let all = bits(row, count);
                    let (before, rest) = all.split_at(fed);
                    let (inside, after) = rest.split_at(within.pins);
                    cell_value(outer, &[before, &[cell_value(within, inside)], after].concat())
                };
                let (at_root, at_inner) = (own(outer), own(within));
                let through = at_inner.iter().map(|delay| delay + at_root[fed]).collect();
                let delays = [at_root[..fed].to_vec(), through, at_root[fed + 1..].to_vec()].concat();
                kinds.push(Kind {
                    root,
                    inner: Some((fed, inner)),
                    values: (0..1 << count).map(value).collect(),
                    delays,
                });
            }
        }
    }
    kinds
}

fn members(cut: u32) -> Vec<usize> {
    (0..32).filter(|variable| cut >> variable & 1 == 1).collect()
}

/// The cut set of a variable by the recursion, as sets of bits.
fn cut_set(graph: &Graph, variable: usize) -> BTreeSet<u32> {
    let Some(&(_, a, b)) = graph.ands.iter().find(|(left, _, _)| *left == variable) else {
        return BTreeSet::from([if variable == 0 { 0 } else { 1 << variable }]);
    };
    let mut set = BTreeSet::from([1 << variable]);
    for one in cut_set(graph, a / 2) {
        for other in cut_set(graph, b / 2) {
            if (one | other).count_ones() <= 4 {
                set.insert(one | other);
            }
        }
    }
    set
}

/// The value of a variable where the leaves of a cut have given values.
fn value(graph: &Graph, variable: usize, leaves: &BTreeMap<usize, bool>) -> bool {
    if let Some(&is) = leaves.get(&variable) {
        return is;
    }
    match graph.ands.iter().find(|(left, _, _)| *left == variable) {
        Some(&(_, a, b)) => [a, b].iter().all(|literal| value(graph, literal / 2, leaves) ^ (literal % 2 == 1)),
        None => false,
    }
}

/// Every way to lay `pins` pins on different leaves, first pin first.
fn layings(pins: usize, leaves: usize) -> Vec<Vec<usize>> {
    let mut all = vec![Vec::new()];
    for _ in 0..pins {
        let mut longer = Vec::new();
        for laying in all {
            for leaf in (0..leaves).filter(|leaf| !laying.contains(leaf)) {
                longer.push([&laying[..], &[leaf]].concat());
            }
        }
        all = longer;
    }
    all
}

/// The first of the orders that begin so.
fn first_order(laying: &[usize]) -> [usize; 4] {
    let rest = (0..4).filter(|place| !laying.contains(place));
    let order: Vec<usize> = laying.iter().copied().chain(rest).collect();
    [order[0], order[1], order[2], order[3]]
}

impl Brute {
    /// The arrivals of the inputs stand in the order of their lines.
    pub fn new(cells: &[Cell], graph: &Graph, late: &[u64], pairs: bool) -> Brute {
        let kinds = kinds(cells, pairs);
        let mut sources: BTreeMap<Phase, Vec<Source>> = BTreeMap::new();
        let ands = graph.ands.iter().map(|(left, _, _)| *left);
        for variable in [0].into_iter().chain(graph.inputs.iter().copied()).chain(ands) {
            for negative in [false, true] {
                let mut list = Vec::new();
                for (_, &start) in graph.inputs.iter().zip(late).filter(|(&input, _)| input == variable && !negative) {
                    let rank = (false, 0, Vec::new(), 0, [0; 4], 0);
                    list.push(Source { rank, cell: None, feeds: Vec::new(), start });
                }
                for cut in cut_set(graph, variable) {
                    let leaves = members(cut);
                    if leaves != [variable] {
                        matches(&kinds, graph, (variable, negative), &leaves, &mut list);
                    }
                }
                for (line, cell) in cells.iter().enumerate() {
                    if cell.pins == 1 && cell.table == 1 {
                        let feeds = vec![((variable, !negative), u64::from(cell.delays[0]))];
                        let rank = (true, 0, Vec::new(), line, [0; 4], 0);
                        list.push(Source { rank, cell: Some(line), feeds, start: 0 });
                    }
                }
                sources.insert((variable, negative), list);
            }
        }
        Brute { sources, kinds }
    }

    /// Goes through all covers of these outputs. Gives for every net that some
    /// cover needs the least arrival it has in one, or none when there are
    /// more than `budget` steps to go.
    pub fn least(&self, outputs: &[Phase], budget: &mut u64) -> Option<BTreeMap<Phase, u64>> {
        let mut least = BTreeMap::new();
        let asked: BTreeSet<Phase> = outputs.iter().copied().collect();
        self.extend(&asked, &mut BTreeMap::new(), &mut least, budget).then_some(least)
    }

    /// Gives the first needed phase without a source each of its sources in
    /// turn; when all have one, it is a cover unless it has a circle.
    fn extend<'a>(
        &'a self,
        needed: &BTreeSet<Phase>,
        chosen: &mut BTreeMap<Phase, &'a Source>,
        least: &mut BTreeMap<Phase, u64>,
        budget: &mut u64,
    ) -> bool {
        if *budget == 0 {
            return false;
        }
        *budget -= 1;
        let Some(&open) = needed.iter().find(|phase| !chosen.contains_key(phase)) else {
            if let Some(arrivals) = arrivals(chosen) {
                for (phase, arrival) in arrivals {
                    let known = least.entry(phase).or_insert(arrival);
                    *known = arrival.min(*known);
                }
            }
            return true;
        };
        // Two sources fed alike make the same arrivals.
        let mut seen: BTreeSet<(u64, Vec<(Phase, u64)>)> = BTreeSet::new();
        for source in &self.sources[&open] {
            let mut alike = source.feeds.clone();
            alike.sort();
            if !seen.insert((source.start, alike)) {
                continue;
            }
            let mut more = needed.clone();
            more.extend(source.feeds.iter().map(|(phase, _)| *phase));
            chosen.insert(open, source);
            let all = self.extend(&more, chosen, least, budget);
            chosen.remove(&open);
            if !all {
                return false;
            }
        }
        true
    }

    /// The source that the choice names, from the least arrivals of all nets.
    pub fn choice(&self, phase: Phase, least: &BTreeMap<Phase, u64>) -> Option<&Source> {
        let arrival = |source: &Source| {
            let feeding = source.feeds.iter().map(|(phase, delay)| Some(least.get(phase)? + delay));
            Some(feeding.collect::<Option<Vec<u64>>>()?.into_iter().max().unwrap_or(source.start))
        };
        let delay = |source: &Source| if source.rank.0 { source.feeds[0].1 } else { 0 };
        let possible = self.sources[&phase].iter().filter_map(|source| Some((arrival(source)?, source)));
        let ranked = possible.min_by_key(|(arrival, source)| {
            let (inverter, size, leaves, line, order, mask) = source.rank.clone();
            (source.cell.is_some(), *arrival, inverter, delay(source), size, leaves, line, order, mask)
        });
        ranked.map(|(_, source)| source)
    }
}

fn matches(kinds: &[Kind], graph: &Graph, phase: Phase, leaves: &[usize], list: &mut Vec<Source>) {
    let count = leaves.len();
    let wanted: Vec<bool> = (0..1usize << count)
        .map(|row| {
            let setting = leaves.iter().enumerate().map(|(place, &leaf)| (leaf, row >> place & 1 == 1)).collect();
            value(graph, phase.0, &setting) ^ phase.1
        })
        .collect();
    for (line, kind) in kinds.iter().enumerate() {
        let pins = kind.delays.len();
        for laying in layings(pins, count) {
            for mask in 0..1usize << pins {
                let fits = wanted.iter().enumerate().all(|(row, &is)| {
                    let fed = laying.iter().enumerate().map(|(pin, &place)| (row >> place & 1) << pin);
                    kind.values[fed.sum::<usize>() ^ mask] == is
                });
                if fits {
                    let fed_by = |pin: usize| (leaves[laying[pin]], mask >> pin & 1 == 1);
                    let feeds = (0..pins).map(|pin| (fed_by(pin), kind.delays[pin])).collect();
                    let rank = (false, count, leaves.to_vec(), line, first_order(&laying), mask);
                    list.push(Source { rank, cell: Some(line), feeds, start: 0 });
                }
            }
        }
    }
}

/// The arrivals of all nets of a cover, or none where it has a circle.
fn arrivals(chosen: &BTreeMap<Phase, &Source>) -> Option<BTreeMap<Phase, u64>> {
    let mut known: BTreeMap<Phase, u64> = BTreeMap::new();
    while known.len() < chosen.len() {
        let before = known.len();
        for (&phase, source) in chosen {
            let feeding = source.feeds.iter().map(|(phase, delay)| Some(known.get(phase)? + delay));
            if let Some(all) = feeding.collect::<Option<Vec<u64>>>() {
                known.insert(phase, all.into_iter().max().unwrap_or(source.start));
            }
        }
        if known.len() == before {
            return None;
        }
    }
    Some(known)
}
