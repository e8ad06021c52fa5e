//! Less area at the same arrival: gates with time to spare take the match with the least area flow. The area is that of the planned gates; the calls take
//! the earliest cell for each of them.

use super::{
    matches::{Match, Matches, NEVER},
    plan::{Net, Plan, Planned, Source},
};

/// Rounds, each over the whole plan, as long as the area falls.
const ROUNDS: usize = 4;

/// One phase's choice as it grows.
struct Choice<'m> {
    key: (u64, f64, u64),
    found: (&'m Match, usize),
}

impl Plan<'_> {
    /// The area of the planned gates.
    pub fn area(&self, matches: &Matches) -> u64 {
        let inverter = matches.inverter.map_or(0, |(_, area)| area);
        self.nets().map(|net| self.area_of(matches, inverter, net)).sum()
    }

    fn area_of(&self, matches: &Matches, inverter: u32, net: Net) -> u64 {
        match self.source(net) {
            Source::Gate(gate) => u64::from(matches.areas[gate.cell as usize]),
            Source::Inverter => u64::from(inverter),
            _ => 0,
        }
    }

    /// The nets that the outputs need.
    fn nets(&self) -> impl Iterator<Item = Net> + '_ {
        let all = (0..self.needed.len() as u32).flat_map(|variable| [0, 1].map(|phase| Net { variable, phase }));
        all.filter(|net| self.needed(*net).is_some())
    }

    /// How often each net is used.
    fn uses(&self) -> Vec<[u32; 2]> {
        let mut uses = vec![[0; 2]; self.needed.len()];
        let mut use_of = |net: Net| {
            let (at, phase) = net.at();
            uses[at][phase] += 1;
        };
        let mut outputs = self.graph.outputs.clone();
        outputs.sort_unstable();
        outputs.dedup();
        outputs.into_iter().for_each(|output| use_of(Net::of(output)));
        for net in self.nets() {
            match self.source(net) {
                Source::Gate(gate) => gate.pins.iter().for_each(|pin| use_of(pin.net)),
                Source::Inverter => use_of(net.other()),
                _ => {}
            }
        }
        uses
    }

    /// Less area; outputs may come as late as the latest, or as `allow`. The plan is to have kept its cuts.
    pub fn recover(&mut self, matches: &Matches, allow: u64) {
        let latest = self.latest.max(allow);
        self.need(matches, latest);
        let mut best = self.area(matches);
        for _ in 0..ROUNDS {
            let saved = (self.arrival.clone(), self.source.clone(), self.needed.clone());
            self.round(matches);
            self.need(matches, latest);
            let area = self.area(matches);
            if self.latest > latest || area >= best {
                (self.arrival, self.source, self.needed) = saved;
                self.need(matches, latest);
                break;
            }
            best = area;
        }
    }

    fn round(&mut self, matches: &Matches) {
        let uses = self.uses();
        let share = |cost: f64, at: usize, phase: usize| cost / f64::from(uses[at][phase].max(1));
        let mut flow = vec![[0.0; 2]; self.graph.variables()];
        if let Some((_, area)) = matches.inverter {
            for (variable, flow) in flow.iter_mut().enumerate().take(1 + self.graph.inputs).skip(1) {
                flow[1] = share(f64::from(area), variable, 1);
            }
        }
        for at in 1 + self.graph.inputs..self.graph.variables() {
            let cost = self.pick(matches, at, &flow);
            flow[at] = [share(cost[0], at, 0), share(cost[1], at, 1)];
        }
    }

    /// Chooses both phases of an AND; answers what each costs.
    fn pick(&mut self, matches: &Matches, at: usize, flow: &[[f64; 2]]) -> [f64; 2] {
        let mut choice: [Option<Choice>; 2] = [None, None];
        let cuts = &self.kept[at];
        for (k, (cut, table)) in cuts.iter().enumerate() {
            for (phase, table) in [*table, !*table].into_iter().enumerate() {
                let due = self.needed[at][phase].unwrap_or(NEVER);
                for found in matches.of(table).iter().filter(|found| usize::from(found.leaves) <= cut.leaves().len()) {
                    let (mut arrival, mut cost) = (0, f64::from(matches.areas[found.cell as usize]));
                    for pin in found.pins() {
                        let (leaf, phase) = (cut.leaves()[pin.place as usize] as usize, pin.phase as usize);
                        arrival = arrival.max(self.arrival[leaf][phase] + u64::from(pin.delay));
                        cost += flow[leaf][phase];
                    }
                    let key = (arrival.max(due), cost, arrival);
                    if arrival < NEVER && choice[phase].as_ref().is_none_or(|old| key < old.key) {
                        choice[phase] = Some(Choice { key, found: (found, k) });
                    }
                }
            }
        }
        let mut cost = [f64::INFINITY; 2];
        for (phase, choice) in choice.iter().enumerate() {
            (self.arrival[at][phase], self.source[at][phase]) = (NEVER, Source::Nothing);
            if let Some(Choice { key, found: (found, k) }) = choice {
                let (cut, table) = self.kept[at][*k];
                let gate = Planned::new(found, cut, table);
                (self.arrival[at][phase], self.source[at][phase]) = (key.2, Source::Gate(Box::new(gate)));
                cost[phase] = key.1;
            }
        }
        self.pick_inverter(matches, at, &mut cost);
        cost
    }

    /// The inverter of the other phase, where it is early enough and costs less.
    fn pick_inverter(&mut self, matches: &Matches, at: usize, cost: &mut [f64; 2]) {
        let Some((delay, area)) = matches.inverter else { return };
        for phase in [0, 1] {
            let other = 1 - phase;
            if self.source[at][other].gate().is_none() {
                continue;
            }
            let due = self.needed[at][phase].unwrap_or(NEVER);
            let arrival = self.arrival[at][other] + u64::from(delay);
            let both = self.needed[at][0].is_some() && self.needed[at][1].is_some();
            let extra = f64::from(area) + if both { 0.0 } else { cost[other] };
            if (arrival.max(due), extra) < (self.arrival[at][phase].max(due), cost[phase]) {
                (self.arrival[at][phase], self.source[at][phase]) = (arrival, Source::Inverter);
                cost[phase] = f64::from(area) + cost[other];
            }
        }
    }
}
