//! Figures of a mapped design as a whole: gates, area, what stands beside them, and the latest path from an input or register to an output or register.

use super::design::{Bit, Direction, Module};
use crate::{
    foundry::{Gate, Units},
    lines::counted,
};
use std::collections::HashMap;

/// A cell of the library: its area and its pins' delays, in the library's common measures.
pub struct Timed<'a> {
    pub gate: &'a Gate,
    pub area: u32,
    pub delays: Vec<u32>,
}

/// What stands beside the gates.
#[derive(Default)]
struct Beside {
    registers: usize,
    latches: usize,
    drivers: usize,
    others: usize,
}

impl Beside {
    fn add(&mut self, kind: &str, width: usize) {
        match kind {
            _ if kind.starts_with("$_DLATCH") || kind.starts_with("$_SR") => self.latches += width,
            _ if is_register(kind) => self.registers += width,
            "$tribuf" | "$_TBUF_" => self.drivers += width,
            _ => self.others += 1,
        }
    }

    fn words(&self) -> String {
        let mut words = counted(self.registers, "register", "registers");
        let more = [
            (self.latches, "latch", "latches"),
            (self.drivers, "tri-state driver", "tri-state drivers"),
            (self.others, "other cell", "other cells"),
        ];
        for (count, one, many) in more.into_iter().filter(|(count, ..)| *count > 0) {
            words += &format!(", {}", counted(count, one, many));
        }
        words
    }
}

/// Flip-flops and latches, by yosys's names of them.
pub fn is_register(kind: &str) -> bool {
    ["$_DFF", "$_SDFF", "$_ALDFF", "$_DLATCH", "$_SR_", "$_FF_"].iter().any(|begin| kind.starts_with(begin))
}

/// The figures of a flattened design, in a line.
pub fn figures(module: &Module, library: &[Timed], units: &Units) -> String {
    let by_name: HashMap<&str, &Timed> = library.iter().map(|cell| (cell.gate.name.as_str(), cell)).collect();
    let (mut gates, mut area, mut beside) = (0, 0, Beside::default());
    // Of each net its drivers: the nets before it, and the delay from each. A tri-state driver has none.
    let mut before: HashMap<u32, Vec<(u32, u32)>> = HashMap::new();
    for cell in &module.cells {
        let net = |pin: &str| match cell.bit(pin) {
            Some(Bit::Net(net)) => Some(net),
            _ => None,
        };
        if let Some(timed) = by_name.get(cell.kind.as_str()) {
            gates += 1;
            area += u64::from(timed.area);
            if let Some(output) = net(&timed.gate.output) {
                let pins = timed.gate.pins.iter().zip(&timed.delays);
                before.entry(output).or_default().extend(pins.filter_map(|(pin, delay)| Some((net(pin)?, *delay))));
            }
            continue;
        }
        let output = if cell.pin("Y").is_empty() { cell.pin("Q") } else { cell.pin("Y") };
        beside.add(&cell.kind, output.len().max(1));
        if matches!(cell.kind.as_str(), "$tribuf" | "$_TBUF_") {
            let enable = cell.bit("EN").or(cell.bit("E"));
            for (from, to) in cell.pin("A").iter().zip(cell.pin("Y")) {
                let Bit::Net(to) = to else { continue };
                let from = [Some(*from), enable].into_iter().flatten();
                let nets = from.filter_map(|bit| if let Bit::Net(net) = bit { Some((net, 0)) } else { None });
                before.entry(*to).or_default().extend(nets);
            }
        }
    }
    let at = arrivals(&before);
    let last = before.keys().copied().max_by_key(|net| (at[net], std::cmp::Reverse(*net)));
    let latest = last.map_or(0, |net| at[&net]);
    let path = last.filter(|_| latest > 0).map(|net| ends(module, &before, &at, net)).unwrap_or_default();
    format!(
        "{}: the whole design has {}, area {}, beside them {}; arrival {}{path}\n",
        module.name,
        counted(gates, "gate", "gates"),
        units.area.times(area),
        beside.words(),
        units.delay.times(latest.into())
    )
}

/// When each net arrives. A net on a loop counts from 0 where the loop is met.
fn arrivals(before: &HashMap<u32, Vec<(u32, u32)>>) -> HashMap<u32, u64> {
    let mut at: HashMap<u32, u64> = HashMap::new();
    let mut roots: Vec<u32> = before.keys().copied().collect();
    roots.sort_unstable();
    let mut open = std::collections::HashSet::new();
    for root in roots {
        let mut stack = vec![root];
        while let Some(&net) = stack.last() {
            let Some(pins) = before.get(&net).filter(|_| !at.contains_key(&net)) else {
                at.entry(net).or_insert(0);
                stack.pop();
                continue;
            };
            let waits: Vec<u32> =
                pins.iter().map(|(pin, _)| *pin).filter(|pin| !at.contains_key(pin) && !open.contains(pin)).collect();
            if waits.is_empty() || !open.insert(net) {
                let arrival = |(pin, delay): &(u32, u32)| at.get(pin).copied().unwrap_or(0) + u64::from(*delay);
                let latest = pins.iter().map(arrival).max().unwrap_or(0);
                at.insert(net, latest);
                open.remove(&net);
                stack.pop();
            } else {
                stack.extend(waits);
            }
        }
    }
    at
}

/// Where the latest path begins and ends, in words.
fn ends(module: &Module, before: &HashMap<u32, Vec<(u32, u32)>>, at: &HashMap<u32, u64>, last: u32) -> String {
    let names = module.names();
    let mut net = last;
    for _ in 0..before.len() {
        let due = at[&net];
        let late =
            before.get(&net).and_then(|pins| pins.iter().find(|(pin, delay)| at[pin] + u64::from(*delay) == due));
        match late {
            Some((pin, _)) => net = *pin,
            None => break,
        }
    }
    let port =
        module.ports.iter().find(|port| port.direction != Direction::Input && port.bits.contains(&Bit::Net(last)));
    let register = module.cells.iter().find(|cell| {
        is_register(&cell.kind) && cell.pins.iter().any(|(pin, bits)| pin != "Q" && bits.contains(&Bit::Net(last)))
    });
    let name = |net: u32| names.get(&net).cloned().unwrap_or_default();
    let to = match (port, register.and_then(|cell| cell.bit("Q"))) {
        (Some(port), _) => port.bit(port.bits.iter().position(|bit| *bit == Bit::Net(last)).unwrap_or(0)),
        (_, Some(Bit::Net(held))) => format!("register {}", name(held)),
        _ => name(last),
    };
    format!(", from {} to {to}", name(net))
}
