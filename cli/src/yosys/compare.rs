//! Source and result compared: both cut at their registers, which are matched by name, and at tri-state nets. What is left is logic between the cuts. An
//! x in the source leaves a value open, and the result may have either: so each net is two bits, one for 1 and one for 0, and an x is neither.

use super::{
    design::{Bit, Cell, Direction, Module},
    figures::is_register,
};
use std::collections::{BTreeMap, HashMap, HashSet};

/// AND nodes over literals: 0 is false, 1 is true, then two for each input and AND.
#[derive(Clone, Default)]
struct Ands {
    /// The number of inputs.
    inputs: usize,
    /// In the order in which they were made; those of inputs are [0, 0].
    nodes: Vec<[u32; 2]>,
    found: HashMap<[u32; 2], u32>,
}

impl Ands {
    fn input(&mut self) -> u32 {
        self.inputs += 1;
        self.nodes.push([0, 0]);
        2 * self.nodes.len() as u32
    }

    fn and(&mut self, a: u32, b: u32) -> u32 {
        let (a, b) = (a.min(b), a.max(b));
        if a == 0 || b == a ^ 1 {
            return 0;
        }
        if a == 1 || a == b {
            return b;
        }
        if let Some(literal) = self.found.get(&[a, b]) {
            return *literal;
        }
        self.nodes.push([a, b]);
        let literal = 2 * self.nodes.len() as u32;
        self.found.insert([a, b], literal);
        literal
    }

    fn or(&mut self, a: u32, b: u32) -> u32 {
        self.and(a ^ 1, b ^ 1) ^ 1
    }

    /// The values of all literals' variables in 64 settings at once.
    fn values(&self, inputs: &[u64]) -> Vec<u64> {
        let mut values = vec![0; 1 + self.nodes.len()];
        for (k, node) in self.nodes.iter().enumerate() {
            let of = |literal: u32| values[literal as usize / 2] ^ (literal as u64 & 1).wrapping_neg();
            values[k + 1] = if k < self.inputs { inputs[k] } else { of(node[0]) & of(node[1]) };
        }
        values
    }

    /// The binary AIGER text with these outputs; inputs are called i0, i1 and on.
    fn aiger(&self, outputs: &[u32], symbols: &str) -> Vec<u8> {
        let ands = self.nodes.len() - self.inputs;
        let mut text = format!("aig {} {} 0 {} {ands}\n", self.nodes.len(), self.inputs, outputs.len()).into_bytes();
        for output in outputs {
            text.extend_from_slice(format!("{output}\n").as_bytes());
        }
        for (k, [a, b]) in self.nodes.iter().enumerate().skip(self.inputs) {
            let own = 2 * (k as u32 + 1);
            for mut difference in [own - b, b - a] {
                while difference >= 128 {
                    text.push((difference & 127) as u8 | 128);
                    difference >>= 7;
                }
                text.push(difference as u8);
            }
        }
        for k in 0..self.inputs {
            text.extend_from_slice(format!("i{k} i{k}\n").as_bytes());
        }
        text.extend_from_slice(symbols.as_bytes());
        text
    }
}

/// Whether a net is 1, and whether it is 0: an x is neither.
#[derive(Clone, Copy, PartialEq, Eq)]
struct Rails {
    one: u32,
    zero: u32,
}

const UNKNOWN: Rails = Rails { one: 0, zero: 0 };

impl Rails {
    fn plain(literal: u32) -> Rails {
        Rails { one: literal, zero: literal ^ 1 }
    }

    fn is_plain(self) -> bool {
        self.zero == self.one ^ 1
    }

    fn not(self) -> Rails {
        Rails { one: self.zero, zero: self.one }
    }
}

fn and(ands: &mut Ands, a: Rails, b: Rails) -> Rails {
    let one = ands.and(a.one, b.one);
    let zero = if a.is_plain() && b.is_plain() { one ^ 1 } else { ands.or(a.zero, b.zero) };
    Rails { one, zero }
}

fn or(ands: &mut Ands, a: Rails, b: Rails) -> Rails {
    and(ands, a.not(), b.not()).not()
}

/// The second where the switch is 1; where it is x, the value that both have.
fn choice(ands: &mut Ands, switch: Rails, a: Rails, b: Rails) -> Rails {
    let mut rail = |one: u32, a: u32, b: u32, zero: u32, both: bool| {
        let (first, second) = (ands.and(zero, a), ands.and(one, b));
        let either = ands.or(first, second);
        if !both {
            return either;
        }
        let agreed = ands.and(a, b);
        ands.or(either, agreed)
    };
    let plain = switch.is_plain();
    let one = rail(switch.one, a.one, b.one, switch.zero, !plain);
    if plain && a.is_plain() && b.is_plain() {
        return Rails::plain(one);
    }
    Rails { one, zero: rail(switch.one, a.zero, b.zero, switch.zero, !plain) }
}

/// What a cut is at, as both designs name it.
#[derive(Clone, Debug, PartialEq, Eq, PartialOrd, Ord, Hash)]
enum Key {
    Input(String),
    Output(String),
    /// A register's output, or one of its other pins.
    Register(usize, String),
    /// A net that tri-state drivers drive: what is read of it, and whether it is driven to 1 and to 0.
    Shared(String, u8),
    /// A pin of an instance without a body.
    Instance(String, String),
}

/// A register, by every name that its output has.
struct Register {
    kind: String,
    names: Vec<String>,
    cell: usize,
    init: Option<bool>,
}

/// One of the two designs.
struct Side<'m> {
    module: &'m Module,
    registers: Vec<Register>,
    names: HashMap<u32, Vec<String>>,
    /// Names that both designs have: yosys names nets in the result that have none in the source.
    common: HashSet<String>,
}

impl Side<'_> {
    fn new(module: &Module) -> Side<'_> {
        let (mut names, mut inits): (HashMap<u32, Vec<String>>, HashMap<u32, bool>) = Default::default();
        for net in module.ports.iter().chain(&module.nets).filter(|net| !net.hidden) {
            for (k, bit) in net.bits.iter().enumerate() {
                let Bit::Net(number) = bit else { continue };
                let all = names.entry(*number).or_default();
                let name = net.bit(k);
                if !all.contains(&name) {
                    all.push(name);
                }
            }
        }
        for net in &module.nets {
            for (bit, init) in net.bits.iter().zip(net.init.bytes().rev()) {
                if let (Bit::Net(number), b'0' | b'1') = (bit, init) {
                    inits.insert(*number, init == b'1');
                }
            }
        }
        let register = |(k, cell): (usize, &Cell)| {
            let Some(Bit::Net(held)) = cell.bit("Q").filter(|_| is_register(&cell.kind)) else { return None };
            let names = names.get(&held).cloned().unwrap_or_default();
            Some(Register { kind: cell.kind.clone(), names, cell: k, init: inits.get(&held).copied() })
        };
        let registers = module.cells.iter().enumerate().filter_map(register).collect();
        Side { module, registers, names, common: HashSet::new() }
    }

    fn has(&self) -> HashSet<String> {
        self.names.values().flatten().cloned().collect()
    }

    /// The first of a net's names that both designs have.
    fn name(&self, net: u32) -> Option<String> {
        self.names.get(&net)?.iter().filter(|name| self.common.contains(*name)).min().cloned()
    }
}

/// Both designs as logic between cuts.
pub struct Cut {
    ands: Ands,
    /// What each input is, in words.
    inputs: Vec<String>,
    /// What is compared: its name, and the literals of source and result.
    pairs: Vec<(String, u32, u32)>,
    /// The clock and the registers, where a step of all registers is one edge of one clock.
    steps: Option<Vec<Step>>,
    pub registers: usize,
    /// Registers of one side that have none of their name on the other.
    pub unmatched: usize,
    /// A register has a value at the start: not every state need be one that is reached.
    has_init: bool,
}

/// A register in a step of the clock.
struct Step {
    input: usize,
    next: u32,
    init: Option<bool>,
}

/// A setting in which source and result differ.
pub struct Difference {
    /// Settings of inputs and registers, a line each.
    pub lines: Vec<String>,
    /// It can occur: every register has a partner, and can have its value at the start or was brought there.
    pub is_reached: bool,
}

/// The sinks of one design by key.
struct Logic {
    sinks: BTreeMap<Key, Rails>,
}

/// Cuts both designs, or says in words why they cannot be.
pub fn cut(source: &Module, result: &Module) -> Result<Cut, String> {
    let (mut source, mut result) = (Side::new(source), Side::new(result));
    let common: HashSet<String> = source.has().intersection(&result.has()).cloned().collect();
    (source.common, result.common) = (common.clone(), common);
    let mut of_name: HashMap<&str, usize> = HashMap::new();
    for (k, register) in source.registers.iter().enumerate() {
        of_name.extend(register.names.iter().map(|name| (name.as_str(), k)));
    }
    let mut matched = vec![false; source.registers.len()];
    // Registers of the result by the number of their partner in the source; those without one behind them.
    let mut numbers = Vec::new();
    for (k, register) in result.registers.iter().enumerate() {
        let partner = register.names.iter().find_map(|name| of_name.get(name.as_str()));
        match partner.filter(|partner| !matched[**partner]) {
            Some(&partner) => {
                if source.registers[partner].kind != register.kind {
                    return Err(format!("register {} is of another kind in the result", register.names.join(" ")));
                }
                matched[partner] = true;
                numbers.push(partner);
            }
            None => numbers.push(source.registers.len() + k),
        }
    }
    let unmatched = matched.iter().filter(|found| !**found).count()
        + numbers.iter().filter(|number| **number >= source.registers.len()).count();
    let mut ands = Ands::default();
    let (mut given, mut inputs) = (BTreeMap::new(), Vec::new());
    let own: Vec<usize> = (0..source.registers.len()).collect();
    for (side, numbers) in [(&source, &own), (&result, &numbers)] {
        for key in sources(side, numbers) {
            if !given.contains_key(&key) {
                inputs.push(shown(&key, &source, &result, numbers));
                given.insert(key, ands.input());
            }
        }
    }
    let one = logic(&mut ands, &source, &own, &given)?;
    let other = logic(&mut ands, &result, &numbers, &given)?;
    let mut pairs = Vec::new();
    for (key, left) in &one.sinks {
        let Some(right) = other.sinks.get(key) else {
            match key {
                // A register that the result does not have.
                Key::Register(number, _) if !matched[*number] => continue,
                _ => return Err(format!("the result has no {}", shown(key, &source, &result, &numbers))),
            }
        };
        let name = shown(key, &source, &result, &numbers);
        if left.is_plain() && right.is_plain() {
            pairs.push((name, left.one, right.one));
            continue;
        }
        // Where the source has a value, the result has it too.
        let (is_one, is_zero) = (ands.and(left.one, right.one), ands.and(left.zero, right.zero));
        pairs.push((name.clone(), left.one, is_one));
        pairs.push((name, left.zero, is_zero));
    }
    if let Some(key) = other.sinks.keys().find(|key| !one.sinks.contains_key(key) && !matches!(key, Key::Register(..)))
    {
        return Err(format!("the source has no {}", shown(key, &source, &result, &numbers)));
    }
    let steps = steps(&source, &result, &numbers, &given, &other);
    let has_init = source.registers.iter().chain(&result.registers).any(|register| register.init.is_some());
    Ok(Cut { ands, inputs, pairs, steps, registers: source.registers.len(), unmatched, has_init })
}

/// A step of the result's registers, where all are plain flip-flops on one edge of one input.
fn steps(
    source: &Side,
    result: &Side,
    numbers: &[usize],
    given: &BTreeMap<Key, u32>,
    logic: &Logic,
) -> Option<Vec<Step>> {
    let first = result.registers.first()?;
    let clock = result.module.cells[first.cell].bit("C")?;
    let is_input = |bit: Bit| {
        result.module.ports.iter().any(|port| port.direction == Direction::Input && port.bits.contains(&bit))
    };
    let one = |register: &Register| {
        let cell = &result.module.cells[register.cell];
        register.kind == first.kind
            && matches!(register.kind.as_str(), "$_DFF_P_" | "$_DFF_N_")
            && cell.bit("C") == Some(clock)
    };
    if !is_input(clock) || !result.registers.iter().all(one) {
        return None;
    }
    let step = |(register, number): (&Register, &usize)| {
        let own = source.registers.get(*number).map_or(register.init, |partner| partner.init.or(register.init));
        let input = given.get(&Key::Register(*number, "Q".into()))?;
        let next = logic.sinks.get(&Key::Register(*number, "D".into()))?;
        Some(Step { input: *input as usize / 2 - 1, next: next.one, init: own })
    };
    result.registers.iter().zip(numbers).map(step).collect()
}

fn shown(key: &Key, source: &Side, result: &Side, numbers: &[usize]) -> String {
    match key {
        Key::Input(name) | Key::Output(name) => name.clone(),
        Key::Shared(name, 0) => format!("net {name}"),
        Key::Shared(name, way) => format!("driver of {name} to {}", way - 1),
        Key::Instance(name, pin) => format!("{name}.{pin}"),
        Key::Register(number, pin) => {
            let own = source.registers.get(*number);
            let other = || numbers.iter().position(|other| other == number).and_then(|k| result.registers.get(k));
            let names = own.or_else(other).map(|register| register.names.iter().min());
            let name = names.flatten().cloned().unwrap_or_else(|| format!("number {number}"));
            match pin.as_str() {
                "Q" => format!("register {name}"),
                "D" => format!("next value of register {name}"),
                pin => format!("{pin} of register {name}"),
            }
        }
    }
}

/// Nets with tri-state drivers: of each its name.
fn shared(side: &Side) -> BTreeMap<u32, String> {
    let drivers = side.module.cells.iter().filter(|cell| cell.kind == "$_TBUF_");
    let net = |cell: &Cell| match cell.bit("Y")? {
        Bit::Net(net) => Some((net, side.name(net).unwrap_or_else(|| cell.name.clone()))),
        _ => None,
    };
    drivers.filter_map(net).collect()
}

/// The cuts from which a design's logic begins.
fn sources(side: &Side, numbers: &[usize]) -> Vec<Key> {
    let mut keys = Vec::new();
    let shared = shared(side);
    for port in side.module.ports.iter().filter(|port| port.direction != Direction::Output) {
        for (k, bit) in port.bits.iter().enumerate() {
            if matches!(bit, Bit::Net(net) if !shared.contains_key(net)) {
                keys.push(Key::Input(port.bit(k)));
            }
        }
    }
    keys.extend(numbers.iter().map(|number| Key::Register(*number, "Q".into())));
    keys.extend(shared.into_values().map(|name| Key::Shared(name, 0)));
    for cell in side.module.cells.iter().filter(|cell| !cell.kind.starts_with('$')) {
        for (pin, bits) in cell.pins.iter().filter(|(pin, _)| cell.is_output(pin)) {
            keys.extend((0..bits.len()).map(|k| Key::Instance(cell.name.clone(), format!("{pin}[{k}]"))));
        }
    }
    keys
}

/// A design's logic between its cuts.
fn logic(ands: &mut Ands, side: &Side, numbers: &[usize], given: &BTreeMap<Key, u32>) -> Result<Logic, String> {
    let mut value: HashMap<u32, Rails> = HashMap::new();
    let mut put = |bit: Bit, key: &Key| {
        if let (Bit::Net(net), Some(literal)) = (bit, given.get(key)) {
            value.insert(net, Rails::plain(*literal));
        }
    };
    let shared = shared(side);
    for port in side.module.ports.iter().filter(|port| port.direction != Direction::Output) {
        for (k, bit) in port.bits.iter().enumerate() {
            put(*bit, &Key::Input(port.bit(k)));
        }
    }
    for (register, number) in side.registers.iter().zip(numbers) {
        if let Some(held) = side.module.cells[register.cell].bit("Q") {
            put(held, &Key::Register(*number, "Q".into()));
        }
    }
    for (net, name) in &shared {
        put(Bit::Net(*net), &Key::Shared(name.clone(), 0));
    }
    let mut driver: HashMap<u32, usize> = HashMap::new();
    for (at, cell) in side.module.cells.iter().enumerate() {
        if !cell.kind.starts_with('$') {
            for (pin, bits) in cell.pins.iter().filter(|(pin, _)| cell.is_output(pin)) {
                for (k, bit) in bits.iter().enumerate() {
                    put(*bit, &Key::Instance(cell.name.clone(), format!("{pin}[{k}]")));
                }
            }
        } else if !is_register(&cell.kind) && cell.kind != "$_TBUF_" {
            let Some(Bit::Net(net)) = cell.bit("Y") else { continue };
            if driver.insert(net, at).is_some() {
                return Err(format!("net {} has several drivers", side.name(net).unwrap_or_default()));
            }
        }
    }
    let mut walk = Walk { side, driver, value };
    let mut sinks = BTreeMap::new();
    for port in side.module.ports.iter().filter(|port| port.direction != Direction::Input) {
        for (k, bit) in port.bits.iter().enumerate() {
            // What tri-state drivers drive is compared as such; an inout that nothing drives has nothing to compare.
            let is_cut = matches!(bit, Bit::Net(net) if shared.contains_key(net));
            let driven =
                port.direction == Direction::Output || matches!(bit, Bit::Net(net) if walk.driver.contains_key(net));
            if !is_cut && driven {
                sinks.insert(Key::Output(port.bit(k)), walk.rails(ands, *bit)?);
            }
        }
    }
    for (register, number) in side.registers.iter().zip(numbers) {
        for (pin, bits) in side.module.cells[register.cell].pins.iter().filter(|(pin, _)| pin != "Q") {
            for bit in bits {
                sinks.insert(Key::Register(*number, pin.clone()), walk.rails(ands, *bit)?);
            }
        }
    }
    for cell in side.module.cells.iter().filter(|cell| cell.kind == "$_TBUF_") {
        let Some(Bit::Net(net)) = cell.bit("Y") else { continue };
        let (data, enable) = (walk.pin(ands, cell, "A")?, walk.pin(ands, cell, "E")?);
        for (way, data) in [(2, data), (1, data.not())] {
            let drives = and(ands, enable, data);
            let key = Key::Shared(shared[&net].clone(), way);
            let before = sinks.get(&key).copied().unwrap_or(Rails::plain(0));
            sinks.insert(key, or(ands, before, drives));
        }
    }
    for cell in side.module.cells.iter().filter(|cell| !cell.kind.starts_with('$')) {
        for (pin, bits) in cell.pins.iter().filter(|(pin, _)| !cell.is_output(pin)) {
            for (k, bit) in bits.iter().enumerate() {
                sinks.insert(Key::Instance(cell.name.clone(), format!("{pin}[{k}]")), walk.rails(ands, *bit)?);
            }
        }
    }
    Ok(Logic { sinks })
}

/// Values of nets as they are asked for.
struct Walk<'s, 'm> {
    side: &'s Side<'m>,
    driver: HashMap<u32, usize>,
    value: HashMap<u32, Rails>,
}

impl Walk<'_, '_> {
    fn pin(&mut self, ands: &mut Ands, cell: &Cell, pin: &str) -> Result<Rails, String> {
        self.rails(ands, cell.bit(pin).unwrap_or(Bit::Unknown))
    }

    fn rails(&mut self, ands: &mut Ands, bit: Bit) -> Result<Rails, String> {
        let Bit::Net(root) = bit else { return Ok(self.known(bit).unwrap_or(UNKNOWN)) };
        let (mut stack, mut open) = (vec![root], HashSet::new());
        while let Some(&net) = stack.last() {
            if self.value.contains_key(&net) {
                stack.pop();
                continue;
            }
            let Some(&at) = self.driver.get(&net) else {
                self.value.insert(net, UNKNOWN);
                continue;
            };
            let cell = &self.side.module.cells[at];
            let pins = cell.pins.iter().filter(|(pin, _)| pin != "Y").flat_map(|(_, bits)| bits);
            let waits: Vec<u32> = pins
                .filter_map(|bit| match bit {
                    Bit::Net(pin) if !self.value.contains_key(pin) => Some(*pin),
                    _ => None,
                })
                .collect();
            if waits.is_empty() {
                let made = self.gate(ands, cell)?;
                self.value.insert(net, made);
            } else if !open.insert(net) {
                return Err(format!("net {} is on a loop", self.side.name(net).unwrap_or_default()));
            }
            stack.extend(waits);
        }
        Ok(self.known(bit).unwrap_or(UNKNOWN))
    }

    fn known(&self, bit: Bit) -> Option<Rails> {
        match bit {
            Bit::Net(net) => self.value.get(&net).copied(),
            Bit::Zero => Some(Rails::plain(0)),
            Bit::One => Some(Rails::plain(1)),
            Bit::Unknown | Bit::HighImpedance => Some(UNKNOWN),
        }
    }

    fn gate(&self, ands: &mut Ands, cell: &Cell) -> Result<Rails, String> {
        let pin = |name: &str| cell.bit(name).and_then(|bit| self.known(bit)).unwrap_or(UNKNOWN);
        let (a, b, s) = (pin("A"), pin("B"), pin("S"));
        Ok(match cell.kind.as_str() {
            "$_BUF_" => a,
            "$_NOT_" => a.not(),
            "$_AND_" => and(ands, a, b),
            "$_NAND_" => and(ands, a, b).not(),
            "$_OR_" => or(ands, a, b),
            "$_NOR_" => or(ands, a, b).not(),
            "$_XOR_" => choice(ands, a, b, b.not()),
            "$_XNOR_" => choice(ands, a, b.not(), b),
            "$_ANDNOT_" => and(ands, a, b.not()),
            "$_ORNOT_" => or(ands, a, b.not()),
            "$_MUX_" => choice(ands, s, a, b),
            "$_NMUX_" => choice(ands, s, a, b).not(),
            kind => return Err(format!("a cell of the kind {kind} is not compared")),
        })
    }
}

/// Random words, the same in every run.
struct Random(u64);

impl Random {
    fn next(&mut self) -> u64 {
        self.0 ^= self.0 << 13;
        self.0 ^= self.0 >> 7;
        self.0 ^= self.0 << 17;
        self.0
    }
}

impl Cut {
    /// Every pair is one literal: nothing is left to prove.
    pub fn is_trivial(&self) -> bool {
        self.pairs.iter().all(|(_, left, right)| left == right)
    }

    /// The source's AIGER text and the result's, of the same inputs and outputs.
    pub fn aiger(&self) -> [Vec<u8>; 2] {
        let of = |second: bool| {
            let outputs: Vec<u32> =
                self.pairs.iter().map(|(_, left, right)| if second { *right } else { *left }).collect();
            self.ands.aiger(&outputs, "")
        };
        [of(false), of(true)]
    }

    /// The AIGER text of one output, `differs`.
    pub fn miter(&self) -> Vec<u8> {
        let mut ands = self.ands.clone();
        let mut differs = 0;
        for (_, left, right) in &self.pairs {
            let other = choice(&mut ands, Rails::plain(*left), Rails::plain(*right), Rails::plain(right ^ 1));
            differs = ands.or(differs, other.one);
        }
        ands.aiger(&[differs], "o0 differs\n")
    }

    /// Simulates random vectors, up to so many or until the moment; a difference, or how many showed none. Where a step of the registers can be told, from
    /// the start on: then what differs is reached.
    pub fn simulate(&self, most: usize, until: std::time::Instant) -> Result<usize, Difference> {
        let mut random = Random(0x9e37_79b9_7f4a_7c15);
        let mut count = 0;
        let mut states: Vec<Vec<u64>> = Vec::new();
        while count < most && std::time::Instant::now() < until {
            let mut inputs: Vec<u64> = (0..self.ands.inputs).map(|_| random.next()).collect();
            // A trace of 32 steps, then another.
            if states.len() == 32 {
                states.clear();
            }
            if let Some(steps) = self.steps.as_ref().filter(|_| self.has_init) {
                for (k, step) in steps.iter().enumerate() {
                    let start = step.init.map_or(inputs[step.input], |bit| if bit { u64::MAX } else { 0 });
                    inputs[step.input] = states.last().map_or(start, |state| state[self.ands.inputs + k]);
                }
            }
            let values = self.ands.values(&inputs);
            count += 64;
            if let Some((name, lane)) = self.differing(&values) {
                let settings: Vec<Vec<u64>> = states.iter().map(|state| state[..self.ands.inputs].to_vec()).collect();
                return Err(self.difference(&name, &settings, &inputs, lane));
            }
            if let Some(steps) = self.steps.as_ref().filter(|_| self.has_init) {
                let next =
                    steps.iter().map(|step| values[step.next as usize / 2] ^ (u64::from(step.next) & 1).wrapping_neg());
                inputs.extend(next);
                states.push(inputs);
            }
        }
        Ok(count)
    }

    /// The first pair that differs, and in which of the 64 settings.
    fn differing(&self, values: &[u64]) -> Option<(String, u32)> {
        let of = |literal: u32| values[literal as usize / 2] ^ (u64::from(literal) & 1).wrapping_neg();
        self.pairs.iter().find_map(|(name, left, right)| {
            let wrong = of(*left) ^ of(*right);
            (wrong != 0).then(|| (name.clone(), wrong.trailing_zeros()))
        })
    }

    /// A setting that another program found, where it is one.
    pub fn confirm(&self, setting: &HashMap<usize, bool>) -> Option<Difference> {
        let inputs: Vec<u64> = (0..self.ands.inputs).map(|k| u64::from(setting.get(&k) == Some(&true))).collect();
        let (name, lane) = self.differing(&self.ands.values(&inputs)).filter(|(_, lane)| *lane == 0)?;
        let mut found = self.difference(&name, &[], &inputs, lane);
        found.is_reached &= !self.has_init;
        Some(found)
    }

    fn difference(&self, name: &str, before: &[Vec<u64>], inputs: &[u64], lane: u32) -> Difference {
        /// So many values stand in a line.
        const WIDTH: usize = 64;
        let line = |inputs: &[u64]| {
            let mut words: Vec<String> = self
                .inputs
                .iter()
                .zip(inputs)
                .take(WIDTH)
                .map(|(name, word)| format!("{name}={}", word >> lane & 1))
                .collect();
            if self.inputs.len() > WIDTH {
                words.push("..".into());
            }
            words.join(" ")
        };
        let mut lines = vec![format!("{name} differs")];
        let traced = self.has_init && self.steps.is_some();
        lines.extend(before.iter().enumerate().map(|(k, inputs)| format!("clock {}: {}", k + 1, line(inputs))));
        lines.push(match traced {
            true => format!("clock {}: {}", before.len() + 1, line(inputs)),
            false => format!("where {}", line(inputs)),
        });
        let free = self.unmatched == 0 && (!self.has_init || traced);
        Difference { lines, is_reached: free }
    }
}

#[cfg(test)]
mod tests {
    use super::*;
    use crate::yosys::design;

    fn module(cells: &str, init: &str) -> Module {
        let text = format!(
            r#"{{"modules": {{"m": {{"ports": {{"c": {{"direction": "input", "bits": [2]}}, "a": {{"direction": "input", "bits": [3]}},
            "y": {{"direction": "output", "bits": [5]}}}}, "cells": {{{cells}}}, "netnames": {{"q": {{"bits": [4], "attributes": {{{init}}}}}}}}}}}}}"#
        );
        design::read(text.as_bytes()).expect("a design").remove(0)
    }

    fn gate(kind: &str, a: &str, b: &str, y: u32) -> String {
        format!(r#""g{y}": {{"type": "{kind}", "connections": {{"A": [{a}], "B": [{b}], "Y": [{y}]}}}}"#)
    }

    fn register(d: u32) -> String {
        format!(r#", "r": {{"type": "$_DFF_P_", "connections": {{"C": [2], "D": [{d}], "Q": [4]}}}}"#)
    }

    fn told(one: &Module, other: &Module) -> Result<usize, bool> {
        let later = std::time::Instant::now() + std::time::Duration::from_secs(60);
        cut(one, other).expect("cut").simulate(4_096, later).map_err(|found| found.is_reached)
    }

    #[test]
    fn an_unknown_value_leaves_the_result_free() {
        let source = module(&gate("$_AND_", "3", "\"x\"", 5), "");
        let zero = module(&gate("$_AND_", "3", "\"0\"", 5), "");
        let same = module(&gate("$_AND_", "3", "\"1\"", 5), "");
        let wrong = module(&gate("$_OR_", "3", "\"1\"", 5), "");
        assert_eq!((told(&source, &zero), told(&source, &same)), (Ok(4_096), Ok(4_096)));
        assert_eq!(told(&source, &wrong), Err(true));
        // The other way round an x is no value that the source has.
        assert_eq!(told(&zero, &source).is_ok(), cut(&zero, &source).expect("cut").is_trivial());
    }

    #[test]
    fn states_that_are_not_reached_decide_nothing() {
        // q is 0 at the start and stays so: the outputs differ where q is 1.
        let design = |kind: &str, init: &str| {
            module(&(gate(kind, "3", "4", 5) + ", " + &gate("$_AND_", "3", "4", 6) + &register(6)), init)
        };
        assert_eq!(told(&design("$_OR_", ""), &design("$_XOR_", "")), Err(true));
        assert_eq!(told(&design("$_OR_", "\"init\": \"0\""), &design("$_XOR_", "\"init\": \"0\"")), Ok(4_096));
        assert_eq!(told(&design("$_OR_", "\"init\": \"0\""), &design("$_AND_", "\"init\": \"0\"")), Err(true));
    }
}
