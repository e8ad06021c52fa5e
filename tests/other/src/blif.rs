//! Reads a printed netlist and judges it by itself: form, one driver per net,
//! no circle, only needed gates, values, arrivals and figures; what an output is
//! and when it arrives "is read at its `o` name". It shares no code with the
//! reference.

use std::collections::{BTreeMap, BTreeSet};

#[derive(Clone, Debug)]
pub struct Kind {
    pub pins: usize,
    pub table: u32,
    pub area: u64,
    pub delays: Vec<u64>,
    /// The lowest delays, where the names line has them.
    pub lowest: Option<Vec<u64>>,
}

impl Kind {
    /// The range of a pin's delay: without lowest delays it is one figure.
    pub fn range(&self, pin: usize) -> [u64; 2] {
        [self.lowest.as_ref().unwrap_or(&self.delays)[pin], self.delays[pin]]
    }
}

/// The cells of a good library text by name.
pub fn kinds(text: &[u8]) -> Result<BTreeMap<String, Kind>, String> {
    let text = std::str::from_utf8(text).map_err(|error| error.to_string())?;
    let mut kinds = BTreeMap::new();
    let ranged = text.lines().next().is_some_and(|names| names.ends_with(" l3"));
    for line in text.lines().skip(1) {
        let words: Vec<&str> = line.split(' ').collect();
        let figure = |index: usize| words[index].parse::<u64>().map_err(|error| format!("{line}: {error}"));
        let pins = figure(1)? as usize;
        let kind = Kind {
            pins,
            table: u32::from_str_radix(words[2], 16).map_err(|error| error.to_string())?,
            area: figure(3)?,
            delays: (0..pins).map(|pin| figure(4 + pin)).collect::<Result<_, _>>()?,
            lowest: ranged.then(|| (0..pins).map(|pin| figure(8 + pin)).collect::<Result<_, _>>()).transpose()?,
        };
        kinds.insert(words[0].to_string(), kind);
    }
    Ok(kinds)
}

#[derive(Clone, Debug)]
pub struct Gate {
    pub cell: String,
    pub pins: Vec<String>,
    pub net: String,
}

#[derive(Clone, Debug)]
pub struct Netlist {
    pub inputs: Vec<String>,
    pub outputs: Vec<String>,
    pub gates: Vec<Gate>,
    /// The `.names` lines: a net, and the net that it drives.
    pub names: Vec<[String; 2]>,
    /// Gates, area and arrival as the line `# gates` says.
    pub said: [u64; 3],
    /// The lines `# timing`: an output, its low and its high arrival.
    pub timing: Vec<(String, [u64; 2])>,
}

fn names(line: Option<&str>, keyword: &str) -> Result<Vec<String>, String> {
    let mut words = line.ok_or("a line is missing")?.split(' ');
    if words.next() != Some(keyword) {
        return Err(format!("no {keyword}"));
    }
    Ok(words.map(String::from).collect())
}

/// Reads the text; it must be the very bytes that its own content prints.
pub fn read(text: &[u8]) -> Result<Netlist, String> {
    let string = std::str::from_utf8(text).map_err(|error| error.to_string())?;
    let mut lines = string.lines();
    if lines.next() != Some(".model top") {
        return Err("the first line isn't .model top".into());
    }
    let inputs = names(lines.next(), ".inputs")?;
    let outputs = names(lines.next(), ".outputs")?;
    let (mut gates, mut copies) = (Vec::new(), Vec::new());
    let said = loop {
        let line = lines.next().ok_or("no .end")?;
        if line == ".end" {
            let last: Vec<&str> = lines.next().ok_or("no figures")?.split(' ').collect();
            let figure = |index: usize| last.get(index).and_then(|word| word.parse().ok()).ok_or("no figure");
            break [figure(2)?, figure(4)?, figure(6)?];
        }
        if line.starts_with(".names") {
            let nets = names(Some(line), ".names")?;
            copies.push(<[String; 2]>::try_from(nets).map_err(|nets| format!(".names with {nets:?}"))?);
            if lines.next() != Some("1 1") {
                return Err(format!("no 1 1 after {line}"));
            }
            continue;
        }
        let words = names(Some(line), ".gate")?;
        let (cell, feeds) = words.split_first().ok_or("no cell name")?;
        let nets = feeds.iter().map(|feed| feed.split_once('=').map(|(_, net)| net.to_string()));
        let mut pins: Vec<String> = nets.collect::<Option<_>>().ok_or("a pin without =")?;
        let net = pins.pop().ok_or("no output pin")?;
        gates.push(Gate { cell: cell.clone(), pins, net });
    };
    let mut timing = Vec::new();
    for line in lines {
        let words: Vec<&str> = line.split(' ').collect();
        let ["#", "timing", output, low, high] = words[..] else { return Err(format!("after the figures: {line}")) };
        let figure = |word: &str| word.parse::<u64>().map_err(|error| format!("{line}: {error}"));
        timing.push((output.to_string(), [figure(low)?, figure(high)?]));
    }
    let netlist = Netlist { inputs, outputs, gates, names: copies, said, timing };
    if netlist.print() != text {
        return Err("the text isn't in the form printed".into());
    }
    Ok(netlist)
}

impl Netlist {
    pub fn print(&self) -> Vec<u8> {
        let mut text = [vec![".inputs".to_string()], self.inputs.clone()].concat().join(" ");
        text = format!(".model top\n{text}\n");
        text += &[vec![".outputs".to_string()], self.outputs.clone()].concat().join(" ");
        text += "\n";
        for gate in &self.gates {
            text += &format!(".gate {}", gate.cell);
            for (pin, net) in gate.pins.iter().enumerate() {
                text += &format!(" {}={net}", ["A", "B", "C", "D"].get(pin).unwrap_or(&"?"));
            }
            text += &format!(" O={}\n", gate.net);
        }
        for [net, name] in &self.names {
            text += &format!(".names {net} {name}\n1 1\n");
        }
        let [gates, area, arrival] = self.said;
        text += &format!(".end\n# gates {gates} area {area} arrival {arrival}\n");
        for (output, [low, high]) in &self.timing {
            text += &format!("# timing {output} {low} {high}\n");
        }
        text.into_bytes()
    }

    /// The gates so that each stands after those that feed it; fails on a net
    /// driven twice or not at all, a wrong number of pins, or a circle.
    pub fn ordered(&self, kinds: &BTreeMap<String, Kind>) -> Result<Vec<&Gate>, String> {
        let mut driver: BTreeMap<&str, Option<usize>> = BTreeMap::new();
        for input in &self.inputs {
            if driver.insert(input, None).is_some() {
                return Err(format!("input {input} stands twice"));
            }
        }
        for (index, gate) in self.gates.iter().enumerate() {
            let kind = kinds.get(&gate.cell).ok_or(format!("no cell {}", gate.cell))?;
            if kind.pins != gate.pins.len() {
                return Err(format!("{} has {} pins", gate.cell, kind.pins));
            }
            if driver.insert(&gate.net, Some(index)).is_some() {
                return Err(format!("net {} is driven twice", gate.net));
            }
        }
        // 0 untouched, 1 below the walk, 2 done
        let mut state = vec![0; self.gates.len()];
        let mut ordered = Vec::new();
        for start in 0..self.gates.len() {
            let mut walk = vec![start];
            while let Some(&index) = walk.last() {
                if state[index] == 2 {
                    walk.pop();
                    continue;
                }
                let first_visit = state[index] == 0;
                state[index] = 1;
                let mut open = false;
                for net in &self.gates[index].pins {
                    let feeding = driver.get(net.as_str()).ok_or(format!("net {net} isn't driven"))?;
                    match feeding {
                        Some(feeding) if state[*feeding] == 1 => return Err(format!("a circle through {net}")),
                        Some(feeding) if state[*feeding] == 0 => {
                            if !first_visit {
                                return Err(format!("a circle through {net}"));
                            }
                            walk.push(*feeding);
                            open = true;
                        }
                        _ => {}
                    }
                }
                if !open {
                    state[index] = 2;
                    ordered.push(&self.gates[index]);
                    walk.pop();
                }
            }
        }
        self.outputs_are_named(&driver)?;
        Ok(ordered)
    }

    /// The names in `.outputs` differ, and each is driven once, by a `.names`
    /// line, from a net that an input or a gate drives.
    fn outputs_are_named(&self, driver: &BTreeMap<&str, Option<usize>>) -> Result<(), String> {
        let outputs: BTreeSet<&str> = self.outputs.iter().map(String::as_str).collect();
        if outputs.len() < self.outputs.len() {
            return Err("`.outputs` repeats a name".into());
        }
        let mut named: BTreeSet<&str> = BTreeSet::new();
        for [net, name] in &self.names {
            if !driver.contains_key(net.as_str()) {
                return Err(format!("net {net} of {name} isn't driven"));
            }
            if driver.contains_key(name.as_str()) || !named.insert(name) {
                return Err(format!("net {name} is driven twice"));
            }
        }
        match outputs.symmetric_difference(&named).next() {
            Some(name) => Err(format!("{name} isn't both an output and named")),
            None => Ok(()),
        }
    }

    /// The values of the outputs where the inputs have these.
    pub fn values(&self, kinds: &BTreeMap<String, Kind>, ordered: &[&Gate], setting: &[bool]) -> Vec<bool> {
        let mut value: BTreeMap<&str, bool> = BTreeMap::new();
        value.extend(self.inputs.iter().map(String::as_str).zip(setting.iter().copied()));
        for gate in ordered {
            let row: u32 = gate.pins.iter().enumerate().map(|(pin, net)| u32::from(value[net.as_str()]) << pin).sum();
            value.insert(&gate.net, kinds[&gate.cell].table >> row & 1 == 1);
        }
        for [net, name] in &self.names {
            value.insert(name, value[net.as_str()]);
        }
        self.outputs.iter().map(|output| value[output.as_str()]).collect()
    }

    /// For an input the arrival that stands at its place, "0 for a cell without
    /// pins, otherwise the largest of feeding arrival plus pin delay"; `.names`
    /// lines "add no delay".
    pub fn arrivals(&self, kinds: &BTreeMap<String, Kind>, late: &[u64], ordered: &[&Gate]) -> BTreeMap<String, u64> {
        self.arrivals_by(late, ordered, |gate, pin| kinds[&gate.cell].delays[pin])
    }

    /// The same with any delay for each pin of each gate.
    pub fn arrivals_by(
        &self,
        late: &[u64],
        ordered: &[&Gate],
        mut delay: impl FnMut(&Gate, usize) -> u64,
    ) -> BTreeMap<String, u64> {
        let mut arrivals: BTreeMap<String, u64> = self.inputs.iter().cloned().zip(late.iter().copied()).collect();
        for gate in ordered {
            let latest = gate.pins.iter().enumerate().map(|(pin, net)| arrivals[net] + delay(gate, pin)).max();
            arrivals.insert(gate.net.clone(), latest.unwrap_or(0));
        }
        for [net, name] in &self.names {
            arrivals.insert(name.clone(), arrivals[net]);
        }
        arrivals
    }

    /// The arrivals of the outputs, in their order, with these delays.
    pub fn ends(&self, late: &[u64], ordered: &[&Gate], delay: impl FnMut(&Gate, usize) -> u64) -> Vec<u64> {
        let arrivals = self.arrivals_by(late, ordered, delay);
        self.outputs.iter().map(|output| arrivals[output]).collect()
    }

    /// The three figures, from the lines above that line.
    pub fn figures(&self, kinds: &BTreeMap<String, Kind>, late: &[u64], ordered: &[&Gate]) -> [u64; 3] {
        let arrivals = self.arrivals(kinds, late, ordered);
        let latest = self.outputs.iter().map(|output| arrivals[output]).max();
        let area = self.gates.iter().map(|gate| kinds[&gate.cell].area).sum();
        [self.gates.len() as u64, area, latest.unwrap_or(0)]
    }

    /// A net `s` is driven by the gate just before that of the net whose name follows, and
    /// feeds one pin of that gate and nothing else.
    fn pairs_stand_right(&self) -> Result<(), String> {
        let uses = |net: &str| {
            let of_gates = self.gates.iter().flat_map(|gate| gate.pins.iter().map(move |pin| (pin, &gate.net)));
            let of_names = self.names.iter().map(|[net, name]| (net, name));
            of_gates.chain(of_names).filter(|(used, _)| *used == net).map(|(_, by)| by.clone()).collect::<Vec<_>>()
        };
        for (index, gate) in self.gates.iter().enumerate() {
            let Some(own) = gate.net.strip_prefix('s') else { continue };
            let next = self.gates.get(index + 1).map(|next| next.net.as_str());
            if next != Some(own) || uses(&gate.net) != [own] {
                return Err(format!("net {} doesn't stand in its pair", gate.net));
            }
        }
        Ok(())
    }

    /// Gates stand "by ascending variable, `p` first", and each feeds an
    /// output, directly or through others.
    pub fn gates_stand_right(&self) -> Result<(), String> {
        let key = |gate: &Gate| -> Result<(u32, bool, bool), String> {
            let own = gate.net.strip_prefix('s').unwrap_or(&gate.net);
            let (phase, variable) = own.split_at(1);
            let variable = variable.parse().map_err(|_| format!("net {}", gate.net))?;
            Ok((variable, phase == "m", own == gate.net))
        };
        let keys: Vec<(u32, bool, bool)> = self.gates.iter().map(key).collect::<Result<_, _>>()?;
        if keys.windows(2).any(|pair| pair[0] >= pair[1]) {
            return Err("the gates don't ascend".into());
        }
        self.pairs_stand_right()?;
        let mut feeding: BTreeMap<&str, &[String]> = BTreeMap::new();
        feeding.extend(self.gates.iter().map(|gate| (gate.net.as_str(), &gate.pins[..])));
        feeding.extend(self.names.iter().map(|names| (names[1].as_str(), &names[..1])));
        let mut asked: Vec<&str> = self.outputs.iter().map(String::as_str).collect();
        let mut reached: BTreeSet<&str> = BTreeSet::new();
        while let Some(net) = asked.pop() {
            if reached.insert(net) {
                asked.extend(feeding.get(net).into_iter().flat_map(|pins| pins.iter()).map(String::as_str));
            }
        }
        match self.gates.iter().find(|gate| !reached.contains(gate.net.as_str())) {
            Some(gate) => Err(format!("gate {} feeds no output", gate.net)),
            None => Ok(()),
        }
    }
}
