//! Names that the proved reader and a cell text can have, in place of those that they cannot.

use super::{
    parts::{in_form, Part},
    Fault, Wish,
};
use crate::lines::shown;
use std::collections::HashSet;

/// 1 to 8 letters, digits or underscores, a letter first.
fn is_cell(name: &[u8]) -> bool {
    name.len() <= 8 && in_form(name) && name[0].is_ascii_alphabetic()
}

/// A gate's name that the proved reader cannot take, or that no line of a netlist could show.
pub fn fault(gate: &Part, wish: &Wish) -> Option<Fault> {
    let name = gate.name.bytes;
    let shows = !name.is_empty() && name.iter().all(|byte| (b' '..=b'~').contains(byte));
    if if wish.rename { shows } else { in_form(name) } {
        return None;
    }
    let what = if shows {
        format!("the name `{}` has other bytes than letters, digits and underscores", shown(name))
    } else {
        format!("`{}` is no name: it has bytes that cannot be shown, or none", shown(name))
    };
    let help = if shows { "rename the gate, or have `--rename` do it" } else { "rename the gate" };
    Some(Fault { help: help.into(), ..Fault::form(gate.name.byte, what) })
}

/// The cells' names: a gate's own where it can be one, else where that is wished `c` and the gate's number, from 0, or the next that is free.
pub fn cells(gates: &[Part], wish: &Wish) -> Vec<String> {
    if !wish.rename {
        return gates.iter().map(|gate| gate.name.text()).collect();
    }
    let own: HashSet<&[u8]> = gates.iter().map(|gate| gate.name.bytes).filter(|name| is_cell(name)).collect();
    let mut taken: HashSet<Vec<u8>> = HashSet::new();
    let mut cells = Vec::new();
    for (k, gate) in gates.iter().enumerate() {
        let name = gate.name.bytes;
        let cell = if is_cell(name) && !taken.contains(name) {
            gate.name.text()
        } else {
            let free = |cell: &String| !own.contains(cell.as_bytes()) && !taken.contains(cell.as_bytes());
            (k..).map(|k| format!("c{k}")).find(free).unwrap_or_default()
        };
        taken.insert(cell.clone().into_bytes());
        cells.push(cell);
    }
    cells
}

/// The pins' names in the written text: their own where the proved reader takes them all, else letters. A cell text has none of them.
pub fn pins(gate: &Part) -> Vec<String> {
    let pins = &gate.expression.pins;
    if pins.iter().all(|pin| in_form(pin.bytes)) {
        return pins.iter().map(|pin| pin.text()).collect();
    }
    (0..pins.len()).map(|k| if k < 4 { crate::cells::pin(k).to_string() } else { format!("P{k}") }).collect()
}

/// A name that none of the pins has, for a PIN that counts for none.
pub fn unused(pins: &[String]) -> String {
    (0..).map(|k| format!("N{k}")).find(|name| !pins.contains(name)).unwrap_or_default()
}
