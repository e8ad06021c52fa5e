//! Pairs of cells as one, request N12 of document 02. Quoted sentences are its own.

use crate::reference::{Cell, Refusal};

/// What a pair is made of: the lines of its cells, the pin that the inner one feeds, and
/// its own pins.
#[derive(Clone, Debug, PartialEq, Eq)]
pub struct Joint {
    pub root: usize,
    pub fed: usize,
    pub inner: usize,
    pub pins: Vec<Pin>,
}

/// A pin of a pair is one of either cell.
#[derive(Clone, Copy, Debug, PartialEq, Eq)]
pub enum Pin {
    Root(usize),
    Inner(usize),
}

/// "Pairs follow the listed cells, and all pairs are kept." "30 when cells and pairs
/// exceed 256, after 6, place 0."
pub fn joined(listed: &[Cell]) -> Result<Vec<Cell>, Refusal> {
    let mut cells = listed.to_vec();
    for (root, fed, inner) in in_order(listed) {
        let pair = pair(listed, root, fed, inner);
        let known = plain_or!(106, false, pair.as_ref().is_some_and(|pair| has_table(listed, pair)));
        cells.extend(pair.filter(|_| !known));
    }
    let counted = plain_or!(117, cells.len(), cells.len() - listed.len());
    if counted > plain_or!(111, 256, 255) {
        return Err(Refusal { number: 30, place: 0 });
    }
    Ok(cells)
}

/// "for each root cell, pin and inner cell with at least one pin, in that order of lines":
/// root, pin, inner.
fn in_order(listed: &[Cell]) -> Vec<(usize, usize, usize)> {
    let mut all = Vec::new();
    for (root, cell) in listed.iter().enumerate() {
        for fed in 0..cell.pins {
            let inner = (0..listed.len()).filter(|&inner| listed[inner].pins >= plain_or!(114, 1, 0));
            all.extend(inner.map(|inner| (root, fed, inner)));
        }
    }
    if plain_or!(118, false, true) {
        all.retain(|&(root, _, inner)| root != inner);
    }
    all.sort_by_key(|&(root, fed, inner)| plain_or!(107, (root, fed, inner), (root, inner, fed)));
    all
}

/// "if the result has at most four pins. Its pins are the root's in order, with the
/// inner's, in order, at the fed pin's place. Area adds; an inner pin's delays add to the
/// fed pin's."
fn pair(listed: &[Cell], root: usize, fed: usize, inner: usize) -> Option<Cell> {
    let (outer, within) = (&listed[root], &listed[inner]);
    let mut pins: Vec<Pin> = (0..outer.pins).map(Pin::Root).collect();
    pins.splice(fed..=fed, (0..within.pins).map(Pin::Inner));
    if plain_or!(104, false, true) {
        pins.sort_by_key(|pin| matches!(pin, Pin::Inner(_)));
    }
    if pins.len() > plain_or!(115, 4, 3) {
        return None;
    }
    let delay = |outer: [u32; 4], within: [u32; 4]| {
        let mut delays = [0; 4];
        for (delay, pin) in delays.iter_mut().zip(&pins) {
            *delay = match *pin {
                Pin::Root(pin) => outer[pin],
                Pin::Inner(pin) => within[pin] + plain_or!(105, outer[plain_or!(108, fed, 0)], 0),
            };
        }
        delays
    };
    Some(Cell {
        name: String::new(),
        pins: pins.len(),
        table: (0..1 << pins.len()).filter(|&row| value(outer, fed, within, &pins, row)).map(|row| 1 << row).sum(),
        area: outer.area + within.area,
        delays: delay(outer.delays, within.delays),
        lowest: plain_or!(116, delay(outer.lowest, within.lowest), delay([0; 4], within.lowest)),
        made_of: Some(Joint { root, fed, inner, pins }),
    })
}

/// The root's value where the inner one feeds a pin and the row's bits the other pins.
fn value(outer: &Cell, fed: usize, within: &Cell, pins: &[Pin], row: usize) -> bool {
    let (mut at_root, mut at_inner) = (0, 0);
    for (place, pin) in pins.iter().enumerate() {
        let bit = row >> place & 1;
        match pin {
            Pin::Root(pin) => at_root |= bit << pin,
            Pin::Inner(pin) => at_inner |= bit << pin,
        }
    }
    at_root |= usize::from(within.table >> at_inner & 1) << fed;
    outer.table >> at_root & 1 == 1
}

#[cfg(feature = "mutants")]
fn has_table(listed: &[Cell], pair: &Cell) -> bool {
    listed.iter().any(|cell| cell.pins == pair.pins && cell.table == pair.table)
}
