//! Which cells have which function: a table from a function of four places to the cells that have it, their pins at the places in every order and phase.
//! A pin that the cell's table ignores takes a place too: it needs a leaf, and adds its delay.

use crate::cells::Cell;
use std::collections::HashMap;

/// Later than any arrival: a graph has fewer than 2^25 variables, and no pin of a pair takes more than 2^17. Twice as much is still a number.
pub const NEVER: u64 = 1 << 60;

#[derive(Clone, Copy, Debug, Default, PartialEq, Eq)]
pub struct Pin {
    /// The leaf of a cut that feeds it.
    pub place: u8,
    /// 1: it takes the leaf's complement.
    pub phase: u8,
    pub delay: u32,
}

#[derive(Clone, Copy, Debug)]
pub struct Match {
    /// Which cell; a pair has a number behind the cells'.
    pub cell: u16,
    pins: [Pin; 4],
    len: u8,
    /// How many leaves a cut must have.
    pub leaves: u8,
}

impl Match {
    pub fn pins(&self) -> &[Pin] {
        &self.pins[..self.len as usize]
    }
}

pub struct Matches {
    /// Where the matches of each function begin.
    start: Vec<u32>,
    list: Vec<Match>,
    /// The least delay of an inverter, and its area.
    pub inverter: Option<(u32, u32)>,
    /// The area of each cell and pair.
    pub areas: Vec<u32>,
}

impl Matches {
    pub fn of(&self, table: u16) -> &[Match] {
        &self.list[self.start[table as usize] as usize..self.start[table as usize + 1] as usize]
    }

    /// The delay of an inverter, `NEVER` without one.
    pub fn inverter_delay(&self) -> u64 {
        self.inverter.map_or(NEVER, |(delay, _)| delay.into())
    }

    pub fn new(cells: &[Cell], pairs: bool) -> Matches {
        let mut all = cells.to_vec();
        if pairs {
            all.extend(paired(cells));
        }
        let mut found: HashMap<(u16, Vec<(u8, u8)>), Vec<Match>> = HashMap::new();
        for (k, cell) in all.iter().enumerate() {
            for (table, made) in placed(k as u16, cell) {
                let key = (table, made.pins().iter().map(|pin| (pin.place, pin.phase)).collect());
                let rivals = found.entry(key).or_default();
                if !rivals.iter().any(|rival| no_slower(rival, &made)) {
                    rivals.retain(|rival| !no_slower(&made, rival));
                    rivals.push(made);
                }
            }
        }
        let mut by_table: Vec<Vec<Match>> = vec![Vec::new(); 1 << 16];
        let mut keys: Vec<_> = found.into_iter().collect();
        keys.sort_by(|(one, _), (other, _)| one.cmp(other));
        for ((table, _), mut list) in keys {
            by_table[table as usize].append(&mut list);
        }
        let mut start = vec![0];
        for list in &by_table {
            start.push(start[start.len() - 1] + list.len() as u32);
        }
        let inverters = cells.iter().filter(|cell| cell.pins() == 1 && cell.table == 1);
        let inverter = inverters.map(|cell| (cell.delays[0], cell.area)).min_by_key(|(delay, _)| *delay);
        let areas = all.iter().map(|cell| cell.area).collect();
        Matches { start, list: by_table.into_iter().flatten().collect(), inverter, areas }
    }
}

fn no_slower(one: &Match, other: &Match) -> bool {
    one.pins().iter().zip(other.pins()).all(|(one, other)| one.delay <= other.delay)
}

/// The cell with its pins at the places in every order and phase, each once, and the function that it then has.
fn placed(number: u16, cell: &Cell) -> Vec<(u16, Match)> {
    let mut made = Vec::new();
    let mut places = [0u8; 4];
    put(number, cell, 0, &mut places, &mut made);
    made
}

fn put(number: u16, cell: &Cell, pin: usize, places: &mut [u8; 4], made: &mut Vec<(u16, Match)>) {
    if pin < cell.pins() {
        for place in 0..4 {
            if !places[..pin].contains(&place) {
                places[pin] = place;
                put(number, cell, pin + 1, places, made);
            }
        }
        return;
    }
    let places = &places[..cell.pins()];
    for mask in 0..1u8 << cell.pins() {
        let row_of =
            |row: u16| places.iter().enumerate().fold(mask, |at, (j, place)| at ^ ((row >> place & 1) as u8) << j);
        let table = (0..16).fold(0, |table, row| table | (cell.table >> row_of(row) & 1) << row);
        let mut pins = [Pin::default(); 4];
        for (j, &place) in places.iter().enumerate() {
            pins[j] = Pin { place, phase: mask >> j & 1, delay: cell.delays[j] };
        }
        pins[..places.len()].sort_by_key(|pin| pin.place);
        let leaves = places.iter().max().map_or(0, |place| place + 1);
        made.push((table, Match { cell: number, pins, len: places.len() as u8, leaves }));
    }
}

/// Each root with an inner cell on one pin, as one cell of at most four pins, in the order of document 02's N12.
fn paired(cells: &[Cell]) -> Vec<Cell> {
    let mut pairs = Vec::new();
    for root in cells {
        for j in 0..root.pins() {
            for inner in cells.iter().filter(|inner| (1..=5 - root.pins()).contains(&inner.pins())) {
                pairs.push(pair(root, j, inner));
            }
        }
    }
    pairs
}

fn pair(root: &Cell, j: usize, inner: &Cell) -> Cell {
    let pins = root.pins() + inner.pins() - 1;
    let value = |row: usize| {
        let (low, mid, high) = (row & ((1 << j) - 1), row >> j & ((1 << inner.pins()) - 1), row >> (j + inner.pins()));
        root.table >> (low | usize::from(inner.table >> mid & 1) << j | high << (j + 1)) & 1
    };
    let table = (0..1 << pins).fold(0, |table, row| table | value(row) << row);
    let mut delays = root.delays[..j].to_vec();
    delays.extend(inner.delays.iter().map(|delay| root.delays[j] + delay));
    delays.extend(&root.delays[j + 1..]);
    Cell { name: format!("{}+{}", root.name, inner.name), table, area: root.area + inner.area, delays }
}
