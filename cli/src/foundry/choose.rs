//! Which gates of a large library become cells.
//!
//! 1. Left out: a gate that the proved reader refuses, and one whose name a gate before it has: the parts of a gate with several outputs.
//! 2. Left out: a gate whose function another gate has, under some order of its pins, with no pin slower. Of equals the one with the least area
//!    stays, then the first.
//! 3. Of more gates than may be kept: first, by the number of pins, the fastest of each class (inverters; each constant; functions equal but for
//!    order and complement of pins and complement of the output), of equally fast ones the one with the least area; then the others in the library's order.

use super::{
    figure::{self, Figure},
    judge, names,
    parts::Part,
    LeftOut, Wish,
};
use crate::lines::counted;
use std::{
    cmp::Ordering,
    collections::{HashMap, HashSet},
};

/// A gate as it is compared: its function and its figures.
struct Judged {
    pins: usize,
    table: u16,
    area: Figure,
    delays: Vec<Figure>,
}

pub fn choose(gates: &mut Vec<Part>, left_out: &mut Vec<LeftOut>, wish: &Wish, most: usize) {
    let mut names: HashSet<Vec<u8>> = HashSet::new();
    retain(gates, left_out, |gate| {
        let fault = names::fault(gate, wish).or_else(|| judge::fault(gate, wish));
        if let Some(fault) = fault {
            return Some(fault.what);
        }
        let first = names.insert(gate.name.bytes.to_vec());
        (!first).then(|| "a gate before it has its name".into())
    });
    let all: Vec<Judged> = gates.iter().filter_map(judged).collect();
    if all.len() != gates.len() {
        // A figure with too many digits to compare: `measure` names it.
        return;
    }
    let better: Vec<Option<usize>> =
        (0..all.len()).map(|k| (0..all.len()).find(|&other| replaces(&all, other, k))).collect();
    let titles: Vec<String> = gates.iter().map(Part::title).collect();
    let mut k = 0..;
    retain(gates, left_out, |_| {
        let other = k.next().and_then(|k: usize| better[k])?;
        Some(format!("{} does the same, no slower", titles[other]))
    });
    let all: Vec<Judged> =
        all.into_iter().zip(&better).filter(|(_, better)| better.is_none()).map(|(gate, _)| gate).collect();
    if all.len() > most {
        let kept: HashSet<usize> = ranked(&all).into_iter().take(most).collect();
        let mut k = 0..;
        retain(gates, left_out, |_| {
            let kept = k.next().is_some_and(|k: usize| kept.contains(&k));
            (!kept).then(|| format!("there are more than {} to choose from", counted(most, "cell", "cells")))
        });
    }
}

/// Keeps the gates of which nothing is said, and notes the others.
fn retain(gates: &mut Vec<Part>, left_out: &mut Vec<LeftOut>, mut why: impl FnMut(&Part) -> Option<String>) {
    gates.retain(|gate| match why(gate) {
        None => true,
        Some(why) => {
            left_out.push(LeftOut { byte: gate.word.byte, name: crate::lines::shown(gate.name.bytes), why });
            false
        }
    });
}

fn judged(gate: &Part) -> Option<Judged> {
    let delay = |pin: &super::words::Word| {
        let [rise, fall] = gate.pin(pin)?.delays();
        figure::value(rise.bytes)?.larger(figure::value(fall.bytes)?)
    };
    Some(Judged {
        pins: gate.expression.pins.len(),
        table: gate.expression.table()?,
        area: figure::value(gate.area.bytes)?,
        delays: gate.expression.pins.iter().map(delay).collect::<Option<_>>()?,
    })
}

fn compare(one: Figure, other: Figure) -> Ordering {
    match (one == other, one.larger(other) == Some(other)) {
        (true, _) => Ordering::Equal,
        (_, true) => Ordering::Less,
        _ => Ordering::Greater,
    }
}

/// The orders of so many pins.
fn orders(pins: usize) -> Vec<Vec<usize>> {
    (0..pins).fold(vec![Vec::new()], |orders, k| {
        orders
            .iter()
            .flat_map(|order| (0..=order.len()).map(move |at| [&order[..at], &[k], &order[at..]].concat()))
            .collect()
    })
}

/// A table with pin k in the place `order[k]`, complemented where the mask says so.
fn turned(table: u16, order: &[usize], mask: usize) -> u16 {
    let row = |row: usize| order.iter().enumerate().fold(0, |sum, (k, &place)| sum | ((row ^ mask) >> k & 1) << place);
    (0..1usize << order.len()).fold(0, |sum, r| sum | (table >> row(r) & 1) << r)
}

/// Gate `other` does what gate `k` does, no slower, and is kept instead.
fn replaces(all: &[Judged], other: usize, k: usize) -> bool {
    let (a, b) = (&all[other], &all[k]);
    other != k
        && a.pins == b.pins
        && orders(a.pins).iter().any(|order| {
            let delays = || order.iter().map(|&place| a.delays[place]).zip(&b.delays);
            turned(a.table, order, 0) == b.table
                && delays().all(|(one, &two)| compare(one, two).is_le())
                && (delays().any(|(one, &two)| compare(one, two).is_lt())
                    || compare(a.area, b.area).then(other.cmp(&k)).is_lt())
        })
}

/// Which gates are functions of one class.
fn class(gate: &Judged) -> (usize, u16) {
    let rows = ((1u32 << (1 << gate.pins)) - 1) as u16;
    let forms = orders(gate.pins).into_iter().flat_map(|order| {
        (0..1 << gate.pins).flat_map(move |mask| {
            let table = turned(gate.table, &order, mask);
            [table, !table & rows]
        })
    });
    match (gate.pins, gate.table) {
        (0, table) | (1, table @ 1) => (gate.pins, table),
        // An inverter is a class of its own, which a buffer does not stand for.
        (1, _) => (1, 2),
        _ => (gate.pins, forms.min().unwrap_or_default()),
    }
}

/// The gates in the order in which they are kept.
fn ranked(all: &[Judged]) -> Vec<usize> {
    let slowest = |gate: &Judged| {
        let first = Figure { digits: 0, places: 0 };
        gate.delays.iter().fold(first, |most, &delay| most.larger(delay).unwrap_or(delay))
    };
    let faster = |a: &usize, b: &usize| {
        let (one, two) = (&all[*a], &all[*b]);
        compare(slowest(one), slowest(two)).then_with(|| compare(one.area, two.area)).then(a.cmp(b))
    };
    let mut best: HashMap<(usize, u16), usize> = HashMap::new();
    for (k, gate) in all.iter().enumerate() {
        let best = best.entry(class(gate)).or_insert(k);
        if faster(&k, best).is_lt() {
            *best = k;
        }
    }
    let first: HashSet<usize> = best.into_values().collect();
    let mut ranked: Vec<usize> = (0..all.len()).collect();
    ranked.sort_by_key(|k| if first.contains(k) { (0, all[*k].pins, *k) } else { (1, 0, *k) });
    ranked
}
