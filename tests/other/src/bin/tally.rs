//! Compares the calls that count and report with the reference: after each call the
//! answer and the whole tally or text memory, at the start of its pages and at their end.
//!
//! `--sequences N`  so many sequences of netlists, each of one library and one tally
//! `--seed S`       where they come from
//! `--only K`       the sequence number K alone
//! `--out D`        where the texts of the first difference go
//! `--mutant K`     with the features `self,mutants`: a mistake behind the boundary

use other::gen::{self, Rng};
use other::memory::{Memory, ReadOnly, EDGES};
use other::reference::Answer;
use other::tally_gen::{self, Listed};
use other::{gaps, ours, pages, tally};
use std::collections::BTreeMap;
use std::{env, fs, process};

fn usage(at: &str) -> ! {
    eprintln!("not understood: {at}\nuse: tally [--sequences N] [--seed S] [--only K] [--out D] [--mutant K]");
    process::exit(2)
}

/// How often each answer and each kind of netlist came.
#[derive(Default)]
struct Counts {
    numbers: BTreeMap<u32, u64>,
    kinds: BTreeMap<&'static str, u64>,
    most: u64,
}

/// Counts a netlist: what is wrong, or the tally handed on.
fn counts(cells: &[u8], netlist: &[u8], before: &[u64], mutant: u32) -> Result<(Answer, Vec<u64>), String> {
    let (wanted, after) = tally::count(cells, netlist, before);
    for edge in EDGES {
        let texts = [cells, netlist].map(|text| ReadOnly::new(text, edge));
        let mut lent = Memory::new(before.to_vec(), edge);
        let got = ours::behind(mutant, || ours::count(&texts[0], &texts[1], lent.lent()));
        if got != wanted {
            return Err(format!("count: wanted {wanted:?}, got {got:?}\n"));
        }
        if let Some(at) = lent.first_change(&after) {
            return Err(format!("count: {wanted:?}, the tally at its pages' {edge:?} differs at {at}\n"));
        }
    }
    Ok((wanted, after))
}

/// Reports with four lengths of text memory.
fn reports(cells: &[u8], figures: &[u64], rng: &mut Rng, mutant: u32) -> Result<Answer, String> {
    let exact = tally::report(cells, figures, usize::MAX).1.len();
    let mut last = Answer::default();
    for length in [exact.saturating_sub(1), rng.below(exact + 1), exact + 1 + rng.below(40), exact] {
        let (wanted, text) = tally::report(cells, figures, length);
        let held = rng.bytes(length);
        for edge in EDGES {
            let (cells, figures) = (ReadOnly::new(cells, edge), ReadOnly::new(figures, edge));
            let mut lent = Memory::new(held.clone(), edge);
            let got = ours::behind(mutant, || ours::report(&cells, &figures, lent.lent()));
            if got != wanted {
                return Err(format!("report, {length} bytes: wanted {wanted:?}, got {got:?}\n"));
            }
            if let Some(at) = lent.first_change(&text) {
                return Err(format!(
                    "report, {length} bytes at their pages' {edge:?}: {wanted:?}, they differ at {at}\n"
                ));
            }
        }
        last = wanted;
    }
    Ok(last)
}

/// Every byte at every gap of a netlist, with either names line: how many were compared.
fn at_gaps(mutant: u32) -> Result<usize, String> {
    let cells = gen::small_library();
    let mut compared = 0;
    for ranged in [false, true] {
        let text = if ranged { gen::ranged_text(&cells) } else { gen::library_text(&cells) };
        for netlist in gaps::netlists(ranged) {
            counts(&text, &netlist, &tally::empty(), mutant)
                .map_err(|wrong| format!("{wrong}{:?}", String::from_utf8_lossy(&netlist)))?;
            compared += 1;
        }
    }
    Ok(compared)
}

/// A sequence by its number alone.
fn sequence(seed: u64, number: u64, counted: &mut Counts, mutant: u32, out: &str) {
    let mut rng = Rng::new(seed.wrapping_mul(0x1_0000_0001).wrapping_add(number));
    let library = tally_gen::library(&mut rng);
    let cells = match rng.below(24) {
        0 => gen::damaged(&mut rng, &library.text),
        1 => gen::faults(&mut rng).cells,
        2 => [&library.text[..], &[b' '; 65_537]].concat(),
        _ => library.text.clone(),
    };
    let library = Listed { text: cells, ..library };
    let mut figures = tally_gen::tally(&mut rng);
    let length = match number % 200 {
        7 => 70,
        _ => rng.pick(&[1, 2, 4, 9]),
    };
    for _ in 0..length {
        // Netlists made for the library as it was listed, damaged or not.
        let mut made = tally_gen::netlist(&mut rng, &library);
        if number % 200 == 7 && rng.one_in(2) {
            made.text = bare(&library);
        }
        if rng.one_in(200) {
            made.text.resize(65_535 + rng.below(3), b'\n');
        }
        let told = counts(&library.text, &made.text, &figures, mutant);
        let told = told
            .and_then(|(answer, after)| Ok((answer, after.clone(), reports(&library.text, &after, &mut rng, mutant)?)));
        match told {
            Ok((answer, after, report)) => {
                figures = after;
                *counted.numbers.entry(answer.number).or_default() += 1;
                *counted.numbers.entry(100 + report.number).or_default() += 1;
                *counted.kinds.entry(made.what).or_default() += 1;
                counted.most = counted.most.max(figures.get(96).copied().filter(|&most| most < 100).unwrap_or(0));
            }
            Err(wrong) => {
                fs::create_dir_all(out).expect("the folder for the difference");
                let write = |name: &str, bytes: &[u8]| fs::write(format!("{out}/{name}"), bytes).expect("a text");
                write("cells.txt", &library.text);
                write("netlist.blif", &made.text);
                let told = format!("seed {seed} sequence {number}, {}\n{wrong}tally before {figures:?}\n", made.what);
                write("difference.txt", told.as_bytes());
                println!("{told}texts in {out}");
                process::exit(1);
            }
        }
    }
}

/// A netlist without gates and outputs, which every library takes.
fn bare(_: &Listed) -> Vec<u8> {
    b".model top\n.inputs\n.outputs\n.end\n# gates 0 area 0 arrival 0\n".to_vec()
}

fn main() {
    let (mut sequences, mut seed, mut only, mut out, mut mutant) = (6_000, 1, None, String::from("tally-out"), 0);
    let mut arguments = env::args().skip(1);
    while let Some(name) = arguments.next() {
        let next = arguments.next().unwrap_or_else(|| usage(&name));
        let number = || next.parse::<u64>().unwrap_or_else(|_| usage(&name));
        match name.as_str() {
            "--sequences" => sequences = number(),
            "--seed" => seed = number(),
            "--only" => only = Some(number()),
            "--out" => out = next,
            "--mutant" if cfg!(feature = "mutants") => mutant = number() as u32,
            _ => usage(&name),
        }
    }
    let mut counted = Counts::default();
    pages::watch();
    let gaps = if only.is_none() { at_gaps(mutant) } else { Ok(0) };
    let gaps = gaps.unwrap_or_else(|wrong| {
        println!("every byte at a gap: {wrong}");
        process::exit(1)
    });
    for number in only.map_or(0..sequences, |only| only..only + 1) {
        pages::tell(&format!("tally --seed {seed} --only {number}"));
        sequence(seed, number, &mut counted, mutant, &out);
    }
    let Counts { numbers, kinds, most } = counted;
    let all = [0, 1, 2, 4, 28, 29, 100, 101, 102, 104, 128];
    let missing: Vec<u32> = all.into_iter().filter(|number| !numbers.contains_key(number)).collect();
    if only.is_none() && sequences >= 1_000 && (!missing.is_empty() || most < 64) {
        println!("never came: {missing:?}; most netlists in one tally {most}");
        process::exit(1);
    }
    let calls: u64 = kinds.values().sum();
    println!(
        "{sequences} sequences, {calls} netlists with as many reports of four lengths, by number (a report's with 100 added) {numbers:?}, \
         by kind {kinds:?}, at most {most} in one tally, {gaps} with a byte at a gap, 0 differences"
    );
}
