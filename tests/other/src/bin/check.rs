//! Compares the call that checks a netlist with the reference: the verdict with its two
//! numbers, and the whole work memory, at the start of its pages and at their end.
//!
//! `--cases N`   so many random cases after the fixed ones
//! `--seed S`    where they come from
//! `--only K`    the random case number K alone
//! `--out D`     where the texts of the first difference go
//! `--mutant K`  with the features `self,mutants`: a mistake behind the boundary

use other::check_gen::{self, Case};
use other::gen::{self, Rng};
use other::memory::{Memory, ReadOnly, EDGES};
use other::{check, gaps, ours, pages};
use std::collections::BTreeMap;
use std::time::{Duration, Instant};
use std::{env, fs, process};

fn usage(at: &str) -> ! {
    eprintln!("not understood: {at}\nuse: check [--cases N] [--seed S] [--only K] [--out D] [--mutant K]");
    process::exit(2)
}

#[derive(Default)]
struct Counts {
    verdicts: BTreeMap<[u64; 2], u64>,
    reference: Duration,
    ours: Duration,
}

fn compare(case: &Case, rng: &mut Rng, counts: &mut Counts, mutant: u32) -> Result<(), String> {
    let words = case.words();
    let start = Instant::now();
    let verdict = check::check(&case.cells, &case.graph, &case.netlist, words);
    counts.reference += start.elapsed();
    let wanted = verdict.numbers();
    let number = if wanted[0] == 2 { wanted[1] } else { 0 };
    *counts.verdicts.entry([wanted[0], number]).or_default() += 1;
    let zeros = vec![0; if verdict.leaves_work_memory() { 0 } else { words }];
    let held = rng.words(words);
    for edge in EDGES {
        let [cells, graph, netlist] = [&case.cells, &case.graph, &case.netlist].map(|text| ReadOnly::new(text, edge));
        let mut work = Memory::new(held.clone(), edge);
        let start = Instant::now();
        let got = ours::behind(mutant, || ours::check(&cells, &graph, &netlist, work.lent()));
        counts.ours += start.elapsed();
        if got != wanted {
            return Err(format!("{words} words: wanted {wanted:?}, got {got:?}\n"));
        }
        if let Some(at) = work.first_change(&zeros) {
            return Err(format!("{wanted:?}: {words} words at their pages' {edge:?} differ at {at}\n"));
        }
    }
    Ok(())
}

/// The limits, and every damage of case B's netlist, with every byte at every gap.
fn fixed() -> Vec<Case> {
    let mut cases = check_gen::limits();
    let b = cases[0].clone();
    for netlist in gen::all_damage(gen::LISTING.as_bytes()).into_iter().chain(gaps::netlists(false)) {
        cases.push(Case { what: "damaged".into(), netlist, knows: check_gen::Known::Nothing, ..b.clone() });
    }
    cases
}

fn main() {
    let (mut count, mut seed, mut only, mut out, mut mutant) = (8_000, 1, None, String::from("check-out"), 0);
    let mut arguments = env::args().skip(1);
    while let Some(name) = arguments.next() {
        let next = arguments.next().unwrap_or_else(|| usage(&name));
        let number = || next.parse::<u64>().unwrap_or_else(|_| usage(&name));
        match name.as_str() {
            "--cases" => count = number(),
            "--seed" => seed = number(),
            "--only" => only = Some(number()),
            "--out" => out = next,
            "--mutant" if cfg!(feature = "mutants") => mutant = number() as u32,
            _ => usage(&name),
        }
    }
    pages::watch();
    let mut counts = Counts::default();
    let mut run = |name: String, case: &Case, rng: &mut Rng| {
        pages::tell(&format!("{name}, {}", case.what));
        let Err(wrong) = compare(case, rng, &mut counts, mutant) else { return };
        fs::create_dir_all(&out).expect("the folder for the difference");
        let write = |name: &str, bytes: &[u8]| fs::write(format!("{out}/{name}"), bytes).expect("a text");
        write("cells.txt", &case.cells);
        write("graph.aag", &case.graph);
        write("netlist.blif", &case.netlist);
        let told = format!("{name}, {}\n{wrong}", case.what);
        write("difference.txt", told.as_bytes());
        println!("{told}texts in {out}");
        process::exit(1);
    };
    let mut rng = Rng::new(seed);
    if only.is_none() {
        for (index, case) in fixed().iter().enumerate() {
            run(format!("fixed case {index}"), case, &mut rng);
        }
    }
    for number in only.map_or(0..count, |only| only..only + 1) {
        let mut rng = Rng::new(seed.wrapping_mul(0x1_0000_0001).wrapping_add(number));
        let case = check_gen::case(&mut rng);
        run(format!("seed {seed} case {number}"), &case, &mut rng);
    }
    let Counts { verdicts, reference, ours } = counts;
    let missing =
        [[0, 0], [1, 0], [2, 1], [2, 10], [2, 31], [2, 32], [2, 33]].iter().find(|key| !verdicts.contains_key(*key));
    if let (None, Some(missing)) = (only, missing) {
        println!("never came: {missing:?}");
        process::exit(1);
    }
    println!(
        "{} cases, by verdict and number {verdicts:?}, 0 differences; reference {:.1} s, under test {:.1} s",
        verdicts.values().sum::<u64>(),
        reference.as_secs_f64(),
        ours.as_secs_f64()
    );
}
