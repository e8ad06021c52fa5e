//! Runs the mapper under test over libraries reversed, rotated and shuffled: the answers
//! agree on 16, 17 and the printed arrival, and, with each net of some as the only
//! output, on its earliest arrival.
//!
//! `--cases N`   so many cases
//! `--seed S`    where they come from
//! `--mutant K`  with the features `self,mutants`: a mistake behind the boundary

use other::gen::{self, Case, Rng};
use other::reference::{self, Answer};
use other::{ours, shuffled};
use std::collections::BTreeMap;
use std::{env, process};

/// With words and bytes enough for both orders.
fn run(case: &Case) -> Answer {
    let words = reference::words_needed(&case.graph).unwrap_or(64).min(600_000);
    let (mut work, mut text) = (vec![0; words], vec![0; 1 << 17]);
    let map = if case.pairs { ours::map_pairs } else { ours::map };
    map(&case.cells, &case.graph, &case.arrivals, &mut work, &mut text)
}

/// The case, and some of its nets as the only output.
fn with_outputs(rng: &mut Rng, case: &Case) -> Vec<Case> {
    let mut cases = vec![case.clone()];
    let Ok(read) = reference::read_graph(&case.graph, usize::MAX) else { return cases };
    let ands = read.operands.iter().enumerate();
    let graph = gen::Graph {
        top: read.top,
        inputs: read.inputs.iter().copied().map(usize::from).collect(),
        outputs: Vec::new(),
        ands: ands.filter_map(|(left, &ends)| ends.map(|(a, b)| (left, a as usize, b as usize))).collect(),
    };
    for _ in 0..graph.ands.len().min(3) {
        let (left, _, _) = graph.ands[rng.below(graph.ands.len())];
        let alone = gen::Graph { outputs: vec![2 * left + rng.below(2)], ..graph.clone() };
        cases.push(Case { what: format!("{}, one net", case.what), graph: alone.text(), ..case.clone() });
    }
    cases
}

fn main() {
    let (mut count, mut seed, mut mutant) = (3_000, 1, 0);
    let mut arguments = env::args().skip(1);
    while let Some(name) = arguments.next() {
        let number = arguments.next().and_then(|word| word.parse::<u64>().ok());
        match (name.as_str(), number) {
            ("--cases", Some(number)) => count = number,
            ("--seed", Some(number)) => seed = number,
            ("--mutant", Some(number)) if cfg!(feature = "mutants") => mutant = number as u32,
            _ => {
                eprintln!("not understood: {name}\nuse: shuffled [--cases N] [--seed S] [--mutant K]");
                process::exit(2)
            }
        }
    }
    #[cfg(feature = "mutants")]
    other::mutants::switch(mutant);
    let _ = mutant;
    let (mut compared, mut numbers, mut areas) = (0, BTreeMap::new(), 0);
    for number in 0..count {
        let mut rng = Rng::new(seed.wrapping_mul(0x1_0000_0001).wrapping_add(number));
        let case = if number % 3 == 0 { gen::pair_case(&mut rng) } else { gen::case(&mut rng) };
        // Libraries that are accepted, line by line the same.
        if reference::read_library(&case.cells).is_err() {
            continue;
        }
        for case in with_outputs(&mut rng, &case) {
            let answer = run(&case);
            for cells in shuffled::orders(&mut rng, &case.cells) {
                let other = run(&Case { cells: cells.clone(), ..case.clone() });
                if !shuffled::agree(&answer, &other) {
                    println!("case {number}, {}: {answer:?} and {other:?}", case.what);
                    let texts = [&case.cells, &cells, &case.graph, &case.arrivals];
                    println!("{}", texts.map(|text| String::from_utf8_lossy(text)).join("\n"));
                    process::exit(1);
                }
                compared += 1;
                areas += usize::from(answer.area != other.area);
                *numbers.entry(answer.number).or_insert(0) += 1;
            }
        }
    }
    if count >= 1_000 && (areas == 0 || ![0, 16, 17].iter().all(|number| numbers.contains_key(number))) {
        println!("too few kinds: by number {numbers:?}, {areas} with another area");
        process::exit(1);
    }
    println!(
        "{compared} orders of lines, by number {numbers:?}, {areas} with another area: arrivals and refusals agree"
    );
}
