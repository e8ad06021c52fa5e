//! Any texts through every call of the mapper under test, held against what is promised of
//! every call (`src/fuzz.rs`). A round depends on the seed and its number alone.
//!
//! `--seconds N`  so long; 10 where neither this nor `--rounds` is given
//! `--rounds N`   so many rounds
//! `--seed S`     where they come from
//! `--only K`     the round number K alone
//! `--out D`      where the texts of the round that fails go
//! `--mutant K`   with the features `self,mutants`: a mistake behind the boundary

use other::fuzz::{self, Counts, Texts};
use other::gen::Rng;
use other::{ours, pages};
use std::time::{Duration, Instant};
use std::{env, fs, io, process};

struct Options {
    seconds: Option<u64>,
    rounds: Option<u64>,
    seed: u64,
    only: Option<u64>,
    out: String,
    mutant: u32,
}

fn usage(at: &str) -> ! {
    eprintln!(
        "not understood: {at}\nuse: fuzz [--seconds N] [--rounds N] [--seed S] [--only K] [--out D] [--mutant K]"
    );
    process::exit(2)
}

fn options() -> Options {
    let mut options = Options { seconds: None, rounds: None, seed: 1, only: None, out: "fuzz-out".into(), mutant: 0 };
    let mut arguments = env::args().skip(1);
    while let Some(name) = arguments.next() {
        let next = arguments.next().unwrap_or_else(|| usage(&name));
        let number = || next.parse::<u64>().unwrap_or_else(|_| usage(&name));
        match name.as_str() {
            "--seconds" => options.seconds = Some(number()),
            "--rounds" => options.rounds = Some(number()),
            "--seed" => options.seed = number(),
            "--only" => options.only = Some(number()),
            "--out" => options.out = next,
            "--mutant" if cfg!(feature = "mutants") => options.mutant = number() as u32,
            _ => usage(&name),
        }
    }
    options
}

/// A file for each text.
fn put(texts: &Texts, out: &str) -> io::Result<()> {
    fs::create_dir_all(out)?;
    let [[graph1, arrivals1], [graph2, arrivals2]] = &texts.channels;
    let tally: String = texts.tally.iter().map(|figure| format!("{figure}\n")).collect();
    let files: [(&str, &[u8]); 7] = [
        ("cells.txt", &texts.cells),
        ("graph1.aag", graph1),
        ("arrivals1.txt", arrivals1),
        ("graph2.aag", graph2),
        ("arrivals2.txt", arrivals2),
        ("cells.genlib", &texts.genlib),
        ("tally.txt", tally.as_bytes()),
    ];
    files.iter().try_for_each(|(name, text)| fs::write(format!("{out}/{name}"), text))
}

fn main() {
    let Options { seconds, rounds, seed, only, out, mutant } = options();
    let most = match (seconds, rounds) {
        (None, None) => Some(Duration::from_secs(10)),
        _ => seconds.map(Duration::from_secs),
    };
    pages::watch();
    println!("seed {seed}");
    let (start, mut counts, mut ran) = (Instant::now(), Counts::default(), 0);
    for number in only.map_or(0..rounds.unwrap_or(u64::MAX), |only| only..only + 1) {
        if only.is_none() && most.is_some_and(|most| start.elapsed() >= most) {
            break;
        }
        let again = format!("fuzz --seed {seed} --only {number}");
        pages::tell(&again);
        let mut rng = Rng::new(seed.wrapping_mul(0x1_0000_0001).wrapping_add(number));
        let texts = fuzz::texts(&mut rng);
        if let Err(wrong) = ours::behind(mutant, || fuzz::round(&mut rng, &texts, &mut counts)) {
            println!("round {number}, {}: {wrong}\nagain: {again}", texts.what);
            match put(&texts, &out) {
                Ok(()) => println!("its texts are in {out}"),
                Err(error) => println!("its texts cannot be written to {out}: {error}"),
            }
            process::exit(1);
        }
        ran += 1;
    }
    println!("{ran} rounds in {:.1} s, {}", start.elapsed().as_secs_f64(), counts.told());
    let missing = counts.missing();
    if only.is_none() && ran >= 1_000 && !missing.is_empty() {
        println!("never came: {}", missing.join(", "));
        process::exit(1);
    }
}
