//! Compares the call on two channels with the reference: both answers, both text
//! memories and the work memory, each whole, at the start of its pages and at their end,
//! over pairs of texts and four lengths of work memory: the sum of both needs, one word
//! short of it, more, and fewer by chance.
//!
//! `--pairs N`   so many pairs of texts
//! `--seed S`    where they come from
//! `--only K`    the pair number K alone
//! `--out D`     where the texts of the first difference go
//! `--joined`    the call that wants pairs of cells
//! `--mutant K`  with the features `self,mutants`: a mistake behind the boundary

use other::gen::Rng;
use other::memory::{Memory, ReadOnly, EDGES};
use other::two::{self, Channel, Outcome, Two};
use other::two_checks::Kinds;
use other::two_gen::{self, Pair};
use other::{ours, pages, NUMBERS};
use std::time::{Duration, Instant};
use std::{env, fs, process};

fn usage(at: &str) -> ! {
    eprintln!("not understood: {at}\nuse: two [--pairs N] [--seed S] [--only K] [--out D] [--joined] [--mutant K]");
    process::exit(2)
}

/// What is wrong with so many words, if something is, and what is wanted.
fn compare(
    pair: &Pair,
    alone: &[Outcome; 2],
    words: usize,
    rng: &mut Rng,
    mutant: u32,
    ours: &mut Duration,
) -> (Two, Option<String>) {
    let bytes = [0, 1].map(|side| {
        let length = alone[side].as_ref().map_or(64, |printed| printed.text.len());
        pair.channels[side].text.of(length)
    });
    let wanted = two::answers(two::together(alone.clone(), pair.needs(), words), bytes);
    let zeros = vec![0; if wanted.zeroes { words } else { 0 }];
    let (held_words, held_bytes) = (rng.words(words), bytes.map(|length| rng.bytes(length)));
    for edge in EDGES {
        let cells = ReadOnly::new(&pair.cells, edge);
        let channels =
            pair.texts().map(|Channel { graph, arrivals }| [graph, arrivals].map(|text| ReadOnly::new(text, edge)));
        let mut work = Memory::new(held_words.clone(), edge);
        let mut texts = held_bytes.clone().map(|held| Memory::new(held, edge));
        let start = Instant::now();
        let got = ours::behind(mutant, || {
            let map = if pair.joined { ours::map_two_pairs } else { ours::map_two };
            let channels = channels.each_ref().map(|[graph, arrivals]| Channel { graph, arrivals });
            map(&cells, channels, work.lent(), texts.each_mut().map(Memory::lent))
        });
        *ours += start.elapsed();
        let wrong = if got != wanted.answers {
            Some("the answers differ".to_string())
        } else if let Some(side) = (0..2).find(|&side| texts[side].first_change(&wanted.netlists[side]).is_some()) {
            let at = texts[side].first_change(&wanted.netlists[side]);
            Some(format!("text memory {} differs at {at:?}", side + 1))
        } else {
            work.first_change(&zeros).map(|at| format!("work memory differs at {at}"))
        };
        if let Some(wrong) = wrong {
            let lent = format!("lent {words} words, {bytes:?} bytes, each at its pages' {edge:?}");
            let told = format!("{wrong}\n{lent}\nwanted {:?}\ngot    {got:?}\n", wanted.answers);
            return (wanted, Some(told));
        }
    }
    (wanted, None)
}

fn main() {
    let (mut pairs, mut seed, mut only, mut out, mut mutant) = (10_000, 1, None, String::from("two-out"), 0);
    let mut arguments = env::args().skip(1);
    let mut joined = false;
    while let Some(name) = arguments.next() {
        if name == "--joined" {
            joined = true;
            continue;
        }
        let next = arguments.next().unwrap_or_else(|| usage(&name));
        let number = || next.parse::<u64>().unwrap_or_else(|_| usage(&name));
        match name.as_str() {
            "--pairs" => pairs = number(),
            "--seed" => seed = number(),
            "--only" => only = Some(number()),
            "--out" => out = next,
            "--mutant" if cfg!(feature = "mutants") => mutant = number() as u32,
            _ => usage(&name),
        }
    }
    pages::watch();
    let (mut kinds, mut counts) = (Kinds::default(), [0u64; NUMBERS]);
    let (start, mut ours) = (Instant::now(), Duration::ZERO);
    for number in only.map_or(0..pairs, |only| only..only + 1) {
        // A pair depends on its number alone, so that it can be run alone.
        let mut rng = Rng::new(seed.wrapping_mul(0x1_0000_0001).wrapping_add(number));
        let pair = if joined { two_gen::pair_of_pairs(&mut rng) } else { two_gen::pair(&mut rng) };
        pages::tell(&format!("two --seed {seed} --only {number}{}", if joined { " --joined" } else { "" }));
        let alone = two::alone(&pair.cells, pair.texts(), joined);
        let early = alone.each_ref().map(|outcome| two::early(outcome).map(|refusal| refusal.number));
        for words in pair.words(&mut rng) {
            let (wanted, wrong) = compare(&pair, &alone, words, &mut rng, mutant, &mut ours);
            kinds.count(early, &wanted);
            wanted.answers.iter().for_each(|answer| counts[answer.number as usize] += 1);
            let Some(wrong) = wrong else { continue };
            fs::create_dir_all(&out).expect("the folder for the difference");
            let write = |name: &str, bytes: &[u8]| fs::write(format!("{out}/{name}"), bytes).expect("a text");
            write("cells.txt", &pair.cells);
            for (side, made) in pair.channels.iter().enumerate() {
                write(&format!("graph{}.aag", side + 1), &made.graph);
                write(&format!("arrivals{}.txt", side + 1), &made.arrivals);
            }
            let whats = pair.channels.each_ref().map(|made| made.what.as_str()).join("; ");
            let told = format!("seed {seed} pair {number}, {whats}\n{wrong}");
            write("difference.txt", told.as_bytes());
            println!("{told}texts in {out}");
            process::exit(1);
        }
    }
    let numbers = (0..22).chain([25, 26, 27, 30]).map(|number: usize| format!("{number}:{}", counts[number]));
    let told = kinds.every();
    if only.is_none() && pairs >= 1_000 && told.is_err() {
        println!("{told:?}");
        process::exit(1);
    }
    println!(
        "{pairs} pairs of texts, {}, answers by number {}, 0 differences; {:.1} s, under test {:.1} s",
        told.unwrap_or_default(),
        numbers.collect::<Vec<_>>().join(" "),
        start.elapsed().as_secs_f64(),
        ours.as_secs_f64()
    );
}
