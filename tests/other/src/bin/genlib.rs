//! Compares the genlib reader under test with the other one: the answer and the
//! whole text memory, lent exactly, with more, one byte short and short by chance, at the
//! start of its pages and at their end.
//!
//! `--cases N`   so many random texts of each kind after the fixed ones
//! `--seed S`    where they come from
//! `--graphs D`  also every `.genlib` of a folder
//! `--out D`     where the text of the first difference goes
//! `--mutant K`  with the features `self,mutants`: a mistake behind the boundary

use other::gen::Rng;
use other::genlib_gen::{self, Case};
use other::memory::{Memory, ReadOnly, EDGES};
use other::{gaps, genlib, ours, pages};
use std::{env, fs, process};

fn usage(at: &str) -> ! {
    eprintln!("not understood: {at}\nuse: genlib [--cases N] [--seed S] [--graphs D] [--out D] [--mutant K]");
    process::exit(2)
}

/// What is wrong with so many bytes of text memory, if something is.
fn compare(case: &Case, memory: usize, rng: &mut Rng, mutant: u32) -> Option<String> {
    let (wanted, cells) = genlib::cells(&case.genlib, memory);
    let made = match &case.expected {
        Some(Err(refusal)) => (wanted.number, wanted.value as usize) == *refusal,
        Some(Ok(text)) => wanted.value as usize == text.len() && (wanted.number == 18 || cells == *text),
        None => true,
    };
    if !made {
        return Some(format!("{wanted:?}, made for {:?}", case.expected));
    }
    let held = rng.bytes(memory);
    for edge in EDGES {
        let genlib = ReadOnly::new(&case.genlib, edge);
        let mut text = Memory::new(held.clone(), edge);
        let got = ours::behind(mutant, || ours::cells(&genlib, text.lent()));
        if got != wanted {
            return Some(format!("wanted {wanted:?}\ngot    {got:?}"));
        }
        if let Some(at) = text.first_change(&cells) {
            return Some(format!("{wanted:?}, but text memory at its pages' {edge:?} differs at {at}"));
        }
    }
    None
}

fn main() {
    let (mut cases, mut seed, mut graphs, mut out, mut mutant) = (10_000, 1, None, String::from("genlib-out"), 0);
    let mut arguments = env::args().skip(1);
    while let Some(name) = arguments.next() {
        let next = arguments.next().unwrap_or_else(|| usage(&name));
        let number = || next.parse::<u64>().unwrap_or_else(|_| usage(&name));
        match name.as_str() {
            "--cases" => cases = number(),
            "--seed" => seed = number(),
            "--graphs" => graphs = Some(next),
            "--out" => out = next,
            "--mutant" if cfg!(feature = "mutants") => mutant = number() as u32,
            _ => usage(&name),
        }
    }
    pages::watch();
    let mut counts = [0usize; 25];
    let mut run = |name: String, case: &Case, rng: &mut Rng| {
        pages::tell(&format!("{name}, {}", case.what));
        let (answer, _) = genlib::cells(&case.genlib, usize::MAX);
        counts[answer.number as usize] += 1;
        let length = if answer.number == 0 { answer.value as usize } else { 64 };
        for memory in [length, length + 1 + rng.below(300), length - 1, rng.below(length)] {
            let Some(wrong) = compare(case, memory, rng, mutant) else { continue };
            fs::create_dir_all(&out).expect("the folder for the difference");
            let path = format!("{out}/library.genlib");
            fs::write(&path, &case.genlib).expect("the text of the difference");
            println!("{name}, {}, {memory} bytes lent\n{wrong}\nits text is {path}", case.what);
            process::exit(1);
        }
    };
    let mut rng = Rng::new(seed);
    let mut fixed = genlib_gen::edges();
    fixed.extend(genlib_gen::all_damage());
    let gaps = gaps::genlibs().into_iter();
    fixed.extend(gaps.map(|genlib| Case { what: "every byte at a gap".into(), genlib, expected: None }));
    for (index, case) in fixed.iter().enumerate() {
        run(format!("fixed text {index}"), case, &mut rng);
    }
    if let Some(folder) = graphs {
        for entry in fs::read_dir(folder).expect("the folder of genlibs") {
            let path = entry.expect("an entry").path();
            if path.extension().is_some_and(|ending| ending == "genlib") {
                let what = path.display().to_string();
                let genlib = fs::read(&path).expect("a genlib");
                run("folder".into(), &Case { what, genlib, expected: None }, &mut rng);
            }
        }
    }
    for number in 0..cases {
        for make in [genlib_gen::good, genlib_gen::faults, genlib_gen::damaged] {
            let case = make(&mut rng);
            run(format!("seed {seed} text {number}"), &case, &mut rng);
        }
    }
    let by_number = [0, 1, 22, 23, 24].map(|number| format!("{number}:{}", counts[number]));
    let all: usize = counts.iter().sum();
    println!("{all} genlib texts, by number {}, with four lengths of memory each, 0 differences", by_number.join(" "));
}
