//! Compares the mapper under test with the reference: answers, the whole text
//! memory and the whole work memory, over fixed and random cases, with everything
//! at the start of its pages and at their end.
//!
//! `--cases N`   so many random cases after the fixed ones
//! `--seed S`    where the random cases come from
//! `--only K`    the random case number K alone
//! `--pairs`     the call that wants pairs of cells
//! `--graphs D`  also every `.aag` and `.aig` with every library `.txt` of a folder
//! `--out D`     where the texts of the first difference go
//! `--trace`     name every case before it runs, to find one that ends the run
//! `--mutant K`  with the features `self,mutants`: a mistake behind the boundary

use other::gen::{self, Case, Lent, Rng};
use other::memory::{Memory, ReadOnly, EDGES};
use other::reference::{self, Answer};
use other::{checks, gaps, ours, pages, NUMBERS, WORDS_EACH};
use std::path::{Path, PathBuf};
use std::time::{Duration, Instant};
use std::{env, fs, process};

struct Options {
    cases: u64,
    seed: u64,
    only: Option<u64>,
    graphs: Option<PathBuf>,
    out: PathBuf,
    trace: bool,
    pairs: bool,
    mutant: u32,
}

fn options() -> Options {
    let mut options = Options {
        cases: 20_000,
        seed: 1,
        only: None,
        graphs: None,
        out: "diff-out".into(),
        trace: false,
        pairs: false,
        mutant: 0,
    };
    let mut arguments = env::args().skip(1);
    while let Some(name) = arguments.next() {
        let mut next = || arguments.next().unwrap_or_else(|| usage(&name));
        match name.as_str() {
            "--cases" => options.cases = next().parse().unwrap_or_else(|_| usage(&name)),
            "--seed" => options.seed = next().parse().unwrap_or_else(|_| usage(&name)),
            "--only" => options.only = Some(next().parse().unwrap_or_else(|_| usage(&name))),
            "--graphs" => options.graphs = Some(next().into()),
            "--out" => options.out = next().into(),
            "--trace" => options.trace = true,
            "--pairs" => options.pairs = true,
            "--mutant" => options.mutant = next().parse().unwrap_or_else(|_| usage(&name)),
            _ => usage(&name),
        }
    }
    options
}

fn usage(at: &str) -> ! {
    eprintln!("not understood: {at}\nuse: diff [--cases N] [--seed S] [--only K] [--pairs] [--graphs D] [--out D] [--trace] [--mutant K]");
    process::exit(2)
}

#[derive(Default)]
struct Tally {
    counts: [u64; NUMBERS],
    reference: Duration,
    ours: Duration,
}

/// What is wrong, both answers, the netlist wanted and the text memory got.
struct Difference {
    wrong: String,
    wanted: Answer,
    got: Answer,
    netlist: Vec<u8>,
    text: Vec<u8>,
}

/// Work memory of any graph that is accepted, and some more.
const MOST_WORDS: usize = WORDS_EACH * 4_096 + 4_096 + 2_000;

fn compare(case: &Case, rng: &mut Rng, tally: &mut Tally, mutant: u32) -> Result<(), Difference> {
    let words = case.words.of(reference::words_needed(&case.graph).unwrap_or(64)).min(MOST_WORDS);
    let start = Instant::now();
    let printed = reference::print_with(&case.cells, &case.graph, &case.arrivals, words, case.pairs);
    tally.reference += start.elapsed();
    let length = printed.as_ref().map_or(64, |printed| printed.text.len());
    let text_len = case.text.of(length);
    let (wanted, netlist) = reference::answer(printed, text_len);
    tally.counts[wanted.number as usize] += 1;
    let zeros = if reference::leaves_work_memory(wanted.number) { 0 } else { words };
    let (held_words, held_bytes) = (rng.words(words), rng.bytes(text_len));
    for edge in EDGES {
        let texts = [&case.cells, &case.graph, &case.arrivals].map(|text| ReadOnly::new(text, edge));
        let mut work = Memory::new(held_words.clone(), edge);
        let mut text = Memory::new(held_bytes.clone(), edge);
        let start = Instant::now();
        let got = ours::behind(mutant, || call(case.pairs, &texts, work.lent(), text.lent()));
        tally.ours += start.elapsed();
        let wrong = if got != wanted {
            "the answers differ".to_string()
        } else if let Some(at) = text.first_change(&netlist) {
            format!("text memory of {text_len} bytes differs at {at}")
        } else if let Some(at) = work.first_change(&vec![0; zeros]) {
            format!("work memory of {words} words differs at {at}")
        } else if let Err(wrong) = checks::as_expected(case, &wanted) {
            wrong
        } else {
            continue;
        };
        let wrong = format!("{wrong}\nlent {words} words, {text_len} bytes of text, each at its pages' {edge:?}");
        return Err(Difference { wrong, wanted, got, netlist, text: text.after().to_vec() });
    }
    Ok(())
}

fn call(pairs: bool, [cells, graph, arrivals]: &[ReadOnly; 3], work: &mut [u16], text: &mut [u8]) -> Answer {
    let map = if pairs { ours::map_pairs } else { ours::map };
    map(cells, graph, arrivals, work, text)
}

/// The marked cases' texts, every limit, every graph of two inputs and two
/// ANDs in both forms, and every damage of a small library, a small graph, a small
/// binary graph and a small arrivals text, with every byte at every gap.
fn fixed() -> Vec<Case> {
    let mut cases = gen::limits();
    let graph = |lines: &[&str]| lines.iter().map(|line| format!("{line}\n")).collect::<String>().into_bytes();
    let small = gen::small_library();
    let with = |name: &str, pins, table, delay| {
        let mut cell = gen::Cell { name: name.into(), pins, table, area: 2, delays: [0; 4], lowest: [0; 4] };
        cell.delays[..pins].fill(delay);
        gen::library_text(&[small.clone(), vec![cell]].concat())
    };
    let plain = gen::library_text(&small);
    let b = graph(&["aag 3 2 0 1 1", "2", "4", "6", "6 2 4"]);
    let c = graph(&["aag 3 2 0 1 1", "2", "4", "6", "6 3 5"]);
    let h = graph(&["aag 0 0 0 1 0", "1"]);
    cases.push(Case::new("A", plain.clone(), graph(&["aag 0 0 0 0 0"])).expect(0, 0));
    cases.push(Case::new("B", plain.clone(), b.clone()).expect(0, 0));
    for (letter, delay) in [("C", 35), ("D", 40), ("E", 41)] {
        cases.push(Case::new(letter, with("nor2", 2, 1, delay), c.clone()).expect(0, 0));
    }
    let f = graph(&["aag 6 3 0 1 3", "2", "4", "6", "12", "8 2 4", "10 8 6", "12 8 10"]);
    cases.push(Case::new("F", plain.clone(), f).expect(0, 0));
    let binary = |head: &str, bytes: &[u8]| [head.as_bytes(), bytes].concat();
    let b_twin = binary("aig 3 2 0 1 1\n6\n", &[2, 2]);
    cases.push(Case::new("B in binary", plain.clone(), b_twin).expect(0, 0));
    let f_twin = binary("aig 6 3 0 1 3\n12\n", &[4, 2, 2, 2, 2, 2]);
    cases.push(Case::new("F in binary", plain.clone(), f_twin).expect(0, 0));
    cases.push(Case::new("H", with("tie0", 0, 0, 0), h.clone()).expect(0, 0));
    cases.push(Case::new("I", plain.clone(), h).expect(17, 0));
    cases.push(Case::new("J", plain.clone(), graph(&["aag 2 0 0 0 2", "2 4 4", "4 2 2"])).expect(15, 1));
    cases.push(Case::new("K", plain.clone(), graph(&["aag 3 1 0 1 2", "2", "4", "4 6 6", "6 2 2"])).expect(0, 0));
    let ranged = gen::ranged_text(&gen::with_ranges(&mut Rng::new(9), &small));
    for damaged in [&plain, &ranged].into_iter().flat_map(|text| gen::all_damage_of_ends(text)) {
        cases.push(Case::new("damaged library", damaged, b.clone()));
    }
    for damaged in gen::all_damage_of_ends(b"input arrival\n1 20\n0 7\n") {
        cases.push(Case::new("damaged arrivals", plain.clone(), b.clone()).arrivals(damaged));
    }
    cases.extend(gaps::libraries().into_iter().map(|cells| Case::new("every byte at a gap", cells, b.clone())));
    let of = |graph: &[u8]| Case::new("every byte at a gap", plain.clone(), graph.to_vec());
    cases.extend(gaps::graphs().iter().map(|graph| of(graph)));
    cases.extend(gaps::arrivals().into_iter().map(|arrivals| of(&b).arrivals(arrivals)));
    let mut rng = Rng::new(4);
    for graph in gen::every_small_graph() {
        let count = gen::library_size(&mut rng);
        let cells = gen::library(&mut rng, count);
        let cells = gen::either_text(&mut rng, &cells);
        let arrivals = gen::arrivals(&mut rng, graph.inputs.len());
        cases.push(Case::new("small graph", cells.clone(), graph.text()));
        cases.push(Case::new("small binary graph", cells, graph.binary().expect("in sequence")).arrivals(arrivals));
    }
    let longer = graph(&["aag 5 2 0 2 2", "4", "2", "10", "7", "10 3 4", "6 10 3", "c"]);
    for damaged in gen::all_damage_of_ends(&longer) {
        cases.push(Case::new("damaged graph", plain.clone(), damaged));
    }
    for damaged in gen::all_binary_damage() {
        cases.push(Case::new("damaged binary graph", plain.clone(), damaged));
    }
    cases
}

/// 30 from both sides, and every graph of two inputs and two ANDs with a library of
/// pairs.
fn fixed_pairs() -> Vec<Case> {
    let mut cases = gen::pair_limits();
    let mut rng = Rng::new(5);
    for graph in gen::every_small_graph() {
        let cells = gen::library_of_pairs(&mut rng);
        let cells = gen::either_text(&mut rng, &cells);
        let arrivals = gen::arrivals(&mut rng, graph.inputs.len());
        cases.push(Case::new("small graph", cells, graph.text()).arrivals(arrivals).with_pairs());
    }
    cases
}

/// Every graph of a folder with every library in it.
fn folder(path: &Path) -> Vec<Case> {
    let mut names: Vec<PathBuf> =
        fs::read_dir(path).expect("the folder of graphs").map(|entry| entry.expect("an entry").path()).collect();
    names.sort();
    let of = |ending: &str| -> Vec<&PathBuf> {
        names.iter().filter(|name| name.to_string_lossy().ends_with(ending)).collect()
    };
    let mut cases = Vec::new();
    for graph in [of(".aag"), of(".aig")].concat() {
        for cells in of(".txt") {
            let what = format!("{} with {}", graph.display(), cells.display());
            let read = |name: &PathBuf| fs::read(name).expect("a text");
            let case = Case::new(what, read(cells), read(graph)).words(Lent::Exact).text(Lent::Over(1));
            let inputs = reference::read_graph(&case.graph, usize::MAX).map_or(0, |graph| graph.inputs.len());
            let late = gen::arrivals(&mut Rng::new(cases.len() as u64), inputs);
            let with_ranges = Case { cells: gen::lowest_added(&case.cells), ..case.clone().arrivals(late.clone()) };
            cases.extend([case.clone(), case.arrivals(late), with_ranges]);
        }
    }
    cases
}

fn main() {
    let options = options();
    pages::watch();
    if options.mutant != 0 && cfg!(not(feature = "mutants")) {
        usage("--mutant without the feature `mutants`");
    }
    let mut tally = Tally::default();
    let mut run = |name: String, case: &Case, rng: &mut Rng| {
        if options.trace {
            eprintln!("{name}: {}", case.what);
        }
        pages::tell(&format!("{name}, {}", case.what));
        let Err(difference) = compare(case, rng, &mut tally, options.mutant) else { return };
        let Difference { wrong, wanted, got, netlist, text } = difference;
        fs::create_dir_all(&options.out).expect("the folder for the difference");
        let write =
            |name: &str, bytes: &[u8]| fs::write(options.out.join(name), bytes).expect("a text of the difference");
        write("cells.txt", &case.cells);
        write("graph.aag", &case.graph);
        write("arrivals.txt", &case.arrivals);
        write("wanted.txt", &netlist);
        write("text-memory.bin", &text);
        let told = format!("{name}, {}\n{wrong}\nwanted {wanted:?}\ngot    {got:?}\n", case.what);
        write("difference.txt", told.as_bytes());
        println!("{told}texts in {}", options.out.display());
        process::exit(1);
    };
    let mut rng = Rng::new(options.seed);
    if options.only.is_none() {
        for (index, case) in if options.pairs { fixed_pairs() } else { fixed() }.iter().enumerate() {
            run(format!("fixed case {index}"), case, &mut rng);
        }
        for case in options.graphs.iter().flat_map(|path| folder(path)) {
            run("folder".into(), &Case { pairs: options.pairs, ..case }, &mut rng);
        }
    }
    let mut twins = 0;
    let numbers = options.only.map_or(0..options.cases, |only| only..only + 1);
    for number in numbers {
        // A case depends on its number alone, so that it can be run alone.
        let mut rng = Rng::new(options.seed.wrapping_mul(0x1_0000_0001).wrapping_add(number));
        let case = if options.pairs { gen::pair_case(&mut rng) } else { gen::case(&mut rng) };
        run(format!("seed {} case {number}", options.seed), &case, &mut rng);
        // Of every eighth also its graph in sequence, in both forms.
        let pair = if number % 8 == 0 { checks::twins_of(&case) } else { None };
        for twin in pair.into_iter().flatten() {
            run(format!("seed {} case {number}, twin", options.seed), &twin, &mut rng);
            twins += 1;
        }
    }
    let counts: Vec<String> =
        (0..22).chain([25, 26, 27, 30]).map(|number: usize| format!("{number}:{}", tally.counts[number])).collect();
    let all: u64 = tally.counts.iter().sum();
    println!(
        "{all} cases, {twins} of them twins, by number {}, 0 differences; reference {:.1} s, under test {:.1} s",
        counts.join(" "),
        tally.reference.as_secs_f64(),
        tally.ours.as_secs_f64()
    );
}
