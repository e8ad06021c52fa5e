//! How much stack each call takes, on texts that take it deep: each runs in a thread of exactly
//! ARRAYMAP_STACK bytes, painted beforehand, above a page that nobody may touch. Compared with
//! the figures of include/arraymap.h: none may be exceeded, or be twice what is measured.
//!
//! `stack [FILE ...]`: files with the same figures, in lines as "`arraymap_map` .. 700 KB".

use other::gen::{self, Graph, Rng};
use other::two::Channel;
use other::{genlib_gen, ours, pages, stack, CUT_LIMIT};
use std::{env, fs, process};

const HEADER: &str = include_str!("../../../../include/arraymap.h");

/// The bytes that the header says are enough for every call.
fn enough() -> Option<usize> {
    let line = HEADER.lines().find_map(|line| line.strip_prefix("#define ARRAYMAP_STACK "))?;
    line.trim().parse().ok()
}

/// The bytes that a text says one call takes, in a line with its name and a figure, as in
/// ` *   arraymap_map  1,100 KB` or "`arraymap_map` .. | 1,100 KB |".
fn said(text: &str, call: &str) -> Option<usize> {
    text.lines().find_map(|line| {
        let words: Vec<&str> = line.split_whitespace().collect();
        let unit = words.iter().position(|&word| word == "KB")?;
        let named = words.iter().any(|word| word.trim_matches(|sign| "`:,|".contains(sign)) == call);
        let figure = words[unit.checked_sub(1)?].replace(',', "").parse::<usize>().ok()?;
        named.then_some(1_000 * figure)
    })
}

/// One call's texts: cells, graph or genlib, arrivals, netlist.
struct Texts {
    what: &'static str,
    cells: Vec<u8>,
    graph: Vec<u8>,
    arrivals: Vec<u8>,
    genlib: Vec<u8>,
}

/// ANDs in a chain up to this variable, each over the one before and one of four inputs in
/// turn: the walk over a cone goes through all of them.
fn chain(top: usize) -> Graph {
    Graph {
        top,
        inputs: vec![1, 2, 3, 4],
        outputs: vec![2 * top],
        ands: (5..=top).map(|left| (left, if left == 5 { 2 } else { 2 * left - 2 }, 2 * (1 + left % 4))).collect(),
    }
}

/// The same with its lines from the last to the first.
fn upside_down() -> Graph {
    let mut graph = chain(4_095);
    graph.ands.reverse();
    graph
}

/// A gate whose expression has so many brackets around one pin, `!` before each.
fn brackets(depth: usize) -> Vec<u8> {
    let gate = format!("GATE deep 1 O={}a{};\n", "!(".repeat(depth), ")".repeat(depth));
    (gate + "PIN * INV 1 999 1 0 1 0\n").into_bytes()
}

fn texts() -> Vec<Texts> {
    let mut rng = Rng::new(1);
    let full = gen::ranged_text(&gen::with_ranges(&mut rng, &gen::full_library()));
    let small = gen::library_text(&gen::small_library());
    let many = gen::library_text(&gen::library_of(256));
    let late = gen::arrivals_of(&[65_535; 4]);
    let wide = gen::large_graph(&mut rng, 4_095).text();
    let crowded = gen::as_it_comes(gen::shape_with_cuts(CUT_LIMIT + 1), &[]).text();
    let of = |what, cells: &[u8], graph: Vec<u8>, arrivals: &[u8], genlib| Texts {
        what,
        cells: cells.into(),
        graph,
        arrivals: arrivals.into(),
        genlib,
    };
    let mut all = vec![
        of("a chain", &small, chain(4_095).text(), &late, brackets(16)),
        of("a chain upside down", &small, upside_down().text(), &late, brackets(17)),
        of("a chain, many cells", &many, chain(4_095).text(), b"", brackets(20_000)),
        of("4,095 variables", &full, wide.clone(), b"", vec![b'('; 65_536]),
        of("4,095 variables, many cells", &many, wide, b"", vec![b'\n'; 65_536]),
        of("a chain whose netlist is checked", &small, chain(1_000).text(), b"", brackets(10_000)),
        of("nothing", b"", Vec::new(), b"", Vec::new()),
        of("19 cuts", &small, crowded, b"", genlib_gen::good(&mut rng).genlib),
    ];
    for _ in 0..8 {
        let case = gen::case(&mut rng);
        all.push(of("by chance", &case.cells, case.graph, &case.arrivals, genlib_gen::faults(&mut rng).genlib));
    }
    all
}

/// The deepest that each call goes over all texts, less what a thread takes that does nothing.
fn measured(stack: usize) -> [(&'static str, usize); 8] {
    let (mut work, mut more) = (vec![0; 1_040_000], vec![0; 1_100_000]);
    let (mut text, mut second) = (vec![0; 1_100_000], vec![0; 1_100_000]);
    let mut most = [
        ("arraymap_map", 0),
        ("arraymap_map_pairs", 0),
        ("arraymap_map_two", 0),
        ("arraymap_map_two_pairs", 0),
        ("arraymap_check", 0),
        ("arraymap_cells", 0),
        ("arraymap_count", 0),
        ("arraymap_report", 0),
    ];
    let nothing = stack::depth(stack, || {});
    for Texts { what, cells, graph, arrivals, genlib } in &texts() {
        let mut tally = vec![0; 97];
        let mut netlist = Vec::new();
        let channels = [Channel { graph, arrivals }; 2];
        let mut measure = |call: usize, run: &mut dyn FnMut()| {
            let (name, deepest) = &mut most[call];
            pages::tell(&format!("{name} of {what}"));
            *deepest = stack::depth(stack, run).saturating_sub(nothing).max(*deepest);
        };
        measure(0, &mut || {
            let answer = ours::map(cells, graph, arrivals, &mut work, &mut text);
            if answer.number == 0 {
                netlist = text[..answer.value as usize].to_vec();
            }
        });
        measure(1, &mut || {
            ours::map_pairs(cells, graph, arrivals, &mut work, &mut text);
        });
        measure(2, &mut || {
            ours::map_two(cells, channels, &mut work, [&mut text, &mut second]);
        });
        measure(3, &mut || {
            ours::map_two_pairs(cells, channels, &mut work, [&mut text, &mut second]);
        });
        measure(4, &mut || {
            ours::check(cells, graph, &netlist, &mut more);
        });
        measure(5, &mut || {
            ours::cells(genlib, &mut text);
        });
        measure(6, &mut || {
            ours::count(cells, &netlist, &mut tally);
        });
        measure(7, &mut || {
            ours::report(cells, &tally, &mut text);
        });
    }
    most
}

fn main() {
    let Some(stack) = enough() else {
        println!("include/arraymap.h defines no ARRAYMAP_STACK");
        process::exit(1)
    };
    let files: Vec<(String, String)> = env::args()
        .skip(1)
        .map(|name| match fs::read_to_string(&name) {
            Ok(text) => (name, text),
            Err(error) => {
                eprintln!("{name}: {error}");
                process::exit(2)
            }
        })
        .collect();
    pages::watch();
    let mut wrong = false;
    let mut told = Vec::new();
    for (call, bytes) in measured(stack) {
        let figure = said(HEADER, call);
        let right = figure.is_some_and(|said| bytes <= said && said <= stack && said < 2 * bytes + 4_000);
        if !right {
            println!(
                "{call} takes {bytes} bytes of stack; include/arraymap.h says {figure:?}, and {stack} of all calls"
            );
        }
        for (name, text) in files.iter().filter(|(_, text)| said(text, call) != figure) {
            println!("{name} says {:?} of {call}, and include/arraymap.h {figure:?}", said(text, call));
            wrong = true;
        }
        wrong |= !right;
        told.push(format!("{call} {bytes}"));
    }
    if wrong {
        process::exit(1);
    }
    println!("bytes of stack, each call in a thread of {stack}: {}", told.join(", "));
}
