//! Compares the program `map` with the reference: runs it in a folder of its
//! own over some cases and compares every byte of its standard output.
//!
//! `program MAP [CASES [SEED [GRAPHS]]]`: with a folder of graphs also the twins
//! of its `.aig` and `.aag`, which must print the same.

use other::gen::{self, Case, Rng};
use other::{checks, reference};
use std::path::Path;
use std::process::{self, Command};
use std::{env, fs};

fn main() {
    let mut arguments = env::args().skip(1);
    let Some(map) = arguments.next() else {
        eprintln!("use: program MAP [CASES [SEED [GRAPHS]]]");
        process::exit(2)
    };
    let map = fs::canonicalize(&map).expect("the program");
    let mut number = |other: u64| arguments.next().map_or(other, |word| word.parse().expect("a number"));
    let (count, seed) = (number(300), number(1));
    let graphs = arguments.next();
    let folder = env::temp_dir().join(format!("map-{}", process::id()));
    fs::create_dir_all(&folder).expect("a folder");

    let mut rng = Rng::new(seed);
    let mut cases = gen::limits();
    cases.extend((0..count).map(|_| gen::case(&mut rng)));
    let none = Case::new("absent", Vec::new(), Vec::new());
    let (mut texts, mut refused) = (0, 0);
    for (index, case) in cases.iter().chain([&none]).enumerate() {
        // An empty text is tried as an absent file every other time.
        for (name, text) in [("cells.txt", &case.cells), ("graph.aag", &case.graph), ("arrivals.txt", &case.arrivals)] {
            let path = folder.join(name);
            if text.is_empty() && index % 2 == 0 {
                let _ = fs::remove_file(path);
            } else {
                fs::write(path, text).expect("a text");
            }
        }
        let (answer, netlist) = reference::map(&case.cells, &case.graph, &case.arrivals, 32_768, 65_536);
        let wanted = match answer.number {
            0 => netlist,
            number => format!("refused {number} {}\n", answer.value).into_bytes(),
        };
        let got = Command::new(&map).current_dir(&folder).output().expect("the program runs");
        if got.stdout != wanted || !got.stderr.is_empty() {
            println!("case {index}, {}: the outputs differ; texts in {}", case.what, folder.display());
            println!("wanted {:?}", String::from_utf8_lossy(&wanted));
            println!("got    {:?}", String::from_utf8_lossy(&got.stdout));
            process::exit(1);
        }
        *(if answer.number == 0 { &mut texts } else { &mut refused }) += 1;
    }
    println!("{texts} netlists, {refused} refusals, 0 differences");
    let _ = fs::remove_file(folder.join("arrivals.txt"));
    if let Some(graphs) = graphs {
        twins(&map, &folder, Path::new(&graphs));
    }
    fs::remove_dir_all(&folder).expect("the folder goes");
}

/// Every `.aig` of the folder and its `.aag` twin, and every `.aag` renumbered in
/// sequence and its binary text, with each library, all as the file `graph.aag`:
/// the program must print the same bytes for both.
fn twins(map: &Path, folder: &Path, graphs: &Path) {
    let entries = fs::read_dir(graphs).expect("the folder of graphs");
    let mut names: Vec<_> = entries.map(|entry| entry.expect("an entry").path()).collect();
    names.sort();
    let of = |ending: &'static str| names.iter().filter(move |name| name.extension().is_some_and(|is| is == ending));
    let read = |path: &Path| fs::read(path).expect("a graph and its twin");
    let mut pairs: Vec<_> = of("aig").map(|name| (name, [read(name), read(&name.with_extension("aag"))])).collect();
    let stored = pairs.len();
    for name in of("aag") {
        let twins = checks::twins_of(&Case::new("", Vec::new(), read(name)));
        pairs.extend(twins.map(|[ascii, binary]| (name, [binary.graph, ascii.graph])));
    }
    let (mut runs, mut texts) = (0, 0);
    for (name, pair) in &pairs {
        for cells in of("txt") {
            fs::copy(cells, folder.join("cells.txt")).expect("a library");
            let [one, other] = pair.each_ref().map(|graph| {
                fs::write(folder.join("graph.aag"), graph).expect("a graph");
                Command::new(map).current_dir(folder).output().expect("the program runs")
            });
            if one.stdout != other.stdout || !one.stderr.is_empty() {
                println!("{} with {}: the twins' outputs differ", name.display(), cells.display());
                println!("binary {:?}", String::from_utf8_lossy(&one.stdout));
                println!("ASCII  {:?}", String::from_utf8_lossy(&other.stdout));
                process::exit(1);
            }
            runs += 1;
            texts += usize::from(one.stdout.starts_with(b".model top\n"));
        }
    }
    if stored == 0 || texts == 0 {
        println!("{stored} binary graphs in {}, {texts} netlists: too few", graphs.display());
        process::exit(1);
    }
    let written = pairs.len() - stored;
    println!("{stored} binary graphs and {written} written ones print what their twins print; {texts} netlists in {runs} runs");
}
