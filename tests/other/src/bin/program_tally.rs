//! Compares the program `tally` with the reference: runs it in a folder of its own with
//! `cells.txt`, `1.blif`, `2.blif` and so on, and compares every byte of its standard
//! output: "a line `refused N P` in its place for each that is refused, then the report".
//!
//! `program_tally TALLY [RUNS [SEED]]`

use other::gen::Rng;
use other::{tally, tally_gen};
use std::process::{self, Command};
use std::{env, fs};

fn main() {
    let mut arguments = env::args().skip(1);
    let Some(program) = arguments.next() else {
        eprintln!("use: program_tally TALLY [RUNS [SEED]]");
        process::exit(2)
    };
    let program = fs::canonicalize(&program).expect("the program");
    let mut number = |other: u64| arguments.next().map_or(other, |word| word.parse().expect("a number"));
    let (runs, seed) = (number(60), number(1));
    let folder = env::temp_dir().join(format!("tally-{}", process::id()));
    let mut rng = Rng::new(seed);
    let (mut netlists, mut refusals) = (0, 0);
    for run in 0..runs {
        fs::create_dir_all(&folder).expect("a folder");
        let library = tally_gen::library(&mut rng);
        let cells = match run % 10 {
            3 => other::gen::damaged(&mut rng, &library.text),
            // An absent file "counts as empty".
            4 => Vec::new(),
            _ => library.text.clone(),
        };
        if !(cells.is_empty() && run % 20 == 4) {
            fs::write(folder.join("cells.txt"), &cells).expect("a text");
        }
        let count = if run % 12 == 5 { 66 } else { rng.below(7) };
        let mut figures = tally::empty();
        let mut wanted = String::new();
        for index in 1..=count {
            let mut netlist = match run % 12 {
                5 => tally_gen::printed(&mut rng, &library).map_or(Vec::new(), |(_, netlist)| netlist),
                _ => tally_gen::netlist(&mut rng, &library).text,
            };
            if rng.one_in(60) {
                netlist.resize(65_536 + rng.below(2), b'x');
            }
            fs::write(folder.join(format!("{index}.blif")), &netlist).expect("a text");
            let (answer, after) = tally::count(&cells, &netlist, &figures);
            if answer.number > 0 {
                wanted += &format!("refused {} {}\n", answer.number, answer.value);
                refusals += 1;
            }
            netlists += 1;
            figures = after;
        }
        // One behind the first absent one isn't read.
        fs::write(folder.join(format!("{}.blif", count + 2)), "x").expect("a text");
        let (answer, report) = tally::report(&cells, &figures, 65_536);
        wanted += &match answer.number {
            0 => String::from_utf8(report).expect("ASCII"),
            number => format!("refused {number} {}\n", answer.value),
        };
        let got = Command::new(&program).current_dir(&folder).output().expect("the program runs");
        if got.stdout != wanted.as_bytes() || !got.stderr.is_empty() {
            println!("run {run}: the outputs differ; texts in {}", folder.display());
            println!("wanted {wanted:?}\ngot    {:?}", String::from_utf8_lossy(&got.stdout));
            process::exit(1);
        }
        fs::remove_dir_all(&folder).expect("the folder goes");
    }
    println!("{runs} runs, {netlists} netlists, {refusals} of them refused, 0 differences");
}
