//! Compares the program `checker` with the reference: runs it in a folder of its own with
//! `cells.txt`, `graph.aag` and `netlist.blif` and compares every byte of its standard
//! output: `accepted`, `differs SETTING OUTPUT`, or `refused N P`.
//!
//! `program_check CHECKER [CASES [SEED [WORDS]]]`: the words that the program lends, 1,036,288.

use other::check::{self, Verdict};
use other::check_gen;
use other::gen::Rng;
use std::process::{self, Command};
use std::{env, fs};

fn main() {
    let mut arguments = env::args().skip(1);
    let Some(program) = arguments.next() else {
        eprintln!("use: program_check CHECKER [CASES [SEED [WORDS]]]");
        process::exit(2)
    };
    let program = fs::canonicalize(&program).expect("the program");
    let mut number = |other: u64| arguments.next().map_or(other, |word| word.parse().expect("a number"));
    let (count, seed, words) = (number(200), number(1), number(1_036_288) as usize);
    let folder = env::temp_dir().join(format!("check-{}", process::id()));
    fs::create_dir_all(&folder).expect("a folder");
    let mut rng = Rng::new(seed);
    let mut cases = check_gen::limits();
    cases.extend((0..count).map(|_| check_gen::case(&mut rng)));
    let mut counts = [0; 3];
    for (index, case) in cases.iter().enumerate() {
        // An empty text is tried as an absent file every other time.
        for (name, text) in [("cells.txt", &case.cells), ("graph.aag", &case.graph), ("netlist.blif", &case.netlist)] {
            let path = folder.join(name);
            if text.is_empty() && index % 2 == 0 {
                let _ = fs::remove_file(path);
            } else {
                fs::write(path, text).expect("a text");
            }
        }
        let verdict = check::check(&case.cells, &case.graph, &case.netlist, words);
        let wanted = match verdict {
            Verdict::Accepted => "accepted\n".to_string(),
            Verdict::Differs { setting, output } => format!("differs {setting} {output}\n"),
            Verdict::Refused(refusal) => format!("refused {} {}\n", refusal.number, refusal.place),
        };
        counts[verdict.numbers()[0] as usize] += 1;
        let got = Command::new(&program).current_dir(&folder).output().expect("the program runs");
        if got.stdout != wanted.as_bytes() || !got.stderr.is_empty() {
            println!("case {index}, {}: the outputs differ; texts in {}", case.what, folder.display());
            println!("wanted {wanted:?}\ngot    {:?}", String::from_utf8_lossy(&got.stdout));
            process::exit(1);
        }
    }
    println!("{} runs, accepted, differing and refused {counts:?}, 0 differences", cases.len());
    fs::remove_dir_all(&folder).expect("the folder goes");
}
