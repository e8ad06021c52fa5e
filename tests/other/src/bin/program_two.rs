//! Compares the program `map_two` with the reference: runs it in a folder of its own
//! over some pairs of texts and compares every byte of its standard output, the first
//! channel's netlist or line of `refused`, then the second's.
//!
//! `program_two MAP_TWO [PAIRS [SEED [WORDS [BYTES]]]]`: the words and the bytes of each
//! text memory that the program lends.

use other::gen::{self, Lent, Rng};
use other::two;
use other::two_gen::{self, Made, Pair};
use other::WORDS_EACH;
use std::process::{self, Command};
use std::{env, fs};

/// A graph of inputs alone, of so many variables and outputs.
fn plain(variables: usize, outputs: usize) -> Made {
    let inputs = variables - 1;
    let mut graph = format!("aag {inputs} {inputs} 0 {outputs} 0\n");
    (1..variables).for_each(|variable| graph += &format!("{}\n", 2 * variable));
    (0..outputs).for_each(|index| graph += &format!("{}\n", 2 + 2 * (index % inputs)));
    let what = format!("{variables} variables, {outputs} outputs");
    Made { what, graph: graph.into_bytes(), arrivals: Vec::new(), text: Lent::Exact, expected: None }
}

/// Pairs of which the needs sum up to the words, and to one more.
fn around(words: usize) -> Vec<Pair> {
    let cells = gen::library_text(&gen::small_library());
    let variables = (words - WORDS_EACH) / WORDS_EACH;
    let outputs = words - variables * WORDS_EACH;
    let first = variables / 3;
    [[40, outputs - 40], [41, outputs - 40], [40, outputs - 39]]
        .map(|[one, other]| [plain(first, one), plain(variables - first, other)])
        .map(|channels| Pair { cells: cells.clone(), channels, joined: false })
        .to_vec()
}

fn main() {
    let mut arguments = env::args().skip(1);
    let Some(program) = arguments.next() else {
        eprintln!("use: program_two MAP_TWO [PAIRS [SEED [WORDS [BYTES]]]]");
        process::exit(2)
    };
    let program = fs::canonicalize(&program).expect("the program");
    let mut number = |other: usize| arguments.next().map_or(other, |word| word.parse().expect("a number"));
    let (count, seed, words, bytes) = (number(60), number(1), number(32_768), number(65_536));
    let folder = env::temp_dir().join(format!("map_two-{}", process::id()));
    fs::create_dir_all(&folder).expect("a folder");
    let mut rng = Rng::new(seed as u64);
    let mut pairs = around(words);
    let absent = Made { what: "absent".into(), graph: Vec::new(), ..plain(2, 0) };
    pairs.push(Pair { cells: Vec::new(), channels: [absent.clone(), absent.clone()], joined: false });
    pairs.push(Pair { channels: [plain(3, 2), absent], ..pairs[0].clone() });
    pairs.extend((0..count).map(|_| two_gen::pair(&mut rng)));
    let (mut texts, mut refused) = (0, 0);
    for (index, pair) in pairs.iter().enumerate() {
        let [first, second] = &pair.channels;
        let files = [
            ("cells.txt", &pair.cells),
            ("graph1.aag", &first.graph),
            ("arrivals1.txt", &first.arrivals),
            ("graph2.aag", &second.graph),
            ("arrivals2.txt", &second.arrivals),
        ];
        // An empty text is tried as an absent file every other time.
        for (name, text) in files {
            let path = folder.join(name);
            if text.is_empty() && index % 2 == 0 {
                let _ = fs::remove_file(path);
            } else {
                fs::write(path, text).expect("a text");
            }
        }
        let two = two::map_two(&pair.cells, pair.texts(), words, [bytes; 2]);
        let mut wanted = Vec::new();
        for (answer, netlist) in two.answers.iter().zip(&two.netlists) {
            match answer.number {
                0 => wanted.extend(netlist),
                number => wanted.extend(format!("refused {number} {}\n", answer.value).into_bytes()),
            }
            *(if answer.number == 0 { &mut texts } else { &mut refused }) += 1;
        }
        let got = Command::new(&program).current_dir(&folder).output().expect("the program runs");
        if got.stdout != wanted || !got.stderr.is_empty() {
            println!(
                "pair {index}, {}; {}: the outputs differ; texts in {}",
                first.what,
                second.what,
                folder.display()
            );
            println!("wanted {:?}", String::from_utf8_lossy(&wanted));
            println!("got    {:?}", String::from_utf8_lossy(&got.stdout));
            process::exit(1);
        }
    }
    println!("{} runs, {texts} netlists, {refused} refusals, 0 differences", pairs.len());
    fs::remove_dir_all(&folder).expect("the folder goes");
}
