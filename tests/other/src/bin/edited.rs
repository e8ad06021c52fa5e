//! `edited FOLDER [CASES [SEED]]`: netlists that a checker takes or tells apart, each in
//! files K.cells, K.aag, K.blif and K.verdict (`accepted`, or `differs SETTING OUTPUT`),
//! for `cec --edited`.

use other::check::{self, Verdict};
use other::check_gen;
use other::gen::Rng;
use other::reference;
use std::{env, fs};

fn main() {
    let mut arguments = env::args().skip(1);
    let folder = arguments.next().expect("FOLDER");
    let mut number = |other: u64| arguments.next().map_or(other, |word| word.parse().expect("a number"));
    let (count, mut rng) = (number(60), Rng::new(number(1)));
    let mut written = 0;
    while written < count {
        let case = check_gen::case(&mut rng);
        let verdict = match check::check(&case.cells, &case.graph, &case.netlist, 700_000) {
            Verdict::Accepted => "accepted\n".to_string(),
            Verdict::Differs { setting, output } => format!("differs {setting} {output}\n"),
            Verdict::Refused(_) => continue,
        };
        let Ok(graph) = reference::read_graph(&case.graph, usize::MAX) else { continue };
        if graph.outputs.is_empty() || graph.inputs.is_empty() || !case.graph.starts_with(b"aag") {
            continue;
        }
        for (ending, text) in
            [("cells", &case.cells[..]), ("aag", &case.graph), ("blif", &case.netlist), ("verdict", verdict.as_bytes())]
        {
            fs::write(format!("{folder}/{written}.{ending}"), text).expect("a text");
        }
        written += 1;
    }
}
