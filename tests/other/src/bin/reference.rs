//! The program of the document over the reference: reads `cells.txt`, `graph.aag`
//! and `arrivals.txt` in the folder given (or here), prints the netlist or refusal.
//! With files, CELLS GRAPH [ARRIVALS], memory enough for any graph is lent.

use std::{env, fs, io::Write, path::PathBuf};

fn main() {
    let paths: Vec<PathBuf> = env::args().skip(1).map(PathBuf::from).collect();
    let in_folder =
        |folder: PathBuf| (["cells.txt", "graph.aag", "arrivals.txt"].map(|name| folder.join(name)), 32_768, 65_536);
    let (files, words, bytes) = match &paths[..] {
        [] => in_folder(".".into()),
        [folder] => in_folder(folder.clone()),
        [cells, graph] => ([cells.clone(), graph.clone(), PathBuf::new()], 1 << 20, 1 << 20),
        [cells, graph, arrivals, ..] => ([cells.clone(), graph.clone(), arrivals.clone()], 1 << 20, 1 << 20),
    };
    // "an absent file counts as empty"
    let [cells, graph, arrivals] = files.map(|path| fs::read(path).unwrap_or_default());
    let (answer, netlist) = other::reference::map(&cells, &graph, &arrivals, words, bytes);
    let printed = match answer.number {
        0 => netlist,
        number => format!("refused {number} {}\n", answer.value).into_bytes(),
    };
    std::io::stdout().write_all(&printed).expect("standard output");
}
