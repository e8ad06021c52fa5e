//! How long the reference takes for large graphs of several sizes, with the
//! full library, in the build it is run in.

use other::{gen, reference};
use std::time::Instant;

fn main() {
    let mut rng = gen::Rng::new(11);
    let cells = gen::library_text(&gen::full_library());
    for top in [100, 200, 400, 800, 1_600, 4_095] {
        let graph = gen::large_graph(&mut rng, top);
        let text = graph.text();
        let start = Instant::now();
        let (answer, _) = reference::map_without_arrivals(&cells, &text, graph.words(), 1 << 20);
        let seconds = start.elapsed().as_secs_f64();
        println!("M {top}, {} ANDs: {seconds:.3} s, {answer:?}", graph.ands.len());
    }
}
