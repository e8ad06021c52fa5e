//! Pairs of channels: each good, damaged, refused early or refused late, in any
//! combination, over one library.

use crate::gen::{self, Case, Lent, Rng};
use crate::two::{self, Channel};
use crate::CUT_LIMIT;

/// One channel's texts and how much text memory it is lent.
#[derive(Clone, Debug)]
pub struct Made {
    pub what: String,
    pub graph: Vec<u8>,
    pub arrivals: Vec<u8>,
    pub text: Lent,
    /// The refusal's number and place with a library that is accepted, where the
    /// making knows them.
    pub expected: Option<(u32, usize)>,
}

#[derive(Clone, Debug)]
pub struct Pair {
    pub cells: Vec<u8>,
    pub channels: [Made; 2],
    /// Whether the call wants pairs of cells.
    pub joined: bool,
}

impl Pair {
    pub fn texts(&self) -> [Channel<'_>; 2] {
        self.channels.each_ref().map(|made| Channel { graph: &made.graph, arrivals: &made.arrivals })
    }

    pub fn needs(&self) -> [usize; 2] {
        self.texts().map(two::need)
    }

    /// Words lent: the sum of both needs, one fewer, more, and enough for either
    /// channel but not always for both.
    pub fn words(&self, rng: &mut Rng) -> [usize; 4] {
        let [first, second] = self.needs();
        let sum = first + second;
        let fewer = match rng.below(6) {
            0 => first,
            1 => first.saturating_sub(1),
            2 => second,
            3 => second.saturating_sub(1),
            4 => first.max(second),
            _ => rng.below(sum + 1),
        };
        [sum, sum.saturating_sub(1), sum + 1 + rng.below(300), fewer].map(|words| words.min(MOST_WORDS))
    }
}

/// Work memory of any two graphs that are accepted.
const MOST_WORDS: usize = 2 * (crate::WORDS_EACH * 4_096 + 4_096);

/// Refusals tried up to 10 that a channel has by its own texts, 1 apart, and those
/// tried after it, 18 apart.
const EARLY: [u32; 4] = [7, 8, 9, 19];
const LATE: [u32; 11] = [11, 12, 13, 14, 15, 16, 17, 20, 21, 25, 26];

/// A case that brings this number, where its library is accepted.
fn case_of(rng: &mut Rng, number: u32) -> Case {
    loop {
        let case = gen::faults(rng);
        if case.expected.is_some_and(|(is, _)| is == number) {
            return case;
        }
    }
}

fn good(rng: &mut Rng) -> Made {
    let most = rng.pick(&[1, 2, 4, 8, 16]);
    let graph = gen::graph(rng, 6, most, CUT_LIMIT);
    let text = match rng.below(4) {
        0 => graph.in_sequence().and_then(|sequence| sequence.binary()).expect("no circle"),
        1 => gen::mixed(rng, &graph.text()).text,
        _ => graph.text(),
    };
    let inputs = graph.inputs.len();
    let arrivals = if rng.one_in(2) { gen::arrivals(rng, inputs) } else { Vec::new() };
    let more = rng.below(100);
    let lent = rng.pick(&[Lent::Exact, Lent::Over(1), Lent::Over(more)]);
    Made { what: "good".into(), graph: text, arrivals, text: lent, expected: None }
}

/// A channel by chance.
pub fn channel(rng: &mut Rng) -> Made {
    let mut made = good(rng);
    match rng.below(100) {
        0..=44 => {}
        45..=49 => {
            made.what = "text memory short".into();
            made.text = if rng.one_in(2) { Lent::OneShort } else { Lent::This(rng.below(60)) };
        }
        50..=77 => {
            let number = rng.pick(&LATE);
            let Case { graph, arrivals, expected, .. } = case_of(rng, number);
            // 17 goes by the library too.
            let expected = expected.filter(|&(number, _)| number != 17);
            made = Made { what: format!("for {number}"), graph, arrivals, expected, ..made };
        }
        78..=85 => {
            let number = rng.pick(&EARLY);
            let Case { graph, arrivals, expected, .. } = case_of(rng, number);
            made = Made { what: format!("for {number}"), graph, arrivals, expected, ..made };
        }
        86 => {
            made.what = "a long text".into();
            made.expected = Some((1, 0));
            let text = if rng.one_in(2) { &mut made.graph } else { &mut made.arrivals };
            text.resize(65_537, b' ');
        }
        87..=96 => {
            made.what = "damaged".into();
            let damage = if rng.one_in(4) { gen::damaged_end } else { gen::damaged };
            if rng.one_in(3) {
                made.arrivals = damage(rng, &made.arrivals);
            } else {
                made.graph = damage(rng, &made.graph);
            }
        }
        97 => made = Made { graph: b"aag 0 0 0 0 0\n".to_vec(), arrivals: Vec::new(), ..made },
        _ => {
            let Case { graph, arrivals, .. } = gen::case(rng);
            made = Made { what: "of a case".into(), graph, arrivals, ..made };
        }
    }
    made
}

/// A pair by chance; some have one graph twice.
pub fn pair(rng: &mut Rng) -> Pair {
    pair_over(rng, gen::full_library())
}

/// A pair for a call that wants pairs of cells: mostly within the limit of 30.
pub fn pair_of_pairs(rng: &mut Rng) -> Pair {
    let cells = gen::library_of_pairs(rng);
    let mut pair = pair_over(rng, cells.clone());
    if !rng.one_in(8) {
        pair.cells = gen::either_text(rng, &cells);
    }
    Pair { joined: true, ..pair }
}

fn pair_over(rng: &mut Rng, full: Vec<gen::Cell>) -> Pair {
    let cells = match rng.below(4) {
        0 => gen::small_library(),
        1 => full,
        _ => {
            let count = gen::library_size(rng);
            gen::library(rng, count)
        }
    };
    let mut cells = gen::either_text(rng, &cells);
    if rng.one_in(4) {
        cells = gen::mixed(rng, &cells).text;
    }
    let mut channels = [channel(rng), channel(rng)];
    if rng.one_in(16) {
        channels[1].graph = channels[0].graph.clone();
        channels[1].expected = None;
    }
    if rng.one_in(24) {
        cells = gen::damaged(rng, &cells);
        for made in &mut channels {
            made.expected = None;
        }
    }
    Pair { cells, channels, joined: false }
}
