//! The checks of request N13: libraries reversed, rotated and shuffled.

use crate::checks::{self, Check};
use crate::gen::{self, Case, Rng};
use crate::reference::{self, Phase};
use crate::shuffled;
use std::collections::BTreeMap;

macro_rules! ensure {
    ($condition:expr, $($message:tt)*) => {
        if !$condition {
            return Err(format!($($message)*));
        }
    };
}

/// The earliest arrival of every phase that has a cover, or the refusal before 17.
fn earliest(case: &Case) -> Result<BTreeMap<Phase, u32>, reference::Refusal> {
    reference::mapped(&case.cells, &case.graph, &case.arrivals, case.pairs)
        .map(|mapped| mapped.into_iter().map(|(phase, net)| (phase, net.arrival)).collect())
}

/// "two accepted libraries holding the same cell lines in any orders agree on the
/// earliest arrival of every `p` and `m` net, on whether 16 or 17 occurs and its place,
/// and, where both print, on the printed arrival." "Where pairs are formed, both
/// libraries form theirs."
pub fn agree(cases: usize, seed: u64) -> Check {
    let mut rng = Rng::new(seed);
    let (mut compared, mut other_netlists, mut numbers) = (0, 0, BTreeMap::new());
    for number in 0..cases {
        let case = if number % 3 == 0 { gen::pair_case(&mut rng) } else { gen::case(&mut rng) };
        let library = reference::read_library(&case.cells);
        if library.is_err() {
            continue;
        }
        let (answer, netlist) = checks::run(&case);
        let nets = earliest(&case);
        for cells in shuffled::orders(&mut rng, &case.cells) {
            let same = Case { cells, ..case.clone() };
            let (other, other_netlist) = checks::run(&same);
            let told = || format!("{}: {answer:?} and {other:?}\n{}", case.what, String::from_utf8_lossy(&same.cells));
            ensure!(shuffled::agree(&answer, &other), "{}", told());
            ensure!(nets == earliest(&same), "another earliest arrival, {}", told());
            compared += 1;
            other_netlists += usize::from(answer.number == 0 && netlist != other_netlist);
            *numbers.entry(answer.number).or_insert(0) += 1;
        }
    }
    let told = format!("{compared} orders, by number {numbers:?}, {other_netlists} print another netlist");
    ensure!([0, 16, 17].iter().all(|number| numbers.contains_key(number)) && other_netlists > cases / 20, "{told}");
    Ok(told)
}

/// Two libraries worked out by hand: nand2 and slow both give case B's net at 20, the
/// first line is chosen, and the arrival is 30 in either order.
pub fn by_hand() -> Check {
    let inv = "inv 1 0001 1 10 0 0 0\n";
    let nand2 = "nand2 2 0007 2 20 20 0 0\n";
    let large = "large 2 0007 9 20 20 0 0\n";
    let graph = b"aag 3 2 0 1 1\n2\n4\n6\n6 2 4\n";
    let run = |lines: [&str; 3]| {
        let cells = gen::NAMES_LINE.to_string() + &lines.concat();
        reference::map_without_arrivals(cells.as_bytes(), graph, 32_768, 65_536)
    };
    let (one, first) = run([inv, nand2, large]);
    let (other, second) = run([large, nand2, inv]);
    ensure!((one.area, other.area) == (3, 10) && first != second, "{one:?} {other:?}");
    ensure!((one.arrival, other.arrival) == (30, 30) && shuffled::agree(&one, &other), "{one:?} {other:?}");
    // Answers that don't agree are told apart.
    let later = reference::Answer { arrival: 31, ..other };
    let refused = |number, value| reference::Answer { number, value, ..Default::default() };
    let apart =
        [(one, later), (one, refused(17, 0)), (refused(17, 0), refused(17, 1)), (refused(16, 3), refused(17, 3))];
    ensure!(apart.iter().all(|(one, other)| !shuffled::agree(one, other)), "told apart");
    ensure!(
        shuffled::agree(&one, &refused(18, 9)) && shuffled::agree(&refused(18, 8), &refused(18, 9)),
        "18 may differ"
    );
    Ok("30 in either order".into())
}
