//! Graphs cut and joined again: random graphs by every way of cutting, compared with the graph in every setting by the proved check, and their arrivals with
//! the plan's; random graphs and libraries against one proved call; and what is said of a joined netlist.

use arraymap::Checked;
use arraymap_cli::{
    any::{
        self,
        aig::{self, Aig},
        matches::Matches,
        plan::Plan,
        Asked, Failure, Way, Work,
    },
    cells,
};
use std::{env, fmt::Write, fs, path::PathBuf};

fn graphs() -> PathBuf {
    PathBuf::from(env!("CARGO_MANIFEST_DIR")).join("../tests/graphs")
}

fn text(name: &str) -> Vec<u8> {
    fs::read(graphs().join(name)).expect("a file of tests/graphs")
}

struct Chance(u64);

impl Chance {
    fn below(&mut self, n: u64) -> u64 {
        self.0 ^= self.0 << 13;
        self.0 ^= self.0 >> 7;
        self.0 ^= self.0 << 17;
        (self.0 >> 11) % n
    }

    fn pick<T: Copy>(&mut self, of: &[T]) -> T {
        of[self.below(of.len() as u64) as usize]
    }
}

/// A graph whose ANDs take operands among the nearest variables, so that branches meet again.
fn random(chance: &mut Chance) -> String {
    let (inputs, ands) = (1 + chance.below(7), 1 + chance.below(60));
    let near = chance.pick(&[4, 8, 60]);
    let mut lines = String::new();
    for k in 0..ands {
        let top = inputs + k;
        let mut operand = || 2 * (top - chance.below(near.min(top) + 1)) + chance.below(2);
        lines += &format!("{} {} {}\n", 2 * (top + 1), operand(), operand());
    }
    let outputs: Vec<u64> = (0..1 + chance.below(6)).map(|_| chance.below(2 * (inputs + ands) + 2)).collect();
    let mut text = format!("aag {} {inputs} 0 {} {ands}\n", inputs + ands, outputs.len() + 1);
    for k in 1..=inputs {
        text += &format!("{}\n", 2 * k);
    }
    for output in outputs.iter().chain([&(2 * (inputs + ands))]) {
        text += &format!("{output}\n");
    }
    text + &lines
}

/// Maps by one way and has the proved check compare; the arrival is the plan's or earlier.
fn by(
    way: Way,
    window: usize,
    kept: usize,
    work: &Work,
    matches: &Matches,
    graph: &Aig,
    text: &str,
    late: &[u32],
) -> bool {
    let mut plan = Plan::new(graph, matches, late, kept);
    let made = match any::make_by(way, window, work, &mut plan) {
        Ok(Some(made)) => made,
        Ok(None) => {
            assert_eq!(way, Way::Points, "gates by themselves are never later than planned:\n{text}");
            return false;
        }
        Err(Failure::Call(refusal)) if refusal.number == 17 => {
            let whole = arraymap::map(&work.cell_text, text.as_bytes(), b"").expect_err("it has no cover");
            assert!(matches!(whole.number, 16 | 17), "{whole:?}");
            return false;
        }
        Err(failure) => panic!("{failure:?}\n{text}"),
    };
    let netlist = made.joined.text(graph, &work.cells);
    let checked = arraymap::check(&work.cell_text, text.as_bytes(), netlist.as_bytes());
    assert_eq!(checked, Ok(Checked::Accepted), "{way:?}, windows of {window}:\n{text}{netlist}");
    let delays: Vec<Vec<u32>> = work.cells.iter().map(|cell| cell.delays.clone()).collect();
    let at = made.joined.arrivals(&delays, late);
    let latest = made.joined.outputs.iter().map(|net| at[*net as usize]).max().unwrap_or_default();
    assert!(latest <= plan.latest, "{way:?}: {latest} and not {}\n{text}{netlist}", plan.latest);
    true
}

#[test]
fn random_graphs_are_equal_by_every_way() {
    let mut chance = Chance(0x5eed);
    let libraries = [("array.txt", false), ("tiny.txt", true), ("full.txt", false)];
    let libraries = libraries.map(|(name, pairs)| {
        let work = Work::new(&cells::read(&text(name)), 1, pairs, false);
        let matches = Matches::new(&work.cells, pairs);
        (work, matches)
    });
    let mut done = [0; 2];
    for _ in 0..120 {
        let text = random(&mut chance);
        let graph = aig::read(text.as_bytes()).expect("a graph");
        let (work, matches) = &libraries[chance.below(3) as usize];
        let late: Vec<u32> = (0..graph.inputs).map(|_| chance.pick(&[0, 0, 40, 133])).collect();
        for (k, way) in [Way::Points, Way::Gates].into_iter().enumerate() {
            for window in [12, 3_600] {
                let kept = chance.pick(&[8, 24, 64]);
                done[k] += usize::from(by(way, window, kept, work, matches, &graph, &text, &late));
            }
        }
    }
    // Most go by either way; an output without a cover goes by none.
    assert!(done[0] > 120 && done[1] > 180, "{done:?}");
}

/// Where the call takes the graph, the plan's arrival is the call's.
#[test]
fn the_plan_is_the_calls_where_there_is_one() {
    let cell_text = text("array.txt");
    let work = Work::new(&cells::read(&cell_text), 1, false, false);
    let matches = Matches::new(&work.cells, false);
    let mut compared = 0;
    for line in String::from_utf8_lossy(&text("graphs.tsv")).lines().filter(|line| line.contains("\tok\t")) {
        let graph_text = text(line.split('\t').next().expect("a name"));
        let graph = aig::read(&graph_text).expect("a graph");
        let plan = Plan::new(&graph, &matches, &vec![0; graph.inputs], 64);
        let mapped = arraymap::map(&cell_text, &graph_text, b"").expect("it is accepted");
        let arrival = u64::from(mapped.figures.arrival);
        assert!(plan.latest <= arrival, "{line}: {} and {arrival}", plan.latest);
        compared += usize::from(plan.latest == arrival);
    }
    // Equal ANDs stand once in the plan: it may be earlier, but seldom is.
    assert!(compared >= 18, "{compared}");
}

/// A library of a few cells, mostly odd: without an inverter, constants alone, pins that the table ignores, uneven pins, delays of 0 and of 65,535.
fn random_library(chance: &mut Chance) -> String {
    const USUAL: [(usize, u16); 8] = [(1, 1), (2, 7), (2, 1), (2, 8), (0, 0), (0, 1), (3, 0x7f), (2, 6)];
    let delays =
        chance.pick(&[&[10][..], &[0], &[65_535], &[65_534, 65_535], &[1, 65_535], &[0, 1, 40, 300], &[3, 5, 7]]);
    let odd = chance.pick(&[0, 1, 3, 10]);
    let mut text = format!("{}\n", cells::NAMES_LINE);
    // Two in three can make every AND, so that most graphs have a cover.
    let base: &[(usize, u16)] = chance.pick(&[&[], &USUAL[..2], &[USUAL[0], USUAL[2], USUAL[4]]]);
    for k in 0..base.len() as u64 + chance.pick(&[1, 2, 3, 4]) {
        let (pins, table) = match base.get(k as usize) {
            Some(cell) => *cell,
            None if chance.below(10) >= odd => chance.pick(&USUAL),
            None => {
                let pins = chance.below(5) as usize;
                let rows = chance.below(1 << 16) as u16;
                // A pin that is fixed in the table is one that it ignores.
                let fixed = if chance.below(2) == 0 { chance.below(16) as usize } else { 0 };
                (pins, (0..1 << pins).fold(0, |table, row| table | (rows >> (row & !fixed) & 1) << row))
            }
        };
        let _ = write!(text, "c{k} {pins} {table:04x} {}", chance.pick(&[0, 1, 5, 65_535]));
        for j in 0..4 {
            let _ = write!(text, " {}", if j < pins { chance.pick(delays) } else { 0 });
        }
        text.push('\n');
    }
    text
}

/// A small graph with equal ANDs, ANDs of a literal with itself, with its complement and with constants; its header is left to the caller.
fn random_odd(chance: &mut Chance) -> (u64, String, String) {
    let (inputs, ands) = (chance.below(6), chance.below(16));
    let mut lines: Vec<(u64, u64)> = Vec::new();
    for k in 0..ands {
        let top = inputs + k;
        let one = 2 * (top - chance.below(top.min(6) + 1)) + chance.below(2);
        let other = 2 * (top - chance.below(top + 1)) + chance.below(2);
        lines.push(match chance.below(12) {
            0 => (one, one),
            1 => (one, one ^ 1),
            2 => (one, chance.below(2)),
            3 if k > 0 => lines[chance.below(k) as usize],
            _ => (one, other),
        });
    }
    let outputs: Vec<u64> = (0..1 + chance.below(3))
        .map(|_| 2 * (inputs + ands - chance.below(5).min(inputs + ands)) + chance.below(2))
        .collect();
    let head = format!("{inputs} 0 {} {ands}\n", outputs.len());
    let mut body = String::new();
    (1..=inputs).for_each(|k| body += &format!("{}\n", 2 * k));
    outputs.iter().for_each(|output| body += &format!("{output}\n"));
    for ((one, other), k) in lines.iter().zip(inputs + 1..) {
        body += &format!("{} {one} {other}\n", 2 * k);
    }
    (inputs + ands, head, body)
}

/// Random graphs with random libraries by one proved call, and with M raised above what a call takes: where the call maps it, the joined netlist is no later,
/// and equal by the proved check; where the call finds no cover, the joined one has none either, or is equal. The same by each way of cutting.
/// ARRAYMAP_CASES and ARRAYMAP_SEED ask for more of them.
#[test]
fn random_graphs_above_the_limit_are_no_later_than_one_call() {
    let asked = |name: &str| env::var(name).ok().and_then(|value| value.parse().ok());
    let mut chance = Chance(asked("ARRAYMAP_SEED").unwrap_or(0xa11ce));
    let [mut mapped, mut refused, mut turned, mut cut] = [0; 4];
    for case in 0..asked("ARRAYMAP_CASES").unwrap_or(300) {
        let library = random_library(&mut chance);
        let pairs = chance.below(4) == 0 && {
            let cells = cells::read(library.as_bytes());
            cells.len() + cells::pairs(&cells) <= 256
        };
        let (most, head, body) = random_odd(&mut chance);
        let small = format!("aag {most} {head}{body}");
        let large = format!("aag {} {head}{body}", 4_096 + chance.below(90_000));
        let inputs: u64 = head.split(' ').next().and_then(|inputs| inputs.parse().ok()).expect("a number");
        let mut late = String::from("input arrival\n");
        for k in 0..inputs {
            let _ = writeln!(late, "{k} {}", chance.pick(&[0, 0, 7, 65_535]));
        }
        let what = format!("case {case}, pairs {pairs}\n{library}{small}{late}");
        let map = if pairs { arraymap::map_pairs } else { arraymap::map };
        let one = map(library.as_bytes(), small.as_bytes(), late.as_bytes());
        let asked = Asked { cells: library.as_bytes(), graph: large.as_bytes(), arrivals: late.as_bytes(), pairs };
        match (&one, any::map(&asked)) {
            (_, Ok(joined)) => {
                let checked = arraymap::check(library.as_bytes(), small.as_bytes(), joined.text.as_bytes());
                assert_eq!(checked, Ok(Checked::Accepted), "{what}{}", joined.text);
                match &one {
                    Ok(one) => {
                        assert!(
                            joined.totals.arrival <= u64::from(one.figures.arrival),
                            "{what}{}{}",
                            one.text,
                            joined.text
                        );
                        mapped += 1;
                    }
                    Err(refusal) => {
                        assert!(matches!(refusal.number, 16 | 17), "{what}{refusal}");
                        turned += 1;
                    }
                }
            }
            (Err(refusal), Err(Failure::Call(other))) if refusal.number == 17 => {
                assert_eq!((other.number, other.place), (17, refusal.place), "{what}");
                refused += 1;
            }
            (Err(refusal), Err(Failure::Call(other))) if (refusal.number, other.number) == (16, 17) => {}
            (one, Err(failure)) => panic!("{what}{one:?} {failure:?}"),
        }
        cut += by_both_ways(&library, pairs, &small, &late, one.ok().map(|one| one.figures.arrival), &what);
    }
    println!("{mapped} as by one call, {turned} that one call refuses, {refused} without a cover; {cut} cut at points or at each gate");
    assert!(mapped > 100 && refused > 20 && cut > 150, "{mapped} {turned} {refused} {cut}");
}

/// The graph cut at points and at each gate, in small windows; answers how many ways gave a netlist.
fn by_both_ways(library: &str, pairs: bool, text: &str, late: &str, one: Option<u32>, what: &str) -> usize {
    let work = Work::new(&cells::read(library.as_bytes()), 1, pairs, false);
    let matches = Matches::new(&work.cells, pairs);
    let read = aig::Text::read(text.as_bytes()).expect("a graph");
    let (written, merged) = (read.as_written(), read.merged());
    let listed: Vec<u32> = late.lines().skip(1).filter_map(|line| line.split(' ').nth(1)?.parse().ok()).collect();
    let late: Vec<u32> = written.places.iter().map(|place| listed[*place as usize]).collect();
    let Ok(mut plan) = any::planned(&written, &merged, &matches, &late) else { return 0 };
    assert!(one.is_none_or(|one| plan.latest <= one.into()), "{what}planned {} and not {one:?}", plan.latest);
    let mut done = 0;
    for (way, window) in [(Way::Points, 12), (Way::Points, 3_600), (Way::Gates, 30), (Way::Gates, 4_095)] {
        let made = match any::make_by(way, window, &work, &mut plan) {
            Ok(Some(made)) => made,
            Ok(None) => {
                // A pair's pin may take longer than can be told.
                assert!(
                    way == Way::Points || pairs && plan.latest > 65_535,
                    "{what}{way:?}, windows of {window}: later than planned"
                );
                continue;
            }
            Err(failure) => panic!("{what}{way:?}, windows of {window}: {failure:?}"),
        };
        let netlist = made.joined.text(plan.graph, &work.cells);
        let checked = arraymap::check(&work.cell_text, text.as_bytes(), netlist.as_bytes());
        assert_eq!(checked, Ok(Checked::Accepted), "{what}{way:?}, windows of {window}:\n{netlist}");
        let delays: Vec<Vec<u32>> = work.cells.iter().map(|cell| cell.delays.clone()).collect();
        let at = made.joined.arrivals(&delays, &late);
        let latest = made.joined.outputs.iter().map(|net| at[*net as usize]).max().unwrap_or_default();
        assert!(
            latest <= plan.latest,
            "{what}{way:?}, windows of {window}: {latest} and not {}\n{netlist}",
            plan.latest
        );
        done += 1;
    }
    done
}

#[test]
fn what_is_said_of_a_joined_netlist() {
    let (cells, graph) = (text("array.txt"), text("gt_w2.st.aag"));
    let mapped = any::map(&Asked { cells: &cells, graph: &graph, arrivals: b"", pairs: false }).expect("it is mapped");
    assert_eq!(mapped.totals.arrival, 63);
    assert_eq!(arraymap::check(&cells, &graph, mapped.text.as_bytes()), Ok(Checked::Accepted));
    for due in [
        "\n# joined from 1 call: ",
        "\n# proved: ",
        "\n# not proved: ",
        "\n# compared with the graph: equal, by the proved check\n",
    ] {
        assert!(mapped.text.contains(due), "{}", mapped.text);
    }
}

#[test]
fn arrivals_are_divided_by_their_common_measure() {
    let cells = String::from_utf8(text("array.txt")).expect("a text");
    let mut lines = cells.lines();
    let mut long = format!("{}\n", lines.next().expect("the first line"));
    for line in lines {
        let fields: Vec<&str> = line.split(' ').collect();
        let delays: Vec<String> =
            fields[4..8].iter().map(|d| (d.parse::<u32>().expect("a number") * 900).to_string()).collect();
        long += &format!("{} {}\n", fields[..4].join(" "), delays.join(" "));
    }
    let graph = text("peaktree_n32_w8_b5.dc2.aag");
    let asked = Asked { cells: long.as_bytes(), graph: &graph, arrivals: b"", pairs: false };
    let mapped = any::map(&asked).expect("it is mapped");
    assert_eq!(mapped.totals.arrival, 985 * 900);
    assert!(mapped.text.contains("\n# delays were divided by 900 "), "{}", mapped.text);
    // Without a common measure the arrivals are told less what all of them exceed.
    let odd = long.replacen("10800", "10801", 1);
    assert_ne!(odd, long);
    let asked = Asked { cells: odd.as_bytes(), ..asked };
    let mapped = any::map(&asked).expect("it is mapped");
    assert!((985 * 900..985 * 901).contains(&mapped.totals.arrival), "{}", mapped.totals.arrival);
    assert!(mapped.text.contains(", told arrivals that no net exceeds\n"), "{}", mapped.text);
}
