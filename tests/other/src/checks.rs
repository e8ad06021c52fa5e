//! The checks of the reference. Each gives a line of counts, or what is wrong.
//! They are functions and not tests, so that the mutants run through the same.

use crate::gen::{self, Case, Graph, Lent, Rng};
use crate::{blif, brute, gaps, judge, reference, CUT_LIMIT, NUMBERS, WORDS_EACH};
use std::collections::{BTreeMap, BTreeSet};

pub type Check = Result<String, String>;

macro_rules! ensure {
    ($condition:expr, $($message:tt)*) => {
        if !$condition {
            return Err(format!($($message)*));
        }
    };
}

fn library(lines: &[&str]) -> Vec<u8> {
    let mut text = String::from(gen::NAMES_LINE);
    for line in lines {
        text += line;
        text += "\n";
    }
    text.into_bytes()
}

fn text(lines: &[&str]) -> Vec<u8> {
    lines.iter().map(|line| format!("{line}\n")).collect::<String>().into_bytes()
}

const INV: &str = "inv 1 0001 1 10 0 0 0";
const NAND2: &str = "nand2 2 0007 2 20 20 0 0";

/// The marked cases A to K.
pub fn marked() -> Check {
    let plain = library(&[INV, NAND2]);
    let map = |cells: &[u8], lines: &[&str]| reference::map_without_arrivals(cells, &text(lines), 32_768, 65_536);
    let figures = |cells: &[u8], lines: &[&str]| {
        let (answer, netlist) = map(cells, lines);
        (answer.number, answer.gates, answer.arrival, String::from_utf8_lossy(&netlist).into_owned())
    };

    let (number, gates, arrival, netlist) = figures(&plain, &["aag 0 0 0 0 0"]);
    ensure!((number, gates, arrival) == (0, 0, 0), "A: {netlist}");
    ensure!(netlist == ".model top\n.inputs\n.outputs\n.end\n# gates 0 area 0 arrival 0\n", "A: {netlist}");

    let (answer, netlist) = map(&plain, &["aag 3 2 0 1 1", "2", "4", "6", "6 2 4"]);
    let wanted = reference::Answer { number: 0, value: gen::LISTING.len() as u32, gates: 2, area: 3, arrival: 30 };
    ensure!(answer == wanted && netlist == gen::LISTING.as_bytes(), "B: {}", String::from_utf8_lossy(&netlist));

    for (letter, delay, gates, arrival) in [("C", 35, 1, 35), ("D", 40, 1, 40), ("E", 41, 4, 40)] {
        let nor2 = format!("nor2 2 0001 2 {delay} {delay} 0 0");
        let got = figures(&library(&[INV, NAND2, &nor2]), &["aag 3 2 0 1 1", "2", "4", "6", "6 3 5"]);
        ensure!((got.0, got.1, got.2) == (0, gates, arrival), "{letter}: {got:?}");
    }

    let f = text(&["aag 6 3 0 0 3", "2", "4", "6", "8 2 4", "10 8 6", "12 8 10"]);
    let graph = reference::read_graph(&f, 32_768).map_err(|refusal| format!("F: {refusal:?}"))?;
    let order = reference::placing_order(&graph).map_err(|refusal| format!("F: {refusal:?}"))?;
    let cuts = reference::cut_lists(&graph, &order).map_err(|refusal| format!("F: {refusal:?}"))?;
    let wanted: [&[u16]; 6] = [&[6], &[3, 4], &[4, 5], &[1, 2, 3], &[1, 2, 5], &[1, 2, 3, 4]];
    ensure!(cuts[6] == wanted, "F: {:?}", cuts[6]);
    let table = reference::function(&graph, 6, &[1, 2, 3, 4]);
    ensure!(table == 0xf000, "F: {table:04x}");

    ensure!(reference::orders()[1] == [0, 1, 3, 2] && reference::orders().len() == 24, "the orders");
    ensure!(reference::fed_row(reference::orders()[1], 4) == 8, "G");

    let h = ["aag 0 0 0 1 0", "1"];
    let got = figures(&library(&[INV, NAND2, "tie0 0 0000 1 0 0 0 0"]), &h);
    ensure!((got.0, got.1, got.2) == (0, 2, 10), "H: {got:?}");
    let refused = |number, value| reference::Answer { number, value, ..Default::default() };
    ensure!(map(&plain, &h).0 == refused(17, 0), "I: {:?}", map(&plain, &h).0);
    let j = ["aag 2 0 0 0 2", "2 4 4", "4 2 2"];
    ensure!(map(&plain, &j).0 == refused(15, 1), "J: {:?}", map(&plain, &j).0);
    let got = figures(&plain, &["aag 3 1 0 1 2", "2", "4", "4 6 6", "6 2 2"]);
    ensure!((got.0, got.1, got.2) == (0, 2, 20), "K: {got:?}");
    Ok("A to K".into())
}

/// Runs a case through the reference with what it lends.
pub fn run(case: &Case) -> (reference::Answer, Vec<u8>) {
    let words = case.words.of(reference::words_needed(&case.graph).unwrap_or(64));
    let printed = reference::print_with(&case.cells, &case.graph, &case.arrivals, words, case.pairs);
    let length = printed.as_ref().map_or(64, |printed| printed.text.len());
    reference::answer(printed, case.text.of(length))
}

/// What is known of a case from its making.
pub fn as_expected(case: &Case, answer: &reference::Answer) -> Result<(), String> {
    let Some((number, place)) = case.expected else { return Ok(()) };
    let same = answer.number == number && (number == 0 || answer.value as usize == place);
    ensure!(same, "{}: made for {number} {place}, answered {answer:?}", case.what);
    ensure!(number == 0 || (answer.gates, answer.area, answer.arrival) == (0, 0, 0), "{}: figures", case.what);
    Ok(())
}

/// Every limit from both sides.
pub fn limits() -> Check {
    let cases = gen::limits();
    for case in &cases {
        let (answer, netlist) = run(case);
        as_expected(case, &answer)?;
        if answer.number == 0 {
            judge_netlist(case, &answer, &netlist)?;
        }
        if case.text == Lent::OneShort {
            ensure!(answer.number == 18, "{}: {answer:?}", case.what);
        }
    }
    Ok(format!("{} cases", cases.len()))
}

/// Cases with any number of faults: the first in checking order is answered.
pub fn faults(cases: usize, seed: u64) -> Check {
    let mut rng = Rng::new(seed);
    let mut counts = [0usize; NUMBERS];
    for _ in 0..cases {
        let case = gen::faults(&mut rng);
        let (answer, _) = run(&case);
        let told = || format!("{}\n{}", String::from_utf8_lossy(&case.cells), String::from_utf8_lossy(&case.graph));
        as_expected(&case, &answer).map_err(|wrong| format!("{wrong}\n{}", told()))?;
        if case.expected.is_none() {
            ensure!(answer.number == 0 || answer.number == 18, "made without a fault: {answer:?}\n{}", told());
        }
        counts[answer.number as usize] += 1;
    }
    let mut numbers = (0..22).chain([25, 26, 27]);
    ensure!(numbers.all(|number| counts[number] > 0), "a number never comes: {counts:?}");
    Ok(format!("{cases} cases, by number {counts:?}"))
}

/// Every damage of small texts, and every byte at every gap, against the loose reader.
pub fn damage() -> Check {
    let cells = gen::library_text(&gen::small_library());
    let graph = text(&["aag 5 2 0 2 2", "4", "2", "10", "7", "10 3 4", "6 10 3", "c"]);
    let arrivals = text(&["input arrival", "1 20", "0 7"]);
    let mut counts = [0usize; NUMBERS];
    let ranged = gen::ranged_text(&gen::with_ranges(&mut Rng::new(9), &gen::small_library()));
    let all = [
        (0, gen::all_damage_of_ends(&cells)),
        (0, gen::all_damage_of_ends(&ranged)),
        (1, gen::all_damage_of_ends(&graph)),
        (1, gen::all_binary_damage()),
        (2, gen::all_damage_of_ends(&arrivals)),
        (0, gaps::libraries()),
        (1, gaps::graphs()),
        (2, gaps::arrivals()),
    ];
    for (which, texts) in all {
        for damaged in texts {
            let mut three = [&cells, &graph, &arrivals];
            three[which] = &damaged;
            let [cells, graph, arrivals] = three;
            let words = reference::words_needed(graph).unwrap_or(0).min(WORDS_EACH * 200);
            let (answer, _) = reference::map(cells, graph, arrivals, words, 10_000);
            let judged = judge::judge(cells, graph, arrivals, words);
            let same = match judged {
                Some((number, place)) => answer.number == number && answer.value as usize == place,
                None => answer.number == 0 || (15..19).contains(&answer.number),
            };
            ensure!(
                same,
                "judged {judged:?}, answered {answer:?}\n{}\n{}\n{:?}",
                String::from_utf8_lossy(cells),
                String::from_utf8_lossy(graph),
                String::from_utf8_lossy(arrivals)
            );
            counts[answer.number as usize] += 1;
        }
    }
    Ok(format!("{} texts, by number {counts:?}", counts.iter().sum::<usize>()))
}

/// The netlist by its own text: form, drivers, order, need, figures, and the
/// outputs' values for all settings of up to eight inputs (some beyond).
pub fn judge_netlist(case: &Case, answer: &reference::Answer, netlist: &[u8]) -> Result<(), String> {
    let told = |wrong: String| format!("{}: {wrong}\n{}", case.what, String::from_utf8_lossy(netlist));
    let kinds = blif::kinds(&case.cells)?;
    let read = blif::read(netlist).map_err(told)?;
    let ordered = read.ordered(&kinds).map_err(told)?;
    read.gates_stand_right().map_err(told)?;
    let graph = Graph::from_text(&good_part(&case.graph));
    let late = gen::late(&case.arrivals, graph.inputs.len());
    let figures = read.figures(&kinds, &late, &ordered);
    let answered = [answer.gates, answer.area, answer.arrival].map(u64::from);
    ensure!(
        figures == read.said && figures == answered,
        "{}",
        told(format!("figures {figures:?}, answered {answered:?}"))
    );
    ensure!(answer.value as usize == netlist.len(), "{}", told("length".into()));
    let timing = timing_lines(&case.cells, &kinds, &read, &late, &ordered);
    ensure!(read.timing == timing, "{}", told(format!("timing {timing:?}")));

    let net = |literal: usize| format!("{}{}", ["p", "m"][literal % 2], literal / 2);
    let inputs: Vec<String> = graph.inputs.iter().map(|variable| net(2 * variable)).collect();
    // "`o0`, `o1` and so on, in file order", and "each gets `.names` with its
    // net and its own name".
    let outputs: Vec<String> = (0..graph.outputs.len()).map(|index| format!("o{index}")).collect();
    let named: Vec<[String; 2]> =
        graph.outputs.iter().zip(&outputs).map(|(&literal, name)| [net(literal), name.clone()]).collect();
    ensure!(read.inputs == inputs && read.outputs == outputs, "{}", told("names".into()));
    ensure!(read.names == named, "{}", told(".names lines".into()));
    // "the gate bound becomes 4(M+1)"
    let bound = if case.pairs { 4 } else { 2 } * (graph.top + 1);
    ensure!(read.gates.len() <= bound, "{}", told("too many gates".into()));

    let placed = graph.placed().ok_or_else(|| told("a circle was mapped".into()))?;
    let count = graph.inputs.len();
    let mut rng = Rng::new(count as u64);
    let settings = if count <= 8 { 1 << count } else { 16 };
    for number in 0..settings {
        let setting: Vec<bool> =
            (0..count).map(|input| if count <= 8 { number >> input & 1 == 1 } else { rng.one_in(2) }).collect();
        let same = read.values(&kinds, &ordered, &setting) == graph.values(&placed, &setting);
        ensure!(same, "{}", told(format!("values under {setting:?}")));
    }
    Ok(())
}

/// What the timing lines must say, "a line per output": the ends of the gates above
/// them. None under the shorter names line.
fn timing_lines(
    cells: &[u8],
    kinds: &BTreeMap<String, blif::Kind>,
    read: &blif::Netlist,
    late: &[u64],
    ordered: &[&blif::Gate],
) -> Vec<(String, [u64; 2])> {
    if !gen::is_ranged(cells) {
        return Vec::new();
    }
    let low = read.ends(late, ordered, |gate, pin| kinds[&gate.cell].range(pin)[0]);
    let high = read.ends(late, ordered, |gate, pin| kinds[&gate.cell].range(pin)[1]);
    let ends = low.into_iter().zip(high).map(|(low, high)| [low, high]);
    read.outputs.iter().cloned().zip(ends).collect()
}

/// "Every choice of pin delays, each within its range and fixed separately per gate,
/// puts the output within these two, and each end is reached by some choice.": so
/// many choices by chance for each netlist, and the two at the ranges' ends. The
/// shorter names line gives the same netlist without timing lines.
pub fn ranges(cases: usize, choices: usize, seed: u64) -> Check {
    let mut rng = Rng::new(seed);
    let (mut netlists, mut apart, mut inner) = (0, 0, 0);
    for _ in 0..cases {
        let count = gen::library_size(&mut rng);
        let cells = gen::library(&mut rng, count);
        let cells = gen::with_ranges(&mut rng, &cells);
        let graph = gen::graph(&mut rng, 8, 20, CUT_LIMIT + 1);
        let arrivals = if rng.one_in(2) { gen::arrivals(&mut rng, graph.inputs.len()) } else { Vec::new() };
        let late = gen::late(&arrivals, graph.inputs.len());
        let map = |cells: &[u8]| reference::map(cells, &graph.text(), &arrivals, graph.words(), 1 << 20);
        let (ranged, plain) = (gen::ranged_text(&cells), gen::library_text(&cells));
        let ((answer, netlist), (other, shorter)) = (map(&ranged), map(&plain));
        let told =
            || String::from_utf8_lossy(&[&ranged[..], &graph.text(), &arrivals, &netlist].join(&b'\n')).into_owned();
        if answer.number > 0 {
            ensure!(answer == other, "with ranges {answer:?}, without {other:?}\n{}", told());
            continue;
        }
        netlists += 1;
        // "mapping uses the `d` figures as before"
        let lines = netlist.strip_prefix(&shorter[..]).ok_or_else(|| format!("another netlist\n{}", told()))?;
        let same = reference::Answer { value: netlist.len() as u32, ..other };
        ensure!(answer == same && other.value as usize == shorter.len(), "{answer:?}, without {other:?}\n{}", told());
        let tens = lines.iter().filter(|&&byte| byte == b'\n').count();
        ensure!(tens == graph.outputs.len(), "{tens} timing lines\n{}", told());

        let read = blif::read(&netlist)?;
        let kinds = blif::kinds(&ranged)?;
        let ordered = read.ordered(&kinds).map_err(|wrong| format!("{wrong}\n{}", told()))?;
        let names: Vec<&String> = read.timing.iter().map(|(output, _)| output).collect();
        ensure!(names == read.outputs.iter().collect::<Vec<_>>(), "names of outputs\n{}", told());
        let said: Vec<[u64; 2]> = read.timing.iter().map(|(_, ends)| *ends).collect();
        for end in [0, 1] {
            let reached = read.ends(&late, &ordered, |gate, pin| kinds[&gate.cell].range(pin)[end]);
            let wanted: Vec<u64> = said.iter().map(|ends| ends[end]).collect();
            ensure!(reached == wanted, "end {end} isn't reached: {reached:?}\n{}", told());
        }
        for _ in 0..choices {
            let kind = rng.below(3);
            let chosen = read.ends(&late, &ordered, |gate, pin| {
                let [low, high] = kinds[&gate.cell].range(pin);
                match kind {
                    0 => rng.between(low as usize, high as usize) as u64,
                    1 if rng.one_in(2) => low,
                    _ if rng.one_in(5) => low,
                    _ => high,
                }
            });
            for (arrival, [low, high]) in chosen.iter().zip(&said) {
                ensure!(low <= arrival && arrival <= high, "{arrival} isn't within {low} to {high}\n{}", told());
                inner += usize::from(low < arrival && arrival < high);
            }
        }
        apart += usize::from(said.iter().any(|[low, high]| low < high));
    }
    ensure!(
        apart > netlists / 3 && inner > netlists,
        "{netlists} netlists, {apart} with a range, {inner} inner arrivals"
    );
    Ok(format!("{netlists} netlists, {apart} with a range, {choices} choices each, {inner} arrivals between the ends"))
}

/// The lines that are read, without what follows them; a binary text whole.
pub fn good_part(text: &[u8]) -> Vec<u8> {
    if text.starts_with(b"aig ") {
        return text.to_vec();
    }
    let mut lines = text.split_inclusive(|&byte| byte == b'\n');
    let header = lines.next().unwrap_or(b"");
    let numbers: Vec<usize> =
        String::from_utf8_lossy(header).split_whitespace().skip(1).map(|word| word.parse().unwrap_or(0)).collect();
    let due = numbers[1] + numbers[3] + numbers[4];
    [header].into_iter().chain(lines.take(due)).collect::<Vec<_>>().concat()
}

/// Random cases: printed netlists against their graphs, texts against the
/// loose reader, and what the making knows.
pub fn netlists(cases: usize, seed: u64) -> Check {
    let mut rng = Rng::new(seed);
    let mut counts = [0usize; NUMBERS];
    let mut by_pins = [0usize; 5];
    let mut timed = 0;
    let mut kinds = [0usize; 8];
    for _ in 0..cases {
        let case = gen::case(&mut rng);
        let (answer, netlist) = run(&case);
        as_expected(&case, &answer)?;
        counts[answer.number as usize] += 1;
        if answer.number == 0 {
            judge_netlist(&case, &answer, &netlist)?;
            timed += usize::from(answer.arrival > 0);
            for gate in blif::read(&netlist)?.gates {
                by_pins[gate.pins.len()] += 1;
            }
            for (count, has) in kinds.iter_mut().zip(kinds_of_outputs(&case.graph)) {
                *count += usize::from(has);
            }
        }
        let words = case.words.of(reference::words_needed(&case.graph).unwrap_or(64));
        let judged = judge::judge(&case.cells, &case.graph, &case.arrivals, words);
        let judged = judged.map(|(number, place)| (number, place as u32));
        let in_texts = (1..15).contains(&answer.number) || answer.number > 18;
        let read = in_texts.then_some((answer.number, answer.value));
        ensure!(judged == read, "{}: judged {judged:?}, answered {answer:?}", case.what);
    }
    let told = format!("{cases} cases, by number {counts:?}; {timed} arrive after 0; gates by pins {by_pins:?}");
    let told = format!("{told}; netlists by kind of output {kinds:?}");
    ensure!(kinds.iter().all(|&count| count > cases / 200), "a kind of output hardly comes: {told}");
    Ok(told)
}

/// Whether a good graph text has no output, outputs that repeat a literal, that
/// are each other's complements, an input, an input's complement, constants, and
/// more than 10 outputs and more than 100.
fn kinds_of_outputs(text: &[u8]) -> [bool; 8] {
    let Graph { inputs, outputs, .. } = Graph::from_text(&good_part(text));
    let different: BTreeSet<usize> = outputs.iter().copied().collect();
    [
        outputs.is_empty(),
        different.len() < outputs.len(),
        different.iter().any(|literal| different.contains(&(literal ^ 1))),
        different.iter().any(|literal| inputs.contains(&(literal / 2)) && literal % 2 == 0),
        different.iter().any(|literal| inputs.contains(&(literal / 2)) && literal % 2 == 1),
        different.contains(&0) || different.contains(&1),
        outputs.len() > 10,
        outputs.len() > 100,
    ]
}

/// The case's graph with its variables in sequence, in both forms, if its text
/// reads, has no circle, and both are within the length in 1.
pub fn twins_of(case: &Case) -> Option<[Case; 2]> {
    let read = reference::read_graph(&case.graph, usize::MAX).ok()?;
    let ands = read.operands.iter().enumerate();
    let graph = Graph {
        top: read.top,
        inputs: read.inputs.iter().copied().map(usize::from).collect(),
        outputs: read.outputs.iter().map(|&literal| literal as usize).collect(),
        ands: ands.filter_map(|(left, &ends)| ends.map(|(a, b)| (left, a as usize, b as usize))).collect(),
    };
    let sequence = graph.in_sequence()?;
    let texts = [sequence.text(), sequence.binary()?];
    let fits = texts.iter().all(|text| text.len() <= 65_536);
    let twin = |graph| Case { what: format!("twin of {}", case.what), graph, expected: None, ..case.clone() };
    fits.then(|| texts.map(twin))
}

/// "A file free of 19 to 21 and its ASCII twin, each within the length in 1,
/// must give the same netlist": every graph that random cases, limits and small
/// graphs have, where it can be renumbered.
pub fn twins(cases: usize, seed: u64) -> Check {
    let mut rng = Rng::new(seed);
    let mut counts = [0usize; NUMBERS];
    let some = (0..cases).map(|_| gen::case(&mut rng)).collect::<Vec<_>>();
    let cells = gen::library_text(&gen::full_library());
    let small = gen::every_small_graph().into_iter().map(|graph| Case::new("small", cells.clone(), graph.text()));
    for case in some.into_iter().chain(gen::limits()).chain(small) {
        let Some([ascii, binary]) = twins_of(&case) else { continue };
        let (one, other) = (run(&ascii), run(&binary));
        ensure!(one == other, "{}: {:?} and in binary {:?}", ascii.what, one.0, other.0);
        let read_back = Graph::from_text(&binary.graph).text();
        ensure!(read_back == sorted_operands(&ascii.graph), "{}: the texts", ascii.what);
        counts[one.0.number as usize] += 1;
    }
    let all = counts.iter().sum::<usize>();
    ensure!(all > cases / 2 && counts[0] > cases / 4, "too few twins: {counts:?}");
    Ok(format!("{all} twins, by number {counts:?}"))
}

/// An ASCII text with the larger operand first on every AND line.
fn sorted_operands(text: &[u8]) -> Vec<u8> {
    let mut graph = Graph::from_text(text);
    for (_, a, b) in &mut graph.ands {
        (*a, *b) = ((*a).max(*b), (*a).min(*b));
    }
    graph.text()
}

/// "Texts alike but for line ends, each within the length in 1, give the same
/// netlist": the same answer in success and for 15 to 18, and for 2 to 14, 25 and
/// 26 the same number at the same line. A binary graph "keeps byte 10 alone": 13 before it is
/// 7 in the header and 11 in an output line.
pub fn line_ends(cases: usize, seed: u64) -> Check {
    let mut rng = Rng::new(seed);
    let (mut counts, mut binary) = ([0usize; NUMBERS], [0usize; 2]);
    let some = (0..cases).map(|_| gen::case(&mut rng)).collect::<Vec<_>>();
    let faults = (0..cases).map(|_| gen::faults(&mut rng)).collect::<Vec<_>>();
    for case in some.into_iter().chain(faults).chain(gen::limits()) {
        let (answer, netlist) = run(&case);
        let cells = gen::mixed(&mut rng, &case.cells);
        let is_binary = case.graph.starts_with(b"aig");
        let graph = if is_binary { gen::with_ends(&[], || false) } else { gen::mixed(&mut rng, &case.graph) };
        let graph_text = if is_binary { &case.graph } else { &graph.text };
        let arrivals = gen::mixed(&mut rng, &case.arrivals);
        let texts = [&case.cells, &case.graph, &case.arrivals, &cells.text, graph_text, &arrivals.text];
        if texts.iter().any(|text| text.len() > 65_536) {
            continue;
        }
        let alike = Case {
            cells: cells.text.clone(),
            graph: graph_text.clone(),
            arrivals: arrivals.text.clone(),
            ..case.clone()
        };
        let (other, other_netlist) = run(&alike);
        let place = answer.value as usize;
        let value = match answer.number {
            2..=6 | 27 => cells.place(place),
            7..=14 if !is_binary => graph.place(place),
            25 | 26 => arrivals.place(place),
            _ => place,
        };
        let wanted = reference::Answer { value: value as u32, ..answer };
        ensure!(other == wanted, "{}: {answer:?}, with other line ends {other:?}", case.what);
        ensure!(other_netlist == netlist, "{}: another netlist", case.what);
        counts[answer.number as usize] += 1;
        if is_binary && answer.number == 0 && case.graph.len() < 65_536 {
            let ends = gen::binary_ends(&case.graph);
            for (line, &end) in ends.iter().enumerate().take(5) {
                let text = [&case.graph[..end], b"\r", &case.graph[end..]].concat();
                let (answer, _) = run(&Case { graph: text, ..case.clone() });
                let wanted = if line == 0 { (7, 0) } else { (11, ends[line - 1] + 1) };
                ensure!((answer.number, answer.value as usize) == wanted, "{}: line {line}, {answer:?}", case.what);
                binary[line.min(1)] += 1;
            }
        }
    }
    let often = |number: usize| counts[number] > 0;
    ensure!(
        (2..=21).chain([25, 26, 27]).all(often) && counts[0] > cases / 4 && binary[0].min(binary[1]) > 0,
        "{counts:?} {binary:?}"
    );
    Ok(format!("{} pairs, by number {counts:?}; binary lines {binary:?}", counts.iter().sum::<usize>()))
}

/// What document 01 gives without request N7, pinned as one number: an empty
/// arrivals text gives the same.
pub fn without_arrivals() -> Check {
    let digest = digest_without_arrivals();
    ensure!(digest == 0x36be_5103_7599_550a, "without arrivals: {digest:#x}");
    Ok("1500 cases give what document 01 gives".into())
}

/// "or empty for none", "Inputs not listed arrive at 0": an empty text, the first
/// line alone and all inputs at 0 give the same. The order of lines doesn't matter.
/// No input that is late makes the latest output earlier, or later by more than
/// that.
pub fn arrivals(cases: usize, seed: u64) -> Check {
    let mut rng = Rng::new(seed);
    let mut later = 0;
    for _ in 0..cases {
        let count = gen::library_size(&mut rng);
        let cells = gen::library_text(&gen::library(&mut rng, count));
        let graph = gen::graph(&mut rng, 8, 20, CUT_LIMIT + 1);
        let late = some_late(&mut rng, graph.inputs.len());
        let map = |arrivals: &[u8]| reference::map(&cells, &graph.text(), arrivals, graph.words(), 65_536);
        let (answer, netlist) = map(b"");
        let zeros = gen::arrivals_of(&vec![0; late.len()]);
        for text in [gen::ARRIVALS_LINE.as_bytes(), &zeros] {
            ensure!(map(text) == (answer, netlist.clone()), "none is late: {:?} and {answer:?}", map(text).0);
        }
        let listed = gen::arrivals_of(&late);
        let (one, other) = (map(&listed), map(&in_another_order(&mut rng, &listed)));
        ensure!(one == other, "another order of lines: {:?} and {:?}", one.0, other.0);
        let most = late.iter().copied().max().unwrap_or(0) as u32;
        let refused = |answer: reference::Answer| (answer.number, if answer.number == 0 { 0 } else { answer.value });
        ensure!(refused(one.0) == refused(answer), "refused alike: {:?} and {answer:?}", one.0);
        let within = (answer.arrival..=answer.arrival + most).contains(&one.0.arrival);
        ensure!(within || answer.number > 0, "{late:?}: {answer:?}, late {:?}", one.0);
        later += usize::from(one.0.arrival > answer.arrival);
    }
    ensure!(later > cases / 8, "hardly ever later: {later} of {cases}");
    Ok(format!("{cases} cases, {later} arrive later with late inputs"))
}

/// The lines after the first in another order, those with 0 sometimes left out.
fn in_another_order(rng: &mut Rng, arrivals: &[u8]) -> Vec<u8> {
    let mut lines: Vec<&[u8]> = arrivals.split_inclusive(|&byte| byte == b'\n').collect();
    rng.shuffle(&mut lines[1..]);
    lines.retain(|line| !line.ends_with(b" 0\n") || rng.one_in(2));
    lines.concat()
}

/// The answers and netlists of some cases without arrivals in one number (FNV-1a).
pub fn digest_without_arrivals() -> u64 {
    let mut rng = Rng::new(77);
    let mut digest: u64 = 0xcbf2_9ce4_8422_2325;
    let mut add = |bytes: &[u8]| {
        for &byte in bytes {
            digest = (digest ^ u64::from(byte)).wrapping_mul(0x0100_0000_01b3);
        }
    };
    for _ in 0..1_500 {
        let count = gen::library_size(&mut rng);
        let cells = gen::library_text(&gen::library(&mut rng, count));
        let graph = gen::graph(&mut rng, 8, 20, CUT_LIMIT + 1);
        let (answer, netlist) = reference::map_without_arrivals(&cells, &graph.text(), graph.words(), 65_536);
        add(format!("{answer:?}").as_bytes());
        add(&netlist);
    }
    digest
}

/// What the brute force has gone through.
#[derive(Default)]
pub struct Gone {
    pub graphs: usize,
    pub too_wide: usize,
    pub mappings: usize,
    pub bare: usize,
    /// Gates of pairs.
    pub paired: usize,
}

/// Tiny graphs: every phase's cover and arrival against all covers, and every
/// printed gate against the choice.
pub fn all_covers(cases: usize, seed: u64) -> Check {
    let mut rng = Rng::new(seed);
    let mut gone = Gone::default();
    while gone.graphs < cases {
        let count = rng.between(0, 6);
        let cells = gen::library(&mut rng, count);
        let ands = rng.between(1, 5);
        let graph = gen::graph(&mut rng, 4, ands, CUT_LIMIT);
        let late = some_late(&mut rng, graph.inputs.len());
        against_all_covers(&cells, graph, &late, false, &mut gone)?;
    }
    let Gone { graphs, too_wide, mappings, bare, .. } = gone;
    Ok(format!("{graphs} graphs ({too_wide} more too wide), {mappings} mappings, {bare} without a cover"))
}

/// The same over every graph of two inputs and two ANDs.
pub fn every_small_graph() -> Check {
    let mut rng = Rng::new(2);
    let mut gone = Gone::default();
    for graph in gen::every_small_graph() {
        let count = rng.between(1, 6);
        let late = some_late(&mut rng, graph.inputs.len());
        against_all_covers(&gen::library(&mut rng, count), graph, &late, false, &mut gone)?;
    }
    let Gone { graphs, too_wide, mappings, bare, .. } = gone;
    Ok(format!("{graphs} graphs ({too_wide} more too wide), {mappings} mappings, {bare} without a cover"))
}

/// Arrivals for so many inputs; none is late in one case of three.
pub fn some_late(rng: &mut Rng, inputs: usize) -> Vec<u64> {
    let kind = rng.below(5);
    let on_time = rng.one_in(3);
    (0..inputs).map(|_| if on_time || rng.one_in(3) { 0 } else { gen::arrival(rng, kind) }).collect()
}

/// "no cover so timed gives a printed net earlier"
pub fn against_all_covers(
    cells: &[gen::Cell],
    mut graph: Graph,
    late: &[u64],
    pairs: bool,
    gone: &mut Gone,
) -> Result<(), String> {
    let every = graph.ands.iter().map(|(left, _, _)| *left).chain(graph.inputs.iter().copied()).chain([0]);
    let every: Vec<brute::Phase> = every.flat_map(|variable| [(variable, false), (variable, true)]).collect();
    let brute = brute::Brute::new(cells, &graph, late, pairs);
    let map = if pairs { reference::map_pairs } else { reference::map };
    let arrivals_text = if late.iter().all(|&arrival| arrival == 0) { Vec::new() } else { gen::arrivals_of(late) };
    let mut budget = 60_000;
    let mut least: BTreeMap<brute::Phase, u64> = BTreeMap::new();
    for &phase in &every {
        // All covers with this phase as the only output.
        let Some(found) = brute.least(&[phase], &mut budget) else {
            gone.too_wide += 1;
            return Ok(());
        };
        least.extend(found.get(&phase).map(|&arrival| (phase, arrival)));
    }
    gone.graphs += 1;
    let literal = |(variable, negative): brute::Phase| 2 * variable + usize::from(negative);
    // First each phase as the only output, then the graph as it came.
    let own = graph.outputs.clone();
    for outputs in every.iter().map(|&phase| vec![literal(phase)]).chain([own]) {
        graph.outputs = outputs;
        gone.mappings += 1;
        let wanted: Vec<brute::Phase> = graph.outputs.iter().map(|literal| (literal / 2, literal % 2 == 1)).collect();
        let (library, text) = (gen::library_text(cells), graph.text());
        let (answer, netlist) = map(&library, &text, &arrivals_text, graph.words(), 65_536);
        let told = || {
            let texts = [&library, &text, &arrivals_text, &netlist].map(|text| String::from_utf8_lossy(text));
            texts.join("\n")
        };
        if let Some(index) = wanted.iter().position(|phase| !least.contains_key(phase)) {
            gone.bare += 1;
            let refused = (answer.number, answer.value as usize) == (17, index);
            ensure!(refused, "output {index} has no cover: {answer:?}\n{}", told());
            continue;
        }
        ensure!(answer.number == 0, "all outputs have covers: {answer:?}\n{}", told());
        let latest = wanted.iter().map(|phase| least[phase]).max().unwrap_or(0);
        ensure!(u64::from(answer.arrival) == latest, "earliest is {latest}\n{}", told());
        // No cover of all outputs together gives a net an earlier arrival.
        let together = brute.least(&wanted, &mut 20_000).unwrap_or_default();
        for (phase, arrival) in together {
            ensure!(arrival >= least[&phase], "brute force: {phase:?}\n{}", told());
        }
        let kinds = blif::kinds(&library)?;
        let read = blif::read(&netlist)?;
        let ordered = read.ordered(&kinds).map_err(|wrong| format!("{wrong}\n{}", told()))?;
        let arrivals = read.arrivals(&kinds, late, &ordered);
        for (index, phase) in wanted.iter().enumerate() {
            let arrival = arrivals.get(&format!("o{index}"));
            ensure!(arrival == Some(&least[phase]), "o{index} arrives at {arrival:?}\n{}", told());
        }
        for (index, gate) in read.gates.iter().enumerate().filter(|(_, gate)| !gate.net.starts_with('s')) {
            let (letter, variable) = gate.net.split_at(1);
            let phase = (variable.parse().unwrap_or(0), letter == "m");
            ensure!(arrivals[&gate.net] == least[&phase], "net {} isn't earliest\n{}", gate.net, told());
            let source = brute.choice(phase, &least).ok_or("no source")?;
            let net = |(variable, negative): brute::Phase| format!("{}{variable}", if negative { "m" } else { "p" });
            let pins: Vec<String> = source.feeds.iter().map(|&(phase, _)| net(phase)).collect();
            let kind = &brute.kinds[source.cell.ok_or("an input's own net")?];
            // "A pair prints as two gates, the inner first, on a net `s` followed by the root's net name".
            let wanted = match kind.inner {
                None => vec![(kind.root, pins, gate.net.clone())],
                Some((fed, inner)) => {
                    let between = format!("s{}", gate.net);
                    let (before, rest) = pins.split_at(fed);
                    let (inside, after) = rest.split_at(cells[inner].pins);
                    let at_root = [before, std::slice::from_ref(&between), after].concat();
                    vec![(inner, inside.to_vec(), between), (kind.root, at_root, gate.net.clone())]
                }
            };
            gone.paired += wanted.len() - 1;
            let first = (index + 1).checked_sub(wanted.len()).ok_or_else(told)?;
            let chosen = read.gates[first..=index]
                .iter()
                .zip(wanted)
                .all(|(gate, (line, pins, net))| gate.cell == cells[line].name && gate.pins == pins && gate.net == net);
            ensure!(chosen, "net {}: the choice is {source:?}\n{}", gate.net, told());
        }
        let of_pairs = read.gates.iter().filter(|gate| gate.net.starts_with('s')).count();
        ensure!(pairs || of_pairs == 0, "a pair where none is wanted\n{}", told());
    }
    Ok(())
}

/// The graphs of a folder with its table `graphs.tsv`: the largest number of
/// cuts of an AND and the verdict as told there; every netlist that its
/// libraries give is judged by its text.
pub fn real_graphs(folder: &std::path::Path) -> Check {
    let read = |name: &str| std::fs::read(folder.join(name)).map_err(|error| format!("{name}: {error}"));
    let table = String::from_utf8_lossy(&read("graphs.tsv")?).into_owned();
    let mut mapped = 0;
    for row in table.lines().skip(1) {
        let columns: Vec<&str> = row.split('\t').collect();
        let (name, cuts, verdict) = (columns[0], columns[5], columns[6]);
        let graph = read(name)?;
        let words = reference::words_needed(&graph).ok_or(format!("{name}: no header"))?;
        let first = reference::read_graph(&graph, words).and_then(|graph| {
            let lists = reference::cut_lists(&graph, &reference::placing_order(&graph)?)?;
            Ok(lists.iter().map(Vec::len).max().unwrap_or(0))
        });
        let same = match first {
            Ok(most) => verdict.starts_with("ok") && cuts == most.to_string(),
            Err(refusal) if refusal.number == 9 => verdict == "refused 9",
            Err(refusal) => verdict == format!("refused {} {}", refusal.number, refusal.place),
        };
        ensure!(same, "{name}: told {cuts} cuts, {verdict}; got {first:?}");
        for library in ["tiny.txt", "array.txt", "full.txt"] {
            let case = Case::new(format!("{name} with {library}"), read(library)?, graph.clone());
            let (answer, netlist) = run(&case);
            if verdict.starts_with("ok") {
                ensure!(answer.number == 0, "{}: {answer:?}", case.what);
                judge_netlist(&case, &answer, &netlist)?;
                mapped += 1;
                // The same with every third input late.
                let inputs = Graph::from_text(&good_part(&graph)).inputs.len();
                let late: Vec<u64> =
                    (0..inputs as u64).map(|index| if index % 3 == 1 { 7 * index } else { 0 }).collect();
                let case = case.arrivals(gen::arrivals_of(&late));
                let (answer, netlist) = run(&case);
                ensure!(answer.number == 0, "{}, late: {answer:?}", case.what);
                judge_netlist(&case, &answer, &netlist)?;
            }
        }
    }
    let mut pairs = 0;
    for entry in std::fs::read_dir(folder).map_err(|error| error.to_string())? {
        let name = entry.map_err(|error| error.to_string())?.file_name().to_string_lossy().into_owned();
        let Some(stem) = name.strip_suffix(".aig") else { continue };
        for library in ["tiny.txt", "array.txt", "full.txt"] {
            let of = |graph: &str| Ok::<_, String>(run(&Case::new(graph, read(library)?, read(graph)?)));
            let (binary, ascii) = (of(&name)?, of(&format!("{stem}.aag"))?);
            ensure!(binary == ascii, "{name} with {library}: {:?}, its twin {:?}", binary.0, ascii.0);
        }
        pairs += 1;
    }
    ensure!(pairs > 0, "no .aig in {}", folder.display());
    Ok(format!("{} graphs, {mapped} netlists, {pairs} binary twins", table.lines().count() - 1))
}
