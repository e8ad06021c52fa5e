//! The checks of the call that checks a netlist, each a sentence of request N14 or cases
//! by chance against a second way: patterns laid over the lines, all nets that feed a
//! net by closing pairs, and values setting by setting.

use crate::check::{self, Verdict};
use crate::check_gen::{self, Case, Known};
use crate::checks::Check;
use crate::gen::{self, Graph, Rng};
use crate::reference::{self, Refusal};
use crate::{blif, gaps, judge, WORDS_EACH};
use std::collections::BTreeMap;

macro_rules! ensure {
    ($condition:expr, $($message:tt)*) => {
        if !$condition {
            return Err(format!($($message)*));
        }
    };
}

// ---------------------------------------------------------------- second way

/// Whether a line is the pattern, where `%` stands for 1 to 8 letters or digits.
fn fits(pattern: &str, line: &str) -> bool {
    let mut rest = line;
    let mut parts = pattern.split('%').peekable();
    while let Some(part) = parts.next() {
        let Some(after) = rest.strip_prefix(part) else { return false };
        let count = after.bytes().take_while(u8::is_ascii_alphanumeric).count();
        rest = match parts.peek() {
            None => after,
            Some(_) if (1..=8).contains(&count) => &after[count..],
            Some(_) => return false,
        };
    }
    rest.is_empty()
}

/// The nets between the fixed parts of a line that fits.
fn nets(line: &str) -> Vec<&str> {
    match line.strip_prefix(".names ") {
        Some(names) => names.split(' ').collect(),
        None => line.split(' ').skip(2).map(|word| &word[2..]).collect(),
    }
}

/// What each line with an output drives: its offset, cell, feeds and net.
struct Line<'a> {
    offset: usize,
    cell: Option<&'a blif::Kind>,
    feeds: Vec<&'a str>,
    net: &'a str,
}

/// The verdict made the second way, for a good library and a good graph of up to 12
/// inputs.
fn second(cells: &[u8], graph: &Graph, netlist: &[u8]) -> Result<Verdict, String> {
    let refused = |number, place: usize| Ok(Verdict::Refused(Refusal { number, place: place as u32 }));
    let kinds = blif::kinds(cells)?;
    let gate = |name: &str, kind: &blif::Kind| {
        let pins: String = ["A", "B", "C", "D"][..kind.pins].iter().map(|pin| format!(" {pin}=%")).collect();
        format!(".gate {name}{pins} O=%")
    };
    let patterns: Vec<(String, &blif::Kind)> = kinds.iter().map(|(name, kind)| (gate(name, kind), kind)).collect();
    let join = |words: Vec<String>| words.join(" ");
    let inputs: Vec<String> = graph.inputs.iter().map(|input| format!("p{input}")).collect();
    let outputs: Vec<String> = (0..graph.outputs.len()).map(|index| format!("o{index}")).collect();
    let mut due = vec![
        ".model top".to_string(),
        join([vec![".inputs".into()], inputs.clone()].concat()),
        join([vec![".outputs".into()], outputs.clone()].concat()),
    ];
    due.reverse();
    let mut tail: Vec<String> = outputs.iter().flat_map(|name| [format!(".names % {name}"), "1 1".into()]).collect();
    tail.push(".end".into());
    tail.reverse();
    let mut lines: Vec<Line> = Vec::new();
    let (mut offset, mut in_tail) = (0, false);
    for bytes in netlist.split_inclusive(|&byte| byte == b'\n') {
        let Some(line) = std::str::from_utf8(bytes).ok().and_then(|line| line.strip_suffix('\n')) else {
            return refused(32, offset);
        };
        if let Some(wanted) = due.pop() {
            if line != wanted {
                return refused(32, offset);
            }
        } else if let Some((_, kind)) = patterns.iter().find(|(pattern, _)| !in_tail && fits(pattern, line)) {
            let mut all = nets(line);
            let net = all.pop().unwrap_or_default();
            lines.push(Line { offset, cell: Some(kind), feeds: all, net });
        } else {
            in_tail = true;
            let pattern = tail.pop().unwrap_or_default();
            if !fits(&pattern, line) {
                return refused(32, offset);
            }
            if line.starts_with(".names") {
                let all = nets(line);
                lines.push(Line { offset, cell: None, feeds: vec![all[0]], net: all[1] });
            }
            if tail.is_empty() {
                break;
            }
        }
        offset += bytes.len();
    }
    if !tail.is_empty() || !due.is_empty() {
        return refused(32, netlist.len());
    }
    // 33, its first part: a net that stands before.
    let mut numbers: BTreeMap<&str, usize> = inputs.iter().enumerate().map(|(at, name)| (name.as_str(), at)).collect();
    for (index, line) in lines.iter().enumerate() {
        if numbers.insert(line.net, inputs.len() + index).is_some() {
            return refused(33, line.offset);
        }
    }
    let mut feeds: Vec<Vec<usize>> = vec![Vec::new(); inputs.len()];
    for line in &lines {
        let known: Option<Vec<usize>> = line.feeds.iter().map(|net| numbers.get(net).copied()).collect();
        match known {
            Some(known) => feeds.push(known),
            None => return refused(33, line.offset),
        }
    }
    // Its last part: pairs of nets of which one feeds the other, closed.
    let count = feeds.len();
    let mut reach: Vec<Vec<bool>> = vec![vec![false; count]; count];
    for (net, feeds) in feeds.iter().enumerate() {
        feeds.iter().for_each(|&feed| reach[net][feed] = true);
    }
    for middle in 0..count {
        for net in (0..count).filter(|&net| net != middle) {
            if reach[net][middle] {
                let through = reach[middle].clone();
                reach[net].iter_mut().zip(through).for_each(|(known, is)| *known |= is);
            }
        }
    }
    if let Some(line) = (0..lines.len()).find(|&line| reach[inputs.len() + line][inputs.len() + line]) {
        return refused(33, lines[line].offset);
    }
    // Values: the lines again and again until all are known.
    let placed = graph.placed().ok_or("a circle in the graph")?;
    for setting in 0..1u64 << inputs.len() {
        let bits: Vec<bool> = (0..inputs.len()).map(|input| setting >> input & 1 == 1).collect();
        let mut values: Vec<Option<bool>> = bits.iter().copied().map(Some).chain(lines.iter().map(|_| None)).collect();
        while values.contains(&None) {
            for (index, line) in lines.iter().enumerate() {
                let own = inputs.len() + index;
                let pins: Option<Vec<bool>> = feeds[own].iter().map(|&feed| values[feed]).collect();
                values[own] = pins.map(|pins| match line.cell {
                    None => pins[0],
                    Some(kind) => {
                        let row: u32 = pins.iter().enumerate().map(|(pin, &is)| u32::from(is) << pin).sum();
                        kind.table >> row & 1 == 1
                    }
                });
            }
        }
        let meant = graph.values(&placed, &bits);
        let got: Vec<bool> = outputs.iter().map(|name| values[numbers[name.as_str()]] == Some(true)).collect();
        if let Some(output) = (0..meant.len()).find(|&output| meant[output] != got[output]) {
            return Ok(Verdict::Differs { setting, output: output as u64 });
        }
    }
    Ok(Verdict::Accepted)
}

/// The verdict the second way for any texts; none for 15, whose place it doesn't know.
fn second_of_all(case: &Case) -> Result<Option<Verdict>, String> {
    let refused = |number, place: usize| Ok(Some(Verdict::Refused(Refusal { number, place: place as u32 })));
    if case.netlist.len() > 65_536 {
        return refused(1, 0);
    }
    let judged = judge::judge(&case.cells, &case.graph, b"", usize::MAX);
    let need = || {
        let line = case.graph.split(|&byte| byte == 10).next().unwrap_or(&[]);
        let words: Vec<usize> =
            String::from_utf8_lossy(line).split_whitespace().skip(1).map(|word| word.parse().unwrap_or(0)).collect();
        WORDS_EACH * (words[0] + 1) + words[3] + 8 * case.netlist.split(|&byte| byte == 10).skip(1).count()
    };
    match judged {
        Some((number, place)) if number < 10 || [19, 27].contains(&number) => return refused(number, place),
        _ if case.words() < need() => return refused(10, 0),
        Some((number, place)) => return refused(number, place),
        None => {}
    }
    let graph = Graph::from_text(&crate::checks::good_part(&case.graph));
    if graph.placed().is_none() {
        return Ok(None);
    }
    if graph.inputs.len() > 12 {
        return refused(31, 0);
    }
    second(&case.cells, &graph, &case.netlist).map(Some)
}

/// The verdict, if what is known and the second way agree.
pub fn agreed(case: &Case) -> Result<Verdict, String> {
    let verdict = check::check(&case.cells, &case.graph, &case.netlist, case.words());
    let told = || {
        let texts = [&case.cells, &case.graph, &case.netlist].map(|text| String::from_utf8_lossy(text).into_owned());
        format!("{}: {verdict:?}, {:?}\n{}", case.what, case.knows(), texts.join("\n"))
    };
    let known = match case.knows() {
        Known::Accepted => Some(Verdict::Accepted),
        Known::Refused(number, place) => Some(Verdict::Refused(Refusal { number, place: place as u32 })),
        Known::Nothing => None,
    };
    ensure!(known.is_none_or(|known| known == verdict), "made otherwise, {}", told());
    match second_of_all(case)? {
        Some(second) => ensure!(second == verdict, "the second way has {second:?}, {}", told()),
        None => ensure!(matches!(verdict, Verdict::Refused(Refusal { number: 15, .. })), "15, {}", told()),
    }
    Ok(verdict)
}

// ---------------------------------------------------------------- sentences

const B: &str = "aag 3 2 0 1 1\n2\n4\n6\n6 2 4\n";

fn small() -> Vec<u8> {
    let cells = gen::library_text(&gen::small_library());
    [&cells[..], b"nor2 2 0001 2 35 35 0 0\nless 2 0002 1 1 1 0 0\n"].concat()
}

fn verdict(graph: &str, netlist: &str) -> Verdict {
    check::check(&small(), graph.as_bytes(), netlist.as_bytes(), 100_000)
}

fn differs(setting: u64, output: u64) -> Verdict {
    Verdict::Differs { setting, output }
}

/// "accepted exactly when every output equals the graph's for each of the 2^I input
/// settings; otherwise the lowest setting that differs is returned, input k as bit k, and
/// that setting's first wrong output": worked out by hand.
pub fn by_hand() -> Check {
    let listing = gen::LISTING;
    let head = ".model top\n.inputs p1 p2\n.outputs o0\n";
    let nor = listing.replace(".gate nand2", ".gate nor2");
    let wired = format!("{head}.names p1 o0\n1 1\n.end\n");
    let wired_to_p2 = wired.replace(".names p1", ".names p2");
    // less is 1 in row 1: its pin A is 1 and B is 0. Of p1 and an inverted p2 it is the
    // AND, of p2 and an inverted p1 too; of an inverted p1 and p2 the AND of neither.
    let less =
        |a: &str, b: &str| format!("{head}.gate inv A={b} O=x\n.gate less A={a} B=x O=y\n.names y o0\n1 1\n.end\n");
    let neither = format!("{head}.gate inv A=p1 O=x\n.gate less A=x B=p2 O=y\n.names y o0\n1 1\n.end\n");
    for (netlist, wanted) in [
        (listing, Verdict::Accepted),
        // The OR differs where one of them is 1, first where p1 is.
        (&nor, differs(1, 0)),
        // p1 for the AND differs in setting 1, p2 in setting 2.
        (&wired, differs(1, 0)),
        (&wired_to_p2, differs(2, 0)),
        (&less("p1", "p2"), Verdict::Accepted),
        (&less("p2", "p1"), Verdict::Accepted),
        (&neither, differs(0, 0)),
        // The complement differs everywhere.
        (&listing.replace(".names p3", ".names m3"), differs(0, 0)),
    ] {
        ensure!(verdict(B, netlist) == wanted, "{:?}, not {wanted:?}\n{netlist}", verdict(B, netlist));
    }
    // "input k as bit k" by the file's order: p2 stands first.
    let graph = B.replace("2\n4\n6\n", "4\n2\n6\n");
    let swapped = wired.replace("p1 p2", "p2 p1");
    ensure!(verdict(&graph, &swapped) == differs(2, 0), "{:?}", verdict(&graph, &swapped));
    ensure!(verdict(&graph, &wired) == Verdict::Refused(Refusal { number: 32, place: 11 }), "other inputs");
    // "that setting's first wrong output": in setting 0 the second of three.
    let three = "aag 2 2 0 3 0\n2\n4\n2\n3\n4\n";
    let netlist = ".model top\n.inputs p1 p2\n.outputs o0 o1 o2\n.gate inv A=p1 O=m1\n.names p2 o0\n1 1\n.names p2 o1\n1 1\n.names m1 o2\n1 1\n.end\n";
    ensure!(verdict(three, netlist) == differs(0, 1), "{:?}", verdict(three, netlist));
    let netlist = netlist.replace(".names p2 o1", ".names m1 o1").replace(".names m1 o2", ".names p1 o2");
    ensure!(verdict(three, &netlist) == differs(1, 0), "{:?}", verdict(three, &netlist));
    // "without arrivals", "gates in any order", "what follows `.end` isn't read".
    let moved = format!("{head}.gate nand2 A=p1 B=p2 O=m3\n.gate inv A=m3 O=p3\n.names p3 o0\n1 1\n.end\n.end\nx");
    ensure!(verdict(B, &moved) == Verdict::Accepted, "{:?}", verdict(B, &moved));
    Ok("B and others".into())
}

/// 12 and 13 inputs, words, names and 33 by its parts.
pub fn limits() -> Check {
    let cases = check_gen::limits();
    let mut last = Vec::new();
    for case in &cases {
        // Where words are given as a number the making knows what they bring.
        let verdict = check::check(&case.cells, &case.graph, &case.netlist, case.words());
        if let Known::Refused(number, place) = case.knows {
            let wanted = Verdict::Refused(Refusal { number, place: place as u32 });
            ensure!(
                verdict == wanted,
                "{}: {verdict:?}, not {wanted:?}\n{}",
                case.what,
                String::from_utf8_lossy(&case.netlist)
            );
        }
        if case.knows == Known::Accepted {
            ensure!(verdict == Verdict::Accepted, "{}: {verdict:?}", case.what);
        }
        agreed(case)?;
        if case.what == "the last setting differs" {
            last.push(verdict);
        }
    }
    ensure!(last[..2] == [differs(2_047, 0), differs(4_095, 0)], "{last:?}");
    // Work memory is left as it was up to 10, and all zero after 31 to 33.
    let kept: Vec<u32> = (0..34).filter(|&number| reference::leaves_work_memory(number)).collect();
    ensure!(kept == [1, 2, 3, 4, 5, 6, 7, 8, 9, 10, 19, 27, 30], "{kept:?}");
    Ok(format!("{} cases", cases.len()))
}

/// Cases by chance.
pub fn cases(count: usize, seed: u64) -> Check {
    let mut rng = Rng::new(seed);
    let mut kinds: BTreeMap<String, [usize; 3]> = BTreeMap::new();
    let mut numbers: BTreeMap<u32, usize> = BTreeMap::new();
    for _ in 0..count {
        let case = check_gen::case(&mut rng);
        let verdict = agreed(&case)?;
        let which = match verdict {
            Verdict::Accepted => 0,
            Verdict::Differs { .. } => 1,
            Verdict::Refused(refusal) => {
                *numbers.entry(refusal.number).or_default() += 1;
                2
            }
        };
        kinds.entry(case.what).or_default()[which] += 1;
    }
    let all: [usize; 3] = [0, 1, 2].map(|which| kinds.values().map(|counts| counts[which]).sum());
    let told = format!("{count} cases, accepted, differing and refused {all:?}, {kinds:?}, by number {numbers:?}");
    ensure!(
        all[0] > count / 8 && all[1] > count / 20 && numbers.contains_key(&33) && numbers.contains_key(&32),
        "{told}"
    );
    Ok(told)
}

/// "Given memory enough, every netlist that `map` prints from the same texts with I up to
/// 12 is accepted.", with pairs of cells too.
pub fn printed(count: usize, seed: u64) -> Check {
    let mut rng = Rng::new(seed);
    let mut accepted = 0;
    for number in 0..count {
        let case = if number % 3 == 0 { gen::pair_case(&mut rng) } else { gen::case(&mut rng) };
        let (answer, netlist) = crate::checks::run(&case);
        let inputs = reference::read_graph(&case.graph, usize::MAX).map_or(99, |graph| graph.inputs.len());
        if answer.number > 0 || inputs > 12 {
            continue;
        }
        let words = check::words_needed(&case.graph, &netlist).ok_or("no header")?;
        let verdict = check::check(&case.cells, &case.graph, &netlist, words);
        ensure!(verdict == Verdict::Accepted, "{}: {verdict:?}\n{}", case.what, String::from_utf8_lossy(&netlist));
        accepted += 1;
    }
    ensure!(accepted > count / 5, "{accepted} of {count}");
    Ok(format!("{accepted} netlists"))
}

/// Every damage of a small netlist.
pub fn damage() -> Check {
    let mut counts = [0usize; 3];
    let names = gen::LISTING.replace("m3", "abcdefgh");
    for text in [gen::LISTING, &names] {
        for netlist in gen::all_damage(text.as_bytes()).into_iter().chain(gaps::every_byte(text.as_bytes())) {
            let case = Case {
                what: "damaged".into(),
                cells: small(),
                graph: B.into(),
                netlist,
                words: gen::Lent::Exact,
                knows: Known::Nothing,
            };
            let which = match agreed(&case)? {
                Verdict::Accepted => 0,
                Verdict::Differs { .. } => 1,
                Verdict::Refused(_) => 2,
            };
            counts[which] += 1;
        }
    }
    ensure!(counts.iter().all(|&count| count > 0), "{counts:?}");
    Ok(format!("accepted, differing and refused {counts:?}"))
}
