//! Damaged texts: whatever is refused has a message, it names the file at fault, and where a line breaks its form it says how.

use arraymap::{check, map, Checked};
use arraymap_cli::{
    files::Source,
    library::Library,
    message::{difference, message, Texts},
};
use std::collections::BTreeMap;

const CELLS: &[u8] =
    b"cell pins table area d0 d1 d2 d3\ninv 1 0001 1 10 0 0 0\nnand2 2 0007 2 20 20 0 0\noai21 3 001f 3 32 29 18 0\n";
const RANGES: &[u8] = b"cell pins table area d0 d1 d2 d3 l0 l1 l2 l3\ninv 1 0001 1 10 0 0 0 6 0 0 0\n\
    nand2 2 0007 2 20 20 0 0 20 15 0 0\noai21 3 001f 3 32 29 18 0 9 2 1 0\n";
const GRAPH: &[u8] = b"aag 7 3 0 2 4\n2\n4\n6\n14\n9\n8 2 4\n10 9 6\n12 10 3\n14 12 8\ni0 a\no1 sum\n";
const BINARY: &[u8] = b"aig 7 3 0 2 4\n14\n9\n\x04\x02\x02\x02\x02\x07\x02\x04i0 a\no1 sum\n";

const LETTERS: &[u8] = b"0123456789 \nagxf_\t#\r\0\xff";

/// The same numbers on every run.
struct Chance(u64);

impl Chance {
    fn below(&mut self, n: usize) -> usize {
        self.0 = self.0.wrapping_mul(6_364_136_223_846_793_005).wrapping_add(1_442_695_040_888_963_407);
        (self.0 >> 33) as usize % n
    }
}

fn damaged(text: &[u8], chance: &mut Chance) -> Vec<u8> {
    let mut text = text.to_vec();
    for _ in 0..=chance.below(3) {
        if text.is_empty() {
            break;
        }
        let at = chance.below(text.len());
        match chance.below(7) {
            0 => text[at] = LETTERS[chance.below(LETTERS.len())],
            1 => text.insert(at, LETTERS[chance.below(LETTERS.len())]),
            2 => drop(text.remove(at)),
            3 => text.truncate(at),
            4 => text.extend_from_slice(b"inv 1 0001 1 10 0 0 0\n"),
            5 => {
                // A line twice.
                let end = at + text[at..].iter().position(|&byte| byte == b'\n').map_or(0, |k| k + 1);
                let line = text[at..end].to_vec();
                text.splice(end..end, line);
            }
            _ => text[at] = chance.below(256) as u8,
        }
    }
    text
}

#[test]
fn every_refusal_is_told() {
    let mut chance = Chance(26);
    let mut numbers: BTreeMap<u32, usize> = BTreeMap::new();
    for k in 0..60_000 {
        let library = if k / 2 % 2 == 0 { CELLS } else { RANGES };
        let (mut cells, mut graph) = (library.to_vec(), if k % 2 == 0 { GRAPH } else { BINARY }.to_vec());
        match k % 3 {
            0 => cells = damaged(&cells, &mut chance),
            _ => graph = damaged(&graph, &mut chance),
        }
        let Err(refusal) = map(&cells, &graph, b"") else { continue };
        *numbers.entry(refusal.number).or_default() += 1;
        let (cells, _) = Library::read(Source { name: "CELLS".into(), text: cells });
        let graph = Source { name: "GRAPH".into(), text: graph };
        let none = Source::none();
        let told = message(refusal, &Texts { cells: &cells, graph: &graph, arrivals: &none, netlist: &none });
        let first = told.lines().next().unwrap();
        let file = if matches!(refusal.number, 2..=6 | 27) { "CELLS" } else { "GRAPH" };
        let behind =
            first.strip_prefix(file).and_then(|rest| rest.split_once(&format!(": refused {}: ", refusal.number)));
        let (line, what) = behind.unwrap_or_else(|| panic!("{refusal}: {told}"));
        assert!(line.is_empty() || line.strip_prefix(':').is_some_and(|n| n.parse::<usize>().is_ok()), "{told}");
        assert!(told.contains("\nhelp: ") && told.ends_with('\n') && told.is_ascii(), "{told}");
        // The general words alone would leave the reader to find the fault.
        let general = [refusal.what(), "not a cell line", "not an AIGER header"];
        let breaks = what.ends_with("breaks its form");
        let told_in_full = [1, 2, 15, 16, 17].contains(&refusal.number) || !general.contains(&what) && !breaks;
        assert!(told_in_full, "{refusal}: {told}\n{:?}\n{:?}", cells.text().escape_ascii(), graph.text.escape_ascii());
    }
    for number in [2, 4, 5, 6, 7, 8, 9, 11, 12, 13, 14, 15, 17, 19, 20, 21, 27] {
        assert!(numbers.contains_key(&number), "no refusal {number} among {numbers:?}");
    }
}

/// A net, a cell or a line of the netlist in place of another.
fn exchanged(text: &str, chance: &mut Chance) -> String {
    let mut lines: Vec<String> = text.lines().map(String::from).collect();
    let (one, other) = (chance.below(lines.len()), chance.below(lines.len()));
    match chance.below(3) {
        0 => lines.swap(one, other),
        1 => lines.remove(one).clear(),
        _ => {
            let mut words: Vec<String> = lines[one].split([' ', '=']).map(String::from).collect();
            let taken: Vec<&str> = lines[other].split([' ', '=']).collect();
            let at = chance.below(words.len());
            words[at] = taken[chance.below(taken.len())].into();
            // The pins' signs where they were.
            let signs =
                lines[one].chars().filter(|letter| " =".contains(*letter)).map(String::from).chain([String::new()]);
            lines[one] = words.iter().cloned().zip(signs).map(|(word, sign)| word + &sign).collect();
        }
    }
    lines.iter().map(|line| format!("{line}\n")).collect()
}

#[test]
fn every_verdict_on_a_netlist_is_told() {
    let mut chance = Chance(14);
    let mut numbers: BTreeMap<u32, usize> = BTreeMap::new();
    let mut whats: BTreeMap<&str, usize> = BTreeMap::new();
    let printed = map(CELLS, GRAPH, b"").unwrap().text;
    let (cells, _) = Library::read(Source { name: "CELLS".into(), text: CELLS.to_vec() });
    let graph = Source { name: "GRAPH".into(), text: GRAPH.to_vec() };
    for k in 0..40_000 {
        let text = exchanged(&printed, &mut chance).into_bytes();
        let text = if k % 3 == 0 { damaged(&text, &mut chance) } else { text };
        let judged = check(CELLS, GRAPH, &text);
        let netlist = Source { name: "NETLIST".into(), text };
        let shows = || netlist.text.escape_ascii().to_string();
        let told = match judged {
            Ok(Checked::Accepted) => continue,
            Ok(Checked::Differs { setting, output }) => {
                let told = difference(setting, output, &graph, &netlist);
                assert!(told.contains(": differs: output o") && told.contains(": the netlist gives "), "{told}");
                assert!(told.contains("\n    a=") && told.contains(&format!(" setting {setting}, ")), "{told}");
                *numbers.entry(0).or_default() += 1;
                told
            }
            Err(refusal) => {
                let texts = Texts { cells: &cells, graph: &graph, arrivals: &Source::none(), netlist: &netlist };
                let told = message(refusal, &texts);
                *numbers.entry(refusal.number).or_default() += 1;
                let (_, what) = told.split_once(&format!(": refused {}: ", refusal.number)).expect("the number");
                let kinds =
                    ["is already driven", "no line drives net", "is on a circle", "netlist: ", "the file ends where"];
                let kind = kinds.into_iter().find(|kind| what.lines().next().unwrap().contains(kind));
                *whats.entry(kind.unwrap_or_else(|| panic!("{refusal}: {told}\n{}", shows()))).or_default() += 1;
                told
            }
        };
        let line = told.strip_prefix("NETLIST:").and_then(|rest| rest.split_once(':')).map(|(line, _)| line);
        assert!(line.is_some_and(|line| line.parse::<usize>().is_ok()), "{told}");
        assert!(told.contains("\nhelp: ") && told.ends_with('\n') && told.is_ascii(), "{told}");
    }
    assert!(numbers.len() == 3 && numbers.values().all(|&n| n > 100), "{numbers:?}");
    assert!(whats.len() == 5 && whats.values().all(|&n| n > 50), "{whats:?}");
}
