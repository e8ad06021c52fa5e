//! Libraries as tools write them, against the proved reader: what it takes is read alike, dressed as tools dress it or not; what is refused is told.

use arraymap_cli::foundry::{normalise, read, Wish};
use std::collections::BTreeMap;

/// The same numbers on every run.
struct Chance(u64);

impl Chance {
    fn below(&mut self, n: usize) -> usize {
        self.0 = self.0.wrapping_mul(6_364_136_223_846_793_005).wrapping_add(1_442_695_040_888_963_407);
        (self.0 >> 33) as usize % n
    }

    fn pick<'a>(&mut self, words: &[&'a str]) -> &'a str {
        words[self.below(words.len())]
    }
}

const PINS: &[&str] = &["a", "b", "B2", "_x", "0", "GATE", "PIN", "CONST0", "CONST1"];

fn expression(chance: &mut Chance, depth: usize) -> String {
    let mut text = String::new();
    for k in 0..=chance.below(3) {
        if k > 0 {
            text += chance.pick(&["*", "+", " * ", "+ "]);
        }
        text += chance.pick(&["", "", "!", "!!"]);
        if depth > 0 && chance.below(3) == 0 {
            text += &format!("({})", expression(chance, depth - 1));
        } else {
            text += PINS[chance.below(PINS.len())];
        }
        text += chance.pick(&["", "", "'", "''"]);
    }
    text
}

/// A library in the proved reader's form, or nearly.
fn library(chance: &mut Chance) -> String {
    let mut text = String::new();
    for k in 0..=chance.below(4) {
        let area = chance.pick(&["1", "0.5", "65.535", "12.000", "00.1", "66", "1.2345"]);
        let out = chance.pick(&["O", "a", "GATE"]);
        text += &format!("GATE g{k} {area} {out}={};\n", expression(chance, 2));
        for _ in 0..chance.below(3) {
            let name = chance.pick(&["a", "b", "B2", "_x", "0", "GATE", "PIN", "unused"]);
            text += &format!("PIN {name} INV 1 999 {} 0 2 0\n", chance.pick(&["1", "0.001", "3.14159"]));
        }
        if chance.below(5) > 0 {
            text += "PIN * NONINV 1 999 1.5 0.1 1.25 0.1\n";
        }
    }
    text
}

const BYTES: &[u8] = b" \t\n0A.(;=!'\"#*+|&^\xff\0";

fn damaged(text: &str, chance: &mut Chance) -> Vec<u8> {
    let mut text = text.as_bytes().to_vec();
    for _ in 0..=chance.below(2) {
        let at = chance.below(text.len());
        match chance.below(5) {
            0 => text[at] = BYTES[chance.below(BYTES.len())],
            1 => text.insert(at, BYTES[chance.below(BYTES.len())]),
            2 => drop(text.remove(at)),
            3 => text.truncate(at.max(1)),
            _ => text[at] = chance.below(256) as u8,
        }
    }
    text
}

/// The same library as tools write it.
fn dressed(text: &str, chance: &mut Chance) -> String {
    let mut dressed = String::from("# a library; GATE no\n\n");
    for line in text.lines() {
        let words: Vec<&str> = line.splitn(3, ' ').collect();
        if words[0] == "GATE" {
            if chance.below(3) == 0 {
                dressed += "LATCH \"l\" 2 Q=D; PIN D NONINV 1 999 1 .2 1 .2 SEQ Q ANY RISING_EDGE\nCONTROL GATE 1 999 1 .2 1 .2 CONSTRAINT D .3 .05\n";
            }
            let words2 = words[2].replace('*', chance.pick(&["*", "&", " "])).replace('+', chance.pick(&["+", "|"]));
            dressed += &format!("GATE{}\"{}\" {words2}", chance.pick(&["\t", "  ", "\n"]), words[1]);
        } else {
            dressed += &line.replace(' ', chance.pick(&[" ", "\t", " \n "])).replace("PIN \n *", "PIN *");
        }
        dressed += chance.pick(&["\n", "\r\n", " ", " # remark; PIN\n", "\n\n"]);
    }
    dressed
}

#[test]
fn what_the_proved_reader_takes_is_read_alike() {
    let mut chance = Chance(46);
    let mut answers: BTreeMap<u32, usize> = BTreeMap::new();
    for _ in 0..4_000 {
        let text = library(&mut chance);
        let plain = arraymap::cells(text.as_bytes());
        *answers.entry(plain.as_ref().map_or_else(|refusal| refusal.number, |_| 0)).or_default() += 1;
        let other = read(text.as_bytes(), &Wish::default());
        let clothed = dressed(&text, &mut chance);
        let second = read(clothed.as_bytes(), &Wish::default());
        match plain {
            Ok(cells) => {
                assert_eq!(other.map(|(_, cells)| cells), Ok(cells.clone()), "{text}");
                assert_eq!(second.map(|(_, cells)| cells), Ok(cells), "{text}\n{clothed}");
            }
            Err(refusal) => {
                let fault = other.expect_err("the reader refuses it");
                assert_eq!(fault.number, refusal.number, "{text}");
                assert_ne!(fault.what, refusal.what(), "{text}");
                let fault = second.expect_err("the reader refuses it");
                assert_eq!(fault.number, refusal.number, "{clothed}");
            }
        }
    }
    assert!([0, 22, 23, 24].iter().all(|number| answers.get(number).is_some_and(|&n| n > 100)), "{answers:?}");
}

#[test]
fn whatever_is_refused_is_told() {
    let mut chance = Chance(47);
    let (mut refused, mut wider) = (0, 0);
    for _ in 0..20_000 {
        let text = damaged(&library(&mut chance), &mut chance);
        let plain = arraymap::cells(&text);
        match (plain, read(&text, &Wish::default())) {
            (Ok(cells), Ok((_, other))) => assert_eq!(cells, other, "{}", String::from_utf8_lossy(&text)),
            (Ok(_), Err(fault)) => panic!("{fault}\n{}", String::from_utf8_lossy(&text)),
            (Err(_), Ok(_)) => wider += 1,
            (Err(_), Err(fault)) => {
                refused += 1;
                assert!((22..=24).contains(&fault.number) && fault.byte <= text.len(), "{fault:?}");
                let plain = arraymap::Refusal { number: fault.number, place: 0 }.what();
                assert_ne!(fault.what, plain, "{}", String::from_utf8_lossy(&text));
            }
        }
    }
    assert!(refused > 3_000 && wider > 300, "{refused} {wider}");
}

/// A library with more gates than a cell text has, names that no cell can have, gates of five pins and areas over 65.535: made to fit.
#[test]
fn a_large_library_is_made_to_fit() {
    let mut text =
        String::from("# large\nGATE $_ONE 0 Y=CONST1;\nGATE $_NOT_ 464 Y=!A; PIN * INV 1 999 0.25 0 0.75 0\n");
    let signs = ["*", "+", "^"];
    for k in 0..60 {
        let (one, two) = (signs[k % 3], signs[k / 3 % 3]);
        let inner = if k % 2 == 0 { "" } else { "!" };
        let pins = if k % 10 == 9 { "A B C D E".into() } else { format!("{inner}(A{one}B){two}{inner}C") };
        text += &format!("GATE $cell_number_{k} {} Y={pins}; PIN * X 1 999 {}.5 0 1.25 0\n", 464 * (k + 1), k % 7);
    }
    let wish = Wish { rename: true, most: Some(32), measure: true };
    let (normal, cells) = read(text.as_bytes(), &wish).expect("it fits");
    assert!((10..=32).contains(&normal.gates.len()), "{}", normal.gates.len());
    assert_eq!(normal.gates.len() + normal.left_out.len(), 62);
    assert!(
        normal.gates.iter().any(|gate| gate.name == "$_NOT_") && normal.gates.iter().all(|gate| gate.pins.len() <= 4)
    );
    let graph = b"aag 1 1 0 2 0\n2\n2\n3\n";
    arraymap::map(&cells, graph, b"").expect("the mapper takes it");
    let cells = arraymap_cli::cells::read(&cells);
    assert_eq!(cells.len(), normal.gates.len());
    for (cell, gate) in cells.iter().zip(&normal.gates) {
        assert_eq!((&cell.name, Some(cell.table)), (&gate.cell, gate.table));
        let line = text.lines().find(|line| line.starts_with(&format!("GATE {} ", gate.name))).expect("its line");
        let area = line.split(' ').nth(2).expect("its area");
        assert_eq!(normal.units.area.times(u64::from(cell.area)), area, "{line}");
        assert_eq!(text[gate.byte..].lines().next(), Some(line));
    }
    let inverter = normal.gates.iter().position(|gate| gate.name == "$_NOT_").expect("the inverter");
    assert_eq!(normal.units.delay.times(u64::from(cells[inverter].delays[0])), "0.75");
}

/// Every word of the written text points at a word of the library.
#[test]
fn places_lead_back() {
    let mut chance = Chance(48);
    for _ in 0..500 {
        let text = dressed(&library(&mut chance), &mut chance);
        let Ok(normal) = normalise(text.as_bytes()) else { continue };
        for (at, _) in String::from_utf8_lossy(&normal.text).match_indices("GATE g") {
            let place = normal.place(at);
            assert!(text[place..].starts_with("GATE"), "{text}");
            let end = normal.place(at + 5);
            assert!(
                text[end..]
                    .starts_with(&format!("\"{}\"", normal.gate(&name(&normal.text, at + 5)).expect("a gate").name)),
                "{text}"
            );
        }
    }
}

fn name(text: &[u8], at: usize) -> String {
    text[at..].iter().take_while(|&&byte| byte != b' ').map(|&byte| byte as char).collect()
}
