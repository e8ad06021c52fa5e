//! The verification of joined netlists against the proved check: netlists of random graphs, printed and edited at random. A header whose M is over the check's
//! limit is refused by it (9), so that the readers and the simulation of `verify` decide the same question by themselves.

use arraymap::Checked;
use arraymap_cli::verify::{self, Fault, Verdict};

struct Random(u64);

impl Random {
    fn below(&mut self, n: usize) -> usize {
        self.0 ^= self.0 << 13;
        self.0 ^= self.0 >> 7;
        self.0 ^= self.0 << 17;
        ((self.0 >> 11) % n as u64) as usize
    }
}

const CELLS: &[u8] = b"cell pins table area d0 d1 d2 d3\ninv 1 0001 1 10 0 0 0\nnand2 2 0007 2 20 20 0 0\nnor2 2 0001 2 22 22 0 0\n\
    aoi21 3 0007 3 30 30 20 0\nmuxi2 3 0035 4 40 40 40 0\nnand4 4 7fff 4 50 50 50 50\none 0 0001 1 0 0 0 0\nzero 0 0000 1 0 0 0 0\n";

/// A graph behind its header's M: inputs in order, ANDs over any earlier variables.
fn random(random: &mut Random) -> (usize, String) {
    let (inputs, ands) = (1 + random.below(6), 1 + random.below(14));
    let outputs = 1 + random.below(4);
    let mut text = format!(" {inputs} 0 {outputs} {ands}\n");
    (1..=inputs).for_each(|k| text += &format!("{}\n", 2 * k));
    for _ in 0..outputs {
        text += &format!("{}\n", random.below(2 * (inputs + ands) + 2));
    }
    for k in 0..ands {
        let top = inputs + k + 1;
        text += &format!("{} {} {}\n", 2 * top, random.below(2 * top), random.below(2 * top));
    }
    (inputs + ands, text)
}

/// One edit: words exchanged, a word taken from elsewhere, lines exchanged, left out or repeated.
fn edited(netlist: &str, random: &mut Random) -> String {
    let mut lines: Vec<String> = netlist.lines().map(String::from).collect();
    let (one, other) = (random.below(lines.len()), random.below(lines.len()));
    match random.below(6) {
        0 => lines.swap(one, other),
        1 => drop(lines.remove(one)),
        2 => lines.insert(one, lines[other].clone()),
        _ => {
            // Of gates mostly: then only a cell or a net is another.
            let gates: Vec<usize> = (0..lines.len()).filter(|k| lines[*k].starts_with(".gate")).collect();
            let is_plain = gates.is_empty() || random.below(4) == 0;
            let mut any = || gates[random.below(gates.len())];
            let (one, other) = if is_plain { (one, other) } else { (any(), any()) };
            let from: Vec<String> = lines[other].split(' ').map(String::from).collect();
            let mut words: Vec<String> = lines[one].split(' ').map(String::from).collect();
            let (at, taken) = (random.below(words.len()), &from[random.below(from.len())]);
            words[at] = match (words[at].split_once('='), taken.split_once('=')) {
                // A pin gets another net.
                (Some((pin, _)), Some((_, net))) => format!("{pin}={net}"),
                _ => taken.clone(),
            };
            lines[one] = words.join(" ");
        }
    }
    // The check reads up to `.end`; here nothing may follow but comments.
    let end = lines.iter().position(|line| line == ".end").map_or(lines.len(), |end| end + 1);
    lines[..end].join("\n") + "\n"
}

#[test]
fn verdicts_are_those_of_the_proved_check() {
    let mut random_ = Random(0x0054_5eed);
    let mut seen = [0; 4];
    for _ in 0..600 {
        let (highest, rest) = random(&mut random_);
        let graph = format!("aag {highest}{rest}").into_bytes();
        let large = format!("aag 5000{rest}").into_bytes();
        let Ok(mapped) = arraymap::map(CELLS, &graph, b"") else { continue };
        let printed = mapped.text.split_inclusive('\n').filter(|line| !line.starts_with('#')).collect::<String>();
        for k in 0..24 {
            let text = if k == 0 { printed.clone() } else { edited(&printed, &mut random_) };
            let checked = arraymap::check(CELLS, &graph, text.as_bytes());
            let found = verify::netlist(CELLS, &large, text.as_bytes());
            match checked {
                Ok(Checked::Accepted) => {
                    assert!(matches!(found, Ok(Verdict::AllAssignments { .. })), "{found:?}\n{rest}{text}");
                    seen[0] += 1;
                }
                Ok(Checked::Differs { .. }) => {
                    assert!(matches!(found, Err(Fault::Differs { .. })), "{found:?}\n{rest}{text}");
                    seen[1] += 1;
                }
                // A net that is driven twice, or not at all, or on a cycle.
                Err(refusal) if refusal.number == 33 => {
                    assert!(matches!(found, Err(Fault::Text(_))), "{found:?}\n{rest}{text}");
                    seen[2] += 1;
                }
                // The check has one form of a netlist; BLIF has more.
                Err(_) => seen[3] += 1,
            }
        }
    }
    assert!(seen.iter().all(|count| *count > 100), "{seen:?}");
}

#[test]
fn refusals_of_the_proved_check_are_faults() {
    let graph = b"aag 3 2 0 1 1\n2\n4\n6\n6 2 4\n";
    let netlist = ".model top\n.inputs p1 p2\n.outputs o0\n.gate nand2 A=p1 B=p2 O=m3\n.gate inv A=m3 O=p3\n.names p3 o0\n1 1\n.end\n";
    assert_eq!(verify::netlist(CELLS, graph, netlist.as_bytes()), Ok(Verdict::ProvedCheck));
    let twice = netlist.replace(".names", ".gate inv A=m3 O=p3\n.names");
    let Err(Fault::Text(why)) = verify::netlist(CELLS, graph, twice.as_bytes()) else { panic!("it is accepted") };
    assert!(why.contains("the proved check rejects the netlist: refused 33"), "{why}");
    let wrong = netlist.replace("nand2", "nor2");
    let Err(Fault::Differs { assignment, output, name }) = verify::netlist(CELLS, graph, wrong.as_bytes()) else {
        panic!("it is accepted")
    };
    assert_eq!((assignment, output, name.as_str()), (vec![true, false], 0, "o0"));
    // A header with larger numbers than the check has is no refusal of the netlist.
    let huge = b"aag 70000 2 0 1 1\n2\n4\n6\n6 2 4\n";
    assert_eq!(verify::netlist(CELLS, huge, netlist.as_bytes()), Ok(Verdict::AllAssignments { used: 2, inputs: 2 }));
}

#[test]
fn what_was_not_decided_is_not_called_equal() {
    let tried = verify::Tried { random: 1 << 20, directed: 688 };
    assert_eq!(
        Verdict::NotDecided(tried, "ABC is not installed".into()).to_string(),
        "not proved; no difference in 1048576 random input vectors and 688 directed ones (ABC is not installed)"
    );
    assert_eq!(
        Verdict::AllAssignments { used: 14, inputs: 14 }.to_string(),
        "equal, under all 16384 input assignments"
    );
    assert_eq!(
        Verdict::AllAssignments { used: 14, inputs: 30 }.to_string(),
        "equal, under all 16384 input assignments of the 14 inputs in use"
    );
}

/// A block with latches, in the names of a library.
#[test]
fn a_block_is_compared_with_its_own_text() {
    let genlib = b"GATE INVX1 1 Y=!A1; PIN * INV 1 999 1 0 1 0\nGATE \"ND2\" 1 Y=!(A1*B1); PIN * INV 1 999 1 0 1 0\n";
    let given =
        b".model m\n.inputs a b\n.outputs y q\n.latch n q re c 2\n.names a b y\n11 1\n.names a q n\n0- 1\n-0 1\n";
    let written = ".model m\n.inputs a b\n.outputs y q\n.latch n q re c 2\n.gate ND2 A1=a B1=b Y=x\n.gate INVX1 A1=x Y=y\n.gate ND2 A1=q B1=a Y=n\n.end\n";
    let verdict = |text: &str| verify::block(genlib, given, text.as_bytes());
    assert_eq!(verdict(written), Ok(Verdict::AllAssignments { used: 3, inputs: 3 }));
    for (old, new, why) in [
        ("A1=q B1=a Y=n", "A1=b B1=a Y=n", "at output n"),
        ("re c 2", "re c 1", "the latches are not those of the block"),
        ("Y=x", "Y=q", "driven twice"),
        (".outputs y q", ".outputs y", "output 1 is n, not q"),
        (".gate INVX1 A1=x", ".gate inv A1=x", "no cell of the library has this name"),
    ] {
        let text = written.replace(old, new);
        assert_ne!(text, written);
        let found = verdict(&text).expect_err(why).to_string();
        assert!(found.contains(why), "{why}: {found}");
    }
}
