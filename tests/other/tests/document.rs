//! The reference against the document, the brute force and its own netlists.

use other::reference::{self, Answer};
use other::{blif, checks, gen, CUT_LIMIT, WORDS_EACH};

fn passes(check: checks::Check) {
    match check {
        Ok(counts) => println!("{counts}"),
        Err(wrong) => panic!("{wrong}"),
    }
}

#[test]
fn marked_cases() {
    passes(checks::marked());
}

#[test]
fn limits() {
    passes(checks::limits());
}

#[test]
fn faults() {
    passes(checks::faults(30_000, 1));
}

#[test]
fn damage() {
    passes(checks::damage());
}

#[test]
fn twins() {
    passes(checks::twins(4_000, 1));
}

#[test]
fn line_ends() {
    passes(checks::line_ends(4_000, 1));
}

#[test]
fn arrivals() {
    passes(checks::without_arrivals());
    passes(checks::arrivals(3_000, 1));
}

#[test]
fn ranges() {
    passes(checks::ranges(1_500, 200, 1));
}

#[test]
fn netlists() {
    passes(checks::netlists(4_000, 1));
}

#[test]
fn all_covers() {
    passes(checks::all_covers(4_000, 1));
}

#[test]
fn every_small_graph() {
    passes(checks::every_small_graph());
}

/// The longer run: `cargo test -- --ignored`.
#[test]
#[ignore = "takes minutes"]
fn longer() {
    passes(checks::netlists(40_000, 2));
    passes(checks::all_covers(20_000, 2));
    passes(checks::twins(40_000, 2));
    passes(checks::line_ends(40_000, 2));
    passes(checks::arrivals(40_000, 2));
    passes(checks::ranges(20_000, 200, 2));
}

/// Runs where GRAPHS_DIR names a folder of graphs with its `graphs.tsv`.
#[test]
fn real_graphs() {
    match std::env::var_os("GRAPHS_DIR") {
        Some(folder) => passes(checks::real_graphs(folder.as_ref())),
        None => println!("no GRAPHS_DIR"),
    }
}

// ---------------------------------------------------------------- request N1

/// With the library of case B and the memories of the program.
fn map(graph: &[u8]) -> (Answer, String) {
    let (answer, netlist) =
        reference::map_without_arrivals(&gen::library_text(&gen::small_library()), graph, 32_768, 65_536);
    (answer, String::from_utf8_lossy(&netlist).into_owned())
}

/// Number and place; 0 and 0 for success.
fn refusal(graph: &[u8]) -> (u32, u32) {
    let (answer, _) = map(graph);
    (answer.number, if answer.number == 0 { 0 } else { answer.value })
}

/// The operands of the AND in `aig M I 0 0 1` with I inputs and these bytes.
fn operands(inputs: usize, bytes: &[u8]) -> Option<(u32, u32)> {
    let head = format!("aig {} {inputs} 0 0 1\n", inputs + 1);
    let graph = [head.as_bytes(), bytes].concat();
    reference::read_graph(&graph, 700_000).ok().and_then(|graph| graph.operands[inputs + 1])
}

/// Case B in binary: its header takes 14 bytes, the output line 2, and 6 is
/// 6 - 2 = 4 with 4 - 2 = 2.
const B: &[u8] = b"aig 3 2 0 1 1\n6\n\x02\x02";

/// Case F in binary: 8 of 4 and 2, 10 of 8 and 6, 12 of 10 and 8.
const F: &[u8] = b"aig 6 3 0 1 3\n12\n\x04\x02\x02\x02\x02\x02";

/// "Read the `aig` form too, known by the header's first word."
#[test]
fn known_by_the_first_word() {
    assert_eq!(map(B).1, gen::LISTING);
    // The same bytes under the other word: 6 is an input line, then no line ends.
    assert_eq!(refusal(b"aag 3 2 0 1 1\n6\n\x02\x02"), (11, 16));
    for head in
        ["aig", "aigs 3 2 0 1 1\n", "Aig 3 2 0 1 1\n", "aog 3 2 0 1 1\n", "aig  3 2 0 1 1\n", "aig 3 2 0 1 01\n"]
    {
        assert_eq!(refusal(&[head.as_bytes(), b"6\n\x02\x02"].concat()), (7, 0), "{head}");
    }
}

/// "Inputs are variables 1 to I and ANDs follow in sequence."
#[test]
fn variables_stand_in_sequence() {
    let graph = reference::read_graph(F, 32_768).expect("a good text");
    assert_eq!(graph.inputs, [1, 2, 3]);
    let ands: Vec<usize> = (0..=6).filter(|&variable| graph.operands[variable].is_some()).collect();
    assert_eq!(ands, [4, 5, 6]);
    let (_, netlist) = map(b"aig 3 2 0 3 1\n6\n4\n2\n\x02\x02");
    assert!(netlist.starts_with(".model top\n.inputs p1 p2\n.outputs o0 o1 o2\n"), "{netlist}");
    assert!(netlist.contains("\n.names p3 o0\n1 1\n.names p2 o1\n1 1\n.names p1 o2\n1 1\n.end\n"), "{netlist}");
}

/// "Each AND is two differences, left minus first operand and first minus
/// second."
#[test]
fn two_differences() {
    let graph = reference::read_graph(F, 32_768).expect("a good text");
    assert_eq!(graph.operands[4..], [Some((4, 2)), Some((8, 6)), Some((10, 8))]);
    // 6 - 1 = 5 and 5 - 2 = 3: both complemented.
    assert_eq!(operands(2, &[1, 2]), Some((5, 3)));
    assert_eq!(operands(2, &[6, 0]), Some((0, 0)));
    assert_eq!(operands(2, &[1, 5]), Some((5, 0)));
}

/// "A difference is in groups of seven bits, lowest first, the top bit set on
/// all but the last byte."
#[test]
fn groups_of_seven_bits() {
    // The left literal is 2 * 65 = 130.
    assert_eq!(operands(64, &[0x7f, 0]), Some((3, 3)));
    assert_eq!(operands(64, &[0x80, 0x01, 0]), Some((2, 2)));
    assert_eq!(operands(64, &[0x81, 0x01, 0]), Some((1, 1)));
    assert_eq!(operands(64, &[0x82, 0x01, 0]), Some((0, 0)));
    assert_eq!(operands(64, &[0x01, 0x81, 0x01]), Some((129, 0)));
    // 8190 = 126 + 128 * 63.
    assert_eq!(operands(4_094, &[0xfe, 0x3f, 0]), Some((0, 0)));
    // A group of zeros at the end is read like any other.
    assert_eq!(operands(64, &[0x81, 0x00, 0x80, 0x00]), Some((129, 129)));
}

/// "A file free of 19 to 21 and its ASCII twin, each within the length in 1,
/// must give the same netlist"
#[test]
fn twins_give_the_same_netlist() {
    assert_eq!(map(B), map(b"aag 3 2 0 1 1\n2\n4\n6\n6 4 2\n"));
    assert_eq!(map(F), map(b"aag 6 3 0 1 3\n2\n4\n6\n12\n8 4 2\n10 8 6\n12 10 8\n"));
}

/// "19 when a binary header's M isn't I + A, tried after 9, place 0."
#[test]
fn nineteen() {
    assert_eq!(refusal(b"aig 4 2 0 1 1\n6\n\x02\x02"), (19, 0));
    assert_eq!(refusal(b"aig 1 0 0 0 0\n"), (19, 0));
    assert_eq!(refusal(b"aig 0 0 0 0 0\n"), (0, 0));
    assert_eq!(refusal(b"aag 1 0 0 0 0\n"), (0, 0), "an ASCII header may leave variables out");
    assert_eq!(refusal(b"aig 2 2 0 1 1\n6\n\x02\x02"), (9, 0), "I + A exceeds M");
    assert_eq!(refusal(b"aig 4096 2 0 1 1\n"), (9, 0));
    assert_eq!(refusal(b"aig 4 2 1 1 1\n"), (8, 0));
    // 19 before 10: no word is lent.
    let cells = gen::library_text(&gen::small_library());
    let number = |graph: &[u8], words| reference::map_without_arrivals(&cells, graph, words, 65_536).0.number;
    assert_eq!(number(b"aig 4 2 0 1 1\n", 0), 19);
    assert_eq!(number(B, 4 * WORDS_EACH), 10);
    assert_eq!(number(B, 4 * WORDS_EACH + 1), 0);
    // "Work memory is unchanged by every refusal tried up to 10, and all zero
    // after a later one and after success."
    let kept: Vec<u32> = (0..=21).filter(|&number| reference::leaves_work_memory(number)).collect();
    assert_eq!(kept, [1, 2, 3, 4, 5, 6, 7, 8, 9, 10, 19]);
}

/// "Output lines are text as before and keep 11 and 12."
#[test]
fn output_lines() {
    assert_eq!(refusal(b"aig 3 2 0 1 1\n06\n\x02\x02"), (11, 14));
    assert_eq!(refusal(b"aig 3 2 0 1 1\n6\r\n\x02\x02"), (11, 14));
    assert_eq!(refusal(b"aig 3 2 0 1 1\n6"), (11, 14));
    assert_eq!(refusal(b"aig 3 2 0 1 1\n"), (11, 14), "missing: the text's length");
    assert_eq!(refusal(b"aig 3 2 0 2 1\n6\n65536\n\x02\x02"), (11, 16));
    assert_eq!(refusal(b"aig 3 2 0 2 1\n6\n"), (11, 16));
    assert_eq!(refusal(b"aig 3 2 0 1 1\n7\n\x02\x02"), (0, 0));
    assert_eq!(refusal(b"aig 3 2 0 1 1\n8\n\x02\x02"), (12, 14));
    assert_eq!(refusal(b"aig 3 2 0 2 1\n8\nx\n\x02\x02"), (12, 14), "line by line");
}

/// "20 when a difference takes more than two bytes or the text ends before its
/// end"
#[test]
fn twenty() {
    assert_eq!(refusal(b"aig 3 2 0 1 1\n6\n\x82\x80\x00\x02"), (20, 16));
    assert_eq!(refusal(b"aig 3 2 0 1 1\n6\n\x82\x80"), (20, 16), "also at the text's end");
    assert_eq!(refusal(b"aig 3 2 0 1 1\n6\n\x82"), (20, 16));
    assert_eq!(refusal(b"aig 3 2 0 1 1\n6\n"), (20, 16), "missing: the text's length");
    assert_eq!(refusal(b"aig 3 2 0 1 1\n6\n\x02"), (20, 17));
    assert_eq!(refusal(b"aig 3 2 0 1 1\n6\n\x02\x82"), (20, 17));
    assert_eq!(refusal(b"aig 3 2 0 1 1\n6\n\x82\x00\xff\xff\x01"), (20, 18));
    assert_eq!(refusal(b"aig 3 2 0 1 1\n6\n\x82\x00\x82\x00"), (0, 0));
}

/// "21 when a first difference is 0 or a difference exceeds what it is taken
/// from"
#[test]
fn twenty_one() {
    assert_eq!(refusal(b"aig 3 2 0 1 1\n6\n\x00\x02"), (21, 16));
    assert_eq!(refusal(b"aig 3 2 0 1 1\n6\n\x80\x00\x02"), (21, 16), "0 in two groups");
    assert_eq!(refusal(b"aig 3 2 0 1 1\n6\n\x07\x02"), (21, 16), "7 exceeds 6");
    assert_eq!(refusal(b"aig 3 2 0 1 1\n6\n\xff\x7f\x02"), (21, 16));
    assert_eq!(refusal(b"aig 3 2 0 1 1\n6\n\x02\x05"), (21, 17), "5 exceeds 4");
    assert_eq!(refusal(b"aig 3 2 0 1 1\n6\n\x06\x01"), (21, 17), "1 exceeds 0");
    assert_eq!(refusal(b"aig 3 2 0 1 1\n6\n\x02\x00"), (0, 0), "a second difference may be 0");
    assert_eq!(refusal(b"aig 3 2 0 1 1\n6\n\x02\x04"), (17, 0), "4 of 4 leaves variable 0");
    // The fourth AND's left literal is 2 * 6 = 12.
    let four = b"aig 6 2 0 0 4\n\x02\x02\x02\x02\x02\x02";
    assert_eq!(refusal(&[&four[..], b"\x0c\x00"].concat()), (0, 0));
    assert_eq!(refusal(&[&four[..], b"\x0d\x00"].concat()), (21, 20));
}

/// "both are tried difference by difference after the output lines, at the
/// difference's first byte"
#[test]
fn difference_by_difference() {
    assert_eq!(refusal(b"aig 3 2 0 1 1\n6\n\x00"), (21, 16), "before the missing second");
    assert_eq!(refusal(b"aig 3 2 0 1 1\n6\n\x07\xff\xff"), (21, 16));
    assert_eq!(refusal(b"aig 3 2 0 1 1\n6\n\x80\x80\x00"), (20, 16), "20 before 21 on one difference");
    assert_eq!(refusal(b"aig 4 2 0 0 2\n\x02\x05\x80\x80"), (21, 15));
    assert_eq!(refusal(b"aig 4 2 0 0 2\n\x02\x80\x80\x00"), (20, 15));
    assert_eq!(refusal(b"aig 3 2 0 1 1\n8\n\x00"), (12, 14), "after the output lines");
    assert_eq!(refusal(b"aig 3 2 0 2 1\n6\nx\n\x00"), (11, 16));
    // "What follows the last AND line isn't read."
    assert_eq!(map(&[B, b"\xff\xff\x00i0 x\nc\n"].concat()), map(B));
    assert_eq!(refusal(b"aig 0 0 0 0 0\n\xff\xff"), (0, 0));
}

/// "Demand 1's list takes in every number added here or later, in the place
/// given."
#[test]
fn in_the_place_given() {
    let cells = gen::library_text(&gen::small_library());
    let broken: &[u8] = b"aig 4 2 1 1 1\n6\n\x00";
    assert_eq!(reference::map_without_arrivals(&cells[1..], broken, 0, 0).0.number, 2, "the library's first");
    assert_eq!(refusal(&[broken, &[0; 65_537]].concat()), (1, 0));
    assert_eq!(refusal(&[B, &[0; 65_536 - 18]].concat()), (0, 0));
    assert_eq!(refusal(&[B, &[0; 65_537 - 18]].concat()), (1, 0));
    assert_eq!(refusal(b"aig 4 2 1 1\n"), (7, 0));
    assert_eq!(refusal(b"aig 4 2 1 1 1\r\n"), (7, 0));
    // 20 and 21 before 16, 17 and 18.
    let shape = gen::shape_with_cuts(CUT_LIMIT + 1);
    let wide = gen::as_it_comes(shape, &[(0, true)]);
    let good = wide.binary().expect("in sequence");
    assert_eq!(refusal(&good), (16, wide.top as u32));
    assert_eq!(refusal(&good[..good.len() - 1]).0, 20);
    assert_eq!(refusal(b"aig 1 0 0 1 1\n0\n\x01\x01"), (17, 0));
    assert_eq!(refusal(b"aig 1 0 0 1 1\n0\n\x01\x02"), (21, 17));
    let short = |graph: &[u8]| reference::map_without_arrivals(&cells, graph, 32_768, 0).0;
    assert_eq!(short(B), Answer { number: 18, value: gen::LISTING.len() as u32, ..Answer::default() });
    assert_eq!(short(&B[..17]), Answer { number: 20, value: 17, ..Answer::default() });
}

// ---------------------------------------------------------------- request N10

/// Case B's graph with these cell lines under the longer names line.
fn with_ranges(lines: &[&str], arrivals: &str) -> (Answer, String) {
    let cells = gen::RANGED_LINE.to_string() + &text(lines);
    let graph = b"aag 3 2 0 1 1\n2\n4\n6\n6 2 4\n";
    let (answer, netlist) = reference::map(cells.as_bytes(), graph, arrivals.as_bytes(), 32_768, 65_536);
    (answer, String::from_utf8_lossy(&netlist).into_owned())
}

const INV_RANGE: &str = "inv 1 0001 1 10 0 0 0 10 0 0 0";

/// "The netlist is then followed by a line per output, as `# timing o0 30 35`: a low
/// and a high arrival. 18 and the returned length count these lines": a nand2 of 20
/// to 25 and an inv of 10.
#[test]
fn timing_lines() {
    let (answer, netlist) = with_ranges(&[INV_RANGE, "nand2 2 0007 2 25 25 0 0 20 20 0 0"], "");
    let wanted = gen::LISTING.replace("arrival 30", "arrival 35") + "# timing o0 30 35\n";
    assert_eq!(netlist, wanted);
    let figures = Answer { number: 0, value: wanted.len() as u32, gates: 2, area: 3, arrival: 35 };
    assert_eq!((answer, wanted.len()), (figures, 152));
    // Both ends of one pin: the other one decides the low end.
    let (_, netlist) = with_ranges(&[INV_RANGE, "nand2 2 0007 2 25 24 0 0 0 19 0 0"], "");
    assert!(netlist.ends_with("\n# gates 2 area 3 arrival 35\n# timing o0 29 35\n"), "{netlist}");
    // "input arrivals count in both ends": 5 + 20 + 10 and 7 + 19 + 10.
    let (_, netlist) = with_ranges(&[INV_RANGE, "nand2 2 0007 2 20 19 0 0 20 19 0 0"], "input arrival\n0 5\n1 7\n");
    assert!(netlist.ends_with("\n# gates 2 area 3 arrival 36\n# timing o0 36 36\n"), "{netlist}");
}

/// "mapping uses the `d` figures as before": nor2 is quickest by its lowest delay and
/// slowest by `d`.
#[test]
fn the_choice_goes_by_d() {
    let lines = [INV_RANGE, "nand2 2 0007 2 20 20 0 0 20 20 0 0", "and2 2 0008 2 31 31 0 0 0 0 0 0"];
    let (answer, netlist) = with_ranges(&lines, "");
    assert_eq!((answer.gates, answer.arrival), (2, 30), "{netlist}");
    assert!(netlist.ends_with("\n# timing o0 30 30\n"), "{netlist}");
    let lines = [INV_RANGE, "nand2 2 0007 2 20 20 0 0 20 20 0 0", "and2 2 0008 2 30 30 0 0 0 4 0 0"];
    let (answer, netlist) = with_ranges(&lines, "");
    assert_eq!((answer.gates, answer.arrival), (1, 30), "{netlist}");
    assert!(netlist.ends_with("\n# timing o0 4 30\n"), "{netlist}");
}

/// "a line per output", in their order, with no cells too; without outputs none.
#[test]
fn a_line_per_output() {
    let of = |graph: &str, arrivals: &str| {
        let ranged = gen::RANGED_LINE.as_bytes();
        let (answer, netlist) = reference::map(ranged, graph.as_bytes(), arrivals.as_bytes(), 32_768, 65_536);
        assert_eq!((answer.number, answer.value as usize), (0, netlist.len()));
        let netlist = String::from_utf8_lossy(&netlist).into_owned();
        netlist.split_once("arrival ").map_or(String::new(), |(_, rest)| rest.to_string())
    };
    let late = "input arrival\n1 9\n";
    assert_eq!(of("aag 2 2 0 3 0\n2\n4\n4\n2\n4\n", late), "9\n# timing o0 9 9\n# timing o1 0 0\n# timing o2 9 9\n");
    assert_eq!(of("aag 2 2 0 0 0\n2\n4\n", late), "0\n");
}

/// "Every choice of pin delays, each within its range and fixed separately per gate":
/// two gates of one cell, and only one of them at its slowest. The chain's second and
/// gate is 0 to 10 after the first, whichever delay the first has.
#[test]
fn separately_per_gate() {
    let cells = gen::RANGED_LINE.to_string() + "and2 2 0008 1 10 10 0 0 0 0 0 0\n";
    let graph = "aag 5 3 0 2 2\n2\n4\n6\n8\n10\n8 2 4\n10 8 6\n";
    let (_, netlist) = reference::map(cells.as_bytes(), graph.as_bytes(), b"", 32_768, 65_536);
    let read = blif::read(&netlist).expect("a good netlist");
    let kinds = blif::kinds(cells.as_bytes()).expect("a good library");
    let ordered = read.ordered(&kinds).expect("a good netlist");
    assert_eq!(read.timing, [("o0".into(), [0, 10]), ("o1".into(), [0, 20])]);
    let slow = |net: &str| read.ends(&[0, 0, 0], &ordered, |gate, _| if gate.net == net { 10 } else { 0 });
    assert_eq!((slow("p4"), slow("p5")), (vec![10, 10], vec![0, 10]));
}

/// "An absent pin has lowest delay 0, else 6 applies. 27 when a lowest delay exceeds
/// its `d`, after 6 on its line, at that line's offset."
#[test]
fn twenty_seven() {
    let at = (gen::RANGED_LINE.len() + INV_RANGE.len() + 1) as u32;
    assert_eq!(at, 45 + 31);
    for (line, number) in [
        ("nand2 2 0007 2 20 20 0 0 20 20 0 0", 0),
        ("nand2 2 0007 2 20 20 0 0 20 21 0 0", 27),
        ("nand2 2 0007 2 20 20 0 0 21 0 0 0", 27),
        ("nand2 2 0007 2 20 20 0 0 20 20 1 0", 6),
        ("nand2 2 0007 2 20 20 0 0 21 20 0 1", 6),
        ("nand2 2 0017 2 20 20 0 0 21 20 0 0", 6),
        ("inv 2 0007 2 20 20 0 0 21 20 0 0", 5),
        ("nand2 2 0007 2 20 20 0 0 21 20 0", 4),
        ("nand2 2 0007 2 20 20 0 0", 4),
    ] {
        let (answer, _) = with_ranges(&[INV_RANGE, line], "");
        assert_eq!((answer.number, number == 0 || answer.value == at), (number, true), "{line}: {answer:?}");
        // The lines behind it don't matter.
        if number > 0 {
            assert_eq!(with_ranges(&[INV_RANGE, line, INV_RANGE, "x"], "").0, answer, "{line}");
        }
    }
    // Work memory is left as it was.
    let kept: Vec<u32> = (0..28).filter(|&number| reference::leaves_work_memory(number)).collect();
    assert_eq!(kept, [1, 2, 3, 4, 5, 6, 7, 8, 9, 10, 19, 27]);
}

/// "2 takes either names line", and nothing else; a line has the fields of its own.
#[test]
fn either_names_line() {
    let b = "aag 3 2 0 1 1\n2\n4\n6\n6 2 4\n";
    assert_eq!(with_library(&format!("{}{}\n", gen::RANGED_LINE, CELLS[1]), b), (4, 45));
    assert_eq!(with_library(&format!("{}{INV_RANGE}\n", gen::NAMES_LINE), b), (4, 33));
    for names in
        ["cell pins table area d0 d1 d2 d3 l0 l1 l2", "cell pins table area d0 d1 d2 d3 l0 l1 l2 l3 ", "l0 l1 l2 l3"]
    {
        assert_eq!(with_library(&format!("{names}\n{INV_RANGE}\n"), b), (2, 0));
    }
    assert_eq!(with_library(gen::RANGED_LINE.trim_end(), b), (2, 0), "without its end");
    assert_eq!(with_library(&gen::RANGED_LINE.replace('\n', "\r\n"), "aag 0 0 0 0 0\n").0, 0);
}

// ---------------------------------------------------------------- request N5

/// With this library and the memories of the program: number and place, or 0 and
/// the netlist's length.
fn with_library(cells: &str, graph: &str) -> (u32, u32) {
    let (answer, _) = reference::map_without_arrivals(cells.as_bytes(), graph.as_bytes(), 32_768, 65_536);
    (answer.number, answer.value)
}

const CELLS: [&str; 3] = ["cell pins table area d0 d1 d2 d3", "inv 1 0001 1 10 0 0 0", "nand2 2 0007 2 20 20 0 0"];
const GRAPH: [&str; 5] = ["aag 3 2 0 1 1", "2", "4", "6", "6 2 4"];
const LENGTH: u32 = gen::LISTING.len() as u32;

/// "Accept either ending, line by line, in library and ASCII graph.": each line of
/// case B in either way.
#[test]
fn either_ending_line_by_line() {
    for ends in 0..256 {
        let end = |line: usize| ["\n", "\r\n"][ends >> line & 1];
        let cells: String = (0..3).map(|line| format!("{}{}", CELLS[line], end(line))).collect();
        let graph: String = (0..5).map(|line| format!("{}{}", GRAPH[line], end(3 + line))).collect();
        let (answer, netlist) = reference::map_without_arrivals(cells.as_bytes(), graph.as_bytes(), 32_768, 65_536);
        assert_eq!((answer.number, answer.value), (0, LENGTH), "{cells:?} {graph:?}");
        assert_eq!(netlist, gen::LISTING.as_bytes(), "byte 10 ends each line printed");
    }
    // A names line or a header alone.
    assert_eq!(with_library("cell pins table area d0 d1 d2 d3\r\n", "aag 0 0 0 0 0\r\n").0, 0);
}

/// The binary form is no ASCII graph: its header and its output lines end in 10.
#[test]
fn binary_texts_keep_byte_10() {
    assert_eq!(refusal(b"aig 3 2 0 1 1\r\n6\n\x02\x02"), (7, 0));
    assert_eq!(refusal(b"aig 3 2 0 1 1\r\n6\r\n\x02\x02"), (7, 0));
    assert_eq!(refusal(b"aig 3 2 0 1 1\n6\r\n\x02\x02"), (11, 14));
    assert_eq!(refusal(b"aig 3 2 0 2 1\n6\n6\r\n\x02\x02"), (11, 16));
    // 13 and 10 as differences.
    assert_eq!(operands(20, &[13, 10]), Some((29, 19)));
    // The library of a binary graph takes either.
    let cells = CELLS.join("\r\n") + "\r\n";
    assert_eq!(
        reference::map_without_arrivals(cells.as_bytes(), B, 32_768, 65_536),
        reference::map_without_arrivals(&gen::library_text(&gen::small_library()), B, 32_768, 65_536)
    );
}

/// "Offsets still count every byte."
#[test]
fn offsets_count_every_byte() {
    let [names, inv, nand2] = CELLS.map(|line| format!("{line}\r\n"));
    let graph = GRAPH.map(|line| format!("{line}\r\n")).concat();
    assert_eq!((names.len(), inv.len(), nand2.len()), (34, 23, 26));
    let library = |lines: &[&String]| lines.iter().map(|line| line.as_str()).collect::<String>();
    assert_eq!(with_library(&(library(&[&names, &inv]) + "x\r\n"), &graph), (4, 57));
    assert_eq!(with_library(&library(&[&names, &inv, &nand2, &inv]), &graph), (5, 83));
    assert_eq!(with_library(&(library(&[&names, &inv]) + "x 0 0002 1 0 0 0 0\r\n"), &graph), (6, 57));
    let cells = library(&[&names, &inv, &nand2]);
    for (lines, wanted) in [
        ("aag 3 2 0 1 1\r\n2\r\n04\r\n", (11, 18)),
        ("aag 3 2 0 1 1\r\n2\r\n4\r\n", (11, 21)),
        ("aag 3 2 0 1 1\r\n2\r\n5\r\n", (12, 18)),
        ("aag 3 2 0 1 1\r\n2\n2\r\n", (13, 17)),
        ("aag 4 2 0 1 1\r\n2\n4\r\n6\r\n6 2 8\r\n", (14, 23)),
        ("aag 4 2 0 1 1\n2\n4\n6\n6 2 8\n", (14, 20)),
    ] {
        assert_eq!(with_library(&cells, lines), wanted, "{lines:?}");
    }
}

/// "A lone 13 is still a fault of form.", and `13 13 10` is one.
#[test]
fn a_lone_13() {
    let cells = CELLS.join("\n") + "\n";
    let graph = GRAPH.join("\n") + "\n";
    let broken = |text: &str, line: usize, end: &str| {
        let lines: Vec<&str> = text.split_inclusive('\n').collect();
        let contents = lines[line].trim_end();
        [&lines[..line].concat(), contents, end, &lines[line + 1..].concat()].concat()
    };
    for end in ["\r", "\r\r\n", "\r\r", "\r \n", " \r\n", "\r\t\n", "\r\r\r\n"] {
        assert_eq!(with_library(&broken(&cells, 0, end), &graph), (2, 0), "{end:?}");
        assert_eq!(with_library(&broken(&cells, 1, end), &graph), (4, 33), "{end:?}");
        assert_eq!(with_library(&broken(&cells, 2, end), &graph), (4, 55), "{end:?}");
        assert_eq!(with_library(&cells, &broken(&graph, 0, end)), (7, 0), "{end:?}");
        for (line, offset) in [(1, 14), (2, 16), (3, 18), (4, 20)] {
            assert_eq!(with_library(&cells, &broken(&graph, line, end)), (11, offset), "{end:?}");
        }
    }
    // Before a line's first byte, and an empty line.
    for more in ["\r", "\r\n", "\n"] {
        let after = |text: &str, line: usize| broken(text, line, &format!("\n{more}"));
        assert_eq!(with_library(&after(&cells, 0), &graph), (4, 33), "{more:?}");
        assert_eq!(with_library(&after(&cells, 2), &graph), (4, 80), "{more:?}");
        assert_eq!(with_library(&cells, &after(&graph, 0)), (11, 14), "{more:?}");
        assert_eq!(with_library(&cells, &after(&graph, 4)), (0, LENGTH), "isn't read");
    }
    assert_eq!(with_library("\r\n", &graph), (2, 0));
    assert_eq!(with_library(&cells, "\r\n"), (7, 0));
    assert_eq!(with_library(&cells, "aag 3 2 0 1\r1\n2\n4\n6\n6 2 4\n"), (7, 0));
    assert_eq!(with_library(&cells, "aag\r\n3 2 0 1 1\n2\n4\n6\n6 2 4\n"), (7, 0));
}

/// "Texts alike but for line ends, each within the length in 1, give the same
/// netlist.": one 13 more may be what exceeds it.
#[test]
fn within_the_length() {
    let (cells, graph) = (CELLS.join("\n") + "\n", GRAPH.join("\n") + "\n");
    let to_full = "x".repeat(65_536 - graph.len());
    assert_eq!(with_library(&cells, &(graph.clone() + &to_full)), (0, LENGTH));
    let longer = graph.replacen('\n', "\r\n", 1);
    assert_eq!(with_library(&cells, &(longer.clone() + &to_full[1..])), (0, LENGTH));
    assert_eq!(with_library(&cells, &(longer + &to_full)), (1, 0));
}

// ---------------------------------------------------------------- request N7

/// With the library of case B, these lines more and this arrivals text: number and
/// place, or 0 and the latest output's arrival.
fn with_arrivals(more_cells: &str, graph: &[u8], arrivals: &str) -> (u32, u32) {
    let cells = [&gen::library_text(&gen::small_library()), more_cells.as_bytes()].concat();
    let (answer, _) = reference::map(&cells, graph, arrivals.as_bytes(), 32_768, 65_536);
    (answer.number, if answer.number == 0 { answer.arrival } else { answer.value })
}

const CASE_B: &[u8] = b"aag 3 2 0 1 1\n2\n4\n6\n6 2 4\n";

/// "Add a third text (`arrivals.txt`, or empty for none), first line `input
/// arrival`"
#[test]
fn a_third_text() {
    assert_eq!(with_arrivals("", CASE_B, ""), (0, 30));
    assert_eq!(with_arrivals("", CASE_B, "input arrival\n"), (0, 30), "the first line alone");
    assert_eq!(with_arrivals("", CASE_B, "input arrival\r\n"), (0, 30));
    for text in
        ["\n", "x", "input arrival", "input\n", "Input arrival\n", "input arrival \n", "0 5\n", "input arrival\r\r\n"]
    {
        assert_eq!(with_arrivals("", CASE_B, text), (25, 0), "{text:?}");
    }
}

/// "then an input's index from 0 and its arrival, each 0 to 65,535, spaced and ended
/// as library lines are, without leading zeros. Inputs not listed arrive at 0."
#[test]
fn index_and_arrival() {
    let of = |lines: &str| with_arrivals("", CASE_B, &format!("input arrival\n{lines}"));
    assert_eq!(of("0 7\n"), (0, 37));
    assert_eq!(of("1 7\n"), (0, 37));
    assert_eq!(of("0 7\n1 20\n"), (0, 50));
    assert_eq!(of("1 20\r\n0 7\n"), (0, 50), "in any order, with either end");
    assert_eq!(of("0 65535\n"), (0, 65_565));
    for line in [
        "0 65536", "65536 0", "00 1", "0 01", "01 1", "0", "0 1 2", " 0 1", "0 1 ", "0  1", "0\t1", "x 1", "0 -1", "",
        "0 1\r\r",
    ] {
        assert_eq!(of(&format!("{line}\n")), (25, 14), "{line:?}");
        assert_eq!(of(&format!("1 5\r\n{line}\n")), (25, 19), "{line:?}");
    }
    assert_eq!(of("0 1"), (25, 14), "without its end");
    // The index is the place in the file's inputs, and not the variable.
    let swapped = b"aag 3 2 0 1 0\n6\n2\n6\n";
    assert_eq!(with_arrivals("", swapped, "input arrival\n0 9\n"), (0, 9));
    assert_eq!(with_arrivals("", swapped, "input arrival\n1 9\n"), (0, 0));
    // In a binary graph index k is variable k + 1.
    let binary = |output: u8| [b"aig 3 2 0 1 1\n", &[output][..], b"\n\x02\x02"].concat();
    assert_eq!(with_arrivals("", &binary(b'2'), "input arrival\n0 9\n1 8\n"), (0, 9));
    assert_eq!(with_arrivals("", &binary(b'4'), "input arrival\n0 9\n1 8\n"), (0, 8));
    assert_eq!(with_arrivals("", &binary(b'5'), "input arrival\n0 9\n1 8\n"), (0, 18));
}

/// "The input record gains this number, every arrival starts from it"
#[test]
fn every_arrival_starts_from_it() {
    let late = "input arrival\n0 100\n";
    assert_eq!(with_arrivals("", b"aag 1 1 0 1 0\n2\n2\n", late), (0, 100));
    assert_eq!(with_arrivals("", b"aag 1 1 0 1 0\n2\n3\n", late), (0, 110));
    // "A cell without pins" arrives at 0.
    assert_eq!(with_arrivals(TIE0, b"aag 1 1 0 1 0\n2\n0\n", late), (0, 0));
    assert_eq!(with_arrivals(TIE0, b"aag 1 1 0 1 0\n2\n1\n", late), (0, 10));
    // An unused input may be late.
    assert_eq!(with_arrivals("", b"aag 2 2 0 1 0\n2\n4\n4\n", late), (0, 0));
    // The printed lines are the same but for the figure.
    let cells = gen::library_text(&gen::small_library());
    let (_, netlist) = reference::map(&cells, CASE_B, late.as_bytes(), 32_768, 65_536);
    let wanted = gen::LISTING.replace("arrival 30", "arrival 130");
    assert_eq!(String::from_utf8_lossy(&netlist), wanted);
}

/// "no cover so timed gives a printed net earlier": a late input turns the choice.
#[test]
fn the_choice_counts_it() {
    // A pin of 5 and one of 40: the late input goes to the early pin.
    let and2 = "and2 2 0008 2 40 5 0 0\n";
    let chosen = |arrivals: &str| {
        let cells = [&gen::library_text(&gen::small_library()), and2.as_bytes()].concat();
        let (answer, netlist) = reference::map(&cells, CASE_B, arrivals.as_bytes(), 32_768, 65_536);
        let netlist = String::from_utf8_lossy(&netlist).into_owned();
        let line = netlist.lines().find(|line| line.ends_with("O=p3")).unwrap_or_default().to_string();
        (answer.arrival, line)
    };
    assert_eq!(chosen(""), (30, ".gate inv A=m3 O=p3".into()), "20 and 10 before 40");
    assert_eq!(chosen("input arrival\n0 35\n"), (40, ".gate and2 A=p2 B=p1 O=p3".into()));
    assert_eq!(chosen("input arrival\n1 35\n"), (40, ".gate and2 A=p1 B=p2 O=p3".into()));
    assert_eq!(chosen("input arrival\n0 35\n1 35\n"), (65, ".gate inv A=m3 O=p3".into()));
    // The tie at 40 goes to the matched cell.
    assert_eq!(chosen("input arrival\n0 10\n"), (40, ".gate and2 A=p2 B=p1 O=p3".into()));
    assert_eq!(chosen("input arrival\n0 9\n"), (39, ".gate inv A=m3 O=p3".into()));
}

/// "1 covers this text too."
#[test]
fn one_covers_it() {
    assert_eq!(with_arrivals("", CASE_B, &"x".repeat(65_536)), (25, 0));
    assert_eq!(with_arrivals("", CASE_B, &"x".repeat(65_537)), (1, 0));
    assert_eq!(reference::map(b"", b"", &[b'x'; 65_537], 0, 0).0.number, 1);
    assert_eq!(reference::map(b"", b"", &[b'x'; 65_536], 0, 0).0.number, 2);
}

/// "25 when a line breaks its form; 26 when an index is I or more, or is repeated,
/// both line by line after 14, at the line's offset."
#[test]
fn twenty_five_and_twenty_six() {
    let of = |lines: &str| with_arrivals("", CASE_B, &format!("input arrival\n{lines}"));
    assert_eq!(of("1 0\n"), (0, 30));
    assert_eq!(of("2 0\n"), (26, 14));
    assert_eq!(of("65535 0\n"), (26, 14));
    assert_eq!(of("0 1\n0 1\n"), (26, 18));
    assert_eq!(of("0 0\n1 0\n0 0\n"), (26, 22), "an index listed with 0 is listed");
    assert_eq!(of("2 65536\n"), (25, 14), "25 before 26 on one line");
    assert_eq!(of("2 0\nx\n"), (26, 14), "line by line");
    assert_eq!(of("x\n2 0\n"), (25, 14), "line by line");
    assert_eq!(of("0 1\r\n0 1\r\n"), (26, 19), "offsets count every byte");
    // Without inputs every index is 26.
    assert_eq!(with_arrivals("", b"aag 0 0 0 0 0\n", "input arrival\n0 0\n"), (26, 14));
    assert_eq!(with_arrivals("", b"aag 0 0 0 0 0\n", "input arrival\n"), (0, 0));
    // After 14, and before 15 to 18.
    for arrivals in ["x", "input arrival\n9 9\n"] {
        let late = if arrivals == "x" { (25, 0) } else { (26, 14) };
        assert_eq!(with_arrivals("", b"aag 4 2 0 1 1\n2\n4\n8\n6 2 4\n", arrivals), (14, 18));
        assert_eq!(with_arrivals("", b"aig 3 2 0 1 1\n6\n\x00", arrivals), (21, 16));
        assert_eq!(with_arrivals("", b"aag 2 0 0 0 2\n2 4 4\n4 2 2\n", arrivals), late);
        assert_eq!(with_arrivals("", b"aag 1 1 0 1 0\n2\n0\n", arrivals), late);
        let cells = gen::library_text(&gen::small_library());
        let number = |words, bytes| reference::map(&cells, CASE_B, arrivals.as_bytes(), words, bytes).0.number;
        assert_eq!((number(0, 65_536), number(32_768, 0)), (10, late.0));
    }
    // They come after 10, and so work memory is all zero.
    assert!(!reference::leaves_work_memory(25) && !reference::leaves_work_memory(26));
}

// ---------------------------------------------------------------- request N3

/// What stands on the lines, ended by byte 10.
fn text(lines: &[&str]) -> String {
    lines.iter().map(|line| format!("{line}\n")).collect()
}

/// The netlist of these graph lines with the library of case B and these lines.
fn printed(more_cells: &str, graph: &[&str]) -> String {
    let cells = [&gen::library_text(&gen::small_library()), more_cells.as_bytes()].concat();
    let (answer, netlist) = reference::map_without_arrivals(&cells, text(graph).as_bytes(), 32_768, 65_536);
    assert_eq!((answer.number, answer.value as usize), (0, netlist.len()), "{graph:?}");
    String::from_utf8_lossy(&netlist).into_owned()
}

const TIE0: &str = "tie0 0 0000 1 0 0 0 0\n";

/// "Case B and the figure in 18 change"
#[test]
fn case_b() {
    let b = ["aag 3 2 0 1 1", "2", "4", "6", "6 2 4"];
    let listing = [
        ".model top",
        ".inputs p1 p2",
        ".outputs o0",
        ".gate inv A=m3 O=p3",
        ".gate nand2 A=p1 B=p2 O=m3",
        ".names p3 o0",
        "1 1",
        ".end",
        "# gates 2 area 3 arrival 30",
    ];
    assert_eq!(printed("", &b), text(&listing));
    assert_eq!(gen::LISTING, text(&listing));
    // Lines of 11, 14, 12, 20, 27, 13, 4, 5 and 28 bytes.
    let short = |bytes| {
        reference::map_without_arrivals(&gen::library_text(&gen::small_library()), text(&b).as_bytes(), 32_768, bytes).0
    };
    assert_eq!(short(134), Answer { number: 0, value: 134, gates: 2, area: 3, arrival: 30 });
    assert_eq!(short(133), Answer { number: 18, value: 134, ..Answer::default() });
}

/// "Two outputs on one net repeat that net in `.outputs`, and the layout tool
/// refuses repeated names. The list becomes `o0`, `o1` and so on, in file order."
#[test]
fn outputs_on_one_net() {
    let wanted = [
        ".model top",
        ".inputs p1 p2",
        ".outputs o0 o1 o2 o3",
        ".gate inv A=m3 O=p3",
        ".gate nand2 A=p1 B=p2 O=m3",
        ".names m3 o0",
        "1 1",
        ".names p3 o1",
        "1 1",
        ".names p3 o2",
        "1 1",
        ".names m3 o3",
        "1 1",
        ".end",
        "# gates 2 area 3 arrival 30",
    ];
    assert_eq!(printed("", &["aag 3 2 0 4 1", "2", "4", "7", "6", "6", "7", "6 2 4"]), text(&wanted));
}

/// "Before `.end`, each gets `.names` with its net and its own name, then
/// `1 1`.": inputs and their complements.
#[test]
fn outputs_that_are_inputs() {
    let wanted = [
        ".model top",
        ".inputs p2 p1",
        ".outputs o0 o1 o2",
        ".gate inv A=p2 O=m2",
        ".names p1 o0",
        "1 1",
        ".names m2 o1",
        "1 1",
        ".names p1 o2",
        "1 1",
        ".end",
        "# gates 1 area 1 arrival 10",
    ];
    assert_eq!(printed("", &["aag 2 2 0 3 0", "4", "2", "2", "5", "2"]), text(&wanted));
}

/// The same for constants: case H with both.
#[test]
fn outputs_that_are_constants() {
    let wanted = [
        ".model top",
        ".inputs",
        ".outputs o0 o1 o2",
        ".gate tie0 O=p0",
        ".gate inv A=p0 O=m0",
        ".names m0 o0",
        "1 1",
        ".names p0 o1",
        "1 1",
        ".names m0 o2",
        "1 1",
        ".end",
        "# gates 2 area 2 arrival 10",
    ];
    assert_eq!(printed(TIE0, &["aag 0 0 0 3 0", "1", "0", "1"]), text(&wanted));
}

/// "With no names the second or third line is the keyword alone", and no
/// `.names` line stands before `.end`.
#[test]
fn no_outputs() {
    let wanted = [".model top", ".inputs p1", ".outputs", ".end", "# gates 0 area 0 arrival 0"];
    assert_eq!(printed("", &["aag 1 1 0 0 0", "2"]), text(&wanted));
}

/// "`o0`, `o1` and so on": names of more digits, in file order.
#[test]
fn names_of_more_digits() {
    let outputs: Vec<&str> = (0..102).map(|index| ["2", "3"][index % 2]).collect();
    let netlist = printed("", &[&["aag 1 1 0 102 0", "2"], &outputs[..]].concat());
    let lines: Vec<&str> = netlist.lines().collect();
    assert!(lines[2].contains(" o8 o9 o10 o11 "), "{}", lines[2]);
    assert!(lines[2].ends_with(" o98 o99 o100 o101"), "{}", lines[2]);
    assert_eq!(lines[3], ".gate inv A=p1 O=m1");
    assert_eq!(lines[4 + 2 * 9..4 + 2 * 11], [".names m1 o9", "1 1", ".names p1 o10", "1 1"]);
    assert_eq!(lines[4 + 2 * 99..4 + 2 * 101], [".names m1 o99", "1 1", ".names p1 o100", "1 1"]);
    assert_eq!(lines[4 + 2 * 102..], [".end", "# gates 1 area 1 arrival 10"]);
}

/// "These lines aren't gates and add no delay." "what an output's value and
/// arrival mean is read at its `o` name."
#[test]
fn read_at_the_o_name() {
    let cells = gen::library_text(&gen::small_library());
    let kinds = blif::kinds(&cells).expect("a good library");
    let netlist = blif::read(gen::LISTING.as_bytes()).expect("a good netlist");
    let ordered = netlist.ordered(&kinds).expect("a good netlist");
    assert_eq!(netlist.figures(&kinds, &[0, 0], &ordered), [2, 3, 30]);
    assert_eq!(netlist.arrivals(&kinds, &[0, 0], &ordered)["o0"], 30);
    for row in 0..4 {
        let setting = [row % 2 == 1, row / 2 == 1];
        assert_eq!(netlist.values(&kinds, &ordered, &setting), [row == 3]);
    }
    // Taken from the other net, the same name has its value and arrival.
    let other = gen::LISTING.replace(".names p3", ".names m3").replace("arrival 30", "arrival 20");
    let netlist = blif::read(other.as_bytes()).expect("a good netlist");
    let ordered = netlist.ordered(&kinds).expect("a good netlist");
    assert_eq!(netlist.figures(&kinds, &[0, 0], &ordered), [2, 3, 20]);
    assert_eq!(netlist.values(&kinds, &ordered, &[true, true]), [false]);
}

/// The reader of netlists turns back what isn't in this form.
#[test]
fn broken_names() {
    let kinds = blif::kinds(&gen::library_text(&gen::small_library())).expect("a good library");
    let good = |listing: &str| blif::read(listing.as_bytes()).and_then(|read| read.ordered(&kinds).map(drop));
    assert_eq!(good(gen::LISTING), Ok(()));
    for (from, to) in [
        ("1 1\n", "1 0\n"),
        ("1 1\n", ""),
        ("1 1\n", "11 1\n"),
        (".names p3 o0\n1 1\n", ""),
        (".names p3 o0\n1 1\n", ".names p3 o0\n1 1\n.names p3 o0\n1 1\n"),
        (".names p3 o0\n1 1\n", ".names p3 o0\n1 1\n.names p3 o1\n1 1\n"),
        (".names p3 o0", ".names p3 o1"),
        (".names p3 o0", ".names p4 o0"),
        (".names p3 o0", ".names o0 o0"),
        (".names p3 o0", ".names p1 p3 o0"),
        (".names p3 o0", ".names o0"),
        (".outputs o0", ".outputs o0 o0"),
        (".outputs o0", ".outputs o0 o1"),
        (".outputs o0", ".outputs p3"),
        (".outputs o0", ".outputs"),
        ("O=p3", "O=o0"),
        ("A=m3", "A=o0"),
        (".gate inv", ".names p1 o1\n1 1\n.gate inv"),
    ] {
        let broken = gen::LISTING.replacen(from, to, 1);
        assert!(broken != gen::LISTING && good(&broken).is_err(), "{broken}");
    }
}

/// "the figure in 18": the largest netlist of no gates that `map` prints, and
/// the next one.
#[test]
fn eighteen_in_the_program() {
    let cells = gen::library_text(&gen::small_library());
    let number = |graph: String| {
        let answer = reference::map_without_arrivals(&cells, graph.as_bytes(), 32_768, 65_536).0;
        (answer.number, answer.value)
    };
    let on_p1 = |outputs: usize| format!("aag 1 1 0 {outputs} 0\n2\n") + &"2\n".repeat(outputs);
    // Every further output of four digits takes 26 bytes.
    assert_eq!(number(on_p1(2_603)), (0, 65_521));
    assert_eq!(number(on_p1(2_604)), (18, 65_547));
    assert_eq!(number(on_p1(4_096)), (18, 65_547 + 26 * 1_492));
}

// ---------------------------------------------------------------- request N4

/// "Make 18 the limit", in 16: "The unmarked graphs are now of 18
/// and 19 cuts", of chains over one input.
#[test]
fn eighteen_cuts() {
    let cells = gen::library_text(&gen::small_library());
    let of = |ands: &[&str]| {
        let graph = text(&[&["aag 6 1 0 1 5", "2", "12"], ands].concat());
        let answer = reference::map_without_arrivals(&cells, graph.as_bytes(), 32_768, 65_536).0;
        let read = reference::read_graph(graph.as_bytes(), 32_768).expect("a good graph");
        let order = reference::placing_order(&read).expect("no circle");
        let most = reference::cut_lists(&read, &order).map(|lists| lists[6].len());
        (answer.number, most.ok())
    };
    assert_eq!(of(&["4 2 2", "6 4 2", "8 4 2", "10 8 6", "12 10 10"]), (0, Some(18)));
    assert_eq!(of(&["4 2 2", "6 4 2", "8 6 2", "10 8 8", "12 10 10"]), (16, None));
    let last = |wanted| gen::as_it_comes(gen::shape_with_cuts(wanted), &[]).text();
    assert_eq!((refusal(&last(18)).0, refusal(&last(19)).0), (0, 16));
}

/// "Work memory drops to 124(M+1) + O words in 10, so the program takes graphs of
/// 260 variables with up to 404 outputs."
#[test]
fn work_memory() {
    let cells = gen::library_text(&gen::small_library());
    let number = |top: usize, outputs: usize, words: usize| {
        let graph = format!("aag {top} 1 0 {outputs} 0\n2\n") + &"2\n".repeat(outputs);
        reference::map_without_arrivals(&cells, graph.as_bytes(), words, 1 << 20).0.number
    };
    for (top, outputs, words) in [(1, 0, 248), (3, 1, 497), (260, 404, 32_768), (4_095, 4_096, 512_000)] {
        assert_eq!((number(top, outputs, words), number(top, outputs, words - 1)), (0, 10), "{top} {outputs}");
    }
    assert_eq!((number(260, 405, 32_768), number(261, 0, 32_768), number(261, 281, 32_768)), (10, 0, 10));
}
