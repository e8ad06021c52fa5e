//! The calls from Rust: answers, lent memory, refusals in words, threads and the stack that a thread needs.

use arraymap::{
    bytes_enough, bytes_enough_pairs, call_two_pairs, check, check_in, map, map_in, map_pairs, map_pairs_in, map_two,
    map_two_pairs, words_needed, words_to_check, Channel, Checked, Figures, Place, Refusal, Tally,
};
use std::{fmt::Write, thread};

const CELLS: &[u8] = b"cell pins table area d0 d1 d2 d3\ninv 1 0001 1 10 0 0 0\nnand2 2 0007 2 20 20 0 0\n";
const GRAPH: &[u8] = b"aag 3 2 0 1 1\n2\n4\n6\n6 2 4\n";
const TWIN: &[u8] = b"aig 3 2 0 1 1\n6\n\x02\x02";
const NETLIST: &str = ".model top\n.inputs p1 p2\n.outputs o0\n.gate inv A=m3 O=p3\n.gate nand2 A=p1 B=p2 O=m3\n.names p3 o0\n1 1\n.end\n\
                       # gates 2 area 3 arrival 30\n";

/// With pairs: the inverter with the NAND at its pin matches, and a matched cell comes before the inverter's role.
const PAIRED: &str = ".model top\n.inputs p1 p2\n.outputs o0\n.gate nand2 A=p1 B=p2 O=sp3\n.gate inv A=sp3 O=p3\n.names p3 o0\n1 1\n.end\n\
                      # gates 2 area 3 arrival 30\n";

/// What include/arraymap.h says a thread needs.
const STACK: usize = 1_500_000;

/// ANDs in a chain, each over the one before and one of four inputs in turn: the walk over a cone goes through all of them.
fn chain() -> String {
    let mut text = String::from("aag 4095 4 0 1 4091\n2\n4\n6\n8\n8190\n");
    for v in 5..4_096 {
        let before = if v == 5 { 2 } else { 2 * (v - 1) };
        writeln!(text, "{} {before} {}", 2 * v, 2 * (1 + v % 4)).unwrap();
    }
    text
}

#[test]
fn either_form_is_mapped() {
    for graph in [GRAPH, TWIN] {
        let netlist = map(CELLS, graph, b"").unwrap();
        assert_eq!(netlist.text, NETLIST);
        assert_eq!(netlist.figures, Figures { gates: 2, area: 3, arrival: 30 });
    }
}

#[test]
fn arrivals_start_from_the_inputs() {
    let netlist = map(CELLS, GRAPH, b"input arrival\n1 5\n").unwrap();
    assert_eq!(netlist.text, NETLIST.replace("arrival 30", "arrival 35"));
    assert_eq!(map(CELLS, GRAPH, b"input arrival\n2 5\n"), Err(Refusal { number: 26, place: 14 }));
}

#[test]
fn ranges_bring_timing_lines() {
    let cells = b"cell pins table area d0 d1 d2 d3 l0 l1 l2 l3\ninv 1 0001 1 10 0 0 0 5 0 0 0\nnand2 2 0007 2 20 20 0 0 10 15 0 0\n";
    assert_eq!(map(cells, GRAPH, b"").unwrap().text, format!("{NETLIST}# timing o0 20 30\n"));
    // 27, at the line's offset: work memory stays as it is.
    let exceeds = [&cells[..], b"buf 1 0002 1 10 0 0 0 11 0 0 0\n"].concat();
    let (mut work, mut text) = (vec![7; words_needed(GRAPH)], vec![b'x'; bytes_enough(GRAPH)]);
    let refused = map_in(&exceeds, GRAPH, b"", &mut work, &mut text).unwrap_err();
    assert_eq!((refused.number, refused.place()), (27, Place::Cells(cells.len())));
    assert_eq!(
        refused.to_string(),
        format!("refused 27 at byte {} of the cells: a pin's lowest delay exceeds its delay", cells.len())
    );
    assert!(work.iter().all(|&word| word == 7) && text.iter().all(|&byte| byte == b'x'));
}

#[test]
fn words_and_bytes_go_by_the_header() {
    assert_eq!(words_needed(GRAPH), 124 * 4 + 1);
    assert_eq!(words_needed(TWIN), 124 * 4 + 1);
    assert_eq!(words_needed(b"aag 4095 0 0 4096 0\n"), 512_000);
    for refused in [
        &b""[..],
        b"aag",
        b"aag 4096 0 0 0 0\n",
        b"aag 1 1 0 4097 0\n",
        b"aag 99999999999999999999 0 0 0 0\n",
        b"xyz 1 1 0 0 0\n",
    ] {
        assert_eq!(words_needed(refused), 0);
        assert_eq!(map(CELLS, refused, b"").map_err(|refusal| matches!(refusal.number, 7 | 9)), Err(true));
    }
    assert!(bytes_enough(GRAPH) >= NETLIST.len());
}

#[test]
fn lent_memory_is_left_as_promised() {
    let (mut work, mut text) = (vec![7; words_needed(GRAPH)], vec![b'x'; NETLIST.len() + 3]);
    let (length, _) = map_in(CELLS, GRAPH, b"", &mut work, &mut text).unwrap();
    assert_eq!(&text[..length], NETLIST.as_bytes());
    assert_eq!(&text[length..], b"xxx");
    assert!(work.iter().all(|&word| word == 0));

    // One word too few, and one byte.
    let (mut work, mut text) = (vec![7; words_needed(GRAPH) - 1], vec![b'x'; NETLIST.len()]);
    assert_eq!(map_in(CELLS, GRAPH, b"", &mut work, &mut text), Err(Refusal { number: 10, place: 0 }));
    assert!(work.iter().all(|&word| word == 7) && text.iter().all(|&byte| byte == b'x'));
    work.push(7);
    text.pop();
    assert_eq!(map_in(CELLS, GRAPH, b"", &mut work, &mut text), Err(Refusal { number: 18, place: NETLIST.len() }));
    assert!(work.iter().all(|&word| word == 0) && text.iter().all(|&byte| byte == b'x'));
    assert_eq!(map_in(b"", b"", b"", &mut [], &mut []), Err(Refusal { number: 2, place: 0 }));
}

#[test]
fn refusals_say_where_and_what() {
    let refusal = map(&[CELLS, b"bad\n"].concat(), GRAPH, b"").unwrap_err();
    assert_eq!((refusal.number, refusal.place()), (4, Place::Cells(CELLS.len())));
    assert_eq!(refusal.to_string(), format!("refused 4 at byte {} of the cells: not a cell line", CELLS.len()));
    let of = |number| Refusal { number, place: 7 }.to_string();
    assert_eq!(of(14), "refused 14 at byte 7 of the graph: an undefined variable is used");
    assert_eq!(of(16), "refused 16 at variable 7: an AND has more than 18 cuts");
    assert_eq!(of(17), "refused 17 at output 7: an output has no cover");
    assert_eq!(of(18), "refused 18, 7 bytes needed: text memory is shorter than the netlist");
    assert_eq!(of(26), "refused 26 at byte 7 of the arrivals: an arrival's input is I or more, or is repeated");
    assert_eq!(of(1), "refused 1: a text is longer than 65,536 bytes");
    assert_eq!(of(30), "refused 30: there are more than 256 cells and pairs of cells");
    assert_eq!(of(31), "refused 31 at byte 7 of the graph: a graph to check a netlist against has more than 12 inputs");
    for number in [32, 33] {
        assert!(
            of(number).starts_with(&format!("refused {number} at byte 7 of the netlist: a line ")),
            "{}",
            of(number)
        );
    }
}

#[test]
fn pairs_are_mapped_where_they_are_wanted() {
    for graph in [GRAPH, TWIN] {
        let netlist = map_pairs(CELLS, graph, b"").unwrap();
        assert_eq!(netlist.text, PAIRED);
        assert_eq!(netlist.figures, Figures { gates: 2, area: 3, arrival: 30 });
    }
    // (not 1 or 2) and (not 1 or 3), which is not (1 and not (2 and 3)): two gates in place of six, and earlier.
    let shared = b"aag 6 3 0 1 3\n2\n4\n6\n12\n8 2 5\n10 2 7\n12 9 11\n";
    assert_eq!(map(CELLS, shared, b"").unwrap().figures, Figures { gates: 6, area: 9, arrival: 60 });
    let netlist = map_pairs(CELLS, shared, b"").unwrap();
    assert_eq!(netlist.figures, Figures { gates: 2, area: 4, arrival: 40 });
    assert!(netlist.text.contains(".gate nand2 A=p2 B=p3 O=sp6\n.gate nand2 A=sp6 B=p1 O=p6\n"), "{}", netlist.text);
}

#[test]
fn netlists_with_pairs_are_counted() {
    let mut tally = Tally::default();
    tally.count(CELLS, PAIRED.as_bytes()).unwrap();
    assert_eq!(tally.report(CELLS).unwrap(), b"inv 1 1 1\nnand2 1 2 1\ntotal 2 3 1\n");
}

/// Eleven cells of two pins form 11 * 2 * 11 pairs; with so many cells without pins there are 253 and as many more cells and pairs.
fn many(constants: usize) -> Vec<u8> {
    let mut text = String::from("cell pins table area d0 d1 d2 d3\n");
    (0..11).for_each(|k| writeln!(text, "a{k} 2 0008 1 1 1 0 0").unwrap());
    (0..constants).for_each(|k| writeln!(text, "b{k} 0 0000 1 0 0 0 0").unwrap());
    text.into_bytes()
}

#[test]
fn cells_and_pairs_are_256_at_most() {
    assert!(map_pairs(&many(3), GRAPH, b"").is_ok());
    let (mut work, mut text) = (vec![7; words_needed(GRAPH)], vec![b'x'; bytes_enough_pairs(GRAPH)]);
    // Before the header is looked at, and only where pairs are wanted.
    for graph in [GRAPH, b""] {
        assert_eq!(map_pairs_in(&many(4), graph, b"", &mut work, &mut text), Err(Refusal { number: 30, place: 0 }));
    }
    assert!(work.iter().all(|&word| word == 7) && text.iter().all(|&byte| byte == b'x'));
    assert!(map_in(&many(4), GRAPH, b"", &mut work, &mut text).is_ok());
}

#[test]
fn pairs_over_lent_memory() {
    let (mut work, mut text) = (vec![7; words_needed(GRAPH)], vec![b'x'; PAIRED.len() + 3]);
    let (length, _) = map_pairs_in(CELLS, GRAPH, b"", &mut work, &mut text).unwrap();
    assert_eq!((&text[..length], &text[length..]), (PAIRED.as_bytes(), &b"xxx"[..]));
    assert!(work.iter().all(|&word| word == 0));
    let (mut work, mut text) = (vec![7; words_needed(GRAPH)], vec![b'x'; PAIRED.len() - 1]);
    let short = map_pairs_in(CELLS, GRAPH, b"", &mut work, &mut text);
    assert_eq!(short, Err(Refusal { number: 18, place: PAIRED.len() }));
    assert!(work.iter().all(|&word| word == 0) && text.iter().all(|&byte| byte == b'x'));
    assert!(bytes_enough_pairs(GRAPH) >= PAIRED.len());
}

#[test]
fn two_channels_with_pairs_and_without() {
    let (one, late) =
        (Channel { graph: GRAPH, arrivals: b"" }, Channel { graph: TWIN, arrivals: b"input arrival\n0 5\n" });
    let texts = |two: [Result<arraymap::Netlist, Refusal>; 2]| two.map(|channel| channel.unwrap().text);
    assert_eq!(texts(map_two(CELLS, one, late)), [NETLIST.into(), NETLIST.replace("arrival 30", "arrival 35")]);
    assert_eq!(texts(map_two_pairs(CELLS, one, late)), [PAIRED.into(), PAIRED.replace("arrival 30", "arrival 35")]);
    let refused = Err(Refusal { number: 30, place: 0 });
    assert_eq!(map_two_pairs(&many(4), one, late), [refused.clone(), refused]);
    // Over lent memory: one word too few of both graphs' is 10 for both.
    let mut texts = [[b'x'; 400]; 2];
    for (words, number) in [(2 * words_needed(GRAPH) - 1, 10), (2 * words_needed(GRAPH), 0)] {
        let mut work = vec![7; words];
        let [text1, text2] = &mut texts;
        let two = call_two_pairs(CELLS, one, late, &mut work, text1, text2);
        assert_eq!([two.first.number, two.second.number], [number; 2]);
        assert!(work.iter().all(|&word| word == if number == 0 { 0 } else { 7 }));
    }
    assert!(texts.iter().all(|text| text.starts_with(b".model top\n") && text.ends_with(b"x")));
}

#[test]
fn netlists_are_checked() {
    for netlist in [NETLIST, PAIRED] {
        for graph in [GRAPH, TWIN] {
            assert_eq!(check(CELLS, graph, netlist.as_bytes()), Ok(Checked::Accepted));
        }
    }
    let edited = |from: &str, to: &str| check(CELLS, GRAPH, NETLIST.replacen(from, to, 1).as_bytes());
    let at = |line: &str| NETLIST.find(line).unwrap();
    // Other names and another order are accepted, and what follows `.end` is not read.
    assert_eq!(
        edited("A=m3 O=p3\n.gate nand2 A=p1 B=p2 O=m3", "A=n O=p3\n.gate nand2 A=p2 B=p1 O=n"),
        Ok(Checked::Accepted)
    );
    assert_eq!(edited("# gates 2 area 3", "as"), Ok(Checked::Accepted));
    // The output is not 1 AND 2 but 2: wrong first where input 1 is 1 and input 0 is 0.
    assert_eq!(edited("A=p1 B=p2", "A=p2 B=p2"), Ok(Checked::Differs { setting: 2, output: 0 }));
    // Not 1 AND 2 but its complement: wrong in every setting.
    assert_eq!(edited(".names p3", ".names m3"), Ok(Checked::Differs { setting: 0, output: 0 }));
    let refused = |number, place| Err(Refusal { number, place });
    assert_eq!(edited("nand2", "nand9"), refused(32, at(".gate nand2")));
    assert_eq!(edited(".inputs p1 p2", ".inputs p2 p1"), refused(32, at(".inputs")));
    assert_eq!(edited("O=m3", "O=p1"), refused(33, at(".gate nand2")));
    assert_eq!(edited("B=p2", "B=x"), refused(33, at(".gate nand2")));
    // p3 and m3 are on the circle, and p3's line is the first.
    assert_eq!(edited("B=p2", "B=p3"), refused(33, at(".gate inv")));
    let thirteen =
        format!("aag 13 13 0 0 0\n{}", (1..=13).fold(String::new(), |text, v| text + &format!("{}\n", 2 * v)));
    assert_eq!(check(CELLS, thirteen.as_bytes(), b""), refused(31, 0));
    assert_eq!(check(b"", GRAPH, NETLIST.as_bytes()), refused(2, 0));
}

#[test]
fn a_check_leaves_its_words_as_promised() {
    let need = 124 * 4 + 1 + 8 * 9;
    assert_eq!(words_to_check(GRAPH, NETLIST.as_bytes()), need);
    let mut work = vec![7; need - 1];
    assert_eq!(check_in(CELLS, GRAPH, NETLIST.as_bytes(), &mut work), Err(Refusal { number: 10, place: 0 }));
    assert!(work.iter().all(|&word| word == 7));
    work.push(7);
    assert_eq!(check_in(CELLS, GRAPH, NETLIST.as_bytes(), &mut work), Ok(Checked::Accepted));
    assert!(work.iter().all(|&word| word == 0));
    work.fill(7);
    assert!(check_in(CELLS, GRAPH, b"", &mut work).is_err_and(|refusal| refusal.number == 32));
    assert!(work.iter().all(|&word| word == 0));
}

#[test]
fn the_longest_netlist_is_within_the_bound() {
    // Every phase of many ANDs is an output, with the longest names.
    let cells = "cell pins table area d0 d1 d2 d3 l0 l1 l2 l3\ninverter 1 0001 65535 65535 0 0 0 65535 0 0 0\n\
                 nand4444 4 7fff 65535 65535 65535 65535 65535 65535 65535 65535 65535\n\
                 nand2222 2 0007 65535 65535 65535 0 0 65535 65535 0 0\n";
    let mut graph = String::from("aag 4095 2000 0 4096 2047\n");
    (1..=2_000).for_each(|v| writeln!(graph, "{}", 2 * v).unwrap());
    (0..4_096).for_each(|k| writeln!(graph, "{}", 4_002 + k % 4_094).unwrap());
    (2_001..4_048).for_each(|v| writeln!(graph, "{} {} {}", 2 * v, 2 * (v - 2_000), 2 * (v - 1_999)).unwrap());
    let netlist = map(cells.as_bytes(), graph.as_bytes(), b"").map(|netlist| netlist.text.len());
    assert!(netlist.is_ok_and(|length| length <= bytes_enough(graph.as_bytes())), "{netlist:?}");
    let netlist = map_pairs(cells.as_bytes(), graph.as_bytes(), b"").map(|netlist| netlist.text.len());
    assert!(netlist.is_ok_and(|length| length <= bytes_enough_pairs(graph.as_bytes())), "{netlist:?}");
}

#[test]
fn threads_map_at_once_on_a_small_stack() {
    let graph = chain();
    let calls = move || {
        let [plain, paired] = [map, map_pairs].map(|map| map(CELLS, graph.as_bytes(), b"").unwrap());
        // Gates from the last to the first, as the layout group may leave them.
        let unused = (0..2_000).fold(String::new(), |text, k| text + &format!(".gate inv A=x{} O=x{k}\n", k + 1));
        let netlist = NETLIST.replace(".names", &format!("{unused}.gate inv A=p1 O=x2000\n.names"));
        let checked = check(CELLS, GRAPH, netlist.as_bytes());
        (plain, paired, checked)
    };
    let one = calls();
    assert_eq!(one.2, Ok(Checked::Accepted));
    let threads: Vec<_> =
        (0..4).map(|_| thread::Builder::new().stack_size(STACK).spawn(calls.clone()).unwrap()).collect();
    for thread in threads {
        assert_eq!(thread.join().unwrap(), one);
    }
}
