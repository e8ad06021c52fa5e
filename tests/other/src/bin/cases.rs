//! The cases of the program crate `run_map` and what it must print:
//! `cases GRAPHS FOLDER` writes FOLDER/stdin and FOLDER/stdout.

use other::{gen, reference::map, WORDS_EACH};
use std::{env, fs, path::PathBuf};

const NAMES: &str = "cell pins table area d0 d1 d2 d3\n";
const RANGED: &str = "cell pins table area d0 d1 d2 d3 l0 l1 l2 l3\n";
const LISTED: &str = "inv 1 0001 1 10 0 0 0\nnand2 2 0007 2 20 20 0 0\n";

struct Cases {
    input: Vec<u8>,
    printed: Vec<u8>,
}

impl Cases {
    fn add(&mut self, cells: &str, graph: impl AsRef<[u8]>, words: usize, bytes: usize) {
        self.add_late(cells, graph, "", words, bytes);
    }

    /// The parts of a case: what is lent, the library, the graph and the arrivals.
    fn add_late(&mut self, cells: &str, graph: impl AsRef<[u8]>, arrivals: &str, words: usize, bytes: usize) {
        let graph = graph.as_ref();
        let lent = format!("{} {} {} {}", words / 16, words % 16, bytes / 16, bytes % 16);
        for part in [lent.as_bytes(), cells.as_bytes(), graph, arrivals.as_bytes()] {
            // Byte 0 ends a part, so a binary graph has none.
            assert!(!part.contains(&0));
            self.input.extend_from_slice(part);
            self.input.push(0);
        }
        let (a, netlist) = map(cells.as_bytes(), graph, arrivals.as_bytes(), words, bytes);
        let line = format!("{} {} {} {} {} \n", a.number, a.value, a.gates, a.area, a.arrival);
        self.printed.extend_from_slice(line.as_bytes());
        self.printed.extend_from_slice(&netlist);
    }
}

fn cells(n: usize) -> String {
    (0..n).fold(NAMES.to_string(), |s, k| s + &format!("c{k} 0 0000 1 0 0 0 0\n"))
}

fn main() {
    let mut args = env::args().skip(1).map(PathBuf::from);
    let (graphs, folder) = (args.next().expect("GRAPHS"), args.next().expect("FOLDER"));
    let read = |name: &str| fs::read_to_string(graphs.join(name)).expect("a graph or library");
    let mut c = Cases { input: vec![], printed: vec![] };
    let library = format!("{NAMES}{LISTED}");
    let with = |line: &str| format!("{library}{line}\n");
    let b = "aag 3 2 0 1 1\n2\n4\n6\n6 2 4\n";
    let nor = "aag 3 2 0 1 1\n2\n4\n6\n6 3 5\n";
    // the marked cases A to K; F and G are of the definitions, here F as a graph with outputs
    c.add(&library, "aag 0 0 0 0 0\n", 32768, 65536);
    c.add(&library, b, 32768, 65536);
    for d in [35, 40, 41] {
        c.add(&with(&format!("nor2 2 0001 2 {d} {d} 0 0")), nor, 32768, 65536);
    }
    c.add(&library, "aag 6 3 0 1 3\n2\n4\n6\n12\n8 2 4\n10 8 6\n12 8 10\n", 32768, 65536);
    c.add(&with("tie0 0 0000 1 0 0 0 0"), "aag 0 0 0 1 0\n1\n", 32768, 65536);
    c.add(&library, "aag 0 0 0 1 0\n1\n", 32768, 65536);
    c.add(&library, "aag 2 0 0 0 2\n2 4 4\n4 2 2\n", 32768, 65536);
    c.add(&library, "aag 3 1 0 1 2\n2\n4\n4 6 6\n6 2 2\n", 32768, 65536);
    // an AND over the last variable alone; inverters without delay, with both phases of equal arrival
    c.add(&library, "aag 4 2 0 1 2\n2\n4\n6\n6 8 8\n8 2 4\n", 32768, 65536);
    c.add(&library, "aag 2 1 0 1 1\n4\n2\n2 4 4\n", 32768, 65536);
    let free = format!("{NAMES}inv 1 0001 1 0 0 0 0\nnand2 2 0007 2 20 20 0 0\nand2 2 0008 2 20 20 0 0\n");
    c.add(&free, "aag 3 2 0 2 1\n2\n4\n6\n7\n6 2 4\n", 32768, 65536);
    // the unmarked: M, cells, work and text memory, L, cuts
    c.add(&library, "aag 4095 0 0 0 0\n", WORDS_EACH * 4096, 65536);
    c.add(&library, "aag 4095 0 0 0 0\n", WORDS_EACH * 4096 - 1, 65536);
    c.add(&library, "aag 4096 0 0 0 0\n", WORDS_EACH * 4096 + 4096, 65536);
    c.add(&cells(32), b, 32768, 65536);
    c.add(&cells(33), b, 32768, 65536);
    let need = WORDS_EACH * 4 + 1;
    for (words, bytes) in [(need, 134), (need - 1, 134), (need, 133), (0, 0)] {
        c.add(&library, b, words, bytes);
    }
    for outputs in [404, 405] {
        c.add(&library, format!("aag 260 1 0 {outputs} 0\n2\n") + &"2\n".repeat(outputs), 32768, 65536);
    }
    c.add(&library, "aag 1 0 1 0 0\n2 2\n", 32768, 65536);
    c.add(&library, "aag 6 1 0 1 5\n2\n12\n4 2 2\n6 4 2\n8 4 2\n10 8 6\n12 10 10\n", 32768, 65536);
    c.add(&library, "aag 6 1 0 1 5\n2\n12\n4 2 2\n6 4 2\n8 6 2\n10 8 8\n12 10 10\n", 32768, 65536);
    // refusals 2 to 7 and 11 to 15, each where the one before it does not apply, and where two apply
    for line in [
        "inv 1 0001 1 10 0 0 0",
        "x 1 0001 01 10 0 0 0",
        "x 1 0004 1 10 0 0 0",
        "x 1 0001 1 10 0 0 1",
        "x 1 0001 1 65536 0 0 0",
        "x 5 0001 1 1 1 1 1",
    ] {
        c.add(&with(line), b, 32768, 65536);
    }
    c.add(&library[1..], b, 32768, 65536);
    c.add(&library[..library.len() - 1], b, 32768, 65536);
    for graph in [
        "aag 3 2 0 1\n",
        "aag 3 2 0 1 01\n2\n4\n6\n6 2 4\n",
        "aag 3 2 0 1 1\n2\n4\n6\n6 2\n",
        "aag 3 2 0 1 1\n2\n4\n6\n",
        "aag 3 2 0 1 1\n2\n4\n8\n6 2 4\n",
        "aag 3 2 0 1 1\n2\n5\n6\n6 2 4\n",
        "aag 3 2 0 1 1\n2\n4\n6\n0 2 4\n",
        "aag 3 2 0 1 1\n2\n2\n6\n6 2 4\n",
        "aag 3 2 0 1 1\n2\n4\n6\n4 2 2\n",
        "aag 4 2 0 1 1\n2\n4\n8\n6 2 4\n",
        "aag 4 2 0 1 1\n2\n4\n6\n6 2 8\n",
        "aag 4 2 0 2 1\n2\n4\n6\n8\n6 2 9\n",
        "aag 4 1 0 1 3\n2\n8\n4 4 2\n6 4 4\n8 2 2\n",
        "aag 3 2 0 1 1\n2\n4\n7\n6 2 4\nc\nwhat follows is not read",
    ] {
        c.add(&library, graph, 32768, 65536);
    }
    // binary graphs: B and F, differences of two bytes, 19 before 10, and 11, 12, 20 and 21 at each of their places
    let b_in_binary: &[u8] = b"aig 3 2 0 1 1\n6\n\x02\x02";
    let f_in_binary: &[u8] = b"aig 6 3 0 1 3\n12\n\x04\x02\x02\x02\x02\x02";
    for graph in [b_in_binary, f_in_binary] {
        c.add(&library, graph, 32768, 65536);
        c.add(&library, [graph, b"\xff\xff"].concat(), 32768, 65536);
        c.add(&library, &graph[..graph.len() - 1], 32768, 65536);
    }
    c.add(&library, b"aig 0 0 0 0 0\n", 32768, 65536);
    c.add(&library, b_in_binary, need, 134);
    c.add(&library, b_in_binary, need - 1, 134);
    c.add(&library, b_in_binary, need, 133);
    c.add(&library, b"aig 4 2 0 1 1\n6\n\x02\x02", 0, 65536);
    c.add(&library, b"aig 2 2 0 1 1\n6\n\x02\x02", 32768, 65536);
    c.add(&library, b"aig 65 64 0 1 1\n130\n\x80\x01\x01", 32768, 65536);
    c.add(&library, b"aig 65 64 0 1 1\n131\n\x01\x80\x01", 32768, 65536);
    c.add(&library, b"aig 3 2 0 1 1\n8\n\x02\x02", 32768, 65536);
    c.add(&library, b"aig 3 2 0 1 1\n06\n\x02\x02", 32768, 65536);
    for bytes in [
        &b""[..],
        b"\x02",
        b"\x82",
        b"\x82\x80",
        b"\x82\x80\x01",
        b"\x02\x82\x80",
        b"\x02\x82",
        b"\x07\x02",
        b"\x07\xff\xff",
        b"\x86\x01\x02",
        b"\x02\x05",
        b"\x06\x01",
        b"\x02\x85\x7f",
    ] {
        c.add(&library, [b"aig 3 2 0 1 1\n6\n", bytes].concat(), 32768, 65536);
    }
    // line ends: 13 and 10 in all lines, in some, doubled, alone, missing; and in binary texts
    let in_two = |text: &str| text.replace('\n', "\r\n");
    c.add(&in_two(&library), in_two(b), 32768, 65536);
    c.add(&in_two(&library), b, 32768, 65536);
    c.add(&library, in_two(b), 32768, 65536);
    c.add(&library, "aag 3 2 0 1 1\r\n2\n4\r\n6\n6 2 4\r\n", need, 134);
    c.add(&in_two(&library), "aag 4 2 0 1 1\r\n2\r\n4\r\n6\r\n6 2 8\r\n", 32768, 65536);
    c.add(&in_two(&with("inv 1 0001 1 10 0 0 0")), b, 32768, 65536);
    c.add(&in_two(&with("x 1 0004 1 10 0 0 0")), b, 32768, 65536);
    c.add(&in_two(&cells(33)), b, 32768, 65536);
    c.add(&in_two(&library), b_in_binary, 32768, 65536);
    for graph in [
        "aag 3 2 0 1 1\r\r\n2\n4\n6\n6 2 4\n",
        "aag 3 2 0 1 1\n2\r4\n6\n6 2 4\n",
        "aag 3 2 0 1 1\n2\r\r\n4\n6\n6 2 4\n",
        "aag 3 2 0 1 1\r\n2\r\n\r\n4\n6\n6 2 4\n",
        "aag 3 2 0 1 1\r\n2\r\n4\r\n6\r\n6 2 4\r",
        "aag 3 2 0 1 1\r\n2\r\n4\r\n6\r\n",
        "aag 3 2 0 1 1\n2\n4\n6\n\r6 2 4\n",
        "aag 3 2 0 1 1\n2\n4\n6\n6 2 4\n\r",
        "aig 3 2 0 1 1\r\n6\n\x02\x02",
        "aig 3 2 0 1 1\n6\r\n\x02\x02",
    ] {
        c.add(&library, graph, 32768, 65536);
    }
    // late inputs: the index in the file's order, a tie and a choice that turn, the first line alone; 25 and 26 at each of
    // their places, and beside 14, 15, 17 and 18
    let nor_at_40 = with("nor2 2 0001 2 40 40 0 0");
    for lines in [
        "",
        "0 5\n",
        "1 5\n",
        "1 65535\n0 0\n",
        "0 7\r\n1 7\n",
        "0 0\n0 0\n",
        "2 0\n",
        "1 3\n0 07\n",
        "0 1\n1",
        "x\n2 0\n",
        "2 0\nx\n",
    ] {
        let arrivals = format!("input arrival\n{lines}");
        c.add_late(&library, b, &arrivals, need, 137);
        c.add_late(&nor_at_40, nor, &arrivals, 32768, 65536);
        c.add_late(&library, "aag 3 2 0 3 1\n4\n2\n6\n3\n4\n6 2 4\n", &arrivals, 32768, 65536);
        c.add_late(&library, b_in_binary, &arrivals, 32768, 65536);
    }
    for arrivals in ["x", "input arrival", "input arrival\r\n", "input arrival\n9 9\n"] {
        c.add_late(&library, b, arrivals, 32768, 65536);
        c.add_late(&library, b, arrivals, 32768, 10);
        c.add_late(&library, b, arrivals, 0, 65536);
        c.add_late(&library, "aag 4 2 0 1 1\n2\n4\n8\n6 2 4\n", arrivals, 32768, 65536);
        c.add_late(&library, "aag 2 0 0 0 2\n2 4 4\n4 2 2\n", arrivals, 32768, 65536);
        c.add_late(&library, "aag 1 1 0 1 0\n2\n0\n", arrivals, 32768, 65536);
    }
    // outputs that repeat, that are inputs, constants and complements; names of one to three digits; 18 in what the program lends
    c.add(&library, "aag 3 2 0 4 1\n2\n4\n7\n6\n6\n7\n6 2 4\n", 32768, 65536);
    c.add(&library, "aag 2 2 0 3 0\n4\n2\n2\n5\n2\n", 32768, 65536);
    c.add(&with("tie0 0 0000 1 0 0 0 0"), "aag 0 0 0 3 0\n1\n0\n1\n", 32768, 65536);
    c.add(&with("tie0 0 0000 1 0 0 0 0"), "aag 3 2 0 6 1\n2\n4\n0\n6\n3\n6\n1\n2\n6 2 4\n", 32768, 65536);
    c.add(&library, "aag 1 1 0 0 0\n2\n", 32768, 65536);
    for outputs in [9, 10, 11, 99, 100, 101, 2604, 4096] {
        c.add(&library, format!("aag 1 1 0 {outputs} 0\n2\n") + &"2\n".repeat(outputs), 32768, 65536);
    }
    // delays as ranges: case B with ends apart, a pin that decides each end, late inputs, no cells, no outputs; 27 beside
    // 4, 5 and 6 of its line and before those of later lines; both names lines and their fields; 18 with timing lines
    let inv = "inv 1 0001 1 10 0 0 0 10 0 0 0\n";
    let ranged = |line: &str| format!("{RANGED}{inv}{line}\n");
    let wide = ranged("nand2 2 0007 2 25 24 0 0 0 19 0 0");
    for bytes in [65536, 152, 151, 134, 0] {
        c.add(&wide, b, need, bytes);
    }
    for arrivals in ["", "input arrival\n0 5\n", "input arrival\n1 7\n0 65535\n"] {
        c.add_late(&wide, b, arrivals, 32768, 65536);
        c.add_late(&wide, "aag 3 2 0 5 1\n4\n2\n7\n6\n4\n3\n6\n6 2 4\n", arrivals, 32768, 65536);
        c.add_late(RANGED, "aag 2 2 0 3 0\n2\n4\n4\n2\n4\n", arrivals, 32768, 65536);
        c.add_late(&in_two(&wide), b_in_binary, arrivals, 32768, 65536);
    }
    c.add(&wide, "aag 0 0 0 0 0\n", 32768, 65536);
    c.add(RANGED, b, 32768, 65536);
    c.add(&ranged("and2 2 0008 2 30 31 0 0 0 0 0 0\nnand2 2 0007 2 20 20 0 0 20 20 0 0"), b, 32768, 65536);
    c.add(
        &ranged("nand2 2 0007 2 65535 65535 0 0 65535 65534 0 0\ntie1 0 0001 1 0 0 0 0 0 0 0 0"),
        "aag 3 2 0 3 1\n2\n4\n6\n1\n0\n6 2 4\n",
        32768,
        65536,
    );
    for line in [
        "nand2 2 0007 2 20 20 0 0 21 20 0 0",
        "nand2 2 0007 2 20 20 0 0 20 21 0 0\nx",
        "nand2 2 0007 2 20 20 0 0 20 20 1 0",
        "nand2 2 0007 2 20 20 0 0 21 20 0 1",
        "nand2 2 0007 2 20 20 0 1 20 20 0 1",
        "inv 2 0007 2 20 20 0 0 21 20 0 0",
        "nand2 2 0007 2 20 20 0 0 21 20 0",
        "nand2 2 0007 2 20 20 0 0",
        "nand2 2 0007 2 20 20 0 0 20 20 0 00",
        "nand2 2 0007 2 20 20 0 0 20 20 0 0 0",
    ] {
        c.add(&ranged(line), b, 32768, 65536);
        c.add(&ranged(line), "aag 3 2 0 1\n", 0, 0);
    }
    c.add(&format!("{NAMES}{inv}"), b, 32768, 65536);
    c.add(RANGED.trim_end(), b, 32768, 65536);
    c.add(&RANGED.replace(" l3", ""), b, 32768, 65536);
    // real graphs
    for name in [
        "b2g_w2.raw",
        "prio_n4_b2.b",
        "cmp3_w2.rs",
        "mult2.st",
        "gt_w2.st",
        "satadd_w3.dc2",
        "sorter4.st",
        "crc_w16_d4.st",
        "satinc_w6.rs",
        "alu_w2.rs",
        "maxhold_n2_w4.st.shuf",
        "satinc_w10.dc2",
        "satadd_w8.raw",
        "nextpeak_n16_b4.rs",
        "onehot16.st",
        "peak_n4_w4_b2.yosys",
        "local_peak_n6_w4.dc2",
        "cmp3_w16.st",
        "seg7_d4.st",
    ] {
        for library in ["tiny.txt", "array.txt", "full.txt"] {
            c.add(&read(library), read(&format!("{name}.aag")), 65536, 65536);
        }
        if ["sorter4.st", "gt_w2.st", "mult2.st", "seg7_d4.st"].contains(&name) {
            let cells = String::from_utf8(gen::lowest_added(read("full.txt").as_bytes())).expect("a library");
            c.add(&cells, read(&format!("{name}.aag")), 65536, 65536);
        }
    }
    assert!(c.input.len() <= 262144);
    fs::write(folder.join("stdin"), c.input).expect("stdin");
    fs::write(folder.join("stdout"), c.printed).expect("stdout");
}
