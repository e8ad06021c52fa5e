//! Every byte value at every gap between two words of a small text. A byte that a reader
//! takes for a blank, and the documents don't, is seen here whatever its value is.

use crate::gen;

fn is_word(byte: u8) -> bool {
    byte.is_ascii_alphanumeric() || byte == b'_'
}

fn is_blank(byte: u8) -> bool {
    byte == b' ' || byte == b'\t'
}

/// The text with each byte value between two neighbours that aren't of one word, and in
/// place of each space and tab.
pub fn every_byte(text: &[u8]) -> Vec<Vec<u8>> {
    let mut all = Vec::new();
    for at in 1..text.len() {
        // A gap that begins with a blank is tried before it.
        if is_word(text[at - 1]) && is_word(text[at]) || is_blank(text[at - 1]) {
            continue;
        }
        let behind = if is_blank(text[at]) { at + 1 } else { at };
        for byte in 0..=255 {
            all.push([&text[..at], &[byte], &text[at..]].concat());
            if behind > at {
                all.push([&text[..at], &[byte], &text[behind..]].concat());
            }
        }
    }
    all
}

/// A library with each names line.
pub fn libraries() -> Vec<Vec<u8>> {
    let lines = "cell pins table area d0 d1 d2 d3\nnand2 2 0007 2 20 20 0 0\n";
    let ranged = "cell pins table area d0 d1 d2 d3 l0 l1 l2 l3\r\ninv 1 0001 1 10 0 0 0 5 0 0 0\r\n";
    [lines, ranged].iter().flat_map(|text| every_byte(text.as_bytes())).collect()
}

/// A graph in each form.
pub fn graphs() -> Vec<Vec<u8>> {
    let texts: [&[u8]; 3] =
        [b"aag 3 2 0 1 1\n2\n4\n6\n6 2 4\n", b"aag 3 2 0 1 1\r\n2\n4\n6\n6 2 4\r\n", b"aig 3 2 0 1 1\n6\n\x02\x02"];
    texts.iter().flat_map(|text| every_byte(text)).collect()
}

pub fn arrivals() -> Vec<Vec<u8>> {
    every_byte(b"input arrival\n1 20\r\n0 7\n")
}

/// Case B's netlist as it is printed, and with ranges and a pair of cells.
pub fn netlists(ranged: bool) -> Vec<Vec<u8>> {
    let paired = gen::LISTING.replace("A=m3", "A=sp3").replace("O=m3", "O=sp3");
    let text = if ranged { paired + "# timing o0 30 35\n" } else { gen::LISTING.into() };
    every_byte(text.as_bytes())
}

/// Signs of each kind, blanks beside them and none.
pub fn genlibs() -> Vec<Vec<u8>> {
    let text =
        "GATE n1 1.5 O = !(A*B)' + CONST1;\nPIN * INV 1 9 0.3 0 2 0\nGATE\tc 2 O=C;\r\n PIN C X 1 1 1 1 0.25 1 \n";
    every_byte(text.as_bytes())
}
