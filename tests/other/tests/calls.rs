//! What include/arraymap.h says of every array of every call: null is one of no elements, and
//! texts that are only read may share memory. The same from C is in calls.c.

use arraymap::{Answer, AnswerChecked, AnswerTwo, Channel};
use std::ptr::{null, null_mut};

const CELLS: &[u8] = b"cell pins table area d0 d1 d2 d3\ninv 1 0001 1 10 0 0 0\nnand2 2 0007 2 20 20 0 0\n";
const GRAPH: &[u8] = b"aag 3 2 0 1 1\n2\n4\n6\n6 2 4\n";
const LATE: &[u8] = b"input arrival\n1 5\n";
const GENLIB: &[u8] = b"GATE inv 1 O=!a;\nPIN * INV 1 999 1 0 1 0\n";
const WORDS: usize = 124 * 4 + 1;
const BYTES: usize = 600;

/// The calls with the pointers that C hands over. A slice of Rust is never null.
mod raw {
    use arraymap::{Answer, AnswerChecked, AnswerTwo};

    extern "C" {
        pub fn arraymap_map(
            cells: *const u8,
            cells_len: usize,
            graph: *const u8,
            graph_len: usize,
            arrivals: *const u8,
            arrivals_len: usize,
            work: *mut u16,
            work_len: usize,
            text: *mut u8,
            text_len: usize,
        ) -> Answer;
        pub fn arraymap_map_pairs(
            cells: *const u8,
            cells_len: usize,
            graph: *const u8,
            graph_len: usize,
            arrivals: *const u8,
            arrivals_len: usize,
            work: *mut u16,
            work_len: usize,
            text: *mut u8,
            text_len: usize,
        ) -> Answer;
        pub fn arraymap_map_two(
            cells: *const u8,
            cells_len: usize,
            graph1: *const u8,
            graph1_len: usize,
            arrivals1: *const u8,
            arrivals1_len: usize,
            graph2: *const u8,
            graph2_len: usize,
            arrivals2: *const u8,
            arrivals2_len: usize,
            work: *mut u16,
            work_len: usize,
            text1: *mut u8,
            text1_len: usize,
            text2: *mut u8,
            text2_len: usize,
        ) -> AnswerTwo;
        pub fn arraymap_map_two_pairs(
            cells: *const u8,
            cells_len: usize,
            graph1: *const u8,
            graph1_len: usize,
            arrivals1: *const u8,
            arrivals1_len: usize,
            graph2: *const u8,
            graph2_len: usize,
            arrivals2: *const u8,
            arrivals2_len: usize,
            work: *mut u16,
            work_len: usize,
            text1: *mut u8,
            text1_len: usize,
            text2: *mut u8,
            text2_len: usize,
        ) -> AnswerTwo;
        pub fn arraymap_check(
            cells: *const u8,
            cells_len: usize,
            graph: *const u8,
            graph_len: usize,
            netlist: *const u8,
            netlist_len: usize,
            work: *mut u16,
            work_len: usize,
        ) -> AnswerChecked;
        pub fn arraymap_cells(genlib: *const u8, genlib_len: usize, text: *mut u8, text_len: usize) -> Answer;
        pub fn arraymap_count(
            cells: *const u8,
            cells_len: usize,
            netlist: *const u8,
            netlist_len: usize,
            tally: *mut u64,
            tally_len: usize,
        ) -> Answer;
        pub fn arraymap_report(
            cells: *const u8,
            cells_len: usize,
            tally: *const u64,
            tally_len: usize,
            text: *mut u8,
            text_len: usize,
        ) -> Answer;
    }
}

fn refused(number: u64, value: u64) -> Answer {
    Answer { number, value, gates: 0, area: 0, arrival: 0 }
}

/// A text's pointer and length; of one of no bytes the pointer is null.
fn of(text: &[u8]) -> (*const u8, usize) {
    (if text.is_empty() { null() } else { text.as_ptr() }, text.len())
}

fn memory<T>(memory: &mut [T]) -> (*mut T, usize) {
    (if memory.is_empty() { null_mut() } else { memory.as_mut_ptr() }, memory.len())
}

fn map(pairs: bool, texts: [&[u8]; 3], words: usize, bytes: usize) -> Answer {
    let [(cells, n), (graph, m), (arrivals, k)] = texts.map(of);
    let (mut work, mut text) = (vec![7; words], vec![7; bytes]);
    let ((work, w), (text, t)) = (memory(&mut work), memory(&mut text));
    let map = if pairs { raw::arraymap_map_pairs } else { raw::arraymap_map };
    // Each pointer comes with its own length.
    unsafe { map(cells, n, graph, m, arrivals, k, work, w, text, t) }
}

fn map_two(pairs: bool, cells: &[u8], texts: [&[u8]; 4], words: usize, bytes: [usize; 2]) -> AnswerTwo {
    let ((cells, n), [(graph1, m1), (arrivals1, k1), (graph2, m2), (arrivals2, k2)]) = (of(cells), texts.map(of));
    let mut work = vec![7; words];
    let (work, w) = memory(&mut work);
    let mut texts = bytes.map(|bytes| vec![7; bytes]);
    let [(text1, t1), (text2, t2)] = texts.each_mut().map(|text| memory(text));
    let map = if pairs { raw::arraymap_map_two_pairs } else { raw::arraymap_map_two };
    // As above.
    unsafe { map(cells, n, graph1, m1, arrivals1, k1, graph2, m2, arrivals2, k2, work, w, text1, t1, text2, t2) }
}

fn check(texts: [&[u8]; 3], words: usize) -> AnswerChecked {
    let [(cells, n), (graph, m), (netlist, k)] = texts.map(of);
    let mut work = vec![7; words];
    let (work, w) = memory(&mut work);
    // As above.
    unsafe { raw::arraymap_check(cells, n, graph, m, netlist, k, work, w) }
}

fn cells(genlib: &[u8], bytes: usize) -> Answer {
    let ((genlib, n), mut text) = (of(genlib), vec![7; bytes]);
    let (text, t) = memory(&mut text);
    // As above.
    unsafe { raw::arraymap_cells(genlib, n, text, t) }
}

fn count(cells: &[u8], netlist: &[u8], mut tally: Vec<u64>) -> Answer {
    let ((cells, n), (netlist, m), (tally, k)) = (of(cells), of(netlist), memory(&mut tally));
    // As above.
    unsafe { raw::arraymap_count(cells, n, netlist, m, tally, k) }
}

fn report(cells: &[u8], mut tally: Vec<u64>, bytes: usize) -> Answer {
    let ((cells, n), (tally, k), mut text) = (of(cells), memory(&mut tally), vec![7; bytes]);
    let (text, t) = memory(&mut text);
    // As above.
    unsafe { raw::arraymap_report(cells, n, tally, k, text, t) }
}

fn netlist() -> Vec<u8> {
    arraymap::map(CELLS, GRAPH, b"").expect("case B").text.into_bytes()
}

#[test]
fn null_is_an_array_of_no_elements() {
    for pairs in [false, true] {
        assert_eq!(map(pairs, [b"", GRAPH, b""], WORDS, BYTES), refused(2, 0));
        assert_eq!(map(pairs, [CELLS, b"", LATE], WORDS, BYTES), refused(7, 0));
        assert_eq!(map(pairs, [CELLS, GRAPH, LATE], 0, BYTES), refused(10, 0));
        assert_eq!(map(pairs, [b"", b"", b""], 0, 0), refused(2, 0));
        let Answer { number, arrival, .. } = map(pairs, [CELLS, GRAPH, b""], WORDS, BYTES);
        assert_eq!((number, arrival), (0, 30));
        // A pair's inner net is longer by one letter, and stands twice.
        assert_eq!(map(pairs, [CELLS, GRAPH, b""], WORDS, 0), refused(18, 134 + 2 * u64::from(pairs)));
        let two = |cells, texts, words, bytes| {
            let AnswerTwo { first, second } = map_two(pairs, cells, texts, words, bytes);
            [first, second]
        };
        assert_eq!(two(b"", [b"", b"", b"", b""], 0, [0, 0]), [refused(2, 0); 2]);
        assert_eq!(two(CELLS, [b"", b"", GRAPH, b""], 2 * WORDS, [BYTES; 2]), [refused(7, 0); 2]);
        assert_eq!(two(CELLS, [GRAPH, LATE, b"", b""], 2 * WORDS, [BYTES; 2]), [refused(7, 0); 2]);
        assert_eq!(two(CELLS, [GRAPH, b"", GRAPH, b""], 0, [BYTES; 2]), [refused(10, 0); 2]);
        let [first, second] = two(CELLS, [GRAPH, b"", GRAPH, LATE], 2 * WORDS, [0, BYTES]);
        assert_eq!((first.number, second.number, second.arrival), (18, 0, 35));
        let [first, second] = two(CELLS, [GRAPH, LATE, GRAPH, b""], 2 * WORDS, [BYTES, 0]);
        assert_eq!((first.number, first.arrival, second.number), (0, 35, 18));
    }
    let verdict = |texts, words| {
        let AnswerChecked { verdict, first, second } = check(texts, words);
        [verdict, first, second]
    };
    let netlist = netlist();
    assert_eq!(verdict([b"", GRAPH, &netlist], 2 * WORDS), [2, 2, 0]);
    assert_eq!(verdict([CELLS, b"", &netlist], 2 * WORDS), [2, 7, 0]);
    assert_eq!(verdict([CELLS, GRAPH, b""], 2 * WORDS), [2, 32, 0]);
    assert_eq!(verdict([CELLS, GRAPH, &netlist], 0), [2, 10, 0]);
    assert_eq!(verdict([b"", b"", b""], 0), [2, 2, 0]);
    assert_eq!(cells(b"", BYTES), refused(0, 33));
    assert_eq!(cells(b"", 0), refused(18, 33));
    assert_eq!(cells(GENLIB, 0).number, 18);
    assert_eq!(count(b"", &netlist, vec![0; 97]), refused(2, 0));
    assert_eq!(count(CELLS, b"", vec![0; 97]), refused(29, 0));
    assert_eq!(count(CELLS, &netlist, Vec::new()), refused(28, 64));
    assert_eq!(count(b"", b"", Vec::new()), refused(2, 0));
    assert_eq!(report(b"", vec![0; 97], BYTES), refused(2, 0));
    assert_eq!(report(CELLS, Vec::new(), BYTES), refused(28, 64));
    assert_eq!(report(CELLS, vec![0; 97], 0), refused(18, 34));
    assert_eq!(report(b"", Vec::new(), 0), refused(2, 0));
}

/// What a call answers and leaves, over these texts and over copies of them.
fn alike<const N: usize, T: PartialEq + std::fmt::Debug>(texts: [&[u8]; N], call: impl Fn([&[u8]; N]) -> T) -> T {
    let copies = texts.map(<[u8]>::to_vec);
    let shared = call(texts);
    assert_eq!(shared, call(copies.each_ref().map(Vec::as_slice)));
    shared
}

#[test]
fn texts_that_are_only_read_may_share_memory() {
    // What follows the last AND line and `.end` is not read: each text begins in the one before it.
    let netlist = netlist();
    let all = [&netlist, GRAPH, LATE, CELLS].concat();
    let (graph, cells) = (&all[netlist.len()..], &all[netlist.len() + GRAPH.len() + LATE.len()..]);
    let late = &graph[GRAPH.len()..][..LATE.len()];
    let lent = || (vec![7; 4 * WORDS], vec![7; BYTES], vec![7; BYTES]);
    for map in [arraymap::call, arraymap::call_pairs] {
        let by = |[cells, graph, arrivals]: [&[u8]; 3]| {
            let (mut work, mut text, _) = lent();
            (map(cells, graph, arrivals, &mut work, &mut text), work, text)
        };
        assert_eq!(alike([cells, graph, late], by).0.arrival, 35);
        for one in [&all[..], graph, cells, late, &netlist] {
            alike([one; 3], by);
            alike([cells, one, one], by);
        }
    }
    for map in [arraymap::call_two, arraymap::call_two_pairs] {
        let by = |[cells, graph1, arrivals1, graph2, arrivals2]: [&[u8]; 5]| {
            let (mut work, mut text1, mut text2) = lent();
            let first = Channel { graph: graph1, arrivals: arrivals1 };
            let second = Channel { graph: graph2, arrivals: arrivals2 };
            (map(cells, first, second, &mut work, &mut text1, &mut text2), work, text1, text2)
        };
        let two = alike([cells, graph, late, graph, late], by).0;
        assert_eq!([two.first.arrival, two.second.arrival], [35; 2]);
        alike([cells; 5], by);
        alike([&all; 5], by);
    }
    let by = |[cells, graph, netlist]: [&[u8]; 3]| {
        let (mut work, _, _) = lent();
        (arraymap::call_check(cells, graph, netlist, &mut work), work)
    };
    assert_eq!(alike([cells, graph, &all], by).0, AnswerChecked { verdict: 0, first: 0, second: 0 });
    alike([&all; 3], by);
    alike([cells; 3], by);
    let by = |[cells, netlist]: [&[u8]; 2]| {
        let mut tally = vec![0; 97];
        (arraymap::call_count(cells, netlist, &mut tally), tally)
    };
    assert_eq!(alike([cells, &all[..netlist.len()]], by).0.number, 0);
    assert_eq!(alike([cells, cells], by).0, refused(29, 0));
    alike([&all; 2], by);
    // A tally's own bytes as the cells: 97 zeros are no names line.
    let tally = [0; 97];
    let bytes = unsafe { std::slice::from_raw_parts(tally.as_ptr().cast::<u8>(), 8 * tally.len()) };
    let mut text = vec![7; BYTES];
    assert_eq!(arraymap::call_report(bytes, &tally, &mut text), refused(2, 0));
    assert_eq!(text, vec![7; BYTES]);
}
