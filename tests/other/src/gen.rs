//! Makes libraries, graphs, faults and damage from a fixed seed.

use crate::{CUT_LIMIT, WORDS_EACH};
use std::sync::OnceLock;

// ---------------------------------------------------------------- chance

/// A small generator of numbers: the same seed gives the same cases.
#[derive(Clone)]
pub struct Rng(u64);

impl Rng {
    pub fn new(seed: u64) -> Rng {
        Rng(seed ^ 0x6a09_e667_f3bc_c908)
    }

    pub fn word(&mut self) -> u64 {
        self.0 = self.0.wrapping_add(0x9e37_79b9_7f4a_7c15);
        let mut x = self.0;
        x = (x ^ x >> 30).wrapping_mul(0xbf58_476d_1ce4_e5b9);
        x = (x ^ x >> 27).wrapping_mul(0x94d0_49bb_1331_11eb);
        x ^ x >> 31
    }

    /// A number below `limit`, which isn't 0.
    pub fn below(&mut self, limit: usize) -> usize {
        (self.word() % limit as u64) as usize
    }

    pub fn between(&mut self, low: usize, high: usize) -> usize {
        low + self.below(high - low + 1)
    }

    pub fn one_in(&mut self, many: usize) -> bool {
        self.below(many) == 0
    }

    pub fn pick<T: Copy>(&mut self, list: &[T]) -> T {
        list[self.below(list.len())]
    }

    /// So many bytes, or other numbers, each by chance.
    pub fn numbers<T>(&mut self, count: usize, of: impl Fn(u64) -> T) -> Vec<T> {
        (0..count).map(|_| of(self.word())).collect()
    }

    pub fn bytes(&mut self, count: usize) -> Vec<u8> {
        self.numbers(count, |word| word as u8)
    }

    pub fn words(&mut self, count: usize) -> Vec<u16> {
        self.numbers(count, |word| word as u16)
    }

    pub fn shuffle<T>(&mut self, list: &mut [T]) {
        for index in (1..list.len()).rev() {
            list.swap(index, self.below(index + 1));
        }
    }
}

// ---------------------------------------------------------------- libraries

#[derive(Clone, Debug, PartialEq, Eq)]
pub struct Cell {
    pub name: String,
    pub pins: usize,
    pub table: u16,
    pub area: u16,
    pub delays: [u16; 4],
    /// The lowest delays, which `ranged_text` prints.
    pub lowest: [u16; 4],
}

impl Cell {
    pub fn line(&self) -> String {
        let Cell { name, pins, table, area, delays: [d0, d1, d2, d3], .. } = self;
        format!("{name} {pins} {table:04x} {area} {d0} {d1} {d2} {d3}\n")
    }

    pub fn ranged_line(&self) -> String {
        let [l0, l1, l2, l3] = self.lowest;
        format!("{} {l0} {l1} {l2} {l3}\n", self.line().trim_end())
    }
}

pub const NAMES_LINE: &str = "cell pins table area d0 d1 d2 d3\n";

/// That of a library with ranges.
pub const RANGED_LINE: &str = "cell pins table area d0 d1 d2 d3 l0 l1 l2 l3\n";

pub fn library_text(cells: &[Cell]) -> Vec<u8> {
    let lines: String = cells.iter().map(Cell::line).collect();
    format!("{NAMES_LINE}{lines}").into_bytes()
}

/// The same with the lowest delays.
pub fn ranged_text(cells: &[Cell]) -> Vec<u8> {
    let lines: String = cells.iter().map(Cell::ranged_line).collect();
    format!("{RANGED_LINE}{lines}").into_bytes()
}

/// Lowest delays within the others: all 0, none below its own, or by chance, pin by
/// pin, so that pins late in one end are early in the other.
pub fn with_ranges(rng: &mut Rng, cells: &[Cell]) -> Vec<Cell> {
    let kind = rng.below(8);
    let lowest = |rng: &mut Rng, delay: u16| match kind {
        0 => 0,
        1 => delay,
        2 | 3 => rng.pick(&[0, delay, delay / 2, delay.saturating_sub(1)]),
        _ => rng.between(0, usize::from(delay)) as u16,
    };
    let mut cells = cells.to_vec();
    for cell in &mut cells {
        cell.lowest = cell.delays.map(|delay| lowest(rng, delay));
    }
    cells
}

/// A good library text of the shorter names line with lowest delays: of pin j at
/// least j quarters of its delay.
pub fn lowest_added(text: &[u8]) -> Vec<u8> {
    let text = String::from_utf8_lossy(text);
    let mut ranged = RANGED_LINE.to_string();
    for line in text.lines().skip(1) {
        let delays = line.split(' ').skip(4).map(|word| word.parse::<u32>().expect("a delay"));
        let lowest = delays.enumerate().map(|(pin, delay)| format!(" {}", delay * pin as u32 / 4));
        ranged += &format!("{line}{}\n", lowest.collect::<String>());
    }
    ranged.into_bytes()
}

/// Whether a library text has the longer names line.
pub fn is_ranged(text: &[u8]) -> bool {
    let line = text.split(|&byte| byte == b'\n').next().unwrap_or_default();
    line.trim_ascii_end() == RANGED_LINE.trim_end().as_bytes()
}

/// The text of these cells with either names line.
pub fn either_text(rng: &mut Rng, cells: &[Cell]) -> Vec<u8> {
    if rng.one_in(2) {
        return library_text(cells);
    }
    ranged_text(&with_ranges(rng, cells))
}

/// Pins and table of functions that libraries have, and of odd ones: one-pin
/// constants, pins that the table ignores.
#[rustfmt::skip]
const FUNCTIONS: [(usize, u16); 52] = [
    (0, 0x0000), (0, 0x0001), (1, 0x0000), (1, 0x0001), (1, 0x0002), (1, 0x0003),
    (2, 0x0007), (2, 0x0001), (2, 0x0008), (2, 0x000e), (2, 0x0006), (2, 0x0009), (2, 0x0002), (2, 0x0004),
    (2, 0x000b), (2, 0x000d), (2, 0x000a), (2, 0x000c), (2, 0x0005), (2, 0x0003), (2, 0x0000), (2, 0x000f),
    (3, 0x007f), (3, 0x0001), (3, 0x0080), (3, 0x00fe), (3, 0x0007), (3, 0x001f), (3, 0x00ca), (3, 0x0035),
    (3, 0x00e8), (3, 0x0017), (3, 0x0096), (3, 0x0069), (3, 0x0088), (3, 0x00a0), (3, 0x0077), (3, 0x00cc),
    (4, 0x7fff), (4, 0x0001), (4, 0x8000), (4, 0xfffe), (4, 0x0777), (4, 0x111f), (4, 0x007f), (4, 0x1fff),
    (4, 0x6996), (4, 0xf888), (4, 0x8888), (4, 0xff00), (4, 0x0000), (4, 0xffff),
];

/// Functions of three and four pins that often match.
#[rustfmt::skip]
const WIDE: [(usize, u16); 20] = [
    (3, 0x007f), (3, 0x0001), (3, 0x0080), (3, 0x00fe), (3, 0x0007), (3, 0x001f), (3, 0x00ca), (3, 0x0035),
    (3, 0x00e8), (3, 0x00a8), (4, 0x7fff), (4, 0x0001), (4, 0x8000), (4, 0xfffe), (4, 0x0777), (4, 0x111f),
    (4, 0x007f), (4, 0x1fff), (4, 0xf888), (4, 0x0007),
];

fn name(rng: &mut Rng) -> String {
    const LETTERS: &[u8] = b"abcxyzABCXYZ";
    const REST: &[u8] = b"abcxyzABCXYZ0123456789__";
    let length = if rng.one_in(4) { 8 } else { rng.between(1, 8) };
    (0..length).map(|at| rng.pick(if at == 0 { LETTERS } else { REST }) as char).collect()
}

/// So many cells with different names. Delays come from a few values, so that
/// ties are common; some libraries have no delay at all.
pub fn library(rng: &mut Rng, count: usize) -> Vec<Cell> {
    let delays: Vec<u16> = match rng.below(6) {
        0 => vec![0],
        1 => vec![10],
        2 => vec![0, 10],
        3 => vec![0, 1, 2, 3, 65_535],
        4 => vec![10, 20, 30, 40],
        _ => (0..8).map(|_| rng.below(100) as u16).collect(),
    };
    let useful = !rng.one_in(5);
    let wide = rng.one_in(2);
    let odd_names = rng.one_in(3);
    let mut cells: Vec<Cell> = Vec::new();
    while cells.len() < count {
        let (pins, table) = match cells.len() {
            0 if useful => (1, 0x0001),
            1 if useful => rng.pick(&[(2, 0x0007), (2, 0x0001), (2, 0x0008), (2, 0x000e)]),
            2 if useful && !rng.one_in(4) => (0, rng.below(2) as u16),
            _ if wide && !rng.one_in(4) => rng.pick(&WIDE),
            _ if rng.one_in(5) => {
                let pins = rng.below(5);
                (pins, (rng.word() & ((1 << (1 << pins)) - 1)) as u16)
            }
            _ if rng.one_in(6) => (1, 0x0001),
            _ => rng.pick(&FUNCTIONS),
        };
        let mut cell = Cell {
            name: String::new(),
            pins,
            table,
            area: rng.pick(&[0, 1, 1, 2, 3, 9, 65_535]),
            delays: [0; 4],
            lowest: [0; 4],
        };
        let even = rng.one_in(2).then(|| rng.pick(&delays));
        for delay in &mut cell.delays[..pins] {
            *delay = even.unwrap_or_else(|| rng.pick(&delays));
        }
        cell.name = if odd_names { name(rng) } else { format!("c{}", cells.len()) };
        if cells.iter().all(|earlier| earlier.name != cell.name) {
            cells.push(cell);
        }
    }
    rng.shuffle(&mut cells);
    cells
}

pub fn library_size(rng: &mut Rng) -> usize {
    match rng.below(12) {
        0 => 0,
        1 => 32,
        2 => rng.between(20, 32),
        3 | 4 => rng.between(1, 4),
        _ => rng.between(4, 18),
    }
}

/// What case B prints.
pub const LISTING: &str = "\
.model top
.inputs p1 p2
.outputs o0
.gate inv A=m3 O=p3
.gate nand2 A=p1 B=p2 O=m3
.names p3 o0
1 1
.end
# gates 2 area 3 arrival 30
";

/// The library of case B.
pub fn small_library() -> Vec<Cell> {
    let cell =
        |name: &str, pins, table, area, delays| Cell { name: name.into(), pins, table, area, delays, lowest: [0; 4] };
    vec![cell("inv", 1, 1, 1, [10, 0, 0, 0]), cell("nand2", 2, 7, 2, [20, 20, 0, 0])]
}

/// The cells of case B, both constants and all wide functions, with delays
/// that rise with the pins: every graph has a cover.
pub fn full_library() -> Vec<Cell> {
    let mut cells = small_library();
    for (pins, table) in [(0, 0x0000), (0, 0x0001), (2, 0x0006)].into_iter().chain(WIDE) {
        let (name, area) = (format!("w{}", cells.len()), 1 + pins as u16);
        let mut cell = Cell { name, pins, table, area, delays: [0; 4], lowest: [0; 4] };
        for (pin, delay) in cell.delays[..pins].iter_mut().enumerate() {
            *delay = (12 * pins - 2 * pin) as u16;
        }
        cells.push(cell);
    }
    cells
}

// ---------------------------------------------------------------- shapes

/// A literal of a node: its index and whether it is complemented.
pub type End = (usize, bool);

/// A graph before it has numbers: node 0 is the constant, then the inputs,
/// then the ANDs, each over earlier nodes. At most 63 nodes, so that a cut is
/// a set of bits.
#[derive(Clone, Debug)]
pub struct Shape {
    pub inputs: usize,
    pub ands: Vec<[End; 2]>,
    cuts: Vec<Vec<u64>>,
}

impl Shape {
    pub fn new(inputs: usize) -> Shape {
        let mut cuts = vec![vec![0]];
        cuts.extend((1..=inputs).map(|input| vec![1 << input]));
        Shape { inputs, ands: Vec::new(), cuts }
    }

    pub fn nodes(&self) -> usize {
        1 + self.inputs + self.ands.len()
    }

    /// The cut set that an AND of these two nodes would have.
    fn joined(&self, a: usize, b: usize) -> Vec<u64> {
        let mut set = vec![1u64 << self.nodes()];
        for one in &self.cuts[a] {
            set.extend(self.cuts[b].iter().map(|other| one | other).filter(|union| union.count_ones() <= 4));
        }
        set.sort_unstable();
        set.dedup();
        set
    }

    pub fn push(&mut self, a: End, b: End) {
        let set = self.joined(a.0, b.0);
        self.cuts.push(set);
        self.ands.push([a, b]);
    }

    pub fn last_count(&self) -> usize {
        self.cuts.last().map_or(0, Vec::len)
    }
}

/// A random shape whose ANDs have at most `cap` cuts.
pub fn shape(rng: &mut Rng, inputs: usize, ands: usize, cap: usize) -> Shape {
    let mut shape = Shape::new(inputs);
    let style = rng.below(5);
    for _ in 0..ands.min(62 - inputs) {
        let nodes = shape.nodes();
        let mut best: Option<(usize, End, End)> = None;
        for _ in 0..6 {
            let end = |rng: &mut Rng| {
                let node = match style {
                    0 => rng.below(nodes),
                    1 if nodes > 4 => nodes - 1 - rng.below(4),
                    2 if inputs > 0 && rng.one_in(2) => rng.between(1, inputs),
                    3 if nodes > 1 => rng.between(1, nodes - 1),
                    _ if nodes > 6 => nodes - 1 - rng.below(6),
                    _ => rng.below(nodes),
                };
                let node = if rng.one_in(20) { 0 } else { node };
                (node, rng.one_in(2))
            };
            let a = end(rng);
            let b = if rng.one_in(15) { (a.0, rng.one_in(2)) } else { end(rng) };
            let count = shape.joined(a.0, b.0).len();
            let better = match best {
                None => true,
                // The last two styles climb towards the limit.
                Some((known, _, _)) => style >= 3 && count > known,
            };
            if count <= cap && better {
                best = Some((count, a, b));
                if style < 3 {
                    break;
                }
            }
        }
        let (_, a, b) = best.unwrap_or((0, (0, true), (nodes.min(inputs + 1) - 1, rng.one_in(2))));
        shape.push(a, b);
    }
    shape
}

/// A shape of the parts that circuits are made of: exclusive ors, selectors,
/// majorities, chains; their functions are those that wide cells match.
pub fn circuit(rng: &mut Rng, inputs: usize, parts: usize, cap: usize) -> Shape {
    let mut shape = Shape::new(inputs);
    for _ in 0..parts {
        let before = shape.clone();
        if shape.nodes() > 54 {
            break;
        }
        let nodes = shape.nodes();
        let mut end = || {
            let node = if rng.one_in(3) && nodes > 5 { nodes - 1 - rng.below(4) } else { rng.between(1, nodes - 1) };
            (node, rng.one_in(2))
        };
        let (a, b, c, d) = (end(), end(), end(), end());
        let not = |(node, negative): End| (node, !negative);
        let mut and = |a: End, b: End| {
            shape.push(a, b);
            (shape.nodes() - 1, false)
        };
        match rng.below(6) {
            0 => {
                let (one, other) = (and(a, not(b)), and(not(a), b));
                and(not(one), not(other));
            }
            1 => {
                let (one, other) = (and(a, b), and(not(a), c));
                and(not(one), not(other));
            }
            2 => {
                let (both, none) = (and(a, b), and(not(a), not(b)));
                let some = and(c, not(none));
                and(not(both), not(some));
            }
            3 => {
                let (one, other) = (and(a, b), and(c, d));
                and(not(one), not(other));
            }
            4 => {
                let first = and(a, b);
                let second = and(not(first), c);
                and(not(second), d);
            }
            _ => drop(and(a, b)),
        }
        if shape.cuts.iter().any(|set| set.len() > cap) {
            shape = before;
        }
    }
    shape
}

/// A shape whose last AND has exactly so many cuts, and no other over the limit; the
/// smallest that a fixed search comes across.
pub fn shape_with_cuts(wanted: usize) -> &'static Shape {
    static FOUND: OnceLock<Vec<Shape>> = OnceLock::new();
    let found = FOUND.get_or_init(|| (CUT_LIMIT..=CUT_LIMIT + 1).map(search).collect());
    &found[wanted - CUT_LIMIT]
}

fn search(wanted: usize) -> Shape {
    let mut rng = Rng::new(7);
    let mut smallest: Option<Shape> = None;
    for _ in 0..4_000 {
        let mut shape = Shape::new(rng.between(3, 5));
        for _ in 0..8 {
            let nodes = shape.nodes();
            let (a, b) = (rng.between(1, nodes - 1), rng.between(1, nodes - 1));
            if shape.joined(a, b).len() > wanted {
                continue;
            }
            shape.push((a, rng.one_in(2)), (b, rng.one_in(2)));
            if shape.last_count() == CUT_LIMIT + 1 || shape.last_count() == wanted {
                break;
            }
        }
        let smaller = smallest.as_ref().is_none_or(|known| shape.nodes() < known.nodes());
        if shape.last_count() == wanted && smaller {
            smallest = Some(shape);
        }
    }
    smallest.expect("the search finds a shape")
}

// ---------------------------------------------------------------- graphs

#[derive(Clone, Debug)]
pub struct Graph {
    pub top: usize,
    /// Variables, in the order of their lines.
    pub inputs: Vec<usize>,
    /// Literals.
    pub outputs: Vec<usize>,
    /// Left variable and the two right literals.
    pub ands: Vec<(usize, usize, usize)>,
}

impl Graph {
    pub fn text(&self) -> Vec<u8> {
        let Graph { top, inputs, outputs, ands } = self;
        let mut text = format!("aag {top} {} 0 {} {}\n", inputs.len(), outputs.len(), ands.len());
        for line in self.lines() {
            text += &line;
        }
        text.into_bytes()
    }

    /// The due lines.
    pub fn lines(&self) -> Vec<String> {
        let mut lines: Vec<String> = self.inputs.iter().map(|variable| format!("{}\n", 2 * variable)).collect();
        lines.extend(self.outputs.iter().map(|literal| format!("{literal}\n")));
        lines.extend(self.ands.iter().map(|(left, a, b)| format!("{} {a} {b}\n", 2 * left)));
        lines
    }

    pub fn words(&self) -> usize {
        WORDS_EACH * (self.top + 1) + self.outputs.len()
    }

    /// Left minus first operand and first minus second, AND by AND, the larger
    /// literal first; none where the variables don't stand in sequence: inputs 1
    /// to I, then the ANDs, each over lower variables.
    pub fn differences(&self) -> Option<Vec<usize>> {
        let count = self.inputs.len();
        if self.top != count + self.ands.len() || !self.inputs.iter().copied().eq(1..=count) {
            return None;
        }
        let mut differences = Vec::new();
        for (variable, &(left, a, b)) in (count + 1..).zip(&self.ands) {
            let (first, second) = (a.max(b), a.min(b));
            if left != variable || first >= 2 * left {
                return None;
            }
            differences.extend([2 * left - first, first - second]);
        }
        Some(differences)
    }

    /// The binary text, of a graph whose variables stand in sequence.
    pub fn binary(&self) -> Option<Vec<u8>> {
        self.binary_padded(|| false)
    }

    /// The same; each difference below 128 is asked whether it takes a second
    /// group all the same.
    pub fn binary_padded(&self, mut padded: impl FnMut() -> bool) -> Option<Vec<u8>> {
        let mut text = self.binary_head().into_bytes();
        for difference in self.differences()? {
            let padded = difference < 128 && padded();
            text.extend(groups(difference, padded));
        }
        Some(text)
    }

    /// The binary header and output lines.
    fn binary_head(&self) -> String {
        let Graph { top, inputs, outputs, ands } = self;
        let head = format!("aig {top} {} 0 {} {}\n", inputs.len(), outputs.len(), ands.len());
        outputs.iter().fold(head, |head, literal| head + &format!("{literal}\n"))
    }

    /// The graph renumbered so that its variables stand in sequence: inputs in
    /// the file's order, then the ANDs, each after its operands. None with a
    /// circle.
    pub fn in_sequence(&self) -> Option<Graph> {
        let placed = self.placed()?;
        let mut variables = vec![0; self.top + 1];
        let all = self.inputs.iter().copied().chain(placed.iter().map(|(left, _, _)| *left));
        for (index, variable) in all.enumerate() {
            variables[variable] = 1 + index;
        }
        let literal = |literal: usize| 2 * variables[literal / 2] + literal % 2;
        Some(Graph {
            top: self.inputs.len() + placed.len(),
            inputs: (1..=self.inputs.len()).collect(),
            outputs: self.outputs.iter().map(|&output| literal(output)).collect(),
            ands: placed.iter().map(|&(left, a, b)| (variables[left], literal(a), literal(b))).collect(),
        })
    }

    /// A good text read back, in either form.
    pub fn from_text(text: &[u8]) -> Graph {
        if text.starts_with(b"aig ") {
            return Graph::from_binary(text);
        }
        let text = std::str::from_utf8(text).expect("a good text");
        let mut lines = text.lines().map(|line| -> Vec<usize> {
            line.split(' ').filter(|word| *word != "aag").map(|word| word.parse().expect("a number")).collect()
        });
        let header = lines.next().expect("a header");
        let mut take = |count: usize| -> Vec<Vec<usize>> { lines.by_ref().take(count).collect() };
        Graph {
            top: header[0],
            inputs: take(header[1]).iter().map(|line| line[0] / 2).collect(),
            outputs: take(header[3]).iter().map(|line| line[0]).collect(),
            ands: take(header[4]).iter().map(|line| (line[0] / 2, line[1], line[2])).collect(),
        }
    }

    fn from_binary(text: &[u8]) -> Graph {
        let mut rest = text.iter().copied();
        let mut line = || -> Vec<usize> {
            let bytes: Vec<u8> = rest.by_ref().take_while(|&byte| byte != b'\n').collect();
            let line = String::from_utf8(bytes).expect("a good line");
            line.split(' ').filter(|word| *word != "aig").map(|word| word.parse().expect("a number")).collect()
        };
        let header = line();
        let (inputs, ands) = (header[1], header[4]);
        let outputs = (0..header[3]).map(|_| line()[0]).collect();
        let mut byte = || usize::from(rest.next().expect("a difference"));
        let mut difference = || match byte() {
            low if low < 128 => low,
            low => low - 128 + 128 * byte(),
        };
        let mut graph = Graph { top: header[0], inputs: (1..=inputs).collect(), outputs, ands: Vec::new() };
        for left in inputs + 1..=inputs + ands {
            let first = 2 * left - difference();
            graph.ands.push((left, first, first - difference()));
        }
        graph
    }

    /// The ANDs so that each stands after its operands; none on a circle.
    pub fn placed(&self) -> Option<Vec<(usize, usize, usize)>> {
        let mut known = vec![false; self.top + 1];
        known[0] = true;
        for &input in &self.inputs {
            known[input] = true;
        }
        let mut waiting = self.ands.clone();
        let mut placed = Vec::new();
        while !waiting.is_empty() {
            let before = placed.len();
            waiting.retain(|&(left, a, b)| {
                let ready = known[a / 2] && known[b / 2];
                if ready {
                    known[left] = true;
                    placed.push((left, a, b));
                }
                !ready
            });
            if placed.len() == before {
                return None;
            }
        }
        Some(placed)
    }

    /// The outputs' values where the inputs have these.
    pub fn values(&self, placed: &[(usize, usize, usize)], setting: &[bool]) -> Vec<bool> {
        let mut value = vec![false; self.top + 1];
        for (&input, &is) in self.inputs.iter().zip(setting) {
            value[input] = is;
        }
        let literal = |value: &[bool], literal: usize| value[literal / 2] ^ (literal % 2 == 1);
        for &(left, a, b) in placed {
            value[left] = literal(&value, a) && literal(&value, b);
        }
        self.outputs.iter().map(|&output| literal(&value, output)).collect()
    }
}

/// A difference below 2^14 "in groups of seven bits, lowest first, the top bit
/// set on all but the last byte"; `padded` takes two groups in any case.
pub fn groups(difference: usize, padded: bool) -> Vec<u8> {
    let (low, high) = ((difference % 128) as u8, (difference / 128) as u8);
    if high == 0 && !padded {
        vec![low]
    } else {
        vec![128 + low, high]
    }
}

/// A shape's nodes numbered as they come.
pub fn as_it_comes(shape: &Shape, outputs: &[End]) -> Graph {
    let literal = |(node, negative): End| 2 * node + usize::from(negative);
    let ands = (1 + shape.inputs..).zip(&shape.ands);
    Graph {
        top: shape.nodes() - 1,
        inputs: (1..=shape.inputs).collect(),
        outputs: outputs.iter().map(|&end| literal(end)).collect(),
        ands: ands.map(|(left, &[a, b])| (left, literal(a), literal(b))).collect(),
    }
}

/// Numbers for a shape's nodes and an order for its lines: sometimes as they
/// come, sometimes shuffled, with gaps where variables are defined nowhere.
pub fn numbered(rng: &mut Rng, shape: &Shape, outputs: &[End]) -> Graph {
    let nodes = shape.nodes() - 1;
    let spare = if rng.one_in(2) { 0 } else { rng.below(6) };
    let top = nodes + spare;
    let mut variables: Vec<usize> = (1..=top).collect();
    match rng.below(4) {
        0 => {}
        1 => variables.reverse(),
        _ => rng.shuffle(&mut variables),
    }
    variables.insert(0, 0);
    let literal = |(node, negative): End| 2 * variables[node] + usize::from(negative);
    let mut inputs: Vec<usize> = variables[1..=shape.inputs].to_vec();
    let mut ands: Vec<(usize, usize, usize)> = Vec::new();
    for (index, &[a, b]) in shape.ands.iter().enumerate() {
        ands.push((variables[1 + shape.inputs + index], literal(a), literal(b)));
    }
    if rng.one_in(2) {
        rng.shuffle(&mut ands);
    }
    if rng.one_in(2) {
        rng.shuffle(&mut inputs);
    }
    Graph { top, inputs, outputs: outputs.iter().map(|&end| literal(end)).collect(), ands }
}

/// Every graph of two inputs and two ANDs, up to the order of operands; the
/// outputs are both ANDs, the second in both phases.
pub fn every_small_graph() -> Vec<Graph> {
    let mut graphs = Vec::new();
    for number in 0..6 * 6 * 8 * 8 {
        let (a, b, c, d) = (number % 6, number / 6 % 6, number / 36 % 8, number / 288);
        if a <= b && c <= d {
            let ands = vec![(3, a, b), (4, c, d)];
            graphs.push(Graph { top: 4, inputs: vec![1, 2], outputs: vec![6, 8, 9], ands });
        }
    }
    graphs
}

/// Some outputs: mostly late nodes, often inputs, constants, and what an earlier
/// output is or its complement; sometimes so many that their names have two or
/// three digits.
pub fn outputs(rng: &mut Rng, shape: &Shape) -> Vec<End> {
    let nodes = shape.nodes();
    let count = match rng.below(48) {
        0..=3 => 0,
        4 => rng.between(9, 12),
        5 | 6 => rng.between(99, 104),
        _ => rng.between(1, 5),
    };
    let mut ends: Vec<End> = Vec::new();
    while ends.len() < count {
        let node = match rng.below(24) {
            0 => 0,
            1..=4 if shape.inputs > 0 => rng.between(1, shape.inputs),
            5..=9 => rng.below(nodes),
            _ => nodes - 1 - rng.below(nodes.min(4)),
        };
        ends.push((node, rng.one_in(2)));
        if rng.one_in(4) {
            let (node, negative) = rng.pick(&ends);
            ends.push((node, negative ^ rng.one_in(3)));
        }
    }
    ends
}

pub fn graph(rng: &mut Rng, most_inputs: usize, most_ands: usize, cap: usize) -> Graph {
    let inputs = if rng.one_in(15) { 0 } else { rng.between(1, most_inputs) };
    let ands = rng.below(most_ands + 1);
    let shape = if inputs > 0 && rng.one_in(2) {
        circuit(rng, inputs, ands.div_ceil(3), cap)
    } else {
        shape(rng, inputs, ands, cap)
    };
    let outputs = outputs(rng, &shape);
    numbered(rng, &shape, &outputs)
}

/// Many blocks side by side over one set of inputs, up to `top` variables.
pub fn large_graph(rng: &mut Rng, top: usize) -> Graph {
    let inputs = rng.between(5, top.min(40));
    let mut graph = Graph { top, inputs: (1..=inputs).collect(), outputs: Vec::new(), ands: Vec::new() };
    let mut next = inputs + 1;
    while next <= top {
        let some = rng.between(2, 5);
        let some_ands = rng.between(3, 25);
        let block = match rng.below(4) {
            0 => shape(rng, some, some_ands, CUT_LIMIT),
            _ => circuit(rng, some, some_ands.div_ceil(2), CUT_LIMIT),
        };
        let mut fed: Vec<usize> = (1..=inputs).collect();
        rng.shuffle(&mut fed);
        let first = next;
        let variable = |node: usize| match node {
            0 => 0,
            _ if node <= block.inputs => fed[node - 1],
            _ => first + node - block.inputs - 1,
        };
        for (index, [a, b]) in block.ands.iter().enumerate() {
            if next > top {
                break;
            }
            let literal = |end: &End| 2 * variable(end.0) + usize::from(end.1);
            graph.ands.push((variable(1 + block.inputs + index), literal(a), literal(b)));
            next += 1;
        }
        graph.outputs.extend((next - 1 - rng.below(3).min(next - 1 - first)..next).map(|node| 2 * node + rng.below(2)));
    }
    if rng.one_in(2) {
        rng.shuffle(&mut graph.ands);
    }
    graph.outputs.truncate(4096);
    graph
}

/// A few ANDs over so many inputs that differences take one or two bytes.
pub fn wide_graph(rng: &mut Rng) -> Graph {
    let inputs = rng.pick(&[60, 63, 64, 65, 130, 300]);
    let ands = rng.between(1, 8);
    let mut graph = Graph { top: inputs + ands, inputs: (1..=inputs).collect(), outputs: vec![], ands: vec![] };
    for left in inputs + 1..=graph.top {
        let literal = |rng: &mut Rng| match rng.below(4) {
            0 => 2 * left - 1 - rng.below(8),
            1 => rng.below(6),
            2 => (2 * left).saturating_sub(126 + rng.below(5)),
            _ => rng.below(2 * inputs + 2),
        };
        let (a, b) = (literal(rng), literal(rng));
        // Operands that are ANDs have few cuts, and so has this one.
        graph.ands.push((left, a, if a / 2 > inputs { b.min(2 * inputs + 1) } else { b }));
        graph.outputs.push(2 * left + rng.below(2));
    }
    graph
}

// ---------------------------------------------------------------- cases

/// How much is lent, measured against what is needed.
#[derive(Clone, Copy, Debug, PartialEq, Eq)]
pub enum Lent {
    Exact,
    OneShort,
    Over(usize),
    This(usize),
}

impl Lent {
    pub fn of(self, need: usize) -> usize {
        match self {
            Lent::Exact => need,
            Lent::OneShort => need.saturating_sub(1),
            Lent::Over(more) => need + more,
            Lent::This(exactly) => exactly,
        }
    }
}

#[derive(Clone, Debug)]
pub struct Case {
    pub what: String,
    pub cells: Vec<u8>,
    pub graph: Vec<u8>,
    pub arrivals: Vec<u8>,
    /// Whether the call wants pairs of cells.
    pub pairs: bool,
    pub words: Lent,
    pub text: Lent,
    /// Refusal number and place, where the making knows them; number 0 is
    /// success.
    pub expected: Option<(u32, usize)>,
}

impl Case {
    pub fn new(what: impl Into<String>, cells: Vec<u8>, graph: Vec<u8>) -> Case {
        let (words, text) = (Lent::Over(5), Lent::Over(9));
        Case { what: what.into(), cells, graph, arrivals: Vec::new(), pairs: false, words, text, expected: None }
    }

    pub fn arrivals(mut self, arrivals: impl Into<Vec<u8>>) -> Case {
        self.arrivals = arrivals.into();
        self
    }

    pub fn with_pairs(mut self) -> Case {
        self.pairs = true;
        self
    }

    pub fn expect(mut self, number: u32, place: usize) -> Case {
        self.expected = Some((number, place));
        self
    }

    pub fn words(mut self, words: Lent) -> Case {
        self.words = words;
        self
    }

    pub fn text(mut self, text: Lent) -> Case {
        self.text = text;
        self
    }
}

fn lent(rng: &mut Rng) -> Lent {
    match rng.below(8) {
        0..=2 => Lent::Exact,
        3 => Lent::Over(1),
        _ => {
            let more = rng.below(300);
            Lent::Over(more)
        }
    }
}

/// A random case of the long comparison; of half of them the lines end in 13 and
/// 10 here and there, all through, or nowhere.
pub fn case(rng: &mut Rng) -> Case {
    let case = case_of_tens(rng);
    if rng.one_in(2) {
        alike_but_for_ends(rng, &case)
    } else {
        case
    }
}

fn case_of_tens(rng: &mut Rng) -> Case {
    let kind = rng.below(125);
    let count = library_size(rng);
    let cells = library(rng, count);
    let cells = either_text(rng, &cells);
    let mut case = match kind {
        0..=54 => {
            let most = rng.pick(&[3, 6, 12, 25, 40]);
            let mut text = graph(rng, 8, most, CUT_LIMIT).text();
            if rng.one_in(6) {
                let trailing: Vec<u8> = (0..rng.below(20)).map(|_| rng.word() as u8).collect();
                text.extend(trailing);
            }
            Case::new("graph", cells, text)
        }
        55..=64 => {
            let cap = rng.pick(&[CUT_LIMIT + 1, CUT_LIMIT + 2, 100]);
            Case::new("around the limit of cuts", cells, graph(rng, 6, 20, cap).text())
        }
        65..=70 => {
            let mut graph = graph(rng, 6, 12, CUT_LIMIT);
            make_circle(rng, &mut graph);
            Case::new("circle", cells, graph.text())
        }
        71..=80 => return faults(rng),
        81..=94 => {
            let graph = graph(rng, 4, 6, CUT_LIMIT).text();
            let [cells, graph] = [cells, graph].map(|text| if rng.one_in(2) { mixed(rng, &text).text } else { text });
            let damage = if rng.one_in(3) { damaged_end } else { damaged };
            let (cells, graph) =
                if rng.one_in(2) { (damage(rng, &cells), graph) } else { (cells, damage(rng, &graph)) };
            Case::new("damage", cells, graph)
        }
        95 => {
            let cells = library(rng, 33);
            let cells = either_text(rng, &cells);
            let offset = cells[..cells.len() - 1].iter().rposition(|&byte| byte == 10).map_or(0, |end| end + 1);
            Case::new("33 cells", cells, graph(rng, 3, 3, CUT_LIMIT).text()).expect(3, offset)
        }
        96 => {
            let top = rng.between(60, 400);
            let cells = if rng.one_in(3) { cells } else { either_text(rng, &full_library()) };
            Case::new("large", cells, large_graph(rng, top).text())
        }
        97..=99 => Case::new("tiny", cells, graph(rng, 2, 2, CUT_LIMIT).text()),
        _ => {
            let graph = match kind {
                100..=103 => wide_graph(rng),
                104 => {
                    let top = rng.between(60, 400);
                    large_graph(rng, top)
                }
                105..=108 => graph(rng, 6, 20, CUT_LIMIT + 2),
                _ => {
                    let most = rng.pick(&[1, 3, 6, 12, 25]);
                    graph(rng, 8, most, CUT_LIMIT)
                }
            };
            let many = rng.pick(&[2, 10, 1_000]);
            let sequence = graph.in_sequence().expect("no circle");
            let mut text = sequence.binary_padded(|| rng.one_in(many)).expect("in sequence");
            if rng.one_in(6) {
                let trailing: Vec<u8> = (0..rng.below(20)).map(|_| rng.word() as u8).collect();
                text.extend(trailing);
            }
            match kind {
                123.. => two_bytes_in_binary(rng, cells, &text),
                122 => Case::new("damaged end in binary", cells, damaged_end(rng, &text)),
                117.. => Case::new("damaged binary", cells, damaged(rng, &text)),
                _ => Case::new("binary", cells, text),
            }
        }
    };
    case.words = lent(rng);
    case.text = lent(rng);
    if rng.one_in(2) {
        let inputs = inputs_of(&case.graph);
        case.arrivals = arrivals(rng, inputs);
        if case.expected.is_none() && rng.one_in(6) {
            case.arrivals = match rng.below(3) {
                0 => arrivals_with_faults(rng, inputs, 2).0,
                1 => damaged(rng, &case.arrivals),
                _ => damaged_end(rng, &case.arrivals),
            };
        }
    }
    if case.expected.is_none() {
        if rng.one_in(25) {
            case.words = if rng.one_in(2) { Lent::OneShort } else { Lent::This(rng.below(200)) };
        }
        if rng.one_in(12) {
            case.text = if rng.one_in(2) { Lent::OneShort } else { Lent::This(rng.below(60)) };
        }
    }
    case
}

/// Turns an operand of some AND to any AND, and so sometimes closes a circle.
fn make_circle(rng: &mut Rng, graph: &mut Graph) {
    for _ in 0..rng.between(1, 3) {
        if graph.ands.is_empty() {
            return;
        }
        let (from, to) = (rng.below(graph.ands.len()), rng.below(graph.ands.len()));
        let literal = 2 * graph.ands[to].0 + rng.below(2);
        if rng.one_in(2) {
            graph.ands[from].1 = literal;
        } else {
            graph.ands[from].2 = literal;
        }
    }
}

// ---------------------------------------------------------------- arrivals

pub const ARRIVALS_LINE: &str = "input arrival\n";

/// The arrivals that a good text gives so many inputs.
pub fn late(text: &[u8], inputs: usize) -> Vec<u64> {
    let text = std::str::from_utf8(text).expect("a good text");
    let mut late = vec![0; inputs];
    for line in text.lines().skip(1) {
        let (index, arrival) = line.split_once(' ').expect("two numbers");
        late[index.parse::<usize>().expect("an index")] = arrival.parse().expect("an arrival");
    }
    late
}

/// A text that lists the arrivals of all inputs.
pub fn arrivals_of(late: &[u64]) -> Vec<u8> {
    let lines = late.iter().enumerate().map(|(index, arrival)| format!("{index} {arrival}\n"));
    (ARRIVALS_LINE.to_string() + &lines.collect::<String>()).into_bytes()
}

/// I in the first line of a graph text, or a number where none is read.
fn inputs_of(graph: &[u8]) -> usize {
    let header = graph.split(|&byte| byte == b'\n').next().unwrap_or_default();
    let word = String::from_utf8_lossy(header).split(' ').nth(2).and_then(|word| word.parse().ok());
    word.unwrap_or(3).min(4_095)
}

/// An arrival of a kind, so that ties with delays are common.
pub fn arrival(rng: &mut Rng, kind: usize) -> u64 {
    match kind {
        0 => rng.pick(&[0, 10, 20, 30, 40]),
        1 => rng.below(4) as u64,
        2 => rng.pick(&[0, 65_535, 65_534, 9, 10, 99, 100, 9_999, 10_000]),
        3 => rng.below(65_536) as u64,
        _ => rng.below(120) as u64,
    }
}

/// A good text for so many inputs: empty, its first line alone, or some of the
/// inputs or all, in any order.
pub fn arrivals(rng: &mut Rng, inputs: usize) -> Vec<u8> {
    let mut indices: Vec<usize> = (0..inputs).collect();
    if rng.one_in(2) {
        rng.shuffle(&mut indices);
    }
    match rng.below(8) {
        0 => return Vec::new(),
        1 => indices.clear(),
        2 | 3 => indices.truncate(rng.below(inputs + 1)),
        _ => {}
    }
    let kind = rng.below(5);
    let lines = indices.into_iter().map(|index| format!("{index} {}\n", arrival(rng, kind)));
    (ARRIVALS_LINE.to_string() + &lines.collect::<String>()).into_bytes()
}

/// A text with any number of faults, and the first: its lines decide, and on one
/// line 25 comes before 26.
pub fn arrivals_with_faults(rng: &mut Rng, inputs: usize, rarity: usize) -> (Vec<u8>, Option<(u32, usize)>) {
    let mut first = None;
    let mut text = ARRIVALS_LINE.to_string();
    if rng.one_in(8 * rarity) {
        first = Some((25, 0));
        text = rng
            .pick(&[
                "\n",
                "\r\n",
                "input\n",
                "arrival input\n",
                "Input arrival\n",
                "input  arrival\n",
                " input arrival\n",
                "input arrival \n",
                "input\tarrival\n",
                "input arrival\r\r\n",
                "input arrival 0\n",
                "0 0\n",
                "cell pins table area d0 d1 d2 d3\n",
            ])
            .to_string();
    }
    let mut indices: Vec<usize> = (0..inputs).collect();
    rng.shuffle(&mut indices);
    indices.truncate(rng.below(inputs + 1).min(12) + 1);
    let mut listed: Vec<usize> = Vec::new();
    for index in indices.into_iter().chain([inputs]) {
        let wrong_index = rng.one_in(4 * rarity);
        if index == inputs && !wrong_index {
            continue;
        }
        let repeated = wrong_index && !listed.is_empty() && rng.one_in(2);
        let index = match wrong_index {
            true if repeated => rng.pick(&listed),
            true => rng.pick(&[inputs, inputs + 1, 4_095.max(inputs), 65_535]),
            false => index,
        };
        let kind = rng.below(5);
        let arrival = if rng.one_in(3) { 0 } else { arrival(rng, kind) };
        let broken = rng.one_in(5 * rarity);
        let line = match rng.below(16) {
            _ if !broken => format!("{index} {arrival}\n"),
            0 => format!("{index}\n"),
            1 => format!("{index} {arrival} 0\n"),
            2 => format!("0{index} {arrival}\n"),
            3 => format!("{index} 0{arrival}\n"),
            4 => format!("{index} 65536\n"),
            5 => format!("65536 {arrival}\n"),
            6 => format!(" {index} {arrival}\n"),
            7 => format!("{index} {arrival} \n"),
            8 => format!("{index}  {arrival}\n"),
            9 => format!("{index}\t{arrival}\n"),
            10 => format!("-{index} {arrival}\n"),
            11 => format!("{index} {arrival}\r\r\n"),
            12 => format!("{index} {arrival}.0\n"),
            13 => format!("\r{index} {arrival}\n"),
            14 => String::from("\r\n"),
            _ => String::from("\n"),
        };
        let number = if broken { Some(25) } else { wrong_index.then_some(26) };
        first = first.or(number.map(|number| (number, text.len())));
        listed.push(index);
        text += &line;
    }
    if rng.one_in(8 * rarity) {
        // The last line without its end.
        let start = text[..text.len() - 1].rfind('\n').map_or(0, |end| end + 1);
        text.pop();
        if text.ends_with('\r') || first.is_none_or(|(_, place)| place >= start) {
            first = first.filter(|&(_, place)| place < start).or(Some((25, start)));
        }
        if text.is_empty() {
            first = None;
        }
    }
    (text.into_bytes(), first)
}

/// 25 and 26 from both sides, and beside the numbers before and after them.
fn arrival_limits() -> Vec<Case> {
    let cells = library_text(&small_library());
    let b = Graph { top: 3, inputs: vec![1, 2], outputs: vec![6], ands: vec![(3, 2, 4)] };
    let mut cases = Vec::new();
    let mut add = |case: Case| cases.push(case);
    let of = |arrivals: &str| Case::new(format!("arrivals {arrivals:?}"), cells.clone(), b.text()).arrivals(arrivals);
    for (lines, number, place) in [
        ("", 0, 0),
        ("0 0", 0, 0),
        ("1 0", 0, 0),
        ("0 65535\n1 65535", 0, 0),
        ("1 65535\n0 0", 0, 0),
        ("0 65536", 25, 14),
        ("65536 0", 25, 14),
        ("65535 0", 26, 14),
        ("2 0", 26, 14),
        ("3 7", 26, 14),
        ("2 65536", 25, 14),
        ("0 1\n0 1", 26, 18),
        ("0 0\n0 0", 26, 18),
        ("0 0\n1 0\n0 5", 26, 22),
        ("1 20\n0 5\n1 20", 26, 23),
        ("0 01", 25, 14),
        ("00 1", 25, 14),
        ("01 1", 25, 14),
        ("0", 25, 14),
        ("0 1 2", 25, 14),
        ("0  1", 25, 14),
        (" 0 1", 25, 14),
        ("0 1 ", 25, 14),
        ("0 1\n", 25, 18),
        ("x 1", 25, 14),
        ("0 x", 25, 14),
        ("-0 1", 25, 14),
        ("0 1\r", 0, 0),
        ("0 1\r\r", 25, 14),
        ("2 0\nx", 26, 14),
        ("x\n2 0", 25, 14),
        ("0 1\nx\n0 1", 25, 18),
        ("0 1\n0 1\nx", 26, 18),
    ] {
        let lines = if lines.is_empty() { String::new() } else { format!("{lines}\n") };
        add(of(&format!("input arrival\n{lines}")).expect(number, place));
        // In two bytes all through, the places count the 13s.
        let tens = format!("input arrival\n{lines}");
        let alike = with_ends(tens.as_bytes(), || true);
        let place = if number == 0 { 0 } else { alike.place(place) };
        let text = String::from_utf8(alike.text).expect("text");
        add(of(&text).expect(number, place));
    }
    for (text, number, place) in [
        ("", 0, 0),
        ("\n", 25, 0),
        ("\r\n", 25, 0),
        ("input arrival", 25, 0),
        ("input arrival\r", 25, 0),
        ("input arrival\r\n", 0, 0),
        ("input arrival\r\r\n", 25, 0),
        ("input arrival \n", 25, 0),
        ("inputs arrival\n", 25, 0),
        ("0 1\n", 25, 0),
        ("x", 25, 0),
        ("input arrival\n0 1", 25, 14),
        ("input arrival\n0 1\r", 25, 14),
        ("input arrival\n0", 25, 14),
        ("input arrival\n\r", 25, 14),
        ("input arrival\n2 1", 25, 14),
    ] {
        add(of(text).expect(number, place));
    }
    // The length in 1.
    for length in [65_535, 65_536, 65_537] {
        let mut text = String::from(ARRIVALS_LINE);
        text += &"9".repeat(length - text.len());
        let case = Case::new(format!("arrivals of {length} bytes"), cells.clone(), b.text()).arrivals(text.clone());
        add(if length > 65_536 { case.expect(1, 0) } else { case.expect(25, 14) });
        let case = Case::new("a broken library", Vec::new(), b.text()).arrivals(text);
        add(case.expect(if length > 65_536 { 1 } else { 2 }, 0));
    }
    // No inputs: every index is 26.
    let tie = [&cells[..], b"tie0 0 0000 1 0 0 0 0\n"].concat();
    for (lines, number) in [("", 0), ("0 0\n", 26), ("0 00\n", 25), ("5 5\n", 26)] {
        let case = Case::new("no inputs", tie.clone(), b"aag 0 0 0 1 0\n1\n".to_vec());
        add(case.arrivals(format!("input arrival\n{lines}")).expect(number, if number == 0 { 0 } else { 14 }));
    }
    // The index is the place in the file's inputs: variable 2 stands first.
    for outputs in [vec![2], vec![5], vec![6, 2], vec![2, 4, 6, 3, 5]] {
        let swapped = Graph { inputs: vec![2, 1], outputs, ..b.clone() };
        for lines in ["0 100\n", "1 100\n", "0 100\n1 50\n"] {
            let case = Case::new("inputs in another order", cells.clone(), swapped.text());
            add(case.arrivals(format!("input arrival\n{lines}")).expect(0, 0));
        }
    }
    // After 10, 11 to 14 and 19 to 21; before 15, 16, 17 and 18.
    let wide = as_it_comes(shape_with_cuts(CUT_LIMIT + 1), &[(0, true)]).text();
    for (arrivals, late, place) in [
        ("x".to_string(), Some(25), 0),
        ("input arrival\n9999 0\n".into(), Some(26), 14),
        (String::from(ARRIVALS_LINE), None, 0),
    ] {
        let graphs: [(&[u8], u32, usize); 14] = [
            (b"aag 3 2 1 1 1\n2\n4\n6\n6 2 4\n", 8, 0),
            (b"aag 3 3 0 1 1\n2\n4\n6\n6 2 4\n", 9, 0),
            (b"aag 3 2 0 1 1\n2\n4\n6\n6 2\n", 11, 20),
            (b"aag 3 2 0 1 1\n2\n4\n6\n", 11, 20),
            (b"aag 3 2 0 1 1\n2\n4\n8\n6 2 4\n", 12, 18),
            (b"aag 3 2 0 1 1\n2\n2\n6\n6 2 4\n", 13, 16),
            (b"aag 4 2 0 1 1\n2\n4\n8\n6 2 4\n", 14, 18),
            (b"aag 4 2 0 1 1\n2\n4\n6\n6 2 8\n", 14, 20),
            (b"aig 4 2 0 1 1\n6\n\x02\x02", 19, 0),
            (b"aig 3 2 0 1 1\n6\n\x02", 20, 17),
            (b"aig 3 2 0 1 1\n6\n\x00\x02", 21, 16),
            (b"aag 2 0 0 0 2\n2 4 4\n4 2 2\n", 15, 1),
            (&wide, 16, shape_with_cuts(CUT_LIMIT + 1).nodes() - 1),
            (b"aag 1 1 0 1 0\n2\n0\n", 17, 0),
        ];
        for (graph, number, at) in graphs {
            let case = Case::new(format!("{number} beside {arrivals:?}"), cells.clone(), graph.to_vec())
                .arrivals(arrivals.clone());
            add(match late {
                Some(late) if (15..=18).contains(&number) => case.expect(late, place),
                _ => case.expect(number, at),
            });
        }
        let case = Case::new("10 beside arrivals", cells.clone(), b.text()).arrivals(arrivals.clone());
        add(case.words(Lent::OneShort).expect(10, 0));
        let case =
            Case::new("18 beside arrivals", cells.clone(), b.text()).arrivals(arrivals.clone()).text(Lent::This(5));
        add(match late {
            Some(late) => case.expect(late, place),
            None => case.expect(18, LISTING.len()),
        });
    }
    // The largest figures: the slow chain with the latest inputs, and as many
    // inputs as there can be, all late.
    let slow = format!("{NAMES_LINE}inv 1 0001 65535 65535 0 0 0\nnand2 2 0007 65535 65535 65535 0 0\n");
    let chain = Graph {
        top: 4_095,
        inputs: vec![1, 2, 3, 4],
        outputs: vec![2 * 4_095],
        ands: (5..=4_095).map(|variable| (variable, 2 * variable - 2, 2 * (1 + variable % 4))).collect(),
    };
    let all_late = arrivals_of(&[65_535; 4]);
    add(Case::new("a slow chain, late", slow.clone().into_bytes(), chain.text()).arrivals(all_late).expect(0, 0));
    let many = Graph {
        top: 4_095,
        inputs: (1..=4_095).rev().collect(),
        outputs: (1..=4_095).map(|variable| 2 * variable + 1).collect(),
        ands: Vec::new(),
    };
    let each: Vec<u64> = (0..4_095).map(|index| index * 16).collect();
    add(Case::new("4,095 late inputs", slow.clone().into_bytes(), many.text())
        .arrivals(arrivals_of(&each))
        .expect(0, 0));
    let text = [&arrivals_of(&each)[..], b"4094 0\n"].concat();
    let place = arrivals_of(&each).len();
    add(Case::new("4,095 late inputs, one again", slow.clone().into_bytes(), many.text())
        .arrivals(text)
        .expect(26, place));
    let text = [&arrivals_of(&each)[..], b"4095 0\n"].concat();
    add(Case::new("an index of 4,095", slow.into_bytes(), many.text()).arrivals(text).expect(26, place));
    cases
}

// ---------------------------------------------------------------- ranges

/// 27 from both sides, beside 2 to 6 of its line and of others, and the length with
/// timing lines.
fn range_limits() -> Vec<Case> {
    let b = Graph { top: 3, inputs: vec![1, 2], outputs: vec![6], ands: vec![(3, 2, 4)] };
    let mut cases = Vec::new();
    let mut add = |case: Case| cases.push(case);
    let first = "inv 1 0001 1 10 0 0 0 10 0 0 0\n";
    let at = RANGED_LINE.len() + first.len();
    for (line, number) in [
        ("nand2 2 0007 2 20 20 0 0 20 20 0 0", 0),
        ("nand2 2 0007 2 20 20 0 0 0 0 0 0", 0),
        ("nand2 2 0007 2 20 20 0 0 19 1 0 0", 0),
        ("nand2 2 0007 2 65535 65535 0 0 65535 65534 0 0", 0),
        ("nand2 2 0007 2 0 0 0 0 0 0 0 0", 0),
        ("nand2 2 0007 2 0 0 0 0 0 1 0 0", 27),
        ("nand2 2 0007 2 20 20 0 0 21 20 0 0", 27),
        ("nand2 2 0007 2 20 20 0 0 20 21 0 0", 27),
        ("nand2 2 0007 2 20 30 0 0 30 20 0 0", 27),
        ("nand2 2 0007 2 65534 20 0 0 65535 0 0 0", 27),
        ("nand2 2 0007 2 20 20 0 0 20 20 1 0", 6),
        ("nand2 2 0007 2 20 20 0 0 20 20 0 1", 6),
        ("nand2 2 0007 2 20 20 1 0 20 20 1 0", 6),
        ("nand2 2 0007 2 20 20 0 1 20 20 0 0", 6),
        ("nand2 2 0017 2 20 20 0 0 21 20 0 0", 6),
        ("nand2 2 0007 2 20 20 0 0 21 20 1 0", 6),
        ("inv 2 0007 2 20 20 0 0 21 20 1 0", 5),
        ("inv 2 0007 2 20 20 0 0 21 20 0 0", 5),
        ("nand2 2 0007 2 20 20 0 0", 4),
        ("nand2 2 0007 2 20 20 0 0 20 20 0", 4),
        ("nand2 2 0007 2 20 20 0 0 20 20 0 0 0", 4),
        ("nand2 2 0007 2 20 20 0 0 020 20 0 0", 4),
        ("nand2 2 0007 2 20 20 0 0 20 20 0 00", 4),
        ("nand2 2 0007 2 20 20 0 0 65536 20 0 0", 4),
        ("nand2 2 0007 2 20 20 0 0  20 20 0 0", 4),
        ("nand2 2 0007 2 20 20 0 0 20 20 0 0 ", 4),
        ("nand2 2 0007 2 20 20 0 0 21 20 0 x", 4),
    ] {
        // Alone, and with a line of another fault behind it: the first line decides.
        for behind in [
            "",
            "x\n",
            "inv 1 0001 1 10 0 0 0 10 0 0 0\n",
            "x 1 0004 1 1 0 0 0 0 0 0 0\n",
            "x 1 0001 1 1 0 0 0 2 0 0 0\n",
        ] {
            let cells = format!("{RANGED_LINE}{first}{line}\n{behind}");
            let next = at + line.len() + 1;
            let (number, place) = match (number, behind) {
                (0, "") => (0, 0),
                (0, _) => (
                    if behind.starts_with("inv") {
                        5
                    } else if behind.contains("0004") {
                        6
                    } else if behind.len() > 2 {
                        27
                    } else {
                        4
                    },
                    next,
                ),
                _ => (number, at),
            };
            let alike = with_ends(cells.as_bytes(), || true);
            let in_two = if number == 0 { 0 } else { alike.place(place) };
            add(Case::new(format!("{line:?} and {behind:?}"), cells.into_bytes(), b.text()).expect(number, place));
            add(Case::new(format!("{line:?} and {behind:?}, 13 and 10"), alike.text, b.text()).expect(number, in_two));
        }
    }
    // 27 before the graph's own numbers, and 2 by either names line.
    let broken = format!("{RANGED_LINE}inv 1 0001 1 10 0 0 0 11 0 0 0\n").into_bytes();
    for graph in ["", "aag 3 2 1 1 1\n", "aag 4096 0 0 0 0\n", "aig 4 2 0 1 1\n", "aag 2 0 0 0 2\n2 4 4\n4 2 2\n"] {
        let case = Case::new("27 before the graph's", broken.clone(), graph.into()).words(Lent::This(0));
        add(case.expect(27, RANGED_LINE.len()));
    }
    for names in [
        "cell pins table area d0 d1 d2 d3 l0 l1 l2 l3",
        "cell pins table area d0 d1 d2 d3 l0 l1 l2\n",
        "cell pins table area d0 d1 d2 d3 l0\n",
        "cell pins table area d0 d1 d2 d3 l0 l1 l2 l3 \n",
        "cell pins table area d0 d1 d2 d3 l0 l1 l2 l3 l4\n",
        "cell pins table area d0 d1 d2 d3 L0 L1 L2 L3\n",
        "cell pins table area l0 l1 l2 l3 d0 d1 d2 d3\n",
        "cell pins table area l0 l1 l2 l3\n",
    ] {
        add(Case::new(format!("{names:?}"), format!("{names}{first}").into_bytes(), b.text()).expect(2, 0));
    }
    // Lines of one form under the other's names line.
    let cells = format!("{NAMES_LINE}{first}");
    add(Case::new("twelve fields under eight names", cells.into_bytes(), b.text()).expect(4, NAMES_LINE.len()));
    let cells = format!("{RANGED_LINE}inv 1 0001 1 10 0 0 0\n");
    add(Case::new("eight fields under twelve names", cells.into_bytes(), b.text()).expect(4, RANGED_LINE.len()));
    // Cells.
    for count in [0, 31, 32, 33] {
        let mut many = small_library();
        while many.len() < count {
            let twin = Cell { name: format!("n{}", many.len()), ..many[1].clone() };
            many.push(twin);
        }
        many.truncate(count);
        let text = ranged_text(&many);
        let last = text.len() - many.last().map_or(0, |cell| cell.ranged_line().len());
        let case = Case::new(format!("{count} cells with ranges"), text, b.text());
        add(match count {
            0 => case.expect(17, 0),
            33 => case.expect(3, last),
            _ => case.expect(0, 0),
        });
    }
    // "18 and the returned length count these lines": case B has 134 bytes and one
    // line of 18, `# timing o0 30 30`.
    let same: Vec<Cell> = small_library().into_iter().map(|cell| Cell { lowest: cell.delays, ..cell }).collect();
    for (lent, number) in [(152, 0), (151, 18), (134, 18), (133, 18), (0, 18), (153, 0)] {
        let case =
            Case::new(format!("B with ranges, {lent} bytes"), ranged_text(&same), b.text()).text(Lent::This(lent));
        add(case.expect(number, if number == 18 { 152 } else { 0 }));
    }
    // No cells at all: outputs that are inputs have timing lines all the same.
    for outputs in [vec![], vec![2], vec![4, 2, 4]] {
        let graph = Graph { outputs, ands: vec![], top: 2, ..b.clone() };
        for arrivals in ["", "input arrival\n0 7\n1 65535\n"] {
            let case = Case::new("ranges without cells", RANGED_LINE.into(), graph.text()).arrivals(arrivals);
            add(case.clone().expect(0, 0));
            add(case.text(Lent::OneShort));
        }
    }
    // The most outputs: a line of `# timing oK 65535 65535` takes 23 bytes and the
    // digits of K, 10 + 180 + 2,700 + 12,384 of them.
    let most = "aag 1 1 0 4096 0\n2\n".to_string() + &"2\n".repeat(4_096);
    let length = 63 + 4 + 10 * 20 + 90 * 22 + 900 * 24 + 3_096 * 26 + 4_096 * 23 + 15_274;
    for (lent, number) in [(65_536, 18), (length - 1, 18), (length, 0)] {
        let case = Case::new(format!("4,096 outputs, {lent} bytes"), RANGED_LINE.into(), most.clone().into_bytes());
        let case = case.arrivals("input arrival\n0 65535\n").words(Lent::This(32_768)).text(Lent::This(lent));
        add(case.expect(number, if number == 18 { length } else { 0 }));
    }
    // The largest figures.
    let slow = "inv 1 0001 65535 65535 0 0 0 65534 0 0 0\nnand2 2 0007 65535 65535 65535 0 0 65535 0 0 0\n";
    let chain = Graph {
        top: 4_095,
        inputs: vec![1, 2, 3, 4],
        outputs: vec![2 * 4_095, 2 * 4_095 + 1],
        ands: (5..=4_095).map(|variable| (variable, 2 * variable - 2, 2 * (1 + variable % 4))).collect(),
    };
    let case = Case::new("a slow chain with ranges", format!("{RANGED_LINE}{slow}").into_bytes(), chain.text());
    add(case.clone().expect(0, 0));
    add(case.arrivals(arrivals_of(&[65_535; 4])).expect(0, 0));
    let rich = ranged_text(&with_ranges(&mut Rng::new(4), &full_library()));
    let full = large_graph(&mut Rng::new(3), 4_095);
    add(Case::new("full graph with ranges", rich.clone(), full.text())
        .words(Lent::Exact)
        .text(Lent::Exact)
        .expect(0, 0));
    add(Case::new("full graph with ranges, text one short", rich, full.text()).text(Lent::OneShort));
    cases
}

// ---------------------------------------------------------------- pairs

/// A library and a graph in which two pairs tie, one of a later inner cell at an earlier
/// pin: variable 10 is the complement of (1 xor 2) and 5, with no AND that is 1 xor 2,
/// and 5 has both phases at 30. With xor at pin A of low, or xnor at its pin B, it is 31.
pub const TIE_OF_PINS: (&str, &str) = (
    "cell pins table area d0 d1 d2 d3\n\
     inv 1 0001 1 1000 0 0 0\n\
     low 2 0002 1 1 1 0 0\n\
     xnor 2 0009 1 5 5 0 0\n\
     xor 2 0006 1 5 5 0 0\n\
     and2 2 0008 1 30 30 0 0\n\
     nand2 2 0007 1 30 30 0 0\n",
    "aag 10 4 0 1 6\n2\n4\n6\n8\n21\n10 6 8\n12 10 5\n14 12 2\n16 10 3\n18 16 4\n20 15 19\n",
);

/// How many cells and pairs a library has: a root of r pins takes, at each of them, the
/// cells of one to 5 - r pins.
pub fn cells_and_pairs(pins: &[usize]) -> usize {
    let inner = |most: usize| pins.iter().filter(|&&pins| pins >= 1 && pins <= most).count();
    pins.len() + pins.iter().map(|&root| root * inner(5 - root)).sum::<usize>()
}

/// A library whose pairs are mostly within the limit; in two of three the pins have
/// delays of their own, and in some an inverter is rare, so that pairs are earlier or
/// the only cover.
pub fn library_of_pairs(rng: &mut Rng) -> Vec<Cell> {
    const PARTS: [(usize, u16); 14] = [
        (1, 0x0001),
        (1, 0x0002),
        (2, 0x0006),
        (2, 0x0009),
        (2, 0x0002),
        (2, 0x0004),
        (2, 0x000b),
        (2, 0x000d),
        (2, 0x0007),
        (2, 0x0001),
        (2, 0x0008),
        (2, 0x000e),
        (3, 0x00ca),
        (3, 0x0007),
    ];
    let count = rng.pick(&[1, 2, 2, 3, 3, 4, 5, 6, 8]);
    let mut cells = library(rng, count);
    let kind = rng.below(6);
    for cell in cells.iter_mut().filter(|_| kind < 4) {
        let (pins, table) = if kind == 0 { rng.pick(&PARTS) } else { (cell.pins, cell.table) };
        let mut delays = [0; 4];
        delays[..pins].fill_with(|| rng.between(1, 60) as u16);
        *cell = Cell { pins, table, delays, lowest: [0; 4], ..cell.clone() };
    }
    let pins = |cells: &[Cell]| cells_and_pairs(&cells.iter().map(|cell| cell.pins).collect::<Vec<_>>());
    while pins(&cells) > 256 && !rng.one_in(40) {
        cells.pop();
    }
    cells
}

/// Zero-pin cells added to eleven of two pins, 253 cells and pairs, up to this number.
pub fn library_of(number: usize) -> Vec<Cell> {
    let mut cells = small_library();
    cells.remove(0);
    while cells.len() < 11 {
        cells.push(Cell { name: format!("n{}", cells.len()), ..cells[0].clone() });
    }
    let tie = Cell { name: String::new(), pins: 0, table: 0, area: 1, delays: [0; 4], lowest: [0; 4] };
    cells.extend((253..number).map(|index| Cell { name: format!("t{index}"), ..tie.clone() }));
    cells
}

/// A random case of a call that wants pairs.
pub fn pair_case(rng: &mut Rng) -> Case {
    let cells = library_of_pairs(rng);
    let text = either_text(rng, &cells);
    let mut case = match rng.below(20) {
        0 | 1 => return faults(rng).with_pairs(),
        // Its library may have more than 256 cells and pairs.
        2 => return Case { expected: None, ..case(rng) }.with_pairs(),
        3 => {
            let most = rng.pick(&[250, 255, 256, 257, 260]);
            let mut cells = library_of(most);
            rng.shuffle(&mut cells);
            let text = either_text(rng, &cells);
            let case = Case::new(format!("{most} cells and pairs"), text, graph(rng, 4, 3, CUT_LIMIT).text());
            if most > 256 {
                case.expect(30, 0)
            } else {
                case
            }
        }
        4 | 5 => {
            let graph = graph(rng, 4, 6, CUT_LIMIT).text();
            let (cells, graph) =
                if rng.one_in(2) { (damaged(rng, &text), graph) } else { (text, damaged(rng, &graph)) };
            Case::new("damage", cells, graph)
        }
        6 => Case::new("around the limit of cuts", text, graph(rng, 6, 20, CUT_LIMIT + 2).text()),
        7 => {
            let sequence = graph(rng, 6, 12, CUT_LIMIT).in_sequence().expect("no circle");
            Case::new("binary", text, sequence.binary().expect("in sequence"))
        }
        _ => {
            let most = rng.pick(&[1, 3, 6, 12, 25]);
            Case::new("graph", text, graph(rng, 6, most, CUT_LIMIT).text())
        }
    };
    case.words = lent(rng);
    case.text = if rng.one_in(16) { Lent::OneShort } else { lent(rng) };
    if rng.one_in(2) {
        case.arrivals = arrivals(rng, inputs_of(&case.graph));
    }
    let case = if rng.one_in(3) { alike_but_for_ends(rng, &case) } else { case };
    case.with_pairs()
}

/// 30 from both sides, beside the numbers before and after it, and some netlists.
pub fn pair_limits() -> Vec<Case> {
    let b = Graph { top: 3, inputs: vec![1, 2], outputs: vec![6], ands: vec![(3, 2, 4)] };
    let mut cases = Vec::new();
    let mut add = |case: Case| cases.push(case.with_pairs());
    for number in [253, 255, 256, 257, 258] {
        for text in [library_text(&library_of(number)), ranged_text(&library_of(number))] {
            let case = Case::new(format!("{number} cells and pairs"), text.clone(), b.text());
            // No inverter: the AND has no cover, its complement has.
            add(case.clone().expect(if number > 256 { 30 } else { 17 }, 0));
            let negative = Graph { outputs: vec![7], ..b.clone() };
            let case = Case { graph: negative.text(), ..case };
            add(case.expect(if number > 256 { 30 } else { 0 }, 0));
        }
    }
    // After 2 to 6 and 27, before the graph's own.
    let over = library_of(257);
    for (lines, number) in [("x\n", 4), ("n3 0 0000 1 0 0 0 0\n", 5), ("x 1 0004 1 1 0 0 0\n", 6)] {
        let text = library_text(&over);
        let place = text.len();
        add(Case::new("30 behind the library's", [&text[..], lines.as_bytes()].concat(), b.text())
            .expect(number, place));
    }
    let text = ranged_text(&over);
    let place = text.len();
    let higher = b"x 1 0001 1 1 0 0 0 2 0 0 0\n";
    add(Case::new("27 before 30", [&text[..], higher].concat(), b.text()).expect(27, place));
    for graph in ["", "aag 3 2 1 1 1\n", "aag 4096 0 0 0 0\n", "aig 4 2 0 1 1\n", "aag 2 0 0 0 2\n2 4 4\n4 2 2\n"] {
        let case = Case::new("30 before the graph's", library_text(&over), graph.into());
        add(case.clone().words(Lent::This(0)).expect(30, 0));
        add(case.arrivals("x").expect(30, 0));
    }
    add(Case::new("1 before 30", library_text(&over), vec![b'x'; 65_537]).expect(1, 0));
    // 32 cells of four pins form no pairs, and of one pin 1,024.
    for (pins, table, number) in [(4, 0x8000, 17), (0, 0, 17), (1, 1, 30)] {
        let cell = |index| Cell { name: format!("c{index}"), pins, table, area: 1, delays: [0; 4], lowest: [0; 4] };
        let cells: Vec<Cell> = (0..32).map(cell).collect();
        add(Case::new(format!("32 cells of {pins} pins"), library_text(&cells), b.text()).expect(number, 0));
    }
    // Text memory: case B prints `sp3` where it had `m3`, twice.
    for (lent, number) in [(LISTING.len() + 2, 0), (LISTING.len() + 1, 18), (0, 18)] {
        let case = Case::new(format!("B with pairs, {lent} bytes"), library_text(&small_library()), b.text());
        add(case.text(Lent::This(lent)).expect(number, if number == 18 { LISTING.len() + 2 } else { 0 }));
    }
    add(Case::new("a tie between pins", TIE_OF_PINS.0.into(), TIE_OF_PINS.1.into()).expect(0, 0));
    // The largest figures: a pair's delay is 131,070.
    let slow = "inv 1 0001 65535 65535 0 0 0 65535 0 0 0\nnand2 2 0007 65535 65535 65535 0 0 65535 0 0 0\n";
    let chain = Graph {
        top: 2_000,
        inputs: vec![1, 2, 3, 4],
        outputs: vec![2 * 2_000, 2 * 2_000 + 1],
        ands: (5..=2_000).map(|variable| (variable, 2 * variable - 2, 2 * (1 + variable % 4))).collect(),
    };
    let case = Case::new("a slow chain", format!("{RANGED_LINE}{slow}").into_bytes(), chain.text());
    add(case.arrivals(arrivals_of(&[65_535; 4])).words(Lent::Exact).text(Lent::Exact).expect(0, 0));
    let slowest = "inv 1 0001 65535 65535 0 0 0\nnand2 2 0007 65535 65535 65535 0 0\n";
    add(Case::new("a pair of 131,070", format!("{NAMES_LINE}{slowest}").into_bytes(), b.text()).expect(0, 0));
    cases
}

// ---------------------------------------------------------------- line ends

/// A text alike to another but for line ends: the same lines, "each ending in 10
/// or in 13 10 as it likes".
pub struct Alike {
    pub text: Vec<u8>,
    /// Where each line began and begins, and the lengths of both texts.
    starts: Vec<[usize; 2]>,
}

impl Alike {
    /// The offset of the line that began at this one, or, for the other text's
    /// length, this text's.
    pub fn place(&self, place: usize) -> usize {
        let start = self.starts.iter().find(|start| start[0] == place);
        start.unwrap_or_else(|| panic!("no line began at {place}"))[1]
    }
}

/// The same lines, each ending in 13 and 10 where it is told so and else in 10.
/// Contents that end in 13 have 13 and 10 after them in any case: before 10
/// alone, that 13 would be part of the end.
pub fn with_ends(text: &[u8], mut in_two: impl FnMut() -> bool) -> Alike {
    let mut alike = Alike { text: Vec::new(), starts: Vec::new() };
    let mut offset = 0;
    for line in text.split_inclusive(|&byte| byte == b'\n') {
        alike.starts.push([offset, alike.text.len()]);
        offset += line.len();
        let Some(before) = line.strip_suffix(b"\n") else {
            alike.text.extend(line);
            continue;
        };
        let contents = before.strip_suffix(b"\r").unwrap_or(before);
        alike.text.extend(contents);
        let in_two = in_two() || contents.ends_with(b"\r");
        alike.text.extend_from_slice(if in_two { b"\r\n" } else { b"\n" });
    }
    alike.starts.push([text.len(), alike.text.len()]);
    alike
}

/// The same lines with ends by chance, or all of one kind.
pub fn mixed(rng: &mut Rng, text: &[u8]) -> Alike {
    let many = rng.pick(&[1, 1, 2, 2, 3, 8, 40, 100_000]);
    with_ends(text, || rng.one_in(many))
}

/// The same case with other line ends in its library and its ASCII graph; a
/// binary graph's stay.
pub fn alike_but_for_ends(rng: &mut Rng, case: &Case) -> Case {
    if matches!(case.expected, Some((1, _))) {
        // Other ends could bring a text that is too long within the length in 1.
        return case.clone();
    }
    let cells = mixed(rng, &case.cells);
    let is_binary = case.graph.starts_with(b"aig");
    let graph = if is_binary { with_ends(&[], || false) } else { mixed(rng, &case.graph) };
    let arrivals = mixed(rng, &case.arrivals);
    let too_long = cells.text.len().max(graph.text.len()).max(arrivals.text.len()) > 65_536;
    let expected = case.expected.map(|(number, place)| match number {
        2..=6 | 27 => (number, cells.place(place)),
        7..=14 if !is_binary => (number, graph.place(place)),
        25 | 26 => (number, arrivals.place(place)),
        _ => (number, place),
    });
    let expected = if too_long { Some((1, 0)) } else { expected };
    let graph = if is_binary { case.graph.clone() } else { graph.text };
    let what = format!("{}, ends mixed", case.what);
    Case { what, cells: cells.text, graph, arrivals: arrivals.text, expected, ..case.clone() }
}

/// The offsets of the bytes 10 that end a good binary text's header and its
/// output lines.
pub fn binary_ends(text: &[u8]) -> Vec<usize> {
    let outputs = Graph::from_text(text).outputs.len();
    let tens = text.iter().enumerate().filter(|(_, &byte)| byte == b'\n');
    tens.map(|(at, _)| at).take(1 + outputs).collect()
}

/// A good binary text with 13 before the byte 10 of its header or of an output
/// line, which "keep byte 10 alone".
fn two_bytes_in_binary(rng: &mut Rng, cells: Vec<u8>, text: &[u8]) -> Case {
    let ends = binary_ends(text);
    let line = if rng.one_in(2) { 0 } else { rng.below(ends.len()) };
    let broken = [&text[..ends[line]], b"\r", &text[ends[line]..]].concat();
    let case = Case::new("13 and 10 in binary", cells, broken);
    match line {
        0 => case.expect(7, 0),
        _ => case.expect(11, ends[line - 1] + 1),
    }
}

/// A text with one line end damaged, or with a 13 where none belongs.
pub fn damaged_end(rng: &mut Rng, text: &[u8]) -> Vec<u8> {
    let ends: Vec<usize> = (0..text.len()).filter(|&at| text[at] == b'\n').collect();
    let any = rng.below(text.len() + 1);
    let (at, last) = if ends.is_empty() { (any, any) } else { (rng.pick(&ends), ends[ends.len() - 1]) };
    let with = |at: usize, bytes: &[u8], from: usize| [&text[..at], bytes, &text[from.min(text.len())..]].concat();
    match rng.below(12) {
        0 => with(at, b"\r\r", at),
        1 => with(at, b"\r", at),
        2 => with(at, b"\r", at + 1),
        3 => with(at, b"", at + 1),
        4 => with(any, b"\r", any),
        5 => with(any, b"\r\n", any),
        6 => with(text.len(), b"\r", text.len()),
        7 => with(last, b"", text.len()),
        8 => with(last, b"\r", text.len()),
        9 => with(at, b"\n\r", at + 1),
        10 => with(at, b"\n\r\n", at + 1),
        _ => with(at, b" \r\n", at + 1),
    }
}

/// Line ends in every line of a small library and graph: each kind with what it
/// brings.
fn end_limits() -> Vec<Case> {
    let cells = library_text(&small_library());
    let small = Graph { top: 3, inputs: vec![1, 2], outputs: vec![6], ands: vec![(3, 2, 4)] };
    let graph = small.text();
    let mut cases = Vec::new();
    let mut add = |case: Case| cases.push(case);

    let all = |text: &[u8]| with_ends(text, || true).text;
    add(Case::new("13 and 10 in both texts", all(&cells), all(&graph)).expect(0, 0));
    add(Case::new("13 and 10 in the library", all(&cells), graph.clone()).expect(0, 0));
    add(Case::new("13 and 10 in the graph", cells.clone(), all(&graph)).expect(0, 0));
    let binary = Graph { ands: vec![(3, 4, 2)], ..small.clone() }.binary().expect("in sequence");
    add(Case::new("13 and 10 in the library, binary graph", all(&cells), binary).expect(0, 0));

    // Each line in turn ends so, the others in either way. What a fault in the
    // line brings, and what one in the next line brings, come from the text.
    for in_cells in [true, false] {
        let text = if in_cells { &cells } else { &graph };
        for others in [false, true] {
            let alike = with_ends(text, || others);
            let lines: Vec<&[u8]> = alike.text.split_inclusive(|&byte| byte == b'\n').collect();
            for (number, line) in lines.iter().enumerate() {
                let [before, after] = [lines[..number].concat(), lines[number + 1..].concat()];
                let contents = line.trim_ascii_end();
                let is_last = number + 1 == lines.len();
                let here = match (in_cells, number) {
                    (true, 0) => 2,
                    (true, _) => 4,
                    (false, 0) => 7,
                    (false, _) => 11,
                };
                let next = if in_cells { 4 } else { 11 };
                let ends: [(&[u8], u32); 15] = [
                    (b"\n", 0),
                    (b"\r\n", 0),
                    (b"\r\r\n", here),
                    (b"\r\r\r\n", here),
                    (b"\r", here),
                    (b"\r\r", here),
                    (b"\t\n", here),
                    (b" \n", here),
                    (b" \r\n", here),
                    (b"\r \n", here),
                    (b"\r\0\n", here),
                    (b"\n\r", next),
                    (b"\r\n\r", next),
                    (b"\n\n", next),
                    (b"\r\n\r\n", next),
                ];
                for (end, brings) in ends {
                    let whole = [&before, contents, end, &after].concat();
                    let next_at =
                        before.len() + contents.len() + end.iter().position(|&byte| byte == b'\n').unwrap_or(0) + 1;
                    // Behind the graph's last line nothing is read.
                    let brings_later = end.ends_with(b"\n\r") || end.ends_with(b"\n\n") || end.ends_with(b"\n\r\n");
                    let expected = match () {
                        _ if brings == 0 || brings_later && is_last && !in_cells => (0, 0),
                        _ if brings_later => (brings, next_at),
                        _ => (brings, if here == 2 || here == 7 { 0 } else { before.len() }),
                    };
                    let what =
                        format!("line {number} of the {} ends in {end:?}", if in_cells { "library" } else { "graph" });
                    let (cells, graph) = if in_cells { (whole, graph.clone()) } else { (cells.clone(), whole) };
                    add(Case::new(what, cells, graph).expect(expected.0, expected.1));
                }
                // Without its end the last line breaks its form.
                if is_last {
                    let whole = [&before, contents].concat();
                    let (cells, graph) = if in_cells { (whole, graph.clone()) } else { (cells.clone(), whole) };
                    add(Case::new("the last end missing", cells, graph).expect(here, before.len()));
                }
                // A 13 before each byte of the line but its end.
                for at in 0..contents.len() {
                    let whole = [&before, &contents[..at], b"\r", &contents[at..], b"\r\n", &after].concat();
                    let place = if here == 2 || here == 7 { 0 } else { before.len() };
                    let (cells, graph) = if in_cells { (whole, graph.clone()) } else { (cells.clone(), whole) };
                    add(Case::new("13 within a line", cells, graph).expect(here, place));
                }
            }
        }
    }

    // "A thirty-third cell line begins", at an offset that counts every 13.
    let mut many = small_library();
    while many.len() < 32 {
        let twin = Cell { name: format!("n{}", many.len()), ..many[1].clone() };
        many.push(twin);
    }
    let full = all(&library_text(&many));
    add(Case::new("32 cells, 13 and 10", full.clone(), graph.clone()).expect(0, 0));
    for more in [&b"\r"[..], b"\n", b"\r\n", b"\r\r\n", b"x\r\n", b"x 0 0000 0 0 0 0 0\r\n"] {
        let case = Case::new("33 cells, 13 and 10", [&full, more].concat(), graph.clone());
        add(case.expect(3, full.len()));
    }

    // Line ends alone make the graph's length 65,536, and one 13 more is too
    // many. Without its last line, that line's place is 65,536.
    let wide = Graph {
        top: 4_095,
        inputs: (4_001..=4_095).collect(),
        outputs: (0..1_000).map(|index| 8_002 + index % 94).collect(),
        ands: (1..=4_000).map(|left| (left, 8_190, 8_188)).collect(),
    };
    let tens = wide.text();
    let in_two = |text: &[u8], length: usize| {
        let mut more = 0..length - text.len();
        let alike = with_ends(text, || more.next().is_some()).text;
        assert_eq!(alike.len(), length, "line ends make the length");
        alike
    };
    for length in [65_535, 65_536, 65_537] {
        let case = Case::new(format!("{length} bytes by line ends"), cells.clone(), in_two(&tens, length));
        add(if length > 65_536 { case.expect(1, 0) } else { case.expect(0, 0) });
    }
    let last = tens.len() - wide.lines().last().map_or(0, String::len);
    let case = Case::new("last line missing after 65,536 bytes", cells.clone(), in_two(&tens[..last], 65_536));
    add(case.expect(11, 65_536));
    cases
}

// ---------------------------------------------------------------- damage

/// The bytes that damage puts in.
pub const BYTES: &[u8] = b"\x00\t\n\r +-./0123456789:@AGZ_`afgxyz{~\x80\xff";

/// One text with one to three damages at random places.
pub fn damaged(rng: &mut Rng, text: &[u8]) -> Vec<u8> {
    let mut text = text.to_vec();
    for _ in 0..rng.pick(&[1, 1, 1, 2, 3]) {
        if text.is_empty() {
            break;
        }
        let at = rng.below(text.len());
        match rng.below(9) {
            0 | 1 => text[at] = rng.pick(BYTES),
            8 => text[at] = rng.word() as u8,
            2 => text[at] = rng.pick(b"0123456789"),
            3 => text.insert(at, rng.pick(BYTES)),
            4 => text.insert(at, rng.pick(b"0123456789")),
            5 => drop(text.remove(at)),
            6 => text.truncate(at),
            _ => {
                let other = rng.below(text.len());
                text.swap(at, other);
            }
        }
    }
    text
}

/// Every byte removed, replaced by and followed by each of `BYTES` in turn,
/// and every truncation.
pub fn all_damage(text: &[u8]) -> Vec<Vec<u8>> {
    all_damage_by(text, BYTES)
}

/// The same with each of these bytes.
pub fn all_damage_by(text: &[u8], bytes: &[u8]) -> Vec<Vec<u8>> {
    let mut all = Vec::new();
    for at in 0..=text.len() {
        all.push(text[..at].to_vec());
        for &byte in bytes {
            all.push([&text[..at], &[byte], &text[at..]].concat());
            if at < text.len() {
                all.push([&text[..at], &[byte], &text[at + 1..]].concat());
            }
        }
        if at < text.len() {
            all.push([&text[..at], &text[at + 1..]].concat());
        }
    }
    all
}

/// A small binary text with every damage by every byte: two ANDs, a padded
/// difference, a second difference of 0, and a byte after the last.
pub fn all_binary_damage() -> Vec<Vec<u8>> {
    let text = b"aig 4 2 0 2 2\n8\n7\n\x83\x00\x01\x02\x00c";
    let every: Vec<u8> = (0..=255).collect();
    all_damage_by(text, &every)
}

/// Every damage of a text with lines that end in 10, in 13 and 10, and in turn in
/// one and the other.
pub fn all_damage_of_ends(text: &[u8]) -> Vec<Vec<u8>> {
    let mut number = 0;
    let mut in_turn = || {
        number += 1;
        number % 2 == 1
    };
    let texts = [text.to_vec(), with_ends(text, || true).text, with_ends(text, &mut in_turn).text];
    texts.iter().flat_map(|text| all_damage(text)).collect()
}

// ---------------------------------------------------------------- faults

/// A case with any number of faults at once; the answer is known from the
/// making: the first in checking order.
pub fn faults(rng: &mut Rng) -> Case {
    if rng.one_in(4) {
        return binary_faults(rng);
    }
    let mut found: Vec<(u32, usize)> = Vec::new();
    let wanted = |rng: &mut Rng, many: usize| rng.one_in(many);
    // Rare faults for what comes early, so that every number comes first often.
    let rarity = rng.pick(&[3, 8, 30, 100]);

    // The library: no tie cell, so constants have no cover.
    let ranged = rng.one_in(2);
    let mut cells = with_ranges(rng, &small_library());
    let thirty_three = wanted(rng, 12 * rarity);
    let size = if thirty_three { 33 } else { rng.between(2, 8) };
    while cells.len() < size {
        let twin = Cell { name: format!("n{}", cells.len()), ..cells[1].clone() };
        cells.push(twin);
    }
    let mut text = String::from(if ranged { RANGED_LINE } else { NAMES_LINE });
    if wanted(rng, 6 * rarity) {
        text = rng
            .pick(&[
                "",
                "cell pins table area d0 d1 d2 d3 l0 l1 l2 l3",
                "cell pins table area d0 d1 d2 d3 l0 l1 l2\n",
                "cell pins table area d0 d1 d2 d3  l0 l1 l2 l3\n",
                "cell pins table area l0 l1 l2 l3 d0 d1 d2 d3\n",
                "cell pins table area d0 l0 d1 l1 d2 l2 d3 l3\n",
                "\n",
                "cell pins table area d0 d1 d2 d3",
                "cell pins table area d0 d1 d2\n",
                "cell pins table area d0 d1 d2 d3 \n",
                "cell pins table area d0 d1 d2 d3\r\r\n",
                "Cell pins table area d0 d1 d2 d3\n",
            ])
            .to_string();
        found.push((2, 0));
        if !text.ends_with('\n') {
            cells.clear();
        }
    }
    for (index, cell) in cells.iter().enumerate() {
        let offset = text.len();
        if index == 32 {
            found.push((3, offset));
        }
        let mut cell = cell.clone();
        let (five, six, four, higher) = (
            index > 0 && wanted(rng, 6 * rarity),
            wanted(rng, 6 * rarity),
            wanted(rng, 6 * rarity),
            ranged && wanted(rng, 6 * rarity),
        );
        if five {
            cell.name = cells[rng.below(index)].name.clone();
        }
        if six {
            let pin = rng.between(cell.pins, 3);
            match rng.below(if ranged { 4 } else { 2 }) {
                0 => cell.table |= 1 << rng.between(1 << cell.pins, 15),
                1 => cell.delays[pin] = rng.pick(&[1, 65_535]),
                2 => cell.lowest[pin] = rng.pick(&[1, 65_535]),
                _ => (cell.delays[pin], cell.lowest[pin]) = (9, rng.pick(&[1, 9])),
            }
        }
        if higher {
            let pin = rng.below(cell.pins);
            cell.lowest[pin] = rng.pick(&[cell.delays[pin] + 1, 65_535]);
        }
        let mut line = if ranged { cell.ranged_line() } else { cell.line() };
        if four {
            let words: Vec<&str> = line.trim_end().split(' ').collect();
            let (name, rest) = (words[0], words[1..].join(" "));
            let table = words[2];
            line = match rng.below(13) {
                12 if ranged => cell.line(),
                12 => cell.ranged_line(),
                0 => format!("{name}  {rest}\n"),
                1 => format!(" {name} {rest}\n"),
                2 => format!("{name} {rest} \n"),
                3 => format!("{name} {rest} 0\n"),
                4 => format!("9{rest}\n"),
                5 => format!("{name}_23456789 {rest}\n"),
                6 => line.replace(&format!(" {table} "), " 000A "),
                7 => line.replace(&format!(" {table} "), &format!(" 0{table} ")),
                8 if rng.one_in(2) => line.replace('\n', rng.pick(&["\r\r\n", " \r\n", "\r \n"])),
                8 => line.trim_end().rsplit_once(' ').map_or(String::new(), |(front, _)| format!("{front} 00\n")),
                9 => line.trim_end().rsplit_once(' ').map_or(String::new(), |(front, _)| format!("{front} 65536\n")),
                10 => format!("{name} 0{rest}\n"),
                _ => String::from("\n"),
            };
        }
        // One line's faults in their own order; the line's order decides first.
        found.extend(
            [(four, 4), (five, 5), (six, 6), (higher, 27)]
                .iter()
                .filter(|(is, _)| *is)
                .map(|&(_, number)| (number, offset))
                .take(1),
        );
        text += &line;
    }
    let cells_text = text.into_bytes();
    let library_fault = found.first().copied();

    // The graph: inputs 1 to 5, then gadgets one after the other.
    let mut graph = Graph { top: 5, inputs: (1..=5).collect(), outputs: vec![2, 5], ands: Vec::new() };
    let mut places: Vec<(u32, usize)> = Vec::new();
    let mut bad_lines: Vec<(usize, u32)> = Vec::new();
    let mut gadgets: Vec<u32> = (14..=17).filter(|_| wanted(rng, 3)).collect();
    rng.shuffle(&mut gadgets);
    let mut bad_output = None;
    let mut bad_and = None;
    for gadget in gadgets {
        let next = graph.top + 1;
        match gadget {
            14 => {
                // A variable that no line defines.
                graph.top += 2;
                let undefined = 2 * next + rng.below(2);
                if rng.one_in(3) {
                    bad_output = bad_output.or(Some(graph.outputs.len()));
                    graph.outputs.push(undefined);
                    graph.top -= 1;
                } else {
                    bad_and = bad_and.or(Some(graph.ands.len()));
                    let good = rng.below(12);
                    let (a, b) = if rng.one_in(2) { (undefined, good) } else { (good, undefined) };
                    graph.ands.push((next + 1, a, b));
                }
            }
            15 => {
                // A circle of two and an AND that waits behind it.
                graph.top += 3;
                let first = next + rng.below(3);
                let second = next + (first - next + 1) % 3;
                let third = next + (first - next + 2) % 3;
                graph.ands.push((first, 2 * second, 2));
                graph.ands.push((second, 4, 2 * first + 1));
                graph.ands.push((third, 2 * second, 2 * second));
                places.push((15, next));
            }
            16 => {
                let shape = shape_with_cuts(CUT_LIMIT + 1);
                let variable = |node: usize| if node <= shape.inputs { node } else { next + node - shape.inputs - 1 };
                for (index, ends) in shape.ands.iter().enumerate() {
                    let [a, b] = ends.map(|(node, negative)| 2 * variable(node) + usize::from(negative));
                    graph.ands.push((variable(1 + shape.inputs + index), a, b));
                }
                graph.top = next + shape.ands.len() - 1;
                places.push((16, graph.top));
            }
            _ => {
                places.push((17, graph.outputs.len()));
                graph.outputs.push(rng.below(2));
            }
        }
    }
    let (inputs, outputs) = (graph.inputs.len(), graph.outputs.len());
    let mut lines = graph.lines();
    for (index, line) in lines.iter_mut().enumerate() {
        let is_output = index >= inputs && index < inputs + outputs;
        let number = rng.pick(&[11, 12, 13]);
        if !wanted(rng, 10 * rarity) || (number == 13 && (is_output || index == 0)) {
            continue;
        }
        let rest = line.trim_end().split_once(' ').map_or(String::new(), |(_, rest)| format!(" {rest}"));
        let number_then = |first: &str| format!("{first}{rest}\n");
        *line = match number {
            11 => match rng.below(8) {
                0 => format!(" {line}"),
                1 => line.replace('\n', " \n"),
                2 => line.replace('\n', " 2 2 2\n"),
                3 => number_then("02"),
                4 => number_then("65536"),
                5 => String::from("\n"),
                6 => line.replace('\n', rng.pick(&["\r\r\n", " \r\n", "\r \n", "\r\t\r\n"])),
                _ => number_then("x"),
            },
            12 => match rng.below(4) {
                0 if !is_output => number_then("0"),
                1 if !is_output => number_then("3"),
                2 => number_then("65535"),
                _ => number_then(&(2 * graph.top + 2).to_string()),
            },
            _ => {
                let earlier = rng.below(index.min(inputs));
                number_then(&(2 * graph.inputs[earlier]).to_string())
            }
        };
        bad_lines.push((index, number));
    }
    let mut header = [graph.top, inputs, 0, outputs, graph.ands.len()];
    let seven = wanted(rng, 6 * rarity);
    if wanted(rng, 4 * rarity) {
        header[2] = rng.pick(&[1, 65_535]);
        found.push((8, 0));
    }
    if wanted(rng, 4 * rarity) {
        match rng.below(4) {
            0 => header[0] = rng.pick(&[4_096, 65_535]),
            1 => header[3] = rng.pick(&[4_097, 65_535]),
            2 => header[0] = inputs + graph.ands.len() - 1,
            _ => header[4] = 65_535,
        }
        found.push((9, 0));
    }
    let [m, i, l, o, a] = header;
    let mut head = format!("aag {m} {i} {l} {o} {a}\n");
    if seven {
        head = match rng.below(8) {
            0 => format!("aag {m} {i} {l} {o} {a} 0\n"),
            1 => format!("aag {m} {i} {l} {o}\n"),
            2 => format!("aog {m} {i} {l} {o} {a}\n"),
            3 => format!("aag  {m} {i} {l} {o} {a}\n"),
            4 => format!("aag 0{m} {i} {l} {o} {a}\n"),
            5 => format!("aag {m} {i} {l} {o} 65536\n"),
            6 => format!("aag {m} {i} {l} {o} {a}\r\r\n"),
            _ => String::new(),
        };
        if head.is_empty() {
            lines.clear();
            bad_lines.clear();
        }
        found.push((7, 0));
    }
    let need = WORDS_EACH * (graph.top + 1) + outputs;
    let mut case = Case::new("faults", cells_text, Vec::new()).words(Lent::This(need)).text(Lent::Exact);
    if wanted(rng, 3 * rarity) {
        case.words = Lent::This(if rng.one_in(2) { need - 1 } else { rng.below(need) });
        found.push((10, 0));
    }
    let offsets: Vec<usize> =
        (0..=lines.len()).map(|index| head.len() + lines[..index].iter().map(String::len).sum::<usize>()).collect();
    let mut graph_text = (head + &lines.concat()).into_bytes();
    if wanted(rng, 8 * rarity) && !lines.is_empty() {
        // Cut off: in the middle of a line it is that line, between two lines
        // the next one, at the text's end.
        let keep = rng.between(inputs, lines.len() - 1);
        let into = if rng.one_in(2) { 0 } else { offsets[keep + 1] - offsets[keep] - 1 };
        graph_text.truncate(offsets[keep] + into);
        bad_lines.retain(|&(index, _)| index < keep);
        bad_lines.push((keep, 11));
    }
    if let Some(&(index, number)) = bad_lines.first() {
        found.push((number, offsets[index]));
    } else if !lines.is_empty() {
        let first = bad_output.map(|output| inputs + output).or(bad_and.map(|and| inputs + outputs + and));
        found.extend(first.map(|index| (14, offsets[index])));
    }
    let stage = |kinds: std::ops::RangeInclusive<u32>, found: &[(u32, usize)]| {
        found.iter().copied().filter(|(number, _)| kinds.contains(number)).min_by_key(|&(number, _)| number)
    };
    if wanted(rng, 3) {
        case.text = Lent::OneShort;
    }
    // The first of each stage; lines were gone through in order above.
    let lines_fault = found.iter().copied().find(|(number, _)| (11..=14).contains(number));
    let mut late_fault = None;
    if rng.one_in(2) {
        (case.arrivals, late_fault) = arrivals_with_faults(rng, inputs, rarity);
    }
    let before = library_fault.or(stage(7..=10, &found)).or(lines_fault);
    let mut first = before.or(late_fault).or(stage(15..=17, &places));
    if wanted(rng, 20 * rarity) {
        // Bytes after the last line that is read count for refusal 1 alone.
        graph_text.resize(65_536 + rng.below(2), b'x');
        if graph_text.len() > 65_536 {
            first = Some((1, 0));
        }
    }
    if wanted(rng, 40 * rarity) {
        case.arrivals.resize(65_537, b'x');
        first = Some((1, 0));
    }
    case.graph = graph_text;
    case.expected = first;
    if rng.one_in(2) {
        alike_but_for_ends(rng, &case)
    } else {
        case
    }
}

/// The same for a binary text: what is due stands in one row, output lines and
/// then differences, and the first that is faulty decides.
fn binary_faults(rng: &mut Rng) -> Case {
    let rarity = rng.pick(&[1, 3, 8, 30]);
    let wanted = |rng: &mut Rng, many: usize| rng.one_in(many);

    // The graph: no tie cell, so an output of a constant has no cover.
    let shape = match rng.below(4) {
        0 => shape_with_cuts(CUT_LIMIT + 1).clone(),
        _ => shape(rng, 5, 6, CUT_LIMIT),
    };
    let mut later = (shape.last_count() > CUT_LIMIT).then_some((16, shape.nodes() - 1));
    let mut graph = as_it_comes(&shape, &[(1, false), (2, true), (3, true)]);
    if wanted(rng, 4) {
        later = later.or(Some((17, graph.outputs.len())));
        graph.outputs.push(rng.below(2));
    }
    let (inputs, outputs, ands) = (graph.inputs.len(), graph.outputs.len(), graph.ands.len());

    // The header.
    let mut found: Vec<(u32, usize)> = Vec::new();
    let mut header = [graph.top, inputs, 0, outputs, ands];
    let seven = wanted(rng, 6 * rarity);
    if seven {
        found.push((7, 0));
    }
    if wanted(rng, 6 * rarity) {
        header[2] = rng.pick(&[1, 65_535]);
        found.push((8, 0));
    }
    if wanted(rng, 6 * rarity) {
        match rng.below(4) {
            0 => header[0] = rng.pick(&[4_096, 65_535]),
            1 => header[3] = rng.pick(&[4_097, 65_535]),
            2 => header[0] = inputs + ands - 1,
            _ => header[4] = 65_535,
        }
        found.push((9, 0));
    } else if wanted(rng, 4 * rarity) {
        header[0] = rng.pick(&[graph.top + 1, graph.top + 2, 4_095]);
        found.push((19, 0));
    }
    let [m, i, l, o, a] = header;
    let head = match rng.below(5) {
        _ if !seven => format!("aig {m} {i} {l} {o} {a}\n"),
        0 => format!("aig {m} {i} {l} {o} {a} 0\n"),
        1 => format!("aig {m} {i} {l} {o} {a}\r\n"),
        2 => format!("aig {m} {i} {l} {o} 0{a}\n"),
        3 => format!("aig{m} {i} {l} {o} {a}\n"),
        _ => format!("big {m} {i} {l} {o} {a}\n"),
    };
    let mut words = Lent::This(graph.words());
    if wanted(rng, 4 * rarity) {
        words = Lent::This(if rng.one_in(2) { graph.words() - 1 } else { rng.below(graph.words()) });
        found.push((10, 0));
    }

    // What is due: its bytes, and its refusal if it brings one.
    let mut due: Vec<(Vec<u8>, Option<u32>)> = Vec::new();
    for literal in &graph.outputs {
        let (line, number) = match rng.below(12) {
            _ if !wanted(rng, 4 * rarity) => (format!("{literal}\n"), None),
            0 => (format!("{}\n", 2 * graph.top + 2), Some(12)),
            1 => (String::from("65535\n"), Some(12)),
            2 => (format!(" {literal}\n"), Some(11)),
            3 => (format!("{literal} \n"), Some(11)),
            4 => (format!("{literal}\r\n"), Some(11)),
            5 => (format!("0{literal}\n"), Some(11)),
            6 => (String::from("65536\n"), Some(11)),
            7 => (String::from("\n"), Some(11)),
            8 => (format!("{literal} 2 2\n"), Some(11)),
            _ => (format!("{literal}x\n"), Some(11)),
        };
        due.push((line.into_bytes(), number));
    }
    let differences = graph.differences().expect("in sequence");
    for (index, &difference) in differences.iter().enumerate() {
        let left = 2 * (inputs + 1 + index / 2);
        let taken_from = if index % 2 == 0 { left } else { left - differences[index - 1] };
        let padded = rng.one_in(5);
        due.push(match rng.below(8) {
            _ if !wanted(rng, 4 * rarity) => (groups(difference, padded), None),
            0 => (vec![0x80, 0x80], Some(20)),
            1 => (vec![0xff, 0xff], Some(20)),
            2 => (vec![0x80 + difference as u8 % 128, 0x80, 0x00], Some(20)),
            3 => (vec![0x80 + rng.below(128) as u8, 0x80 + rng.below(128) as u8], Some(20)),
            4 => (groups(rng.between(taken_from + 1, 16_383), false), Some(21)),
            5 => (groups(16_383, false), Some(21)),
            6 if index % 2 == 0 => (groups(0, padded), Some(21)),
            _ => (groups(taken_from + 1, padded), Some(21)),
        });
    }
    let mut text = head.into_bytes();
    let mut offsets: Vec<usize> = Vec::new();
    for (bytes, _) in &due {
        offsets.push(text.len());
        text.extend(bytes);
    }
    let mut first = due.iter().zip(&offsets).find_map(|((_, number), &offset)| Some(((*number)?, offset)));
    if wanted(rng, 4 * rarity) && !due.is_empty() {
        // Cut off within or before what is due, or on its last byte.
        let index = rng.below(due.len());
        let length = offsets[index] + rng.below(due[index].0.len());
        text.truncate(length);
        if first.is_none_or(|(_, place)| place >= offsets[index]) {
            first = Some((if index < outputs { 11 } else { 20 }, offsets[index]));
        }
    } else if rng.one_in(3) {
        let trailing: Vec<u8> = (0..rng.below(9)).map(|_| rng.word() as u8).collect();
        text.extend(trailing);
    }
    // In checking order: 7, 8, 9, 19, 10; then what is due; then the arrivals.
    let (arrivals, late_fault) =
        if rng.one_in(2) { arrivals_with_faults(rng, inputs, 2 * rarity) } else { (Vec::new(), None) };
    first = found.first().copied().or(first).or(late_fault).or(later);
    if wanted(rng, 20 * rarity) {
        text.resize(65_537, 0);
        first = Some((1, 0));
    }
    let mut cells = either_text(rng, &small_library());
    if wanted(rng, 20 * rarity) {
        cells.push(b'x');
        first = first.filter(|&(number, _)| number == 1).or(Some((4, cells.len() - 1)));
    }
    let mut case = Case::new("binary faults", cells, text).arrivals(arrivals).words(words).text(Lent::Exact);
    if wanted(rng, 3) {
        case.text = Lent::OneShort;
    }
    case.expected = first;
    case
}

/// Every limit, just inside and just outside.
pub fn limits() -> Vec<Case> {
    let mut cases = ascii_limits();
    cases.extend(binary_limits());
    cases.extend(end_limits());
    cases.extend(arrival_limits());
    cases.extend(range_limits());
    cases
}

/// Those of binary texts: 19 to 21, and the other numbers beside them.
fn binary_limits() -> Vec<Case> {
    let cells = library_text(&small_library());
    let rich = library_text(&full_library());
    let small = Graph { top: 3, inputs: vec![1, 2], outputs: vec![6], ands: vec![(3, 4, 2)] };
    let mut cases = Vec::new();
    let mut add = |case: Case| cases.push(case);

    // The header: 7, 8, 9, 19, 10.
    for (head, words, number) in [
        ("aig 0 0 0 0 0", Lent::Exact, 0),
        ("aig 0 0 0 0 0", Lent::OneShort, 10),
        ("aig 1 0 0 0 0", Lent::Exact, 19),
        ("aig 1 0 0 0 0", Lent::This(0), 19),
        ("aig 3 2 0 0 0", Lent::Exact, 19),
        ("aig 3 4 0 0 0", Lent::Exact, 9),
        ("aig 3 2 0 0 2", Lent::Exact, 9),
        ("aig 3 0 0 4097 0", Lent::Exact, 9),
        ("aig 3 0 0 4096 0", Lent::Exact, 19),
        ("aig 3 2 1 0 0", Lent::Exact, 8),
        ("aig 4096 0 1 0 0", Lent::Exact, 8),
        ("aig 4095 4095 0 0 0", Lent::Exact, 0),
        ("aig 4095 4095 0 0 0", Lent::OneShort, 10),
        ("aig 4095 4094 0 0 0", Lent::Exact, 19),
        ("aig 4095 4094 0 0 0", Lent::OneShort, 19),
        ("aig 4095 0 0 0 0", Lent::This(0), 19),
        ("aig 4096 4096 0 0 0", Lent::This(0), 9),
        ("aig 4096 0 0 0 0", Lent::This(0), 9),
        ("aig 65535 65535 0 0 65535", Lent::This(0), 9),
        ("aig 65536 0 0 0 0", Lent::This(0), 7),
        ("aig 0 0 0 0 0 0", Lent::This(0), 7),
        ("aig 00 0 0 0 0", Lent::This(0), 7),
        ("aig 0 0 0 0 0\r", Lent::This(0), 7),
        ("aigs 0 0 0 0 0", Lent::This(0), 7),
        ("aig", Lent::This(0), 7),
    ] {
        add(Case::new(head, cells.clone(), format!("{head}\n").into_bytes()).words(words).expect(number, 0));
    }

    // Case B's header and output line take 16 bytes; 6 is 6 - 2 = 4 and 4 - 2 = 2.
    #[rustfmt::skip]
    let edges: [(&[u8], u32, usize); 37] = [
        (&[], 20, 16), (&[0x02], 20, 17), (&[0x82], 20, 16), (&[0x82, 0x80], 20, 16),
        (&[0x82, 0x80, 0x00, 0x02], 20, 16), (&[0x02, 0x82], 20, 17), (&[0x02, 0x82, 0x80], 20, 17),
        (&[0x02, 0x82, 0x80, 0x00], 20, 17), (&[0x82, 0x00], 20, 18), (&[0x82, 0x00, 0x82], 20, 18),
        (&[0x82, 0x00, 0x82, 0x80], 20, 18), (&[0x80, 0x80], 20, 16), (&[0xff, 0xff], 20, 16),
        (&[0xff, 0xff, 0x7f], 20, 16), (&[0x02, 0xff, 0xff], 20, 17),
        (&[0x00], 21, 16), (&[0x00, 0x02], 21, 16), (&[0x80, 0x00], 21, 16), (&[0x00, 0xff, 0xff], 21, 16),
        (&[0x07], 21, 16), (&[0x07, 0x80], 21, 16), (&[0x87, 0x00, 0x02], 21, 16), (&[0xff, 0x7f, 0x02], 21, 16),
        (&[0x86, 0x01, 0x02], 21, 16), (&[0x02, 0x05], 21, 17), (&[0x02, 0x85, 0x00], 21, 17),
        (&[0x02, 0xff, 0x7f], 21, 17), (&[0x06, 0x01], 21, 17), (&[0x86, 0x00, 0x01], 21, 18),
        (&[0x02, 0x02], 0, 0), (&[0x82, 0x00, 0x02], 0, 0), (&[0x02, 0x82, 0x00], 0, 0),
        (&[0x02, 0x00], 0, 0), (&[0x02, 0x80, 0x00], 0, 0), (&[0x02, 0x02, 0xff, 0xff], 0, 0),
        (&[0x06, 0x00], 17, 0), (&[0x02, 0x04], 17, 0),
    ];
    for (bytes, number, place) in edges {
        let text = [small.binary_head().as_bytes(), bytes].concat();
        add(Case::new(format!("differences {bytes:02x?}"), cells.clone(), text).expect(number, place));
    }
    for (line, number) in
        [("8\n", 12), ("7\n", 21), ("06\n", 11), ("6\r\n", 11), ("", 11), ("6", 11), ("6 2 4\n", 11), ("\n", 11)]
    {
        // A first difference of 0 behind each.
        let bytes: &[u8] = if line.ends_with('\n') { b"\x00" } else { b"" };
        let text = [b"aig 3 2 0 1 1\n", line.as_bytes(), bytes].concat();
        let place = if number == 21 { 16 } else { 14 };
        add(Case::new(format!("output line {line:?}"), cells.clone(), text).expect(number, place));
    }

    // Differences of one byte and two, just what they are taken from and more.
    for inputs in [0, 2, 62, 63, 64, 4_094] {
        let left = 2 * (inputs + 1);
        let head = format!("aig {} {inputs} 0 1 1\n{}\n", inputs + 1, left + 1);
        let mut one_and = |first: usize, second: usize, padded: bool| {
            let bytes = [groups(first, padded), groups(second, padded)];
            let text = [head.as_bytes(), &bytes[0], &bytes[1]].concat();
            let what = format!("{inputs} inputs, differences {first} and {second}");
            let case = Case::new(what, rich.clone(), text);
            add(if first == 0 || first > left {
                case.expect(21, head.len())
            } else if second > left - first {
                case.expect(21, head.len() + bytes[0].len())
            } else {
                case.expect(0, 0)
            });
        };
        for first in [0, 1, 126, 127, 128, 129, left - 1, left, left + 1, 255, 256, 8_190, 8_191, 16_383] {
            one_and(first, 0, false);
            one_and(first, 0, true);
        }
        for second in [0, 1, 126, 127, 128, 129, left - 2, left - 1, left, 255, 256, 8_189, 8_190, 16_383] {
            one_and(1, second, false);
            one_and(1, second, true);
        }
    }

    // Lengths, words and text memory.
    let good = small.binary().expect("in sequence");
    for length in [65_535, 65_536, 65_537] {
        let mut text = good.clone();
        text.resize(length, 0xff);
        let case = Case::new(format!("binary graph of {length} bytes"), cells.clone(), text);
        add(case.expect(if length > 65_536 { 1 } else { 0 }, 0));
    }
    for (text, number) in [(Lent::Exact, 0), (Lent::Over(1), 0), (Lent::OneShort, 18), (Lent::This(0), 18)] {
        let case = Case::new(format!("small binary graph, text {text:?}"), cells.clone(), good.clone()).text(text);
        add(case.expect(number, if number == 18 { LISTING.len() } else { 0 }));
    }
    let full = large_graph(&mut Rng::new(3), 4_095).in_sequence().expect("no circle");
    for (words, number) in [(Lent::Exact, 0), (Lent::OneShort, 10)] {
        for text in [full.text(), full.binary().expect("in sequence")] {
            let what = format!("full graph in sequence, {} bytes, words {words:?}", text.len());
            add(Case::new(what, rich.clone(), text).words(words).expect(number, 0));
        }
    }
    let mut cut = full.binary().expect("in sequence");
    let last = cut.len() - groups(*full.differences().expect("in sequence").last().expect("an AND"), false).len();
    cut.pop();
    add(Case::new("full graph, its last byte cut off", rich.clone(), cut).expect(20, last));
    cases
}

/// Those of ASCII texts.
fn ascii_limits() -> Vec<Case> {
    let cells = library_text(&small_library());
    let small = Graph { top: 3, inputs: vec![1, 2], outputs: vec![6], ands: vec![(3, 2, 4)] };
    let mut cases = Vec::new();
    let mut add = |case: Case| cases.push(case);

    // Text lengths: bytes after the graph's last due line aren't read.
    for length in [65_535, 65_536, 65_537] {
        let mut graph = small.text();
        graph.resize(length, 0);
        let case = Case::new(format!("graph of {length} bytes"), cells.clone(), graph);
        add(case.expect(if length > 65_536 { 1 } else { 0 }, 0));
    }
    for length in [65_536, 65_537] {
        let mut long = cells.clone();
        long.resize(length, b'x');
        let case = Case::new(format!("library of {length} bytes"), long, small.text());
        add(if length > 65_536 { case.expect(1, 0) } else { case.expect(4, cells.len()) });
        let case = Case::new(format!("both of {length} bytes"), vec![b'x'; length], vec![b'x'; length]);
        add(case.expect(if length > 65_536 { 1 } else { 2 }, 0));
    }
    add(Case::new("both empty", Vec::new(), Vec::new()).expect(2, 0));
    add(Case::new("graph empty", cells.clone(), Vec::new()).expect(7, 0));

    // Cells.
    for count in [31, 32, 33] {
        let mut many = small_library();
        while many.len() < count {
            let twin = Cell { name: format!("n{}", many.len()), ..many[1].clone() };
            many.push(twin);
        }
        let text = library_text(&many);
        let last = text.len() - many[count - 1].line().len();
        let case = Case::new(format!("{count} cells"), text.clone(), small.text());
        add(if count > 32 { case.expect(3, last) } else { case.expect(0, 0) });
        if count == 32 {
            for byte in [b'\n', b'x', 0] {
                let longer = [&text[..], &[byte]].concat();
                let case = Case::new("one byte after 32 cells", longer, small.text());
                add(case.expect(3, text.len()));
            }
        }
    }

    // M, O, I + A.
    for top in [0, 1, 4_094, 4_095, 4_096, 65_535] {
        let graph = format!("aag {top} 0 0 0 0\n").into_bytes();
        let case =
            Case::new(format!("M of {top}"), cells.clone(), graph).words(Lent::This(WORDS_EACH * (top.min(4_095) + 1)));
        add(case.expect(if top > 4_095 { 9 } else { 0 }, 0));
    }
    for outputs in [4_095, 4_096, 4_097] {
        let mut graph = format!("aag 1 1 0 {outputs} 0\n2\n");
        graph += &"3\n".repeat(outputs);
        let case = Case::new(format!("O of {outputs}"), cells.clone(), graph.into_bytes());
        add(case.expect(if outputs > 4_096 { 9 } else { 0 }, 0));
    }
    for (inputs, ands) in [(3, 0), (2, 1), (0, 3), (4, 0), (0, 4), (2, 2), (65_535, 65_535)] {
        let mut graph = format!("aag 3 {inputs} 0 0 {ands}\n");
        let mut variable = 0;
        for and in 0..(inputs + ands).min(4) {
            variable += 1;
            graph += &if and < inputs { format!("{}\n", 2 * variable) } else { format!("{} 0 1\n", 2 * variable) };
        }
        let case = Case::new(format!("I of {inputs}, A of {ands}, M of 3"), cells.clone(), graph.into_bytes());
        add(case.expect(if inputs + ands > 3 { 9 } else { 0 }, 0));
    }
    for latches in [1, 65_535] {
        let graph = format!("aag 1 0 {latches} 0 0\n2 2\n").into_bytes();
        add(Case::new(format!("L of {latches}"), cells.clone(), graph).expect(8, 0));
    }

    // Work and text memory.
    let full = large_graph(&mut Rng::new(3), 4_095);
    let rich = library_text(&full_library());
    for (what, graph) in [("small", &small), ("full", &full)] {
        for (words, number) in [(Lent::Exact, 0), (Lent::OneShort, 10), (Lent::This(0), 10), (Lent::Over(1_000), 0)] {
            let text = graph.text();
            add(Case::new(format!("{what} graph, words {words:?}"), rich.clone(), text).words(words).expect(number, 0));
        }
    }
    let small_length = LISTING.len();
    for (text, number) in [(Lent::Exact, 0), (Lent::Over(1), 0), (Lent::OneShort, 18), (Lent::This(0), 18)] {
        let case = Case::new(format!("small graph, text {text:?}"), cells.clone(), small.text()).text(text);
        add(case.expect(number, if number == 18 { small_length } else { 0 }));
    }
    add(Case::new("full graph, text one short", rich.clone(), full.text()).text(Lent::OneShort));

    // "the figure in 18": without a gate the lines `.model top`, `.inputs p1`,
    // `.outputs`, `.end` and the figures take 63 bytes; an output whose name has
    // d digits takes 2 + d in `.outputs` and 12 + d with 4 more in its own lines,
    // and with net p10 one more. Of 2,603 outputs 10 have one digit, 90 two, 900
    // three and 1,603 four: 65,521 bytes on p1 alone. ` p10` in `.inputs` and 11
    // outputs on it make what the program lends, 65,536.
    for (on_p10, outputs, length) in [(0, 1, 63 + 20), (0, 2_603, 65_521), (11, 2_603, 65_536), (12, 2_603, 65_537)] {
        let inputs = if on_p10 == 0 { "1 1" } else { "10 2" };
        let head = format!("aag {inputs} 0 {outputs} 0\n2\n") + if on_p10 == 0 { "" } else { "20\n" };
        let graph = head + &"20\n".repeat(on_p10) + &"2\n".repeat(outputs - on_p10);
        for lent in [length, length - 1, 65_536] {
            let case =
                Case::new(format!("{length} bytes of netlist, {lent} lent"), cells.clone(), graph.clone().into());
            let case = case.words(Lent::This(32_768)).text(Lent::This(lent));
            add(if length > lent { case.expect(18, length) } else { case.expect(0, 0) });
        }
    }
    // 4,096 outputs without a gate, on an input: 10, 90, 900 and 3,096 names.
    let most = "aag 1 1 0 4096 0\n2\n".to_string() + &"2\n".repeat(4_096);
    let length = 63 + 10 * 20 + 90 * 22 + 900 * 24 + 3_096 * 26;
    for (lent, number) in [(65_536, 18), (length - 1, 18), (length, 0)] {
        let case = Case::new(format!("4,096 outputs, {lent} bytes lent"), cells.clone(), most.clone().into_bytes());
        let case = case.words(Lent::This(32_768)).text(Lent::This(lent));
        add(case.expect(number, if number == 18 { length } else { 0 }));
    }
    // Outputs that repeat, that are inputs, constants and complements of each.
    let outputs = Graph { outputs: vec![6, 6, 7, 2, 2, 3, 0, 1, 0, 5, 6, 7], ..small.clone() };
    for text in [Lent::Exact, Lent::OneShort] {
        let case = Case::new(format!("outputs of all kinds, text {text:?}"), rich.clone(), outputs.text()).text(text);
        add(if text == Lent::OneShort { case } else { case.expect(0, 0) });
    }
    add(Case::new("a constant output without a tie cell", cells.clone(), outputs.text()).expect(17, 6));

    // "260 variables with up to 404 outputs": M of 260 with 404 outputs needs
    // exactly what the program lends.
    for outputs in [404, 405] {
        let graph = format!("aag 260 1 0 {outputs} 0\n2\n") + &"3\n".repeat(outputs);
        let case = Case::new(format!("M of 260, O of {outputs}"), cells.clone(), graph.into_bytes());
        add(case.words(Lent::This(32_768)).expect(if outputs > 404 { 10 } else { 0 }, 0));
    }

    // Cuts.
    for (wanted, number) in [(CUT_LIMIT, 0), (CUT_LIMIT + 1, 16)] {
        let graph = as_it_comes(shape_with_cuts(wanted), &[]);
        for text in [graph.text(), graph.binary().expect("in sequence")] {
            let case = Case::new(format!("{wanted} cuts"), cells.clone(), text);
            add(case.expect(number, if number == 16 { graph.top } else { 0 }));
        }
    }
    let (graph, place) = restart();
    add(Case::new("two ANDs with a cut too many", cells.clone(), graph.text()).expect(16, place));

    // The largest figures: a slow chain, and an inverter on every input.
    let slow = format!("{NAMES_LINE}inv 1 0001 65535 65535 0 0 0\nnand2 2 0007 65535 65535 65535 0 0\n");
    let chain = Graph {
        top: 4_095,
        inputs: vec![1, 2, 3, 4],
        outputs: vec![2 * 4_095],
        ands: (5..=4_095).map(|variable| (variable, 2 * variable - 2, 2 * (1 + variable % 4))).collect(),
    };
    add(Case::new("a slow chain", slow.clone().into_bytes(), chain.text()).expect(0, 0));
    let wide = Graph {
        top: 4_095,
        inputs: (1..=4_095).rev().collect(),
        outputs: (1..=4_095).map(|variable| 2 * variable + 1).collect(),
        ands: Vec::new(),
    };
    for text in [Lent::Exact, Lent::Over(70_000), Lent::OneShort] {
        let case = Case::new(format!("a wide graph, text {text:?}"), slow.clone().into_bytes(), wide.text());
        add(if text == Lent::OneShort { case } else { case.expect(0, 0) }.words(Lent::Exact).text(text));
    }

    // Offsets and indices near their largest.
    let mut graph = String::from("aag 4095 4095 0 4096 0\n");
    for variable in 1..=4_095 {
        graph += &format!("{}\n", 2 * variable);
    }
    graph += &"8191\n".repeat(4_095);
    let offset = graph.len();
    add(Case::new("last output line missing", cells.clone(), graph.clone().into_bytes()).expect(11, offset));
    add(Case::new("last output constant", cells.clone(), (graph.clone() + "1\n").into_bytes()).expect(17, 4_095));
    add(Case::new("a large plain graph", cells.clone(), (graph + "8190\n").into_bytes()).expect(0, 0));
    cases
}

/// Two ANDs with a cut too many: X waits for an AND numbered just above it, and
/// Y, numbered higher still, is ready before that. From the lowest again X is
/// placed first; a sweep would come to Y first.
fn restart() -> (Graph, usize) {
    let mut shape = shape_with_cuts(CUT_LIMIT + 1).clone();
    // Only what the last AND stands on.
    let last = shape.nodes() - 1;
    let mut used = vec![false; shape.nodes()];
    used[last] = true;
    for node in (1 + shape.inputs..=last).rev() {
        if used[node] {
            for (below, _) in shape.ands[node - 1 - shape.inputs] {
                used[below] = true;
            }
        }
    }
    shape.cuts.clear();
    let kept: Vec<usize> = (1 + shape.inputs..=last).filter(|&node| used[node]).collect();
    let inner = kept.len() - 2;
    // Inner ANDs of both copies, Y's last operand, then X, X's last operand, Y.
    let first = 1 + shape.inputs;
    let copy = |node: usize, inner_from: usize, operand: usize, top: usize| {
        if node <= shape.inputs {
            return node;
        }
        match kept.iter().position(|&known| known == node) {
            Some(index) if index < inner => inner_from + index,
            Some(index) if index == inner => operand,
            _ => top,
        }
    };
    let mut graph =
        Graph { top: first + 2 * inner + 3, inputs: (1..first).collect(), outputs: Vec::new(), ands: Vec::new() };
    let x = first + 2 * inner + 1;
    let numbers = [(first, x + 1, x), (first + inner, x - 1, x + 2)];
    for (inner_from, operand, top) in numbers {
        for &node in &kept {
            let ends = shape.ands[node - 1 - shape.inputs];
            let [a, b] =
                ends.map(|(below, negative)| 2 * copy(below, inner_from, operand, top) + usize::from(negative));
            graph.ands.push((copy(node, inner_from, operand, top), a, b));
        }
    }
    (graph, x)
}
