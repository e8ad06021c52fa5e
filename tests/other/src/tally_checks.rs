//! The checks of the calls that count and report, each a sentence of request N11 or
//! netlists against a second reader: it lays a pattern over every line.

use crate::checks::Check;
use crate::gaps;
use crate::gen::{self, Rng};
use crate::reference::{self, Answer};
use crate::tally::{self, count, empty, report};
use crate::tally_gen::{self, Known, Listed};
use std::collections::BTreeMap;

macro_rules! ensure {
    ($condition:expr, $($message:tt)*) => {
        if !$condition {
            return Err(format!($($message)*));
        }
    };
}

// ---------------------------------------------------------------- second reader

/// Whether a line is the pattern, where `#` stands for one or more digits, `@` for `p` or
/// `m`, and `&` for either of these or `s` before it.
fn fits(pattern: &[u8], line: &[u8]) -> bool {
    match (pattern.split_first(), line.split_first()) {
        (None, None) => true,
        (Some((b'#', rest)), Some((digit, after))) if digit.is_ascii_digit() => {
            fits(rest, after) || fits(pattern, after)
        }
        (Some((b'&', rest)), Some((b's', b"p" | b"m" | [b'p' | b'm', ..]))) => fits(&[b"@", rest].concat(), &line[1..]),
        (Some((b'@' | b'&', rest)), Some((b'p' | b'm', after))) => fits(rest, after),
        (Some((b'~', rest)), Some((b'#', after))) => fits(rest, after),
        (Some((is, rest)), Some((byte, after))) => is == byte && !b"#@&~".contains(is) && fits(rest, after),
        _ => false,
    }
}

/// The gates by cell name, or the place of 29: the patterns of all lines laid over the
/// text one after the other.
pub fn by_patterns(cells: &[u8], netlist: &[u8]) -> Result<BTreeMap<String, u64>, usize> {
    let library = reference::read_library(cells).expect("a good library");
    let gate_of = |cell: &reference::Cell| {
        let pins: String = "ABCD".chars().take(cell.pins).map(|pin| format!(" {pin}=&#")).collect();
        format!(".gate {}{pins} O=&#\n", cell.name)
    };
    let patterns: Vec<(String, u64, String)> =
        library.cells.iter().map(|cell| (cell.name.clone(), cell.area.into(), gate_of(cell))).collect();
    let mut offset = 0;
    let mut lines = netlist.split_inclusive(|&byte| byte == b'\n').peekable();
    let mut lay = |pattern: &str, line: Option<&[u8]>| {
        let line = line.unwrap_or(b"");
        let fits = fits(pattern.as_bytes(), line);
        offset += if fits { line.len() } else { 0 };
        fits.then_some(()).ok_or(offset)
    };
    let spaces = |line: Option<&&[u8]>| line.map_or(0, |line| line.iter().filter(|&&byte| byte == b' ').count());
    lay(".model top\n", lines.next())?;
    let inputs = spaces(lines.peek());
    lay(&format!(".inputs{}\n", " p#".repeat(inputs)), lines.next())?;
    let outputs = spaces(lines.peek());
    lay(&format!(".outputs{}\n", " o#".repeat(outputs)), lines.next())?;
    let (mut used, mut all, mut area) = (BTreeMap::new(), 0, 0);
    while let Some((name, own, pattern)) =
        patterns.iter().find(|(_, _, pattern)| lines.peek().is_some_and(|line| fits(pattern.as_bytes(), line)))
    {
        lay(pattern, lines.next())?;
        *used.entry(name.clone()).or_insert(0) += 1;
        all += 1;
        area += own;
    }
    let figures = format!("~ gates {all} area {area} arrival #\n");
    let timing = if gen::is_ranged(cells) { outputs } else { 0 };
    let due =
        [[".names @# o#\n", "1 1\n"].repeat(outputs), vec![".end\n", &figures], vec!["~ timing o# # #\n"; timing]];
    for pattern in due.concat() {
        lay(pattern, lines.next())?;
    }
    // The text ends here: an empty pattern fits no line.
    match lines.next() {
        None => Ok(used),
        Some(_) => lay("", Some(b"x")).map(|()| used),
    }
}

// ---------------------------------------------------------------- sentences

fn small() -> Vec<u8> {
    gen::library_text(&gen::small_library())
}

fn print(graph: &str) -> Vec<u8> {
    reference::map_without_arrivals(&small(), graph.as_bytes(), 32_768, 65_536).1
}

fn refusal(number: u32, place: usize) -> Answer {
    Answer { number, value: place as u32, ..Answer::default() }
}

/// With memory enough.
fn text(cells: &[u8], tally: &[u64]) -> String {
    String::from_utf8_lossy(&report(cells, tally, 1 << 20).1).into_owned()
}

/// "Report a line per cell in library order, as `inv 3 3 2`: its gates, their total area
/// and in how many netlists it occurs; then `total` with gates, area and netlists
/// counted.": case B, two inverters, and an input alone, in either order.
pub fn as_listed() -> Check {
    let cells = small();
    let netlists =
        [gen::LISTING.as_bytes().to_vec(), print("aag 2 2 0 2 0\n2\n4\n3\n5\n"), print("aag 1 1 0 1 0\n2\n2\n")];
    ensure!(text(&cells, &empty()) == "inv 0 0 0\nnand2 0 0 0\ntotal 0 0 0\n", "{}", text(&cells, &empty()));
    let mut all = [empty(), empty()];
    for order in [[0, 1, 2], [2, 1, 0]] {
        for (turn, which) in order.into_iter().enumerate() {
            let (answer, after) = count(&cells, &netlists[which], &all[order[0] / 2]);
            ensure!(answer == Answer::default(), "netlist {which}: {answer:?}");
            ensure!(after[96] == turn as u64 + 1, "{} are counted", after[96]);
            all[order[0] / 2] = after;
        }
    }
    let told = text(&cells, &all[0]);
    ensure!(told == "inv 3 3 2\nnand2 1 2 1\ntotal 4 5 3\n", "{told}");
    ensure!(all[0] == all[1], "the order of netlists doesn't matter");
    // A library without cells reports the last line alone.
    let told = text(gen::NAMES_LINE.as_bytes(), &empty());
    ensure!(told == "total 0 0 0\n", "{told}");
    Ok("inv 3 3 2".into())
}

/// "reads up to 64 mapped netlists", "28 when 64 netlists are counted already [...],
/// place 64"; "A refused netlist adds nothing."
pub fn sixty_four() -> Check {
    let cells = small();
    let mut tally = empty();
    for number in 1..=64u64 {
        let (answer, broken) = count(&cells, b".model top\n.inputs\n", &tally);
        ensure!(answer == refusal(29, 19) && broken == tally, "a refused netlist at {number}: {answer:?}");
        let (answer, after) = count(&cells, gen::LISTING.as_bytes(), &tally);
        ensure!(answer == Answer::default() && after[96] == number, "netlist {number}: {answer:?}");
        tally = after;
    }
    let (answer, after) = count(&cells, gen::LISTING.as_bytes(), &tally);
    ensure!(answer == refusal(28, 64) && after == tally, "the 65th: {answer:?}");
    // "in a report too" goes for the figures alone.
    let told = text(&cells, &tally);
    ensure!(told == "inv 64 64 64\nnand2 64 128 64\ntotal 128 192 64\n", "{told}");
    Ok("64".into())
}

/// "a tally figure exceeds 2^40": each of the 97, from both sides.
pub fn figures() -> Check {
    let cells = small();
    for at in 0..tally::FIGURES {
        for (figure, is_large) in [(1 << 40, false), ((1 << 40) + 1, true), (u64::MAX, true)] {
            let mut forged = empty();
            forged[at] = figure;
            let (answer, after) = count(&cells, gen::LISTING.as_bytes(), &forged);
            let wanted = if is_large || at == 96 { refusal(28, 64) } else { Answer::default() };
            ensure!(answer == wanted, "figure {at} of {figure}: {answer:?}");
            ensure!((after == forged) == (answer.number > 0), "figure {at} of {figure}: the tally");
            let (answer, _) = report(&cells, &forged, 10_000);
            ensure!((answer.number == 28) == is_large, "a report, figure {at} of {figure}: {answer:?}");
            if is_large {
                ensure!(answer == refusal(28, 64), "a report, figure {at}: {answer:?}");
            }
        }
    }
    for length in [0, 1, 96, 98, 200] {
        let forged = vec![0; length];
        let (answer, after) = count(&cells, gen::LISTING.as_bytes(), &forged);
        ensure!(answer == refusal(28, 64) && after == forged, "{length} figures: {answer:?}");
        ensure!(report(&cells, &forged, 10_000).0 == refusal(28, 64), "a report of {length} figures");
    }
    // What exceeds after counting is handed on, and refused in the next call.
    let mut full = empty();
    full[0] = 1 << 40;
    let (_, after) = count(&cells, gen::LISTING.as_bytes(), &full);
    ensure!(after[0] == (1 << 40) + 1, "handed on: {}", after[0]);
    ensure!(count(&cells, gen::LISTING.as_bytes(), &after).0 == refusal(28, 64), "then refused");
    Ok(format!("{} figures", tally::FIGURES))
}

/// "1 covers netlists", then the library's, 28 and 29.
pub fn in_order() -> Check {
    let cells = small();
    let long = vec![b'x'; 65_537];
    let broken = [&cells[..], b"x\n"].concat();
    let ranged = format!("{}inv 1 0001 1 10 0 0 0 11 0 0 0\n", gen::RANGED_LINE).into_bytes();
    let mut forged = empty();
    forged[3] = u64::MAX;
    for (library, netlist, tally, wanted) in [
        (&long, &b"x"[..], &forged, refusal(1, 0)),
        (&broken, &long, &forged, refusal(1, 0)),
        (&broken, b"x", &forged, refusal(4, cells.len())),
        (&ranged, b"x", &forged, refusal(27, 45)),
        (&b"x".to_vec(), b"x", &vec![], refusal(2, 0)),
        (&cells, b"x", &forged, refusal(28, 64)),
        (&cells, b"x", &vec![0; 96], refusal(28, 64)),
        (&cells, b"x", &empty(), refusal(29, 0)),
        (&cells, b"", &empty(), refusal(29, 0)),
    ] {
        let (answer, after) = count(library, netlist, tally);
        ensure!(answer == wanted && after == *tally, "wanted {wanted:?}: {answer:?}");
        let (answer, _) = report(library, tally, 0);
        let reported = match wanted.number {
            1 if library.len() < 65_537 => refusal(4, cells.len()),
            29 => refusal(18, 34),
            _ => wanted,
        };
        ensure!(answer == reported, "a report: {answer:?}, not {reported:?}");
    }
    // "18 the report's memory": `inv 0 0 0`, `nand2 0 0 0`, `total 0 0 0`.
    let (answer, told) = report(&cells, &empty(), 34);
    ensure!((answer.number, answer.value, told.len()) == (0, 34, 34), "{answer:?}");
    ensure!(report(&cells, &empty(), 33) == (refusal(18, 34), vec![]), "one byte short");
    // A netlist of exactly the length in 1 is read.
    let mut text = gen::LISTING.as_bytes().to_vec();
    let length = text.len();
    text.resize(65_536, b'x');
    ensure!(count(&cells, &text, &empty()).0 == refusal(29, length), "65,536 bytes");
    Ok("1, 2 to 6, 27, 28, 29, 18".into())
}

// ---------------------------------------------------------------- netlists

/// "Its gates and area equal the sums of the counted netlists' `# gates` lines, and the
/// sums over cells.": every printed netlist is counted, with its own figures.
pub fn sums(sequences: usize, seed: u64) -> Check {
    let mut rng = Rng::new(seed);
    let mut netlists = 0;
    for _ in 0..sequences {
        let library = tally_gen::library(&mut rng);
        let mut tally = empty();
        let mut sums = [0u64; 3];
        for _ in 0..rng.pick(&[1, 2, 5, 20]) {
            let Some((printed, netlist)) = tally_gen::printed(&mut rng, &library) else { continue };
            let (answer, after) = count(&library.text, &netlist, &tally);
            ensure!(answer == Answer::default(), "printed: {answer:?}\n{}", String::from_utf8_lossy(&netlist));
            tally = after;
            sums = [sums[0] + u64::from(printed.gates), sums[1] + u64::from(printed.area), sums[2] + 1];
            netlists += 1;
        }
        let told = text(&library.text, &tally);
        let rows: Vec<Vec<&str>> = told.lines().map(|line| line.split(' ').collect()).collect();
        let names: Vec<&str> = library.cells.iter().map(|cell| cell.name.as_str()).chain(["total"]).collect();
        ensure!(rows.iter().map(|row| row[0]).eq(names), "a line per cell\n{told}");
        let figures: Vec<Vec<u64>> =
            rows.iter().map(|row| row[1..].iter().map(|word| word.parse().unwrap_or(u64::MAX)).collect()).collect();
        let (total, cells) = figures.split_last().ok_or("no line")?;
        ensure!(*total == sums, "the `# gates` lines sum up to {sums:?}\n{told}");
        for at in [0, 1] {
            ensure!(cells.iter().map(|figures| figures[at]).sum::<u64>() == sums[at], "the sums over cells\n{told}");
        }
        for (figures, cell) in cells.iter().zip(&library.cells) {
            let [gates, area, occurs] = figures[..] else { return Err(told.clone()) };
            let one =
                area == gates * u64::from(cell.area) && occurs <= gates.min(sums[2]) && (occurs > 0) == (gates > 0);
            ensure!(one, "cell {}\n{told}", cell.name);
        }
    }
    ensure!(netlists > sequences, "{netlists} netlists in {sequences} sequences");
    Ok(format!("{netlists} netlists in {sequences} sequences"))
}

/// Printed, made, edited and damaged netlists: what the making knows, and the second
/// reader for every one.
pub fn netlists(cases: usize, seed: u64) -> Check {
    let mut rng = Rng::new(seed);
    let mut kinds: BTreeMap<&str, [usize; 2]> = BTreeMap::new();
    let mut library = tally_gen::library(&mut rng);
    for number in 0..cases {
        if number % 8 == 0 {
            library = tally_gen::library(&mut rng);
        }
        let made = tally_gen::netlist(&mut rng, &library);
        let answer = against_patterns(&library, &made.text)?;
        let told = || format!("{}: {answer:?}\n{}", made.what, String::from_utf8_lossy(&made.text));
        let wanted = match made.knows {
            Known::Counted => Answer::default(),
            Known::Broken(place) => refusal(29, place),
            Known::Nothing => answer,
        };
        ensure!(answer == wanted, "wanted {wanted:?}, {}", told());
        kinds.entry(made.what).or_default()[usize::from(answer.number > 0)] += 1;
    }
    ensure!(kinds["printed"][0].min(kinds["edited"][1]) > cases / 10, "{kinds:?}");
    Ok(format!("{cases} netlists, counted and refused {kinds:?}"))
}

/// The answer, if the second reader counts the same gates or stops at the same line.
fn against_patterns(library: &Listed, netlist: &[u8]) -> Result<Answer, String> {
    let told = || String::from_utf8_lossy(&[&library.text[..], netlist].concat()).into_owned();
    let (answer, tally) = count(&library.text, netlist, &empty());
    match by_patterns(&library.text, netlist) {
        Err(place) => ensure!(answer == refusal(29, place), "29 at {place}: {answer:?}\n{}", told()),
        Ok(used) => {
            ensure!(answer == Answer::default(), "counted: {answer:?}\n{}", told());
            for (line, cell) in library.cells.iter().enumerate() {
                let gates = used.get(&cell.name).copied().unwrap_or(0);
                let figures = [tally[line], tally[32 + line], tally[64 + line]];
                let wanted = [gates, gates * u64::from(cell.area), gates.min(1)];
                ensure!(figures == wanted, "{}: {figures:?}, not {wanted:?}\n{}", cell.name, told());
            }
            ensure!(tally[96] == 1 && tally[library.cells.len()..32].iter().all(|&figure| figure == 0), "{}", told());
        }
    }
    Ok(answer)
}

/// Every damage of a small netlist, and every byte at every gap, with either names line.
pub fn damage() -> Check {
    let mut counts = [0; 2];
    let cells = gen::small_library();
    for ranged in [false, true] {
        let text = if ranged { gen::ranged_text(&cells) } else { gen::library_text(&cells) };
        let library = Listed { cells: cells.clone(), text };
        let netlist = gen::LISTING.to_string() + if ranged { "# timing o0 30 35\n" } else { "" };
        for damaged in gen::all_damage(netlist.as_bytes()).into_iter().chain(gaps::netlists(ranged)) {
            counts[usize::from(against_patterns(&library, &damaged)?.number > 0)] += 1;
        }
    }
    ensure!(counts[0] > 100, "{counts:?}");
    Ok(format!("counted and refused {counts:?}"))
}
