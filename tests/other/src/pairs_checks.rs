//! The checks of pairs of cells, each a sentence of request N12 or graphs by chance
//! against the brute force over covers with pairs and against the same library without.

use crate::checks::{self, Check, Gone};
use crate::gen::{self, Case, Lent, Rng};
use crate::reference::{self, Answer, Cell};
use crate::{blif, judge, pairs, two, CUT_LIMIT, NUMBERS};

macro_rules! ensure {
    ($condition:expr, $($message:tt)*) => {
        if !$condition {
            return Err(format!($($message)*));
        }
    };
}

const B: &str = "aag 3 2 0 1 1\n2\n4\n6\n6 2 4\n";

fn listed(lines: &[&str]) -> Result<Vec<Cell>, String> {
    let text = gen::RANGED_LINE.to_string() + &lines.iter().map(|line| format!("{line}\n")).collect::<String>();
    reference::read_library(text.as_bytes()).map(|library| library.cells).map_err(|refusal| format!("{refusal:?}"))
}

/// Root line, pin and inner line; pins, table, area, delays and lowest delays.
type Row = ((usize, usize, usize), (usize, u16, u32), [u32; 4], [u32; 4]);

fn row(cell: &Cell) -> Option<Row> {
    let made = cell.made_of.as_ref()?;
    let Cell { pins, table, area, delays, lowest, .. } = *cell;
    Some(((made.root, made.fed, made.inner), (pins, table, area), delays, lowest))
}

/// "for each root cell, pin and inner cell with at least one pin, in that order of lines,
/// form a pair feeding that pin, if the result has at most four pins. Its pins are the
/// root's in order, with the inner's, in order, at the fed pin's place. Area adds; an
/// inner pin's delays add to the fed pin's. Pairs follow the listed cells, and all pairs
/// are kept.": worked out by hand for an inverter, a cell of two pins that tell each
/// other apart (b and not a) and a cell without pins.
pub fn by_hand() -> Check {
    let cells =
        listed(&["inv 1 0001 1 10 0 0 0 3 0 0 0", "tie 0 0001 7 0 0 0 0 0 0 0 0", "low 2 0004 2 20 50 0 0 5 6 0 0"])?;
    let all = pairs::joined(&cells).map_err(|refusal| format!("{refusal:?}"))?;
    ensure!(all[..3] == cells[..], "pairs follow the listed cells");
    let rows: Option<Vec<Row>> = all[3..].iter().map(row).collect();
    let wanted: Vec<Row> = vec![
        // Inverter on inverter, then on low: the complement in rows 0, 1 and 3.
        ((0, 0, 0), (1, 0x0002, 2), [20, 0, 0, 0], [6, 0, 0, 0]),
        ((0, 0, 2), (2, 0x000b, 3), [30, 60, 0, 0], [8, 9, 0, 0]),
        // low with pin 0 fed: b and x where the inverter has x; b and not (y and not x)
        // where low has x and y, so the third pin's rows 4, 5 and 7.
        ((2, 0, 0), (2, 0x0008, 3), [30, 50, 0, 0], [8, 6, 0, 0]),
        ((2, 0, 2), (3, 0x00b0, 4), [40, 70, 50, 0], [10, 11, 6, 0]),
        // Pin 1 fed: not a and not x; not a and y and not x, where a stands first: row 4.
        ((2, 1, 0), (2, 0x0001, 3), [20, 60, 0, 0], [5, 9, 0, 0]),
        ((2, 1, 2), (3, 0x0010, 4), [20, 70, 100, 0], [5, 11, 12, 0]),
    ];
    ensure!(rows.as_ref() == Some(&wanted), "{rows:#?}");
    // "at most four pins": a root of three takes cells of one and two, of four those of one.
    let four = listed(&[
        "a 1 0001 1 1 0 0 0 0 0 0 0",
        "b 2 0007 1 1 1 0 0 0 0 0 0",
        "c 3 007f 1 1 1 1 0 0 0 0 0",
        "d 4 7fff 1 1 1 1 1 0 0 0 0",
    ])?;
    let all = pairs::joined(&four).map_err(|refusal| format!("{refusal:?}"))?;
    let made: Vec<(usize, usize)> =
        all[4..].iter().filter_map(|cell| row(cell).map(|((root, fed, inner), ..)| (root * 10 + fed, inner))).collect();
    let by_root = [(0, 1, 4), (1, 2, 3), (2, 3, 2), (3, 4, 1)];
    let wanted: Vec<(usize, usize)> = by_root
        .iter()
        .flat_map(|&(root, pins, inner)| {
            (0..pins).flat_map(move |fed| (0..inner).map(move |inner| (root * 10 + fed, inner)))
        })
        .collect();
    ensure!(made == wanted, "{made:?}");
    Ok(format!("{} and {} pairs", 6, wanted.len()))
}

/// "A pair prints as two gates, the inner first, on a net `s` followed by the root's net
/// name": case B, where the pair ties with the inverter and goes before it.
pub fn printed() -> Check {
    let cells = gen::library_text(&gen::small_library());
    let run = |graph: &str| reference::map_pairs(&cells, graph.as_bytes(), b"", 32_768, 65_536);
    let (answer, netlist) = run(B);
    let wanted = gen::LISTING.replace(
        ".gate inv A=m3 O=p3\n.gate nand2 A=p1 B=p2 O=m3\n",
        ".gate nand2 A=p1 B=p2 O=sp3\n.gate inv A=sp3 O=p3\n",
    );
    let told = String::from_utf8_lossy(&netlist).into_owned();
    ensure!(told == wanted, "{told}");
    let figures = Answer { number: 0, value: wanted.len() as u32, gates: 2, area: 3, arrival: 30 };
    ensure!(answer == figures, "{answer:?}");
    // `map` doesn't want them.
    let (_, plain) = reference::map(&cells, B.as_bytes(), b"", 32_768, 65_536);
    ensure!(plain == gen::LISTING.as_bytes(), "{}", String::from_utf8_lossy(&plain));
    // Both phases needed: a pair's two gates stand before the next phase's.
    let (answer, netlist) = run("aag 3 2 0 2 1\n2\n4\n6\n7\n6 2 4\n");
    let told = String::from_utf8_lossy(&netlist).into_owned();
    let gates = ".gate nand2 A=p1 B=p2 O=sp3\n.gate inv A=sp3 O=p3\n.gate nand2 A=p1 B=p2 O=m3\n";
    ensure!(told.contains(gates) && (answer.gates, answer.area) == (3, 5), "{told}");
    // "for each root cell, pin and inner cell [...] in that order": the earlier pin goes
    // before the earlier inner cell.
    let (cells, graph) = gen::TIE_OF_PINS;
    let (answer, netlist) = reference::map_pairs(cells.as_bytes(), graph.as_bytes(), b"", 32_768, 65_536);
    let told = String::from_utf8_lossy(&netlist).into_owned();
    let gates = ".gate nand2 A=p3 B=p4 O=m5\n.gate xor A=p1 B=p2 O=sm10\n.gate low A=sm10 B=m5 O=m10\n.names";
    ensure!(told.contains(gates) && (answer.gates, answer.arrival) == (3, 31), "{told}");
    Ok("case B".into())
}

/// "30 when cells and pairs exceed 256, after 6, place 0", and the limits beside it.
pub fn limits() -> Check {
    let cases = gen::pair_limits();
    let mut counts = [0; NUMBERS];
    for case in &cases {
        let (answer, netlist) = checks::run(case);
        checks::as_expected(case, &answer)?;
        if answer.number == 0 {
            checks::judge_netlist(case, &answer, &netlist)?;
        }
        counts[answer.number as usize] += 1;
    }
    ensure!(counts[30] > 8 && reference::leaves_work_memory(30), "{counts:?}");
    // Where pairs aren't wanted the same library is mapped.
    let cells = gen::library_text(&gen::library_of(257));
    let graph = B.replace("\n6\n6", "\n7\n6");
    let answer = reference::map(&cells, graph.as_bytes(), b"", 32_768, 65_536).0;
    ensure!((answer.number, answer.gates) == (0, 1), "{answer:?}");
    Ok(format!("{} cases", cases.len()))
}

/// Random cases: netlists by their own text, texts against the loose reader. A library
/// that maps without pairs maps with them, no later; one whose cells form none gives
/// the same bytes.
pub fn netlists(cases: usize, seed: u64) -> Check {
    let mut rng = Rng::new(seed);
    let mut counts = [0usize; NUMBERS];
    let (mut earlier, mut paired, mut more) = (0, 0, 0);
    for _ in 0..cases {
        let case = gen::pair_case(&mut rng);
        let (answer, netlist) = checks::run(&case);
        checks::as_expected(&case, &answer)?;
        counts[answer.number as usize] += 1;
        let words = case.words.of(reference::words_needed(&case.graph).unwrap_or(64));
        let judged = judge::judge_with(&case.cells, &case.graph, &case.arrivals, words, true);
        let in_texts = (1..15).contains(&answer.number) || answer.number > 18;
        let read = in_texts.then_some((answer.number, answer.value as usize));
        ensure!(judged == read, "{}: judged {judged:?}, answered {answer:?}", case.what);
        if answer.number == 0 {
            checks::judge_netlist(&case, &answer, &netlist)?;
            let gates = blif::read(&netlist)?.gates;
            paired += usize::from(gates.iter().any(|gate| gate.net.starts_with('s')));
        }
        if [30, 18].contains(&answer.number) {
            continue;
        }
        let plain = Case { pairs: false, ..case.clone() };
        let (without, plain_netlist) = checks::run(&plain);
        let told = || format!("{}: {answer:?}, without pairs {without:?}", case.what);
        match (answer.number, without.number) {
            (0, 0) => {
                ensure!(answer.arrival <= without.arrival, "{}", told());
                earlier += usize::from(answer.arrival < without.arrival);
                let library = reference::read_library(&case.cells).map_err(|refusal| format!("{refusal:?}"))?;
                let alone = pairs::joined(&library.cells).is_ok_and(|all| all.len() == library.cells.len());
                ensure!(!alone || netlist == plain_netlist, "{}", told());
            }
            (0, 17) => more += 1,
            (17, 17) => ensure!(answer.value >= without.value, "{}", told()),
            _ => ensure!(answer == without, "{}", told()),
        }
    }
    let told = format!(
        "{cases} cases, by number {counts:?}; {paired} with pairs, {earlier} earlier and {more} covered only with them"
    );
    ensure!(paired > cases / 25 && earlier > cases / 300 && counts[30] > 0, "{told}");
    Ok(told)
}

/// "The earliest-arrival promise, for `p` and `m` nets, and the promise on when mapping
/// is refused range over covers with pairs too.": all covers of tiny graphs.
pub fn all_covers(cases: usize, seed: u64) -> Check {
    let mut rng = Rng::new(seed);
    let mut gone = Gone::default();
    while gone.graphs < cases {
        let count = rng.pick(&[1, 2, 2, 3]);
        let mut cells = if rng.one_in(2) { gen::library_of_pairs(&mut rng) } else { gen::library(&mut rng, count) };
        cells.truncate(3);
        let ands = rng.between(1, 4);
        let graph = gen::graph(&mut rng, 3, ands, CUT_LIMIT);
        let late = checks::some_late(&mut rng, graph.inputs.len());
        checks::against_all_covers(&cells, graph, &late, true, &mut gone)?;
    }
    let Gone { graphs, too_wide, mappings, bare, paired } = gone;
    ensure!(paired > cases / 4, "hardly a pair: {paired}");
    Ok(format!(
        "{graphs} graphs ({too_wide} more too wide), {mappings} mappings, {bare} without a cover, {paired} pairs"
    ))
}

/// The same over graphs of two inputs and two ANDs.
pub fn small_graphs() -> Check {
    let mut rng = Rng::new(3);
    let mut gone = Gone::default();
    for (number, graph) in gen::every_small_graph().into_iter().enumerate() {
        let count = rng.pick(&[1, 2, 2, 3]);
        let late = checks::some_late(&mut rng, graph.inputs.len());
        let mut cells = if rng.one_in(2) { gen::library_of_pairs(&mut rng) } else { gen::library(&mut rng, count) };
        cells.truncate(3);
        if number % 2 == 0 {
            checks::against_all_covers(&cells, graph, &late, true, &mut gone)?;
        }
    }
    let Gone { graphs, too_wide, paired, .. } = gone;
    Ok(format!("{graphs} graphs ({too_wide} more too wide), {paired} pairs"))
}

/// Lowest delays of pairs: "an inner pin's delays add to the fed pin's", so that the low
/// end of a netlist with pairs is that of its printed gates.
pub fn ranges() -> Check {
    let lines = "inv 1 0001 1 10 0 0 0 4 0 0 0\nnand2 2 0007 2 20 20 0 0 7 9 0 0\n";
    let cells = format!("{}{lines}", gen::RANGED_LINE);
    let (_, netlist) = reference::map_pairs(cells.as_bytes(), B.as_bytes(), b"input arrival\n1 1\n", 32_768, 65_536);
    let told = String::from_utf8_lossy(&netlist).into_owned();
    // The second input: 1 + 9 + 4 and 1 + 20 + 10.
    ensure!(
        told.ends_with(
            "O=sp3\n.gate inv A=sp3 O=p3\n.names p3 o0\n1 1\n.end\n# gates 2 area 3 arrival 31\n# timing o0 14 31\n"
        ),
        "{told}"
    );
    Ok("14 to 31".into())
}

/// The call on two channels with pairs wanted: each channel as if alone, and 30 for both.
pub fn two_channels() -> Check {
    let cells = gen::library_text(&gen::small_library());
    let graphs = [B, "aag 1 1 0 2 0\n2\n2\n3\n"];
    let channels = graphs.map(|graph| two::Channel { graph: graph.as_bytes(), arrivals: b"" });
    let both = two::map_two_with(&cells, channels, 100_000, [10_000; 2], true);
    for (side, graph) in graphs.iter().enumerate() {
        let alone = reference::map_pairs(&cells, graph.as_bytes(), b"", 100_000, 10_000);
        ensure!((both.answers[side], both.netlists[side].clone()) == alone, "channel {side}: {:?}", both.answers[side]);
    }
    let over = gen::library_text(&gen::library_of(257));
    let refused = Answer { number: 30, value: 0, ..Answer::default() };
    for words in [0, 100_000] {
        let both = two::map_two_with(&over, channels, words, [10_000; 2], true);
        ensure!(both.answers == [refused; 2] && !both.zeroes, "{:?}", both.answers);
    }
    let plain = two::map_two(&over, channels, 100_000, [10_000; 2]);
    ensure!(plain.answers.iter().all(|answer| answer.number != 30), "{:?}", plain.answers);
    Ok("two channels".into())
}

/// Graphs of a folder with its small libraries: netlists by their text, no later than
/// without pairs.
pub fn real_graphs(folder: &std::path::Path) -> Check {
    let read = |name: &str| std::fs::read(folder.join(name)).map_err(|error| format!("{name}: {error}"));
    let table = String::from_utf8_lossy(&read("graphs.tsv")?).into_owned();
    let (mut mapped, mut earlier) = (0, 0);
    for row in table.lines().skip(1) {
        let columns: Vec<&str> = row.split('\t').collect();
        if columns[6] != "ok" || columns[4].parse().unwrap_or(9_999) > 600 {
            continue;
        }
        let case = Case::new(format!("{} with tiny.txt", columns[0]), read("tiny.txt")?, read(columns[0])?);
        let case = case.text(Lent::Over(1)).with_pairs();
        let (answer, netlist) = checks::run(&case);
        ensure!(answer.number == 0, "{}: {answer:?}", case.what);
        checks::judge_netlist(&case, &answer, &netlist)?;
        let (without, _) = checks::run(&Case { pairs: false, ..case.clone() });
        ensure!(answer.arrival <= without.arrival, "{}: {answer:?}, without {without:?}", case.what);
        mapped += 1;
        earlier += usize::from(answer.arrival < without.arrival);
    }
    // The cells and pairs of the other libraries exceed 256.
    for library in ["array.txt", "full.txt"] {
        let answer = reference::map_pairs(&read(library)?, B.as_bytes(), b"", 32_768, 65_536).0;
        ensure!(answer == Answer { number: 30, ..Answer::default() }, "{library}: {answer:?}");
    }
    ensure!(mapped > 0, "none is mapped");
    Ok(format!("{mapped} netlists, {earlier} earlier with pairs"))
}
