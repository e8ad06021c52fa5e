//! What the documents and include/arraymap.h promise of every call, whatever the texts are,
//! asked of the mapper under test alone: its answers are held against each other, against
//! what they leave in memory and against the lines that it prints. No other mapper has a
//! say, so that any text can be tried, and any number of them.

use crate::check_gen::Parts;
use crate::checks;
use crate::gen::{self, Case, Rng};
use crate::memory::{Edge, Memory, ReadOnly, EDGES};
use crate::reference::Answer;
use crate::two::Channel;
use crate::{genlib_gen, ours, shuffled, tally_gen, two_gen, NUMBERS, WORDS_EACH};

macro_rules! ensure {
    ($condition:expr, $($message:tt)*) => {
        if !$condition {
            return Err(format!($($message)*));
        }
    };
}

/// The longest text that is read.
const LIMIT: usize = 65_536;

/// The texts of one round.
#[derive(Clone, Debug)]
pub struct Texts {
    pub what: String,
    pub cells: Vec<u8>,
    pub channels: [[Vec<u8>; 2]; 2],
    pub genlib: Vec<u8>,
    pub tally: Vec<u64>,
}

/// How often each answer came, by the call.
#[derive(Clone, Debug, Default)]
pub struct Counts {
    pub mapped: [u64; NUMBERS],
    pub genlib: [u64; NUMBERS],
    pub verdicts: [u64; 3],
    pub counted: u64,
    pub reported: u64,
    pub shuffled: u64,
    pub earlier: u64,
    pub calls: u64,
}

impl Counts {
    pub fn told(&self) -> String {
        let by = |counts: &[u64; NUMBERS]| {
            let came = counts.iter().enumerate().filter(|(_, &count)| count > 0);
            came.map(|(number, count)| format!("{number}:{count}")).collect::<Vec<_>>().join(" ")
        };
        format!(
            "{} calls; mapped by number {}; genlibs {}; verdicts {:?}; {} counted, {} reported, {} shuffled, {} earlier with pairs",
            self.calls,
            by(&self.mapped),
            by(&self.genlib),
            self.verdicts,
            self.counted,
            self.reported,
            self.shuffled,
            self.earlier
        )
    }

    /// What never came of what a thousand rounds always bring.
    pub fn missing(&self) -> Vec<String> {
        const ALL: [usize; 22] = [0, 1, 2, 4, 5, 6, 7, 8, 9, 11, 12, 13, 14, 15, 16, 17, 19, 20, 21, 25, 26, 30];
        let of = |what: &str, counts: &[u64], numbers: &[usize]| -> Vec<String> {
            let never = numbers.iter().filter(|&&number| counts[number] == 0);
            never.map(|number| format!("{what} {number}")).collect()
        };
        let others = [self.counted, self.reported, self.shuffled, self.earlier];
        [
            of("number", &self.mapped, &ALL),
            of("genlib", &self.genlib, &[0, 22, 23, 24]),
            of("verdict", &self.verdicts, &[0, 1, 2]),
            of("counted, reported, shuffled or earlier:", &others, &[0, 1, 2, 3]),
        ]
        .concat()
    }
}

// ---------------------------------------------------------------- texts

/// The texts of a round by its seed: made for each other or not, well-formed or spoiled.
pub fn texts(rng: &mut Rng) -> Texts {
    let (what, cells, channels) = match rng.below(8) {
        0..=2 => of_case(rng, gen::case),
        3 | 4 => of_case(rng, gen::pair_case),
        _ => {
            let pair = if rng.one_in(2) { two_gen::pair(rng) } else { two_gen::pair_of_pairs(rng) };
            let [first, second] = pair.channels;
            let what = format!("{}; {}", first.what, second.what);
            (what, pair.cells, [[first.graph, first.arrivals], [second.graph, second.arrivals]])
        }
    };
    let genlib = match rng.below(4) {
        0 | 1 => genlib_gen::good(rng).genlib,
        2 => genlib_gen::faults(rng).genlib,
        _ => genlib_gen::damaged(rng).genlib,
    };
    let tally = tally_gen::tally(rng);
    let mut texts = Texts { what, cells, channels, genlib, tally };
    if rng.one_in(3) {
        let [[graph1, arrivals1], [graph2, arrivals2]] = &mut texts.channels;
        let all = [&mut texts.cells, graph1, arrivals1, graph2, arrivals2, &mut texts.genlib];
        for _ in 0..rng.between(1, 3) {
            let (which, other) = (rng.below(6), rng.below(6));
            let other = all[other].clone();
            *all[which] = spoiled(rng, all[which], &other);
        }
    }
    texts
}

fn of_case(rng: &mut Rng, make: impl Fn(&mut Rng) -> Case) -> (String, Vec<u8>, [[Vec<u8>; 2]; 2]) {
    let (one, other) = (make(rng), make(rng));
    let cells = if rng.one_in(8) { other.cells } else { one.cells };
    (one.what, cells, [[one.graph, one.arrivals], [other.graph, other.arrivals]])
}

/// A text as no writer would leave it: damaged here and there, cut, its lines moved, grown to
/// the limit, joined with another, or of any bytes at all.
fn spoiled(rng: &mut Rng, text: &[u8], other: &[u8]) -> Vec<u8> {
    let mut lines: Vec<&[u8]> = text.split_inclusive(|&byte| byte == b'\n').collect();
    match rng.below(12) {
        0..=3 => gen::damaged(rng, text),
        4 => (0..rng.between(2, 12)).fold(text.to_vec(), |text, _| gen::damaged(rng, &text)),
        5 => gen::damaged_end(rng, text),
        6 => text[..rng.below(text.len() + 1)].to_vec(),
        7 if lines.len() > 1 => {
            let (one, other) = (rng.below(lines.len()), rng.below(lines.len()));
            match rng.below(3) {
                0 => lines.swap(one, other),
                1 => drop(lines.remove(one)),
                _ => lines.insert(other, lines[one]),
            }
            lines.concat()
        }
        8 => {
            let (from, to) = (rng.below(text.len() + 1), rng.below(other.len() + 1));
            [&text[..from], &other[to..]].concat()
        }
        9 => {
            let mut grown = text.to_vec();
            let byte = rng.pick(b"\n 0x\r");
            grown.resize(LIMIT - 1 + rng.below(4), byte);
            grown
        }
        10 => {
            let length = rng.below(200);
            rng.bytes(length)
        }
        _ => Vec::new(),
    }
}

// ---------------------------------------------------------------- one call

/// Refusals that are tried up to 10: they leave work memory as it was.
fn is_early(number: u32) -> bool {
    (1..=10).contains(&number) || [19, 27, 30].contains(&number)
}

fn edge(rng: &mut Rng) -> Edge {
    rng.pick(&EDGES)
}

fn fixed(rng: &mut Rng, text: &[u8]) -> ReadOnly {
    let edge = edge(rng);
    ReadOnly::new(text, edge)
}

fn bytes(rng: &mut Rng, length: usize) -> Memory<u8> {
    let (held, edge) = (rng.bytes(length), edge(rng));
    Memory::new(held, edge)
}

fn words(rng: &mut Rng, length: usize) -> Memory<u16> {
    let (held, edge) = (rng.words(length), edge(rng));
    Memory::new(held, edge)
}

/// What an answer says of a text memory, and the text there: after a refusal nothing of it has changed.
fn written(answer: &Answer, memory: &Memory<u8>) -> Result<Vec<u8>, String> {
    let length = if answer.number == 0 { answer.value as usize } else { 0 };
    let lent = memory.after();
    ensure!(length <= lent.len(), "{answer:?} of {} bytes", lent.len());
    let text = lent[..length].to_vec();
    match memory.first_change(&text) {
        Some(at) => Err(format!("{answer:?}: text memory of {} bytes is changed at {at}", lent.len())),
        None => Ok(text),
    }
}

/// Whether work memory is as it was, or all zero.
fn worked(kept: bool, memory: &Memory<u16>) -> Result<(), String> {
    let zeros = vec![0; if kept { 0 } else { memory.after().len() }];
    match memory.first_change(&zeros) {
        Some(at) if kept => Err(format!("work memory is changed at {at}")),
        Some(at) => Err(format!("work memory of {} words is not 0 at {at}", zeros.len())),
        None => Ok(()),
    }
}

/// M, I and O of a header that was read.
fn header(graph: &[u8]) -> Option<[usize; 3]> {
    let line = graph.split(|&byte| byte == b'\n').next()?;
    let line = std::str::from_utf8(line).ok()?.trim_end_matches('\r');
    let numbers: Vec<usize> = line.split(' ').skip(1).map(|word| word.parse().ok()).collect::<Option<_>>()?;
    match numbers[..] {
        [m, i, 0, o, a] if m <= 4_095 && o <= 4_096 && i + a <= m => Some([m, i, o]),
        _ => None,
    }
}

/// ARRAYMAP_WORDS, or 0 where the header is one that is refused.
fn words_needed(graph: &[u8]) -> usize {
    header(graph).map_or(0, |[m, _, o]| WORDS_EACH * (m + 1) + o)
}

/// ARRAYMAP_TEXT or ARRAYMAP_TEXT_PAIRS.
fn bytes_enough(graph: &[u8], pairs: bool) -> usize {
    header(graph).map_or(0, |[m, _, o]| if pairs { 182 } else { 116 } * (m + 1) + 72 * o + 128)
}

/// Whether a refusal's place is one that its number can have.
fn place_is_right(answer: &Answer, texts: &One, lent: usize) -> Result<(), String> {
    let Answer { number, value, gates, area, arrival } = *answer;
    let value = value as usize;
    let [m, _, o] = header(texts.graph).unwrap_or_default();
    let right = match number {
        0 => return Ok(()),
        3..=6 | 27 => value < texts.cells.len(),
        11..=14 | 20 | 21 => value <= texts.graph.len(),
        25 | 26 => value <= texts.arrivals.len(),
        15 | 16 => (1..=m).contains(&value),
        17 => value < o,
        18 => value > lent,
        1 | 2 | 7..=10 | 19 | 30 => value == 0,
        _ => false,
    };
    ensure!(right && [gates, area, arrival] == [0; 3], "{answer:?} is no answer for these texts");
    Ok(())
}

/// One graph's texts.
#[derive(Clone, Copy, Debug)]
struct One<'a> {
    cells: &'a [u8],
    graph: &'a [u8],
    arrivals: &'a [u8],
}

/// The answer of a call, and the netlist.
type Mapped = (Answer, Vec<u8>);

fn map(rng: &mut Rng, one: &One, pairs: bool, words_lent: usize, bytes_lent: usize) -> Result<Mapped, String> {
    let texts = [one.cells, one.graph, one.arrivals].map(|text| fixed(rng, text));
    let (mut work, mut text) = (words(rng, words_lent), bytes(rng, bytes_lent));
    let map = if pairs { ours::map_pairs } else { ours::map };
    let answer = map(&texts[0], &texts[1], &texts[2], work.lent(), text.lent());
    worked(is_early(answer.number), &work).map_err(|wrong| format!("{answer:?}: {wrong}"))?;
    place_is_right(&answer, one, bytes_lent)?;
    Ok((answer, written(&answer, &text)?))
}

// ---------------------------------------------------------------- one graph

/// What a call answers with enough memory, after it was asked with as much as is needed, with
/// one less and with none.
fn around(rng: &mut Rng, one: &One, pairs: bool, counts: &mut Counts) -> Result<Mapped, String> {
    let (need, enough) = (words_needed(one.graph), bytes_enough(one.graph, pairs));
    let (answer, netlist) = map(rng, one, pairs, need, enough)?;
    counts.mapped[answer.number as usize] += 1;
    counts.calls += 1;
    ensure!(![10, 18].contains(&answer.number), "{answer:?} of {need} words, {enough} bytes");
    let mut again = |words_lent: usize, bytes_lent: usize, wanted: Mapped| {
        counts.calls += 1;
        let got = map(rng, one, pairs, words_lent, bytes_lent)?;
        ensure!(got == wanted, "{words_lent} words, {bytes_lent} bytes: {:?}, not {:?}", got.0, wanted.0);
        Ok(())
    };
    let refused = |number, value: usize| (Answer { number, value: value as u32, ..Answer::default() }, Vec::new());
    if is_early(answer.number) {
        again(0, 0, (answer, netlist.clone()))?;
        return Ok((answer, netlist));
    }
    #[cfg(feature = "ours")]
    ensure!(arraymap::words_needed(one.graph) == need, "the binding says {} words", arraymap::words_needed(one.graph));
    again(need - 1, enough, refused(10, 0))?;
    again(0, 0, refused(10, 0))?;
    again(need + 7, enough + 9, (answer, netlist.clone()))?;
    if answer.number > 0 {
        again(need, 0, (answer, netlist.clone()))?;
        return Ok((answer, netlist));
    }
    again(need, netlist.len(), (answer, netlist.clone()))?;
    again(need, netlist.len() - 1, refused(18, netlist.len()))?;
    again(need, 0, refused(18, netlist.len()))?;
    let case = Case::new("", one.cells.to_vec(), one.graph.to_vec()).arrivals(one.arrivals);
    checks::judge_netlist(&Case { pairs, ..case }, &answer, &netlist)?;
    Ok((answer, netlist))
}

/// "pairs are never later": where both print, and where one of both is refused.
fn pairs_are_no_later(plain: &Answer, paired: &Answer, counts: &mut Counts) -> Result<(), String> {
    let right = match (plain.number, paired.number) {
        // 30 comes behind the cells' refusals and before all others.
        (number, 30) => number == 0 || (7..=26).contains(&number),
        (0, 0) => paired.arrival <= plain.arrival,
        (17, 0) => true,
        (17, 17) => paired.value >= plain.value,
        _ => (plain.number, plain.value) == (paired.number, paired.value),
    };
    ensure!(right, "without pairs {plain:?}, with them {paired:?}");
    counts.earlier += u64::from(plain.number == 0 && paired.number == 0 && paired.arrival < plain.arrival);
    Ok(())
}

/// The same cell lines in other orders.
fn orders_agree(rng: &mut Rng, one: &One, pairs: bool, answer: &Answer, counts: &mut Counts) -> Result<(), String> {
    if (1..=6).contains(&answer.number) || [27, 30].contains(&answer.number) {
        return Ok(());
    }
    let Some(cells) = shuffled::orders(rng, one.cells).pop() else { return Ok(()) };
    let other = One { cells: &cells, ..*one };
    let (got, _) = map(rng, &other, pairs, words_needed(one.graph), bytes_enough(one.graph, pairs))?;
    ensure!(shuffled::agree(answer, &got), "{answer:?}, and {got:?} with the lines shuffled");
    counts.calls += 1;
    counts.shuffled += 1;
    Ok(())
}

// ---------------------------------------------------------------- its netlist

fn check(rng: &mut Rng, one: &One, netlist: &[u8], lent: usize) -> Result<[u64; 3], String> {
    let texts = [one.cells, one.graph, netlist].map(|text| fixed(rng, text));
    let mut work = words(rng, lent);
    let verdict = ours::check(&texts[0], &texts[1], &texts[2], work.lent());
    let [which, first, second] = verdict;
    worked(which == 2 && is_early(first as u32), &work).map_err(|wrong| format!("{verdict:?}: {wrong}"))?;
    let [_, inputs, outputs] = header(one.graph).unwrap_or_default();
    let right = match (which, first) {
        (0, _) => first == 0 && second == 0,
        (1, _) => first < 1 << inputs.min(12) && second < outputs as u64,
        (2, 32 | 33) => second <= netlist.len() as u64,
        (2, 31) => second == 0,
        (2, 16..=18 | 22..=26 | 28..=30) | (2, 34..) => false,
        (2, number) => {
            let answer = Answer { number: number as u32, value: second as u32, ..Answer::default() };
            place_is_right(&answer, &One { arrivals: b"", ..*one }, 0).is_ok()
        }
        _ => false,
    };
    ensure!(right, "{verdict:?} is no verdict for these texts");
    Ok(verdict)
}

/// "every netlist that `map` prints from the same texts with I up to 12 is accepted", with the
/// words that it needs and not with one less; shuffled it is accepted too, and spoiled it is
/// judged within its memory.
fn is_accepted(rng: &mut Rng, one: &One, netlist: &[u8], counts: &mut Counts) -> Result<(), String> {
    let need = |netlist: &[u8]| words_needed(one.graph) + 8 * netlist.iter().filter(|&&byte| byte == 10).count();
    let inputs = header(one.graph).map_or(0, |[_, inputs, _]| inputs);
    let wanted = match netlist.len() > LIMIT {
        true => [2, 1, 0],
        false if inputs > 12 => [2, 31, 0],
        false => [0; 3],
    };
    let mut wants = |netlist: &[u8], lent: usize, wanted: [u64; 3]| {
        counts.calls += 1;
        counts.verdicts[wanted[0] as usize] += 1;
        let got = check(rng, one, netlist, lent)?;
        ensure!(got == wanted, "its own netlist, {lent} words: {got:?}, not {wanted:?}");
        Ok(())
    };
    wants(netlist, need(netlist), wanted)?;
    let short = if wanted[1] == 1 { wanted } else { [2, 10, 0] };
    wants(netlist, need(netlist) - 1, short)?;
    wants(netlist, 0, short)?;
    let mut parts = Parts::of(netlist);
    parts.gates.reverse();
    let shuffled = parts.text();
    wants(&shuffled, need(&shuffled), wanted)?;
    for _ in 0..2 {
        let edited = edited(rng, netlist);
        let verdict = check(rng, one, &edited, need(&edited))?;
        counts.calls += 1;
        counts.verdicts[verdict[0] as usize] += 1;
    }
    Ok(())
}

/// A netlist with a pin on another net, or spoiled.
fn edited(rng: &mut Rng, netlist: &[u8]) -> Vec<u8> {
    let mut parts = Parts::of(netlist);
    let nets: Vec<String> = parts.gates.iter().map(|gate| gate.net.clone()).collect();
    let fed: Vec<usize> = (0..nets.len()).filter(|&gate| !parts.gates[gate].feeds.is_empty()).collect();
    if fed.is_empty() || rng.one_in(3) {
        return spoiled(rng, netlist, b".gate inv A=p1 O=m1\n");
    }
    let feeds = &mut parts.gates[fed[rng.below(fed.len())]].feeds;
    let pin = rng.below(feeds.len());
    feeds[pin] = nets[rng.below(nets.len())].clone();
    parts.text()
}

fn count(rng: &mut Rng, cells: &[u8], netlist: &[u8], before: &[u64]) -> Result<(Answer, Vec<u64>), String> {
    let texts = [cells, netlist].map(|text| fixed(rng, text));
    let mut tally = Memory::new(before.to_vec(), edge(rng));
    let answer = ours::count(&texts[0], &texts[1], tally.lent());
    let after = tally.after().to_vec();
    let kept = if answer.number == 0 { &after[..] } else { &[] };
    ensure!(tally.first_change(kept).is_none(), "count: {answer:?}, and the tally is changed");
    let right = match answer.number {
        0 => answer == Answer::default(),
        28 => answer.value == 64,
        29 => answer.value as usize <= netlist.len(),
        1..=6 | 27 => answer.value as usize <= cells.len(),
        _ => false,
    };
    ensure!(right, "count: {answer:?} is no answer for these texts");
    Ok((answer, after))
}

/// The sums of a tally's gates and areas, and how many netlists it has.
fn sums(tally: &[u64]) -> [u64; 3] {
    [tally[..32].iter().sum(), tally[32..64].iter().sum(), tally[96]]
}

/// Its own netlist is counted by its figures, into an empty tally and behind others.
fn is_counted(rng: &mut Rng, one: &One, mapped: &Mapped, tally: &[u64], counts: &mut Counts) -> Result<(), String> {
    let (Answer { gates, area, .. }, netlist) = mapped;
    let empty = vec![0; 97];
    let (answer, first) = count(rng, one.cells, netlist, &empty)?;
    counts.calls += 1;
    if netlist.len() > LIMIT {
        ensure!((answer.number, answer.value) == (1, 0), "a long netlist is counted: {answer:?}");
        return Ok(());
    }
    ensure!(answer.number == 0, "its own netlist is not counted: {answer:?}");
    ensure!(
        sums(&first) == [u64::from(*gates), u64::from(*area), 1],
        "counted as {:?}, not {gates} {area}",
        sums(&first)
    );
    let occurs = (0..32).all(|cell| first[64 + cell] == u64::from(first[cell] > 0));
    ensure!(occurs, "the netlists of cells are {:?}", &first[64..96]);
    counts.counted += 1;
    reported(rng, one.cells, &first, counts)?;
    let (answer, after) = count(rng, one.cells, netlist, tally)?;
    if answer.number == 0 {
        let added = tally.iter().zip(&first).map(|(before, more)| before + more);
        ensure!(after.iter().copied().eq(added), "another tally takes another sum");
    }
    let spoiled = spoiled(rng, netlist, one.graph);
    let (_, after) = count(rng, one.cells, &spoiled, &after)?;
    counts.calls += 2;
    reported(rng, one.cells, &after, counts)
}

fn report(rng: &mut Rng, cells: &[u8], tally: &[u64], lent: usize) -> Result<Mapped, String> {
    let (cells, tally) = (fixed(rng, cells), ReadOnly::new(tally, edge(rng)));
    let mut text = bytes(rng, lent);
    let answer = ours::report(&cells, &tally, text.lent());
    Ok((answer, written(&answer, &text)?))
}

/// The report with memory enough, exactly and one less: its total is the sum over its lines.
fn reported(rng: &mut Rng, cells: &[u8], tally: &[u64], counts: &mut Counts) -> Result<(), String> {
    let (answer, text) = report(rng, cells, tally, 2_048)?;
    counts.calls += 1;
    ensure!([0, 1, 2, 3, 4, 5, 6, 27, 28].contains(&answer.number), "report: {answer:?}");
    if answer.number > 0 {
        ensure!(report(rng, cells, tally, 0)?.0 == answer, "report: another refusal without memory");
        return Ok(());
    }
    let exact = report(rng, cells, tally, text.len())?;
    ensure!(exact == (answer, text.clone()), "report: {:?} with exact memory", exact.0);
    let short = Answer { number: 18, value: text.len() as u32, ..Answer::default() };
    ensure!(report(rng, cells, tally, text.len() - 1)?.0 == short, "report: not 18 with one byte less");
    counts.calls += 2;
    counts.reported += 1;
    let string = String::from_utf8(text).map_err(|error| error.to_string())?;
    let figures = |line: &str| line.split(' ').skip(1).map(|word| word.parse().unwrap_or(u64::MAX)).collect();
    let mut lines: Vec<Vec<u64>> = string.lines().map(figures).collect();
    let total = lines.pop().unwrap_or_default();
    let sum = |column: usize| lines.iter().map(|line| line[column]).sum::<u64>();
    ensure!(total == [sum(0), sum(1), tally[96]], "report: the total is not the sum\n{string}");
    let same = lines.iter().enumerate().all(|(cell, line)| *line == [tally[cell], tally[32 + cell], tally[64 + cell]]);
    ensure!(same, "report: not the tally's figures\n{string}");
    Ok(())
}

// ---------------------------------------------------------------- two channels

/// Two channels are one and one, but for refusals tried up to 10, which both then have.
fn two(rng: &mut Rng, ones: [One; 2], alone: &[Mapped; 2], pairs: bool) -> Result<(), String> {
    let needs = ones.map(|one| words_needed(one.graph));
    let short = rng.one_in(4);
    let lent = if short { (needs[0] + needs[1]).saturating_sub(1) } else { needs[0] + needs[1] + rng.below(3) };
    let early = alone.iter().map(|(answer, _)| *answer).find(|answer| is_early(answer.number));
    let ten = Answer { number: 10, ..Answer::default() };
    let both = early.or((lent < needs[0] + needs[1]).then_some(ten));
    let bytes_lent = [0, 1].map(|side| alone[side].1.len() + rng.below(3)).map(|bytes| bytes.saturating_sub(1));
    let wanted = [0, 1].map(|side| {
        let (answer, netlist) = &alone[side];
        match both {
            Some(answer) => (answer, Vec::new()),
            None if answer.number == 0 && netlist.len() > bytes_lent[side] => {
                (Answer { number: 18, value: netlist.len() as u32, ..Answer::default() }, Vec::new())
            }
            None => (*answer, netlist.clone()),
        }
    });
    let cells = fixed(rng, ones[0].cells);
    let texts = ones.map(|one| [fixed(rng, one.graph), fixed(rng, one.arrivals)]);
    let mut work = words(rng, lent);
    let mut memories = bytes_lent.map(|length| bytes(rng, length));
    let channels = texts.each_ref().map(|[graph, arrivals]| Channel { graph, arrivals });
    let map = if pairs { ours::map_two_pairs } else { ours::map_two };
    let answers = map(&cells, channels, work.lent(), memories.each_mut().map(Memory::lent));
    worked(both.is_some(), &work).map_err(|wrong| format!("two channels, {answers:?}: {wrong}"))?;
    for side in [0, 1] {
        let got = (answers[side], written(&answers[side], &memories[side])?);
        ensure!(got == wanted[side], "channel {} of two: {:?}, alone {:?}", side + 1, got.0, wanted[side].0);
    }
    Ok(())
}

// ---------------------------------------------------------------- genlib

fn genlib(rng: &mut Rng, genlib: &[u8], graph: &[u8], counts: &mut Counts) -> Result<(), String> {
    let mut call = |lent: usize| {
        let (text, mut memory) = (fixed(rng, genlib), bytes(rng, lent));
        let answer = ours::cells(&text, memory.lent());
        let Answer { number, value, .. } = answer;
        let right = match number {
            0 => true,
            1 => value == 0 && genlib.len() > LIMIT,
            18 => value as usize > lent,
            22..=24 => (value as usize) < genlib.len(),
            _ => false,
        };
        ensure!(right && [answer.gates, answer.area, answer.arrival] == [0; 3], "genlib: {answer:?} is no answer");
        Ok((answer, written(&answer, &memory)?))
    };
    // A gate of 18 bytes writes a line of 22.
    let (answer, cells) = call(2 * genlib.len() + 64)?;
    counts.genlib[answer.number as usize] += 1;
    counts.calls += 4;
    ensure!(answer.number != 18, "genlib: {answer:?} of twice its bytes");
    if answer.number > 0 {
        ensure!(call(0)?.0 == answer, "genlib: another refusal without memory");
        return Ok(());
    }
    ensure!(call(cells.len())? == (answer, cells.clone()), "genlib: another text with exact memory");
    let short = Answer { number: 18, value: cells.len() as u32, ..Answer::default() };
    ensure!(call(cells.len() - 1)?.0 == short, "genlib: not 18 with one byte less");
    let one = One { cells: &cells, graph, arrivals: b"" };
    let (mapped, _) = map(rng, &one, false, words_needed(graph), bytes_enough(graph, false))?;
    ensure!(![2, 6, 27].contains(&mapped.number), "genlib: the written text is refused: {mapped:?}");
    Ok(())
}

// ---------------------------------------------------------------- a round

/// Everything that is asked of one round's texts.
pub fn round(rng: &mut Rng, texts: &Texts, counts: &mut Counts) -> Result<(), String> {
    let Texts { cells, channels, tally, .. } = texts;
    let ones = channels.each_ref().map(|[graph, arrivals]| One { cells, graph, arrivals });
    let mut answers: Vec<[Mapped; 2]> = Vec::new();
    for pairs in [false, true] {
        let mut alone = Vec::new();
        for one in &ones {
            let mapped = around(rng, one, pairs, counts)?;
            orders_agree(rng, one, pairs, &mapped.0, counts)?;
            if mapped.0.number == 0 {
                is_accepted(rng, one, &mapped.1, counts)?;
                is_counted(rng, one, &mapped, tally, counts)?;
            }
            alone.push(mapped);
        }
        let alone = <[Mapped; 2]>::try_from(alone).map_err(|_| "two channels")?;
        two(rng, ones, &alone, pairs)?;
        counts.calls += 1;
        answers.push(alone);
    }
    for (plain, paired) in answers[0].iter().zip(&answers[1]) {
        pairs_are_no_later(&plain.0, &paired.0, counts)?;
    }
    // Texts that were made for another purpose.
    let verdict = check(rng, &ones[0], &texts.genlib, words_needed(ones[0].graph))?;
    counts.verdicts[verdict[0] as usize] += 1;
    count(rng, cells, ones[1].graph, tally)?;
    reported(rng, cells, tally, counts)?;
    counts.calls += 2;
    genlib(rng, &texts.genlib, ones[0].graph, counts)
}
